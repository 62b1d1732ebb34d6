//! Orders a cluster in which a child pays for its cheap parent, cuts the order into chunks, and
//! shows a refusal.

use yaghrudil::{chunk_lengths, linearize, Refusal};

// Member 0 pays little, its child 1 much, and 2 stands alone: 0 and 1 together pay more for their
// size than 2.
const FEES: [i64; 3] = [100, 5000, 900];
const SIZES: [u64; 3] = [400, 200, 300];
const PARENTS: [u64; 3] = [0, 1 << 0, 0];

fn main() -> Result<(), Refusal> {
    let mut room = [0; 3];
    let mut order = linearize(&FEES, &SIZES, &PARENTS, &mut room)?;
    println!("order: {order:?}");

    let fees: Vec<i64> = order.iter().map(|&i| FEES[i]).collect();
    let sizes: Vec<u64> = order.iter().map(|&i| SIZES[i]).collect();
    let mut lengths = [0; 3];
    for (k, &length) in chunk_lengths(&fees, &sizes, &mut lengths)?
        .iter()
        .enumerate()
    {
        let (chunk, rest) = order.split_at(length);
        let fee: i64 = chunk.iter().map(|&i| FEES[i]).sum();
        let size: u64 = chunk.iter().map(|&i| SIZES[i]).sum();
        println!("chunk {k}: members {chunk:?}; fee {fee}, size {size}");
        order = rest;
    }

    // Two members that are each other's parents.
    let circle = linearize(&FEES[..2], &SIZES[..2], &[1 << 1, 1 << 0], &mut lengths);
    match circle {
        Ok(order) => println!("a circle has the order {order:?}"),
        Err(refusal) => println!("refusal {}: {refusal}", refusal.number()),
    }
    Ok(())
}
