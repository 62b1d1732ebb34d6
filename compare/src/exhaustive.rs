//! Every small cluster over awkward numbers, with every order of its members.

use crate::check::Tally;
use crate::cluster::{Cluster, HIGHEST};
use crate::expected::is_cyclic;

const HALF: u64 = 1 << 63;

const FEES: [i64; 8] = [0, 1, -1, 2, -3, 100, HIGHEST, -HIGHEST];
const SIZES: [u64; 5] = [0, 1, 2, HALF, u64::MAX];

/// For four members: equal feerates, both kinds of size 0, and a fee below 0.
const FEW: [(i64, u64); 5] = [(0, 0), (3, 0), (-1, 1), (1, 1), (2, 2)];

/// All clusters of up to four members.
pub fn check() -> Result<Tally, String> {
    let mut tally = Tally::default();
    let all: Vec<(i64, u64)> = FEES
        .iter()
        .flat_map(|&fee| SIZES.map(|size| (fee, size)))
        .collect();
    for n in 0..=3 {
        check_size(n, &all, &mut tally)?;
    }
    check_size(4, &FEW, &mut tally)?;
    Ok(tally)
}

fn check_size(n: usize, members: &[(i64, u64)], tally: &mut Tally) -> Result<(), String> {
    let graphs = acyclic_graphs(n);
    let orders = permutations(n);
    for choice in 0..members.len().pow(n as u32) {
        // the digits of the choice say which numbers each member has
        let digit = |i: usize| members[choice / members.len().pow(i as u32) % members.len()];
        let (fees, sizes): (Vec<i64>, Vec<u64>) = (0..n).map(digit).unzip();
        for words in &graphs {
            let cluster = Cluster::new(fees.clone(), sizes.clone(), words.clone());
            tally.cluster(&cluster, &orders, choice % 3)?;
        }
    }
    Ok(())
}

/// Every choice of links between n named members that has no cycle.
fn acyclic_graphs(n: usize) -> Vec<Vec<u64>> {
    let links: Vec<(usize, usize)> = (0..n)
        .flat_map(|i| (0..n).map(move |p| (i, p)))
        .filter(|(i, p)| i != p)
        .collect();
    let graph = |chosen: u32| {
        let mut words = vec![0; n];
        for (k, &(i, p)) in links.iter().enumerate() {
            words[i] |= u64::from(chosen >> k & 1) << p;
        }
        words
    };
    let graphs = (0..1 << links.len()).map(graph);
    graphs
        .filter(|words: &Vec<u64>| !is_cyclic(words))
        .collect()
}

fn permutations(n: usize) -> Vec<Vec<usize>> {
    let mut all = vec![vec![]];
    for last in 0..n {
        let longer = |order: &Vec<usize>| {
            let order = order.clone();
            (0..=last).map(move |at| [&order[..at], &[last], &order[at..]].concat())
        };
        all = all.iter().flat_map(longer).collect();
    }
    all
}

#[cfg(test)]
mod tests {
    use super::*;

    #[test]
    fn counts() {
        let graphs = [0, 1, 2, 3, 4].map(|n| acyclic_graphs(n).len());
        assert_eq!(graphs, [1, 1, 3, 25, 543]);
        let mut orders = permutations(4);
        orders.sort_unstable();
        orders.dedup();
        assert_eq!(orders.len(), 24);
    }
}
