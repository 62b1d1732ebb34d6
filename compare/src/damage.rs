//! Inputs that are to be refused, for one reason or for several at once.

use crate::cluster::{Call, Cluster, HIGHEST};
use crate::generate::any_cluster;
use crate::rng::Rng;

/// What can be wrong, one bit each.
const MANY: u64 = 1;
const CYCLE: u64 = 2;
const FEE: u64 = 4;
const LENGTH: u64 = 8;
const ROOM: u64 = 16;
const ORDER: u64 = 32;

/// A cluster and the three calls on it. Not every damage shows in every call.
pub fn damaged(rng: &mut Rng) -> (Cluster, [Call; 3]) {
    let wrong = match rng.one_in(2) {
        true => 1 << rng.below(6),
        false => 1 + rng.below(63),
    };
    let n = if rng.one_in(8) {
        56 + rng.index(9)
    } else {
        rng.index(9)
    };
    let mut cluster = any_cluster(n, rng);
    // in this order, as a cycle needs even lengths, and lengths are to differ in a cluster of 65 too
    if wrong & MANY != 0 {
        add_members(&mut cluster, rng);
    }
    if wrong & CYCLE != 0 {
        close_circle(&mut cluster.words, rng);
    }
    if wrong & FEE != 0 {
        break_fees(&mut cluster.fees, rng);
    }
    if wrong & LENGTH != 0 {
        unequal_lengths(&mut cluster, rng);
    }
    let n = cluster.len();
    let room = match wrong & ROOM != 0 {
        true => rng.index(n.max(1)),
        false => n + rng.index(3),
    };
    let mut order = rng.permutation(n);
    if wrong & ORDER != 0 {
        break_order(&mut order, rng);
    }
    let cluster = relisted(cluster);
    let calls = [
        Call::Linearize { room },
        Call::PostLinearize { order },
        Call::ChunkLengths { room },
    ];
    (cluster, calls)
}

/// The lists anew, from the words that may have changed.
fn relisted(cluster: Cluster) -> Cluster {
    Cluster::new(cluster.fees, cluster.sizes, cluster.words)
}

fn add_members(cluster: &mut Cluster, rng: &mut Rng) {
    let n = 65 + rng.index(4);
    cluster.fees.resize(n, 1);
    cluster.sizes.resize(n, 1);
    cluster.words.resize(n, 0);
}

/// Links two to five members in a circle, where there are that many.
fn close_circle(words: &mut [u64], rng: &mut Rng) {
    let named = words.len().min(64);
    if named < 2 {
        return;
    }
    let length = 2 + rng.index(named.min(5) - 1);
    let circle = &rng.permutation(named)[..length];
    for (k, &i) in circle.iter().enumerate() {
        words[i] |= 1 << circle[(k + 1) % length];
    }
}

fn break_fees(fees: &mut [i64], rng: &mut Rng) {
    if fees.is_empty() {
        return;
    }
    for _ in 0..=rng.below(2) {
        let above = HIGHEST + 1;
        fees[rng.index(fees.len())] = rng.pick(&[above, -above, i64::MAX, i64::MIN]);
    }
}

fn unequal_lengths(cluster: &mut Cluster, rng: &mut Rng) {
    let longer = rng.one_in(2) || cluster.fees.is_empty();
    let new = |length: usize, rng: &mut Rng| match longer {
        true => length + 1 + rng.index(2),
        false => rng.index(length),
    };
    let n = new(cluster.len(), rng);
    match rng.below(4) {
        0 => cluster.fees.resize(n, 1),
        1 => cluster.sizes.resize(n, 1),
        2 => cluster.words.resize(n, 0),
        // two of three agree on the wrong length
        _ => {
            cluster.sizes.resize(n, 1);
            cluster.words.resize(n, 0);
        }
    }
}

fn break_order(order: &mut Vec<usize>, rng: &mut Rng) {
    let n = order.len();
    let strange = rng.pick(&[n, n + 1, 63, 64, 1 << 32, usize::MAX]);
    match rng.below(5) {
        0 if n > 0 => order[rng.index(n)] = strange,
        1 if n > 1 => order[0] = order[1 + rng.index(n - 1)],
        2 if n > 0 => order.truncate(rng.index(n)),
        3 if n > 0 => order.push(rng.index(n)),
        _ => order.push(strange),
    }
}
