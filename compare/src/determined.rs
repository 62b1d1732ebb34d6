//! Where document 01 calls the order of the original's template determined, and which part of that is broken elsewhere.

use crate::pool::Pool;
use crate::template::{adjusted_weight, Chunk};
use std::cmp::Ordering;

/// A part of the sentence.
#[derive(Clone, Copy, Debug, PartialEq, Eq, PartialOrd, Ord)]
pub enum Clause {
    /// The links are the same in both.
    SameLinks,
    /// All raw and adjusted weights are multiples of four.
    Fours,
    /// No adjusted weight or sum of them is held.
    NotHeld,
    /// Every chunk fee × 4,000 is below 2^64.
    FeeInWord,
    /// Rates that differ do so by 1 or more.
    RatesApart,
    /// Equal rates and equal fees are of one cluster.
    NoTies,
}

/// The parts of this sentence that a pool with these chunks does not meet; none where the order is determined:
///
/// "Compare templates on pools whose links are the same in both (the Rust also links a parent added after its child;
/// list it) and where all raw and adjusted weights are multiples of four, no adjusted weight or sum of them is held at
/// 2^64 - 1, every chunk fee × 4,000 is below 2^64, and any two chunks of non-negative fee either differ by 1 or more
/// in fee × 4,000 / adjusted weight, or are equal in it and differ in fee, or are both equal and of one cluster."
pub fn broken(pool: &Pool, chunks: &[Chunk], same_links: bool) -> Vec<Clause> {
    let (apart, ties) = rates(chunks);
    let clauses = [
        (same_links, Clause::SameLinks),
        (fours(pool), Clause::Fours),
        (not_held(pool), Clause::NotHeld),
        (chunks.iter().all(fee_in_word), Clause::FeeInWord),
        (apart, Clause::RatesApart),
        (!ties, Clause::NoTies),
    ];
    let broken = clauses.into_iter().filter(|(holds, _)| !holds);
    broken.map(|(_, clause)| clause).collect()
}

fn fours(pool: &Pool) -> bool {
    let mut entries = pool.entries.values();
    entries.all(|entry| {
        entry.weight.is_multiple_of(4) && adjusted_weight(pool, entry).is_multiple_of(4)
    })
}

/// Every sum is one of members of a cluster, so that none is held where the sum of all its members is not.
fn not_held(pool: &Pool) -> bool {
    let bytes = u128::from(pool.limits.bytes_per_sigop);
    let adjusted = |txid| {
        let entry = &pool.entries[txid];
        u128::from(entry.weight).max(u128::from(entry.cost) * bytes)
    };
    pool.clusters().iter().all(|cluster| {
        let sum = cluster.iter().map(adjusted).fold(0, u128::saturating_add);
        sum <= u128::from(u64::MAX)
    })
}

fn fee_in_word(chunk: &Chunk) -> bool {
    chunk.fee * 4_000 < 1 << 64
}

/// fee × 4,000 / adjusted weight: what is whole of it, and the rest over the weight.
#[derive(Clone, Copy)]
struct Rate {
    whole: u128,
    rest: u128,
    weight: u128,
}

impl Rate {
    fn of(chunk: &Chunk) -> Rate {
        let (fee, weight) = (chunk.fee as u128, u128::from(chunk.adjusted));
        Rate {
            whole: fee * 4_000 / weight,
            rest: fee * 4_000 % weight,
            weight,
        }
    }

    fn by_rest(self, other: Rate) -> Ordering {
        (self.rest * other.weight).cmp(&(other.rest * self.weight))
    }

    fn by_size(self, other: Rate) -> Ordering {
        self.whole.cmp(&other.whole).then(self.by_rest(other))
    }

    /// Whether it is 1 or more above another.
    fn is_apart(self, other: Rate) -> bool {
        match self.whole.checked_sub(other.whole) {
            None | Some(0) => false,
            Some(1) => self.by_rest(other).is_ge(),
            Some(_) => true,
        }
    }
}

/// Whether different rates of chunks of non-negative fee are 1 or more apart, and whether there are equal rates with
/// equal fees of two clusters. In a list by rate and fee neighbours show both.
fn rates(chunks: &[Chunk]) -> (bool, bool) {
    let mut list: Vec<(Rate, &Chunk)> = chunks
        .iter()
        .filter(|chunk| chunk.fee >= 0)
        .map(|chunk| (Rate::of(chunk), chunk))
        .collect();
    list.sort_by(|(a, x), (b, y)| b.by_size(*a).then(y.fee.cmp(&x.fee)));
    let (mut apart, mut ties) = (true, false);
    for pair in list.windows(2) {
        let [(a, x), (b, y)] = [pair[0], pair[1]];
        if a.by_size(b).is_eq() {
            ties |= x.fee == y.fee && x.least != y.least;
        } else {
            apart &= a.is_apart(b);
        }
    }
    (apart, ties)
}

#[cfg(test)]
mod tests {
    use super::*;

    /// Chunks as (fee, adjusted weight, cluster).
    fn rates_of(chunks: &[(i128, u64, u8)]) -> (bool, bool) {
        let chunk = |&(fee, adjusted, cluster): &(i128, u64, u8)| Chunk {
            members: Vec::new(),
            fee,
            adjusted,
            least: [cluster; 32],
            place: 0,
        };
        rates(&chunks.iter().map(chunk).collect::<Vec<_>>())
    }

    #[test]
    fn rates_that_are_apart() {
        // 2 and 1; 2 and 4,000/2,004; 3/2 and 1/2; 3/2 and 4,000/8,004
        assert!(rates_of(&[(1, 2_000, 0), (1, 4_000, 1)]).0);
        assert!(!rates_of(&[(1, 2_000, 0), (1, 2_004, 1)]).0);
        assert!(rates_of(&[(3, 8_000, 0), (1, 8_000, 1)]).0);
        assert!(rates_of(&[(3, 8_000, 0), (1, 8_004, 1)]).0);
        assert!(!rates_of(&[(3, 8_000, 0), (1, 7_996, 1)]).0);
        // a negative fee is passed over in both
        assert!(rates_of(&[(-1, 8_000, 0), (0, 8_000, 1)]).0);
    }

    #[test]
    fn rates_that_are_equal() {
        assert_eq!(rates_of(&[(1, 400, 0), (2, 800, 1)]), (true, false));
        assert_eq!(rates_of(&[(1, 400, 0), (1, 400, 0)]), (true, false));
        assert_eq!(rates_of(&[(1, 400, 0), (1, 400, 1)]), (true, true));
        assert_eq!(rates_of(&[(0, 400, 0), (0, 800, 1)]), (true, true));
    }
}
