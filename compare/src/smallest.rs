//! The smallest pools on which the original's template differs from ours, for each part of document 01's sentence on
//! where it is determined. Pools of two entries are tried by the sum of their fees, then of their weights. The
//! original's hash order is drawn anew for each of its pools, so that each is made many times: it differs always, or
//! only for some hash orders.

use crate::determined::{broken, Clause};
use crate::original_pool::OriginalPool;
use crate::ours::{Library, Ours};
use crate::pool::{Call, Limits, Newcomer, Pool, Txid};
use crate::sketch::entries;
use crate::template::{chunks, Asked};

/// How often a pool is made before it counts as one that never differs, or always does.
const TIMES: usize = 24;

const LIMITS: Limits = Limits {
    count: 64,
    size: 101_000,
    bytes_per_sigop: 20,
};

pub fn search() {
    let ones: Vec<u64> = (1..=12).collect();
    let fours: Vec<u64> = (4..=400).step_by(4).collect();
    let unlinked = |entries| Pair::new([entry(0, entries, &[]), entry(1, entries, &[])], 0);
    look_for(
        "weights that are not multiples of four",
        Clause::Fours,
        numbers(4, &ones).map(unlinked),
    );
    look_for(
        "rates less than 1 apart",
        Clause::RatesApart,
        numbers(3, &fours).map(unlinked),
    );
    look_for(
        "ties of two clusters",
        Clause::NoTies,
        numbers(1, &fours[..2]).map(unlinked),
    );
    let late = |entries| Pair::new([entry(1, entries, &[[0; 32]]), entry(0, entries, &[])], 1);
    look_for(
        "the parent added after its child",
        Clause::SameLinks,
        numbers(2, &fours[..2]).map(late),
    );
    let no_output = |entries| Pair::new([entry(0, entries, &[]), entry(1, entries, &[[0; 32]])], 0);
    look_for(
        "an output spent that the parent does not have",
        Clause::SameLinks,
        numbers(2, &fours[..2]).map(no_output),
    );
}

/// A fee and a weight for each of two entries.
type Numbers = [(u64, u64); 2];

/// All of them, smallest first.
fn numbers(most_fee: u64, weights: &[u64]) -> impl Iterator<Item = Numbers> {
    let single: Vec<(u64, u64)> = (0..=most_fee)
        .flat_map(|fee| weights.iter().map(move |weight| (fee, *weight)))
        .collect();
    let both = |first: &(u64, u64)| {
        let first = *first;
        single.iter().map(move |second| [first, *second])
    };
    let mut all: Vec<Numbers> = single.iter().flat_map(both).collect();
    all.sort_by_key(|[a, b]| (a.0 + b.0, a.1 + b.1, *a));
    all.into_iter()
}

fn entry(place: usize, numbers: Numbers, parents: &[Txid]) -> Newcomer {
    let (fee, weight) = numbers[place];
    Newcomer {
        txid: [place as u8; 32],
        fee,
        weight,
        cost: 0,
        parents: parents.concat(),
    }
}

/// Prints the first pool that breaks this part alone and always differs, and the first that does by hash order.
fn look_for(name: &str, clause: Clause, pairs: impl Iterator<Item = Pair>) {
    println!("{name}:");
    let (mut always, mut sometimes) = (false, false);
    for pair in pairs.filter(|pair| pair.breaks(clause)) {
        let (differs, other) = pair.tried();
        let seen = match differs {
            0 => continue,
            TIMES => &mut always,
            _ => &mut sometimes,
        };
        if !*seen {
            *seen = true;
            let when = if differs == TIMES {
                "always"
            } else {
                "by hash order"
            };
            println!(
                "  {}: {} differs {when}",
                entries(&pair.pool, None),
                pair.told(&other)
            );
        }
        if always && sometimes {
            break;
        }
    }
}

/// Two entries as they are added, and a template that has room for both.
struct Pair {
    newcomers: [Newcomer; 2],
    /// How many each transaction has in the original.
    outputs: usize,
    pool: Pool,
    asked: Asked,
    slots: Vec<usize>,
}

impl Pair {
    fn new(newcomers: [Newcomer; 2], outputs: usize) -> Self {
        let mut ours = Library::made(2, LIMITS);
        for new in &newcomers {
            let answer = ours.call(&Call::Add(new.clone()));
            assert_eq!(answer.map(|(number, _)| number), Ok(0));
        }
        let asked = Asked {
            deltas: vec![0; 2],
            marks: vec![0; 2],
            budget: u64::MAX,
            reserve: 0,
            minimum: 0,
        };
        let (number, slots) = ours.template(&asked, 2).expect("as the second reading");
        assert_eq!(number, 0);
        Pair {
            slots,
            pool: ours.pool().clone(),
            newcomers,
            outputs,
            asked,
        }
    }

    fn original(&self) -> OriginalPool {
        let mut original = OriginalPool::new(LIMITS);
        for (slot, new) in self.newcomers.iter().enumerate() {
            original.insert(new, slot, self.outputs);
        }
        original
    }

    /// Whether this part of the sentence is broken, and no other.
    fn breaks(&self, clause: Clause) -> bool {
        let same_links = self.original().same_links(&self.pool);
        let chunks = chunks(&self.pool, &self.asked);
        broken(&self.pool, &chunks, same_links) == [clause]
    }

    /// How often the original differs, and one of its answers that does.
    fn tried(&self) -> (usize, Vec<usize>) {
        let mut others: Vec<Vec<usize>> = (0..TIMES).map(|_| self.original_slots()).collect();
        others.retain(|slots| *slots != self.slots);
        (others.len(), others.pop().unwrap_or_default())
    }

    fn original_slots(&self) -> Vec<usize> {
        let selected = self.original().template(&self.pool, &self.asked);
        let slot = |txid: Txid| self.pool.entries[&txid].slot;
        selected.iter().map(|entry| slot(entry.txid.0)).collect()
    }

    fn told(&self, original: &[usize]) -> String {
        format!("slots {:?} here, {original:?} in the original;", self.slots)
    }
}
