//! A second, plain reading of module 9 and of document 01's section "How a template is filled", over the pool of
//! pool.rs and the cluster of model.rs: the list of chunks, the outcome of each at its turn, and the refusals.
//! Sums and products are exact, in words wide enough that none is held; only the adjusted weight is, as 01 says.

use crate::cluster::Cluster;
use crate::model;
use crate::pool::{Entry, Pool, Txid, MOST_FEE};
use std::cmp::Ordering;
use std::collections::BTreeSet;

pub const MOST_SIGOPS: u64 = 80_000;

/// What a template is asked with: deltas and marks by slot, and three numbers.
#[derive(Clone, Debug)]
pub struct Asked {
    pub deltas: Vec<i64>,
    /// A mark other than 0 withholds.
    pub marks: Vec<u8>,
    pub budget: u64,
    pub reserve: u64,
    pub minimum: u64,
}

#[derive(Clone, Debug)]
pub struct Chunk {
    /// In the cluster's order.
    pub members: Vec<Txid>,
    pub fee: i128,
    pub adjusted: u64,
    /// The least txid of the cluster.
    pub least: Txid,
    /// Which of its cluster's chunks it is.
    pub place: usize,
}

/// Why a chunk is passed over, in the order in which the reasons are tried.
#[derive(Clone, Copy, Debug, PartialEq, Eq)]
pub enum Reason {
    NegativeFee,
    BelowMinimum,
    WithheldMember,
    NothingUnselected,
    WithheldAncestor,
    OverBudget,
    OverSigops,
}

#[derive(Clone, Debug, PartialEq, Eq)]
pub enum Outcome {
    /// With the addition: the members, each behind its unselected ancestors.
    Taken(Vec<Txid>),
    Passed(Reason),
}

/// What is selected so far.
#[derive(Default)]
pub struct Block {
    pub list: Vec<Txid>,
    selected: BTreeSet<Txid>,
    weight: u128,
    cost: u128,
}

/// The call: the answer's number, and how many slots stand at the room's start.
pub fn template(table: &[u64], asked: &Asked, room: &mut [usize]) -> (u64, usize) {
    let Some(pool) = Pool::read(table) else {
        return (12, 0);
    };
    match select(&pool, asked, room.len()) {
        Ok(slots) => {
            room[..slots.len()].copy_from_slice(&slots);
            (0, slots.len())
        }
        Err(number) => (number, 0),
    }
}

/// The selected slots of a pool that stands, or the number of the refusal.
pub fn select(pool: &Pool, asked: &Asked, room: usize) -> Result<Vec<usize>, u64> {
    if let Some(number) = refusal(pool, asked, room) {
        return Err(number);
    }
    let (block, _) = fill(pool, asked, &chunks(pool, asked));
    Ok(block.list.iter().map(|t| pool.entries[t].slot).collect())
}

fn refusal(pool: &Pool, asked: &Asked, room: usize) -> Option<u64> {
    let far = |entry: &Entry| asked.deltas[entry.slot].unsigned_abs() > MOST_FEE;
    if asked.deltas.len() != pool.slots || asked.marks.len() != pool.slots {
        Some(1)
    } else if room < pool.entries.len() {
        Some(11)
    } else {
        pool.entries.values().any(far).then_some(3)
    }
}

/// Tries every chunk of a list once, in its order: what is selected, and the outcome of each.
pub fn fill(pool: &Pool, asked: &Asked, chunks: &[Chunk]) -> (Block, Vec<Outcome>) {
    let mut block = Block::default();
    let mut outcomes = Vec::new();
    for chunk in chunks {
        let outcome = outcome(pool, asked, &block, chunk);
        if let Outcome::Taken(addition) = &outcome {
            block.take(pool, addition);
        }
        outcomes.push(outcome);
    }
    (block, outcomes)
}

impl Block {
    fn take(&mut self, pool: &Pool, addition: &[Txid]) {
        let (weight, cost) = weight_and_cost(pool, addition);
        self.weight += weight;
        self.cost += cost;
        self.selected.extend(addition);
        self.list.extend(addition);
    }
}

/// The raw weights and the sigop costs of some entries, each summed.
fn weight_and_cost(pool: &Pool, txids: &[Txid]) -> (u128, u128) {
    let entries = || txids.iter().map(|txid| &pool.entries[txid]);
    let weight = entries().map(|entry| u128::from(entry.weight)).sum();
    let cost = entries().map(|entry| u128::from(entry.cost)).sum();
    (weight, cost)
}

/// One chunk at its turn: taken with its addition, or passed over for the first of the seven reasons.
pub fn outcome(pool: &Pool, asked: &Asked, block: &Block, chunk: &Chunk) -> Outcome {
    let withheld = |txid: &Txid| asked.marks[pool.entries[txid].slot] != 0;
    let addition = addition(pool, block, chunk);
    let (weight, cost) = weight_and_cost(pool, &addition);
    let reasons = [
        (chunk.fee < 0, Reason::NegativeFee),
        (below(chunk, asked.minimum), Reason::BelowMinimum),
        (chunk.members.iter().any(withheld), Reason::WithheldMember),
        (addition.is_empty(), Reason::NothingUnselected),
        (addition.iter().any(withheld), Reason::WithheldAncestor),
        (
            block.weight + weight > u128::from(asked.budget),
            Reason::OverBudget,
        ),
        (
            u128::from(asked.reserve) + block.cost + cost > u128::from(MOST_SIGOPS),
            Reason::OverSigops,
        ),
    ];
    match reasons.into_iter().find(|(holds, _)| *holds) {
        Some((_, reason)) => Outcome::Passed(reason),
        None => Outcome::Taken(addition),
    }
}

/// Whether fee × 1,000 is below minimum × virtual size: a product below 2^126, as the size is at most 2^62.
fn below(chunk: &Chunk, minimum: u64) -> bool {
    let virtual_size = chunk.adjusted.div_ceil(4);
    minimum != 0 && chunk.fee * 1_000 < i128::from(minimum) * i128::from(virtual_size)
}

fn addition(pool: &Pool, block: &Block, chunk: &Chunk) -> Vec<Txid> {
    let mut addition = Vec::new();
    for member in &chunk.members {
        bring(pool, block, *member, &mut addition);
    }
    addition
}

/// Writes an entry behind its parents, in txid order, each of which is followed to its own before it is written.
fn bring(pool: &Pool, block: &Block, txid: Txid, addition: &mut Vec<Txid>) {
    if block.selected.contains(&txid) || addition.contains(&txid) {
        return;
    }
    for parent in &pool.entries[&txid].parents {
        bring(pool, block, *parent, addition);
    }
    addition.push(txid);
}

/// The chunks of all clusters in the order in which they are tried.
pub fn chunks(pool: &Pool, asked: &Asked) -> Vec<Chunk> {
    let clusters = pool.clusters();
    let mut chunks: Vec<Chunk> = clusters
        .iter()
        .flat_map(|cluster| chunks_of(pool, cluster, asked))
        .collect();
    chunks.sort_by(by_turn);
    chunks
}

/// "by exact feerate, then larger fee, then the cluster with the lower least txid, then their order in the cluster".
/// A fee is below 2^58 and an adjusted weight below 2^64, so that no product is held; no weight is 0.
fn by_turn(a: &Chunk, b: &Chunk) -> Ordering {
    let rates = (b.fee * i128::from(a.adjusted)).cmp(&(a.fee * i128::from(b.adjusted)));
    rates
        .then(b.fee.cmp(&a.fee))
        .then(a.least.cmp(&b.least))
        .then(a.place.cmp(&b.place))
}

/// The larger of raw weight and sigop cost × bytes per sigop, held at 2^64 - 1.
pub fn adjusted_weight(pool: &Pool, entry: &Entry) -> u64 {
    let sigops = entry.cost.saturating_mul(pool.limits.bytes_per_sigop);
    entry.weight.max(sigops)
}

/// The chunks of one cluster in its order: module 4 over module 6's.
fn chunks_of(pool: &Pool, members: &BTreeSet<Txid>, asked: &Asked) -> Vec<Chunk> {
    let txids: Vec<Txid> = members.iter().copied().collect();
    let cluster = cluster(pool, &txids, asked);
    let solved = model::solve(&cluster);
    let mut rest = &solved.order[..];
    let mut chunks = Vec::new();
    for (place, length) in solved.chunks.into_iter().enumerate() {
        let (first, behind) = rest.split_at(length);
        rest = behind;
        let sizes = first.iter().map(|&i| cluster.sizes[i]);
        chunks.push(Chunk {
            members: first.iter().map(|&i| txids[i]).collect(),
            fee: first.iter().map(|&i| i128::from(cluster.fees[i])).sum(),
            adjusted: sizes.fold(0, u64::saturating_add),
            least: txids[0],
            place,
        });
    }
    chunks
}

/// The members by txid, with adjusted weights and with fees that have their deltas in them.
fn cluster(pool: &Pool, txids: &[Txid], asked: &Asked) -> Cluster {
    let entries = || txids.iter().map(|txid| &pool.entries[txid]);
    let word = |entry: &Entry| {
        let positions = (0..txids.len()).filter(|&p| entry.parents.contains(&txids[p]));
        positions.fold(0, |word, p| word | 1 << p)
    };
    Cluster::new(
        entries()
            .map(|entry| entry.fee as i64 + asked.deltas[entry.slot])
            .collect(),
        entries()
            .map(|entry| adjusted_weight(pool, entry))
            .collect(),
        entries().map(word).collect(),
    )
}

#[cfg(test)]
mod tests {
    use super::*;
    use crate::pool::{Call, Limits, Newcomer};
    use crate::pool_replay::txid;

    /// Entries as (fee, weight, cost, parents), each in the slot of its place and with its place as txid.
    fn pool(bytes_per_sigop: u64, entries: &[(u64, u64, u64, &[u64])]) -> Pool {
        let limits = Limits {
            count: 64,
            size: 101_000,
            bytes_per_sigop,
        };
        let mut pool = Pool::new(entries.len(), limits).expect("in range");
        for (place, &(fee, weight, cost, parents)) in entries.iter().enumerate() {
            let new = Newcomer {
                txid: txid(place as u64),
                fee,
                weight,
                cost,
                parents: parents.iter().flat_map(|id| txid(*id)).collect(),
            };
            assert_eq!(pool.perform(&Call::Add(new)), Ok([place as u64, 0]));
        }
        pool
    }

    fn asked(pool: &Pool, budget: u64, reserve: u64, minimum: u64) -> Asked {
        Asked {
            deltas: vec![0; pool.slots],
            marks: vec![0; pool.slots],
            budget,
            reserve,
            minimum,
        }
    }

    fn selected(pool: &Pool, budget: u64, reserve: u64, minimum: u64) -> Vec<usize> {
        let asked = asked(pool, budget, reserve, minimum);
        select(pool, &asked, pool.slots).expect("nothing to refuse")
    }

    #[test]
    fn reserve_and_cost() {
        for (cost, count) in [(79_600, 1), (79_601, 0), (u64::MAX, 0)] {
            let pool = pool(0, &[(100, 400, cost, &[])]);
            assert_eq!(selected(&pool, u64::MAX, 400, 0).len(), count, "{cost}");
        }
        let never = pool(0, &[(100, 400, u64::MAX, &[])]);
        assert!(selected(&never, u64::MAX, 0, 0).is_empty());
        let one = pool(0, &[(100, 400, 1, &[])]);
        assert!(selected(&one, u64::MAX, u64::MAX, 0).is_empty());
    }

    #[test]
    fn minimum() {
        let whole = pool(20, &[(100, 400, 0, &[])]);
        assert_eq!(selected(&whole, u64::MAX, 0, 1_000), [0]);
        assert!(selected(&whole, u64::MAX, 0, 1_001).is_empty());
        let above = pool(20, &[(100, 401, 0, &[])]);
        assert!(selected(&above, u64::MAX, 0, 1_000).is_empty());
        let adjusted = pool(20, &[(100, 4, 20, &[])]);
        assert_eq!(selected(&adjusted, u64::MAX, 0, 1_000), [0]);
        assert!(selected(&adjusted, u64::MAX, 0, 1_001).is_empty());
    }

    #[test]
    fn parent_and_child() {
        let pair = pool(20, &[(100, 400, 0, &[]), (200, 800, 0, &[0])]);
        assert_eq!(selected(&pair, 1_200, 0, 0), [0, 1]);
        assert_eq!(selected(&pair, 1_000, 0, 0), [0]);
        let asked = asked(&pair, 1_000, 0, 0);
        let chunks = chunks(&pair, &asked);
        assert_eq!(chunks[0].members, [txid(1)]);
        assert_eq!(
            fill(&pair, &asked, &chunks).1,
            [
                Outcome::Passed(Reason::OverBudget),
                Outcome::Taken(vec![txid(0)])
            ]
        );
    }

    #[test]
    fn budget_of_nothing() {
        let pool = pool(20, &[(100, 1, 0, &[])]);
        assert!(selected(&pool, 0, 0, 0).is_empty());
    }

    /// Each reason at the last chunk that is tried, and the next one after it is taken away.
    #[test]
    fn the_first_reason() {
        let pool = pool(0, &[(300, 400, 0, &[]), (10, 400, 80_001, &[0])]);
        let mut asked = asked(&pool, 799, 0, 1_000);
        asked.deltas[1] = -11;
        asked.marks = vec![1, 1];
        let last = |asked: &Asked| {
            let chunks = chunks(&pool, asked);
            assert_eq!(chunks.len(), 2);
            fill(&pool, asked, &chunks).1.pop().expect("two chunks")
        };
        assert_eq!(last(&asked), Outcome::Passed(Reason::NegativeFee));
        asked.deltas[1] = 0;
        assert_eq!(last(&asked), Outcome::Passed(Reason::BelowMinimum));
        asked.minimum = 0;
        assert_eq!(last(&asked), Outcome::Passed(Reason::WithheldMember));
        asked.marks[1] = 0;
        assert_eq!(last(&asked), Outcome::Passed(Reason::WithheldAncestor));
        asked.marks[0] = 0;
        assert_eq!(last(&asked), Outcome::Passed(Reason::OverBudget));
        asked.budget = 800;
        assert_eq!(last(&asked), Outcome::Passed(Reason::OverSigops));
    }

    #[test]
    fn nothing_unselected() {
        let pair = pool(20, &[(100, 400, 0, &[]), (200, 800, 0, &[0])]);
        let asked = asked(&pair, 1_200, 0, 0);
        let outcomes = fill(&pair, &asked, &chunks(&pair, &asked)).1;
        assert_eq!(outcomes[0], Outcome::Taken(vec![txid(0), txid(1)]));
        assert_eq!(outcomes[1], Outcome::Passed(Reason::NothingUnselected));
    }

    #[test]
    fn refusals() {
        let pool = pool(20, &[(100, 400, 0, &[]), (200, 800, 0, &[0])]);
        let mut asked = asked(&pool, u64::MAX, 0, 0);
        assert_eq!(select(&pool, &asked, 2), Ok(vec![0, 1]));
        asked.deltas[1] = MOST_FEE as i64 + 1;
        assert_eq!(select(&pool, &asked, 2), Err(3));
        assert_eq!(select(&pool, &asked, 1), Err(11));
        asked.marks.pop();
        assert_eq!(select(&pool, &asked, 1), Err(1));
        let mut room = [7; 2];
        assert_eq!(template(&[0; 5], &asked, &mut room), (12, 0));
        assert_eq!(room, [7; 2]);
    }
}
