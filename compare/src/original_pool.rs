//! The original's pool: graph.rs over the stand-ins, called with the numbers that ours is called with, and what it
//! holds and answers. Its transactions have as many outputs as their children could want, and each listed parent is an
//! input that spends an output which nothing else spends.

use crate::original::graph::{SelectBudget, Selected, TxEntry, TxGraph};
use crate::pool::{Limits, Newcomer, Pool, Txid};
use crate::template::{Asked, Chunk};
use bitcoin::{OutPoint, Transaction, TxIn, TxOut, Wtxid};
use std::collections::{BTreeMap, BTreeSet};

/// More than a cluster has members, so that a child which lists a parent twice takes two.
const OUTPUTS: usize = 128;

pub struct OriginalPool {
    pub graph: TxGraph,
    pub bodies: BTreeMap<Txid, Transaction>,
}

impl OriginalPool {
    pub fn new(limits: Limits) -> Self {
        let mut graph = TxGraph::new();
        graph.cluster_count_limit = limits.count as usize;
        graph.cluster_vsize_limit = limits.size;
        graph.set_bytes_per_sigop(limits.bytes_per_sigop);
        OriginalPool {
            graph,
            bodies: BTreeMap::new(),
        }
    }

    /// With the entries of a pool that stands, parents first.
    pub fn of(pool: &Pool) -> Self {
        let mut original = OriginalPool::new(pool.limits);
        while original.graph.len() < pool.entries.len() {
            for (txid, entry) in &pool.entries {
                let ready = entry.parents.iter().all(|parent| original.has(parent));
                if ready && !original.has(txid) {
                    let new = Newcomer {
                        txid: *txid,
                        fee: entry.fee,
                        weight: entry.weight,
                        cost: entry.cost,
                        parents: entry.parents.iter().flatten().copied().collect(),
                    };
                    original.add(&new, entry.slot);
                }
            }
        }
        original
    }

    pub fn has(&self, txid: &Txid) -> bool {
        self.graph.contains(&bitcoin::Txid(*txid))
    }

    /// Entries and total weight.
    pub fn totals(&self) -> [u64; 2] {
        [self.graph.len() as u64, self.graph.total_weight()]
    }

    /// Whether an entry has it among its inputs.
    pub fn lists(&self, txid: &Txid) -> bool {
        let spends = |body: &Transaction| {
            let mut inputs = body.input.iter();
            inputs.any(|input| input.previous_output.txid.0 == *txid)
        };
        self.bodies.values().any(spends)
    }

    /// Which of 8 and 9 `cluster_would_exceed` comes to: it is asked a second time without a size limit.
    pub fn refusal(&mut self, new: &Newcomer) -> Option<u64> {
        let parents: BTreeSet<bitcoin::Txid> = listed(new).collect();
        let exceeds = |graph: &TxGraph| graph.cluster_would_exceed(&parents, 1, new.weight);
        let any = exceeds(&self.graph);
        let size = std::mem::replace(&mut self.graph.cluster_vsize_limit, u64::MAX);
        let by_count = exceeds(&self.graph);
        self.graph.cluster_vsize_limit = size;
        any.then_some(if by_count { 8 } else { 9 })
    }

    pub fn add(&mut self, new: &Newcomer, slot: usize) {
        self.insert(new, slot, OUTPUTS);
    }

    /// With so many outputs.
    pub fn insert(&mut self, new: &Newcomer, slot: usize, outputs: usize) {
        let body = Transaction {
            input: self.inputs(new),
            output: vec![TxOut; outputs],
        };
        let entry = TxEntry {
            txid: bitcoin::Txid(new.txid),
            wtxid: Wtxid(new.txid),
            fee_sat: new.fee,
            weight: new.weight,
            sigop_cost: new.cost,
            slot: slot as u32,
            parents: BTreeSet::new(),
            children: BTreeSet::new(),
        };
        self.graph.insert(entry, &body);
        self.bodies.insert(new.txid, body);
    }

    fn inputs(&self, new: &Newcomer) -> Vec<TxIn> {
        let mut spent = BTreeSet::new();
        for txid in listed(new) {
            let outputs = (0..).map(|vout| OutPoint { txid, vout });
            let mut free =
                outputs.filter(|op| !spent.contains(op) && !self.graph.conflicts.contains_key(op));
            spent.insert(free.next().expect("there is always a next number"));
        }
        let input = |previous_output| TxIn { previous_output };
        spent.into_iter().map(input).collect()
    }

    pub fn remove(&mut self, txid: &Txid) {
        if let Some(body) = self.bodies.remove(txid) {
            self.graph.remove(&bitcoin::Txid(*txid), &body);
        }
    }

    pub fn set_cost(&mut self, txid: &Txid, cost: u64) {
        self.graph.set_sigop_cost(&bitcoin::Txid(*txid), cost);
    }

    pub fn clear(&mut self) {
        self.graph.rebuild_from(Vec::new());
        self.bodies.clear();
    }

    /// What ours and the original do not agree on, in the totals or in the numbers of an entry.
    pub fn difference(&self, pool: &Pool) -> Option<String> {
        let weight = pool.entries.values().map(|entry| entry.weight).sum();
        if self.totals() != [pool.entries.len() as u64, weight] {
            return Some(format!("the original has {:?} in all", self.totals()));
        }
        let mut entries = pool.entries.iter();
        let (txid, _) = entries.find(|(txid, ours)| {
            !self.get(txid).is_some_and(|entry| {
                let numbers = [entry.fee_sat, entry.weight, entry.sigop_cost];
                (entry.txid.0, entry.slot as usize) == (**txid, ours.slot)
                    && numbers == [ours.fee, ours.weight, ours.cost]
            })
        })?;
        Some(format!("the original's entry is {:?}", self.get(txid)))
    }

    /// Whether ours and the original have the same links, at both ends.
    pub fn same_links(&self, pool: &Pool) -> bool {
        let children = pool.children();
        let none = BTreeSet::new();
        pool.entries.iter().all(|(txid, ours)| {
            self.get(txid).is_some_and(|entry| {
                bytes(&entry.parents) == ours.parents
                    && bytes(&entry.children) == *children.get(txid).unwrap_or(&none)
            })
        })
    }

    fn get(&self, txid: &Txid) -> Option<&TxEntry> {
        self.graph.get(&bitcoin::Txid(*txid))
    }

    /// The chunks of one entry's cluster in its order: members, fee (0 where it is negative), adjusted weight.
    pub fn chunks(&self, pool: &Pool, member: &Txid, asked: &Asked) -> Vec<(Vec<Txid>, u64, u64)> {
        let delta = |txid: bitcoin::Txid| asked.deltas[pool.entries[&txid.0].slot];
        let cluster = self
            .graph
            .cluster_of_delta(&bitcoin::Txid(*member), &delta)
            .expect("the entry is there");
        let members = |txids: &[bitcoin::Txid]| txids.iter().map(|txid| txid.0).collect();
        let chunks = cluster.chunks.iter();
        chunks
            .map(|chunk| (members(&chunk.txids), chunk.fee_sat, chunk.weight))
            .collect()
    }

    pub fn template(&self, pool: &Pool, asked: &Asked) -> Vec<Selected> {
        let slot = |txid: &bitcoin::Txid| pool.entries[&txid.0].slot;
        let budget = SelectBudget {
            max_weight_wu: asked.budget,
            reserved_sigops: asked.reserve,
            min_sat_kvb: asked.minimum,
        };
        self.graph.select_block_template(
            budget,
            |txid| asked.deltas[slot(&txid)],
            |txid| asked.marks[slot(txid)] != 0,
        )
    }
}

/// One of our chunks as `chunks` has the original's.
pub fn as_original(chunk: &Chunk) -> (Vec<Txid>, u64, u64) {
    let fee = u64::try_from(chunk.fee).unwrap_or(0);
    (chunk.members.clone(), fee, chunk.adjusted)
}

fn bytes(txids: &BTreeSet<bitcoin::Txid>) -> BTreeSet<Txid> {
    txids.iter().map(|txid| txid.0).collect()
}

fn listed(new: &Newcomer) -> impl Iterator<Item = bitcoin::Txid> + '_ {
    let parents = new.parents.chunks_exact(32);
    parents.map(|bytes| bitcoin::Txid(bytes.try_into().expect("32 bytes")))
}

/// The Rust's side of the rows of docs/DIFFERENCES.md on module 8.
#[cfg(test)]
mod tests {
    use super::*;
    use crate::pool::MOST_FEE;
    use crate::pool_replay::txid;

    const LIMITS: Limits = Limits {
        count: 64,
        size: 101_000,
        bytes_per_sigop: 20,
    };

    fn newcomer(id: u64, fee: u64, weight: u64, parents: &[u64]) -> Newcomer {
        Newcomer {
            txid: txid(id),
            fee,
            weight,
            cost: 0,
            parents: parents.iter().flat_map(|id| txid(*id)).collect(),
        }
    }

    fn entry(original: &OriginalPool, id: u64) -> &TxEntry {
        original.get(&txid(id)).expect("it is there")
    }

    #[test]
    fn a_parent_after_its_child_is_linked() {
        let mut original = OriginalPool::new(LIMITS);
        original.add(&newcomer(1, 0, 4, &[0]), 0);
        original.add(&newcomer(0, 0, 4, &[]), 1);
        assert_eq!(bytes(&entry(&original, 1).parents), [txid(0)].into());
        assert_eq!(bytes(&entry(&original, 0).children), [txid(1)].into());
    }

    #[test]
    fn a_link_needs_the_output() {
        let mut original = OriginalPool::new(LIMITS);
        original.insert(&newcomer(0, 0, 4, &[]), 0, 1);
        // each spends an output of its own, of which there is only the first
        for id in 1..=6 {
            original.insert(&newcomer(id, 0, 4, &[0]), 0, 1);
            assert_eq!(entry(&original, id).parents.is_empty(), id > 1);
        }
        assert_eq!(bytes(&entry(&original, 0).children), [txid(1)].into());
    }

    #[test]
    fn a_second_insert_overwrites_and_counts_again() {
        let mut original = OriginalPool::new(LIMITS);
        original.add(&newcomer(0, 1, 4, &[]), 0);
        original.add(&newcomer(0, 2, 8, &[]), 1);
        assert_eq!(original.totals(), [1, 12]);
        assert_eq!(entry(&original, 0).fee_sat, 2);
    }

    #[test]
    fn insert_has_no_limits() {
        let mut original = OriginalPool::new(LIMITS);
        original.add(&newcomer(0, MOST_FEE + 1, 0, &[]), 0);
        for id in 1..65 {
            original.add(&newcomer(id, 0, 4_000_001, &[id - 1]), 0);
        }
        assert_eq!(original.refusal(&newcomer(65, 0, 4, &[64])), Some(8));
        let cluster = original.graph.cluster_of(&bitcoin::Txid(txid(0)));
        assert_eq!(cluster.expect("it is there").members.len(), 65);
    }

    #[test]
    fn sizes_are_rounded_up_once() {
        let mut original = OriginalPool::new(Limits { size: 1, ..LIMITS });
        original.add(&newcomer(0, 0, 1, &[]), 0);
        assert_eq!(original.refusal(&newcomer(1, 0, 3, &[0])), None);
        assert_eq!(original.refusal(&newcomer(1, 0, 4, &[0])), Some(9));
    }

    #[test]
    fn limits_of_any_size() {
        let mut original = OriginalPool::new(LIMITS);
        original.graph.set_cluster_limits(Some(65), Some(0));
        assert_eq!(original.graph.cluster_count_limit(), 65);
        assert_eq!(original.graph.cluster_vsize_limit(), 1);
    }

    #[test]
    fn absent_txids() {
        let mut original = OriginalPool::new(LIMITS);
        let absent = bitcoin::Txid(txid(0));
        let body = Transaction {
            input: Vec::new(),
            output: Vec::new(),
        };
        assert!(original.graph.remove(&absent, &body).is_none());
        original.graph.set_sigop_cost(&absent, 1);
        assert_eq!(original.totals(), [0, 0]);
    }

    #[test]
    fn more_entries_than_slots() {
        let mut original = OriginalPool::new(LIMITS);
        for id in 0..1_025 {
            original.add(&newcomer(id, 0, 4, &[]), 0);
        }
        assert_eq!(original.totals(), [1_025, 4_100]);
    }

    #[test]
    fn nothing_checks_the_total() {
        let mut original = OriginalPool::new(LIMITS);
        original.add(&newcomer(0, 0, 4, &[]), 0);
        original.graph.total_weight += 1;
        original.remove(&txid(0));
        assert_eq!(original.totals(), [0, 1]);
    }
}
