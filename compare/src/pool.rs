//! A second, plain reading of module 8: a pool as a map by txid, with the refusals in document 01's order. It knows
//! the words of a table only to read one and to write one, so that the library's tables can be held against it.

use std::collections::{BTreeMap, BTreeSet};

pub type Txid = [u8; 32];

pub const HEADER: usize = 4;
pub const ROW: usize = 39;
const SET: usize = 16;
pub const PARENTS: usize = 7;
pub const CHILDREN: usize = PARENTS + SET;
const SLOTS: usize = 1024;
pub const MOST_FEE: u64 = 2_100_000_000_000_000;
const MOST_WEIGHT: u64 = 4_000_000;

/// Laid out as the library's header has it.
#[derive(Clone, Copy, Debug, PartialEq, Eq)]
#[repr(C)]
pub struct Limits {
    pub count: u64,
    pub size: u64,
    pub bytes_per_sigop: u64,
}

impl Limits {
    fn in_range(self) -> bool {
        (1..=64).contains(&self.count) && (1..=101_000).contains(&self.size)
    }
}

/// What add is given.
#[derive(Clone, Debug)]
pub struct Newcomer {
    pub txid: Txid,
    pub fee: u64,
    pub weight: u64,
    pub cost: u64,
    pub parents: Vec<u8>,
}

#[derive(Clone, Debug)]
pub enum Call {
    Make(Limits),
    Add(Newcomer),
    Remove(Txid),
    SetCost(Txid, u64),
    Clear,
    Totals,
}

/// An answer's number, and what a call answers beside it.
pub type Answer = (u64, [u64; 2]);

#[derive(Clone, Debug)]
pub struct Entry {
    pub slot: usize,
    pub fee: u64,
    pub weight: u64,
    pub cost: u64,
    pub parents: BTreeSet<Txid>,
}

#[derive(Clone, Debug)]
pub struct Pool {
    pub limits: Limits,
    pub slots: usize,
    pub entries: BTreeMap<Txid, Entry>,
}

/// Makes a call on a table: the answer, and the table as it is then.
pub fn perform(table: &mut [u64], call: &Call) -> Answer {
    if let Call::Make(limits) = call {
        return make(table, *limits);
    }
    let Some(mut pool) = Pool::read(table) else {
        return (12, [0, 0]);
    };
    let answer = pool.answer(call);
    if answer.0 == 0 {
        pool.write(table);
    }
    answer
}

/// How many words a table of so many slots has.
pub fn words(slots: usize) -> usize {
    HEADER + slots * ROW
}

fn whole_slots(words: usize) -> Option<usize> {
    let rows = words.checked_sub(HEADER)?;
    (rows % ROW == 0 && (1..=SLOTS).contains(&(rows / ROW))).then_some(rows / ROW)
}

fn make(table: &mut [u64], limits: Limits) -> Answer {
    let Some(pool) = whole_slots(table.len()).and_then(|slots| Pool::new(slots, limits)) else {
        return (3, [0, 0]);
    };
    pool.write(table);
    (0, [0, 0])
}

fn named(set: &[u64]) -> impl Iterator<Item = usize> + '_ {
    (0..SET * 64).filter(|slot| set[slot / 64] >> (slot % 64) & 1 == 1)
}

fn txid_of(words: &[u64]) -> Txid {
    let mut txid = [0; 32];
    for (bytes, word) in txid.chunks_mut(8).zip(words) {
        bytes.copy_from_slice(&word.to_be_bytes());
    }
    txid
}

impl Pool {
    /// An empty pool, if its numbers are in their ranges.
    pub fn new(slots: usize, limits: Limits) -> Option<Pool> {
        let pool = Pool {
            limits,
            slots,
            entries: BTreeMap::new(),
        };
        ((1..=SLOTS).contains(&slots) && limits.in_range()).then_some(pool)
    }

    /// The pool of a table, if the table is well-formed.
    pub fn read(table: &[u64]) -> Option<Pool> {
        let slots = whole_slots(table.len())?;
        let limits = Limits {
            count: table[0],
            size: table[1],
            bytes_per_sigop: table[2],
        };
        let row = |slot: usize| &table[HEADER + slot * ROW..][..ROW];
        let taken = |slot: usize| slot < slots && row(slot)[5] != 0;
        let mut entries = BTreeMap::new();
        let mut links = [BTreeSet::new(), BTreeSet::new()];
        for slot in 0..slots {
            let words = row(slot);
            if !taken(slot) {
                if words.iter().any(|word| *word != 0) {
                    return None;
                }
                continue;
            }
            links[0].extend(named(&words[PARENTS..CHILDREN]).map(|parent| (parent, slot)));
            links[1].extend(named(&words[CHILDREN..]).map(|child| (slot, child)));
            let parents = BTreeSet::new();
            let [fee, weight, cost] = [words[4], words[5], words[6]];
            if fee > MOST_FEE || weight > MOST_WEIGHT {
                return None;
            }
            let entry = Entry {
                slot,
                fee,
                weight,
                cost,
                parents,
            };
            if entries.insert(txid_of(&words[..4]), entry).is_some() {
                return None;
            }
        }
        if links[0] != links[1] || !links[0].iter().all(|(a, b)| taken(*a) && taken(*b)) {
            return None;
        }
        for (parent, child) in &links[0] {
            let parent = txid_of(&row(*parent)[..4]);
            let child = txid_of(&row(*child)[..4]);
            entries.get_mut(&child)?.parents.insert(parent);
        }
        let pool = Pool {
            limits,
            slots,
            entries,
        };
        let sound = limits.in_range()
            && pool.weight() == table[3]
            && pool.acyclic()
            && pool.within_limits();
        sound.then_some(pool)
    }

    pub fn write(&self, table: &mut [u64]) {
        table.fill(0);
        table[..3].copy_from_slice(&[
            self.limits.count,
            self.limits.size,
            self.limits.bytes_per_sigop,
        ]);
        table[3] = self.weight();
        for (txid, entry) in &self.entries {
            let at = HEADER + entry.slot * ROW;
            for (word, bytes) in txid.chunks(8).enumerate() {
                table[at + word] = u64::from_be_bytes(bytes.try_into().expect("eight bytes"));
            }
            table[at + 4..at + 7].copy_from_slice(&[entry.fee, entry.weight, entry.cost]);
            for parent in &entry.parents {
                let other = self.entries[parent].slot;
                table[at + PARENTS + other / 64] |= 1 << (other % 64);
                table[HEADER + other * ROW + CHILDREN + entry.slot / 64] |= 1 << (entry.slot % 64);
            }
        }
    }

    fn weight(&self) -> u64 {
        self.entries.values().map(|entry| entry.weight).sum()
    }

    fn acyclic(&self) -> bool {
        let mut left: BTreeMap<&Txid, &BTreeSet<Txid>> = self
            .entries
            .iter()
            .map(|(txid, entry)| (txid, &entry.parents))
            .collect();
        loop {
            let ready: Vec<Txid> = left
                .iter()
                .filter(|(_, parents)| !parents.iter().any(|parent| left.contains_key(parent)))
                .map(|(txid, _)| **txid)
                .collect();
            if ready.is_empty() {
                return left.is_empty();
            }
            left.retain(|txid, _| !ready.contains(txid));
        }
    }

    /// The children of each entry that has some.
    pub fn children(&self) -> BTreeMap<Txid, BTreeSet<Txid>> {
        let mut children: BTreeMap<Txid, BTreeSet<Txid>> = BTreeMap::new();
        for (txid, entry) in &self.entries {
            for parent in &entry.parents {
                children.entry(*parent).or_default().insert(*txid);
            }
        }
        children
    }

    /// The clusters of some entries together.
    fn clusters_of(
        &self,
        seeds: &BTreeSet<Txid>,
        children: &BTreeMap<Txid, BTreeSet<Txid>>,
    ) -> BTreeSet<Txid> {
        let mut found = seeds.clone();
        let mut todo: Vec<Txid> = seeds.iter().copied().collect();
        while let Some(txid) = todo.pop() {
            let up = self.entries[&txid].parents.iter();
            let down = children.get(&txid).into_iter().flatten();
            for other in up.chain(down) {
                if found.insert(*other) {
                    todo.push(*other);
                }
            }
        }
        found
    }

    /// All clusters, the one with the lowest txid first.
    pub fn clusters(&self) -> Vec<BTreeSet<Txid>> {
        let children = self.children();
        let mut seen: BTreeSet<Txid> = BTreeSet::new();
        let mut clusters = Vec::new();
        for txid in self.entries.keys() {
            if !seen.contains(txid) {
                let cluster = self.clusters_of(&BTreeSet::from([*txid]), &children);
                seen.extend(&cluster);
                clusters.push(cluster);
            }
        }
        clusters
    }

    fn exceeds(&self, members: &BTreeSet<Txid>, more: usize, weight: u64) -> Option<u64> {
        let sum = members
            .iter()
            .map(|txid| self.entries[txid].weight)
            .sum::<u64>()
            + weight;
        if (members.len() + more) as u64 > self.limits.count {
            Some(8)
        } else if sum.div_ceil(4) > self.limits.size {
            Some(9)
        } else {
            None
        }
    }

    fn within_limits(&self) -> bool {
        let fits = |cluster| self.exceeds(cluster, 0, 0).is_none();
        self.clusters().iter().all(fits)
    }

    /// Every call but make.
    pub fn answer(&mut self, call: &Call) -> Answer {
        match self.perform(call) {
            Ok(values) => (0, values),
            Err(number) => (number, [0, 0]),
        }
    }

    pub fn perform(&mut self, call: &Call) -> Result<[u64; 2], u64> {
        match call {
            Call::Make(_) => unreachable!("made before a table is read"),
            Call::Add(newcomer) => self.add(newcomer),
            Call::Remove(txid) => {
                let entry = self.entries.remove(txid).ok_or(10u64)?;
                for other in self.entries.values_mut() {
                    other.parents.remove(txid);
                }
                Ok([entry.slot as u64, 0])
            }
            Call::SetCost(txid, cost) => {
                let entry = self.entries.get_mut(txid).ok_or(10u64)?;
                entry.cost = *cost;
                Ok([entry.slot as u64, 0])
            }
            Call::Clear => {
                self.entries.clear();
                Ok([0, 0])
            }
            Call::Totals => Ok([self.entries.len() as u64, self.weight()]),
        }
    }

    fn add(&mut self, new: &Newcomer) -> Result<[u64; 2], u64> {
        if !new.parents.len().is_multiple_of(32) {
            return Err(1);
        }
        if new.fee > MOST_FEE || !(1..=MOST_WEIGHT).contains(&new.weight) {
            return Err(3);
        }
        if self.entries.contains_key(&new.txid) {
            return Err(6);
        }
        let used: BTreeSet<usize> = self.entries.values().map(|entry| entry.slot).collect();
        let slot = (0..self.slots)
            .find(|slot| !used.contains(slot))
            .ok_or(7u64)?;
        let parents: BTreeSet<Txid> = new
            .parents
            .chunks(32)
            .map(|bytes| bytes.try_into().expect("whole 32s"))
            .filter(|txid| self.entries.contains_key(txid))
            .collect();
        let joined = self.clusters_of(&parents, &self.children());
        if let Some(number) = self.exceeds(&joined, 1, new.weight) {
            return Err(number);
        }
        let entry = Entry {
            slot,
            fee: new.fee,
            weight: new.weight,
            cost: new.cost,
            parents,
        };
        self.entries.insert(new.txid, entry);
        Ok([slot as u64, 0])
    }
}
