//! A fixed list of templates on pools with the answers of the second reading, for a program that replays them without
//! Rust; they are the original's, too, wherever its order is determined. The lines are those of pool_replay.rs, answered as there, and these:
//!
//! | line | what is done |
//! |---|---|
//! | `8 SLOT SIGN NUMBER` | a slot's delta is NUMBER, or -1 - NUMBER where SIGN is 1 |
//! | `9 SLOT MARK` | a slot's mark is MARK, below 256 |
//! | `10 DELTAS MARKS ROOM BUDGET RESERVE MINIMUM` | template, with so many deltas, marks and places of the room lent |
//! | `11` | all deltas and marks are 0 |
//!
//! There are 1,025 deltas and marks, all 0 at first, and as many places of the room, in which 5,000 and the place's
//! number stand before each template. The answer is a line: number, places written, a sum over all places of the room, a
//! sum over all words of the table, and then the written places.

use crate::determined;
use crate::original_pool::OriginalPool;
use crate::pool::{Pool, MOST_FEE};
use crate::pool_replay::{digest, words, List};
use crate::rng::Rng;
use crate::template::{chunks, template, Asked};
use std::path::Path;

const SEED: u64 = 500;
/// One more than the most slots.
const PLACES: usize = 1025;
const MOST: i64 = MOST_FEE as i64;
const ALL: u64 = u64::MAX;

pub fn write(folder: &Path) -> Result<(), String> {
    let mut cases = Cases::new();
    sigops(&mut cases);
    minimum(&mut cases);
    budget(&mut cases);
    ties(&mut cases);
    withheld(&mut cases);
    deltas(&mut cases);
    additions(&mut cases);
    traces(&mut cases);
    exact(&mut cases);
    refusals(&mut cases);
    full(&mut cases);
    histories(&mut cases);
    let [all, not_empty] = cases.original;
    println!("{} templates, {} not empty", cases.all, cases.not_empty);
    println!("{all} of them determined and the original's, {not_empty} not empty");
    cases.list.write(folder, SEED)
}

/// The lines so far, and the deltas and marks that stand.
struct Cases {
    list: List,
    deltas: Vec<i64>,
    marks: Vec<u8>,
    slots: usize,
    all: u64,
    not_empty: u64,
    /// How many of these the original answered, and how many of them are not empty.
    original: [u64; 2],
}

impl Cases {
    fn new() -> Self {
        Cases {
            list: List::new(),
            deltas: vec![0; PLACES],
            marks: vec![0; PLACES],
            slots: 0,
            all: 0,
            not_empty: 0,
            original: [0, 0],
        }
    }

    /// A new pool with the widest limits; nothing is set.
    fn make(&mut self, slots: usize, bytes_per_sigop: u64) {
        self.slots = slots;
        self.list.make(words(slots), 64, 101_000, bytes_per_sigop);
        self.unset();
    }

    fn unset(&mut self) {
        self.deltas.fill(0);
        self.marks.fill(0);
        self.list.line(&[11]);
    }

    fn delta(&mut self, slot: usize, delta: i64) {
        self.deltas[slot] = delta;
        let number = if delta < 0 { -1 - delta } else { delta };
        let sign = u64::from(delta < 0);
        self.list.line(&[8, slot as u64, sign, number as u64]);
    }

    fn mark(&mut self, slot: usize, mark: u8) {
        self.marks[slot] = mark;
        self.list.line(&[9, slot as u64, u64::from(mark)]);
    }

    /// Adds an entry that is to be taken.
    fn add(&mut self, id: u64, fee: u64, weight: u64, cost: u64, parents: &[u64]) {
        let answer = self.list.add_with(id, [fee, weight, cost], 0, parents);
        assert_eq!(answer, 0, "entry {id}");
    }

    fn ask_with(
        &mut self,
        [deltas, marks, room]: [usize; 3],
        [budget, reserve, minimum]: [u64; 3],
    ) -> Result<Vec<usize>, u64> {
        let lent = [deltas, marks, room].map(|count| count as u64);
        let numbers = [&[10], &lent[..], &[budget, reserve, minimum]].concat();
        self.list.line(&numbers);
        let asked = Asked {
            deltas: self.deltas[..deltas].to_vec(),
            marks: self.marks[..marks].to_vec(),
            budget,
            reserve,
            minimum,
        };
        let mut places: Vec<usize> = (5_000..5_000 + PLACES).collect();
        let table = &self.list.table[..self.list.lent];
        let (number, written) = template(table, &asked, &mut places[..room]);
        self.told(number, written, &places);
        if number != 0 {
            return Err(number);
        }
        self.hold(&asked, &places[..written]);
        Ok(places[..written].to_vec())
    }

    /// Holds a template against the original's, wherever that one's order is determined.
    fn hold(&mut self, asked: &Asked, slots: &[usize]) {
        let pool = Pool::read(&self.list.table[..self.list.lent]).expect("it was answered");
        let original = OriginalPool::of(&pool);
        let same_links = original.same_links(&pool);
        if determined::broken(&pool, &chunks(&pool, asked), same_links).is_empty() {
            let selected = original.template(&pool, asked);
            let selected = selected.iter().map(|one| pool.entries[&one.txid.0].slot);
            assert_eq!(selected.collect::<Vec<_>>(), slots, "of {pool:?}");
            self.original[0] += 1;
            self.original[1] += u64::from(!slots.is_empty());
        }
    }

    fn told(&mut self, number: u64, written: usize, places: &[usize]) {
        let room: Vec<u64> = places.iter().map(|place| *place as u64).collect();
        let sums = [digest(&room), digest(&self.list.table)];
        let numbers = [&[number, written as u64], &sums[..], &room[..written]].concat();
        let numbers: Vec<String> = numbers.iter().map(u64::to_string).collect();
        self.list.told += &(numbers.join(" ") + "\n");
        self.all += 1;
        self.not_empty += u64::from(written > 0);
    }

    /// With everything as long as it has to be.
    fn ask(&mut self, budget: u64, reserve: u64, minimum: u64) -> Vec<usize> {
        let lengths = [self.slots, self.slots, PLACES];
        let answer = self.ask_with(lengths, [budget, reserve, minimum]);
        answer.expect("nothing to refuse")
    }

    fn expect(&mut self, [budget, reserve, minimum]: [u64; 3], slots: &[usize]) {
        assert_eq!(self.ask(budget, reserve, minimum), slots);
    }
}

/// "Reserve 400 and cost 79,600 fits, 79,601 does not, cost 2^64 - 1 never."
fn sigops(cases: &mut Cases) {
    cases.make(4, 0);
    cases.expect([ALL, 0, 0], &[]);
    cases.add(1, 1_000, 400, 79_600, &[]);
    cases.expect([ALL, 400, 0], &[0]);
    cases.expect([ALL, 401, 0], &[]);
    cases.expect([ALL, ALL, 0], &[]);
    for (cost, reserve, fits) in [
        (79_601, 400, false),
        (79_601, 399, true),
        (ALL, 0, false),
        (ALL, 1, false),
        (ALL, 400, false),
        (1, ALL, false),
        (1, 79_999, true),
        (1, 80_000, false),
        (0, 80_000, true),
        (0, 80_001, false),
    ] {
        cases.list.set_cost(1, cost);
        let slots: &[usize] = if fits { &[0] } else { &[] };
        cases.expect([ALL, reserve, 0], slots);
    }
    // what does not fit is passed over, and what comes later is still tried
    cases.list.set_cost(1, 40_000);
    cases.add(2, 900, 400, 39_601, &[]);
    cases.add(3, 800, 400, 39_600, &[]);
    cases.expect([ALL, 400, 0], &[0, 2]);
    cases.expect([ALL, 399, 0], &[0, 1]);
    // two halves of a word in one chunk
    cases.make(2, 0);
    cases.add(1, 0, 400, 1 << 63, &[]);
    cases.add(2, 900, 400, 1 << 63, &[1]);
    cases.expect([ALL, 0, 0], &[]);
}

/// "Fee 100, adjusted weight 400: minimum 1,000 passes, 1,001 not; weight 401 fails 1,000."
fn minimum(cases: &mut Cases) {
    cases.make(2, 20);
    cases.add(1, 100, 400, 0, &[]);
    cases.expect([ALL, 0, 1_000], &[0]);
    cases.expect([ALL, 0, 1_001], &[]);
    cases.list.remove(1);
    cases.add(1, 100, 401, 0, &[]);
    cases.expect([ALL, 0, 1_000], &[]);
    cases.expect([ALL, 0, 990], &[0]);
    cases.expect([ALL, 0, 991], &[]);
    // the adjusted weight is tested, and not the raw one
    cases.list.remove(1);
    cases.add(1, 100, 4, 20, &[]);
    cases.expect([ALL, 0, 1_000], &[0]);
    cases.expect([ALL, 0, 1_001], &[]);
    cases.list.set_cost(1, 21);
    cases.expect([ALL, 0, 1_000], &[]);
    // a chunk's sums are: 100 over 400 in two parts
    cases.list.remove(1);
    cases.add(1, 0, 200, 0, &[]);
    cases.add(2, 100, 200, 0, &[1]);
    cases.expect([ALL, 0, 1_000], &[0, 1]);
    cases.expect([ALL, 0, 1_001], &[]);
    // minimum 0 passes a fee of 0
    cases.make(1, 20);
    cases.add(1, 0, 4, 0, &[]);
    cases.expect([ALL, 0, 0], &[0]);
    cases.expect([ALL, 0, 1], &[]);
    // products past a word: 2^62 × 4, and the highest fee over one vbyte
    cases.list.remove(1);
    cases.add(1, 1, 16, 0, &[]);
    cases.expect([ALL, 0, 1 << 62], &[]);
    cases.expect([ALL, 0, 250], &[0]);
    cases.list.remove(1);
    cases.add(1, MOST_FEE, 4, 0, &[]);
    cases.delta(0, MOST);
    cases.expect([ALL, 0, 2_000 * MOST_FEE], &[0]);
    cases.expect([ALL, 0, 2_000 * MOST_FEE + 1], &[]);
    cases.expect([ALL, 0, ALL], &[]);
}

/// "Parent fee 100 weight 400, child fee 200 weight 800, no sigops: budget 1,200 gives parent, child; 1,000 gives the
/// parent only, since the child's chunk is tried first and brings it."
fn budget(cases: &mut Cases) {
    cases.make(4, 20);
    cases.add(1, 100, 400, 0, &[]);
    cases.add(2, 200, 800, 0, &[1]);
    for (budget, slots) in [
        (1_200, &[0, 1][..]),
        (1_000, &[0]),
        (ALL, &[0, 1]),
        (1_199, &[0]),
        (400, &[0]),
        (399, &[]),
        (0, &[]),
    ] {
        cases.expect([budget, 0, 0], slots);
    }
    // the first does not fit, and the smaller ones behind it do
    cases.make(4, 20);
    cases.add(1, 5_000, 4_000, 0, &[]);
    cases.add(2, 100, 400, 0, &[]);
    cases.add(3, 90, 400, 0, &[]);
    cases.expect([1_000, 0, 0], &[1, 2]);
    cases.expect([4_399, 0, 0], &[0]);
    cases.expect([4_400, 0, 0], &[0, 1]);
    // the budget counts raw weight: 4 here, where the adjusted one is 2,000
    cases.make(4, 20);
    cases.add(1, 100, 4, 100, &[]);
    cases.expect([4, 0, 0], &[0]);
    cases.expect([3, 0, 0], &[]);
    // a chunk that brings a parent and fails leaves no trace: the parent comes by itself, in its place
    cases.make(4, 20);
    cases.add(9, 100, 400, 0, &[]);
    cases.add(8, 200, 800, 0, &[9]);
    cases.add(7, 50, 200, 0, &[]);
    cases.expect([600, 0, 0], &[0, 2]);
    cases.expect([1_200, 0, 0], &[0, 1]);
    cases.expect([1_400, 0, 0], &[0, 1, 2]);
}

/// Equal feerates across clusters and in one.
fn ties(cases: &mut Cases) {
    cases.make(6, 20);
    for id in [5, 3, 9] {
        cases.add(id, 100, 400, 0, &[]);
    }
    cases.expect([ALL, 0, 0], &[1, 0, 2]);
    cases.expect([800, 0, 0], &[1, 0]);
    // the larger fee goes before the lower txid
    cases.add(6, 200, 800, 0, &[]);
    cases.add(2, 50, 200, 0, &[]);
    cases.expect([ALL, 0, 0], &[3, 1, 0, 2, 4]);
    // txids whose highest bytes differ
    cases.make(4, 20);
    for id in [1 << 63, 1, 1 << 56, 255] {
        cases.add(id, 100, 400, 0, &[]);
    }
    cases.expect([ALL, 0, 0], &[1, 3, 2, 0]);
    // the least txid is that of the cluster, not of the chunk: 8 has 1 above it
    cases.make(4, 20);
    cases.add(4, 100, 400, 0, &[]);
    cases.add(1, 400, 400, 0, &[]);
    cases.add(8, 100, 400, 0, &[1]);
    cases.expect([ALL, 0, 0], &[1, 2, 0]);
    // and below it: 8 has 1 as a child that pays less
    cases.make(4, 20);
    cases.add(4, 100, 400, 0, &[]);
    cases.add(8, 100, 400, 0, &[]);
    cases.add(1, 1, 400, 0, &[8]);
    cases.expect([ALL, 0, 0], &[1, 0, 2]);
    // equal chunks of one cluster stay in its order
    cases.make(4, 20);
    for (id, parents) in [(7, &[][..]), (5, &[7]), (6, &[7]), (4, &[6])] {
        cases.add(id, 100, 400, 0, parents);
    }
    cases.expect([ALL, 0, 0], &[0, 1, 2, 3]);
    cases.expect([1_200, 0, 0], &[0, 1, 2]);
}

/// A withheld member, and an ancestor that is withheld.
fn withheld(cases: &mut Cases) {
    cases.make(5, 20);
    cases.add(1, 400, 400, 0, &[]);
    cases.add(2, 100, 400, 0, &[1]);
    cases.add(3, 50, 400, 0, &[2]);
    cases.add(4, 10, 400, 0, &[]);
    cases.expect([ALL, 0, 0], &[0, 1, 2, 3]);
    cases.mark(4, 1);
    cases.expect([ALL, 0, 0], &[0, 1, 2, 3]);
    cases.mark(0, 1);
    cases.expect([ALL, 0, 0], &[3]);
    cases.mark(0, 0);
    cases.mark(1, 255);
    cases.expect([ALL, 0, 0], &[0, 3]);
    cases.mark(3, 2);
    cases.expect([ALL, 0, 0], &[0]);
    // the parent and its child are one chunk, which a mark of either keeps out
    cases.make(3, 20);
    cases.add(1, 0, 400, 0, &[]);
    cases.add(2, 500, 400, 0, &[1]);
    cases.add(3, 1, 400, 0, &[1]);
    cases.mark(1, 1);
    cases.expect([ALL, 0, 0], &[0, 2]);
    cases.mark(1, 0);
    cases.mark(0, 128);
    cases.expect([ALL, 0, 0], &[]);
}

/// Deltas that turn a chunk negative, that turn an order around, and at the ends of their range.
fn deltas(cases: &mut Cases) {
    cases.make(4, 20);
    cases.add(1, 100, 400, 0, &[]);
    cases.delta(0, -100);
    cases.expect([ALL, 0, 0], &[0]);
    cases.expect([ALL, 0, 1], &[]);
    cases.delta(0, -101);
    cases.expect([ALL, 0, 0], &[]);
    cases.delta(0, -MOST);
    cases.expect([ALL, 0, 0], &[]);
    cases.unset();
    // an order turned around, in two clusters and in one
    cases.add(2, 200, 400, 0, &[]);
    cases.expect([ALL, 0, 0], &[1, 0]);
    cases.delta(0, 101);
    cases.expect([ALL, 0, 0], &[0, 1]);
    cases.delta(1, MOST);
    cases.expect([ALL, 0, 0], &[1, 0]);
    cases.unset();
    cases.add(3, 10, 400, 0, &[1]);
    cases.add(4, 20, 400, 0, &[1]);
    cases.expect([ALL, 0, 0], &[1, 0, 3, 2]);
    cases.delta(2, 11);
    cases.expect([ALL, 0, 0], &[1, 0, 2, 3]);
    // a child that pays for its parent, and one that no longer does
    cases.delta(0, -90);
    cases.delta(2, 500);
    cases.expect([800, 0, 0], &[0, 2]);
    cases.delta(2, -11);
    cases.expect([ALL, 0, 0], &[1, 0, 3]);
    // a free slot's delta is nothing
    cases.make(3, 20);
    cases.add(1, 100, 400, 0, &[]);
    cases.delta(1, i64::MIN);
    cases.delta(2, i64::MAX);
    cases.expect([ALL, 0, 0], &[0]);
}

/// What a chunk brings: parents in txid order, each behind its own, and no entry twice.
fn additions(cases: &mut Cases) {
    cases.make(8, 20);
    // all at one feerate, so that each is a chunk; the last has the highest fee and brings the others
    cases.add(20, 1, 4, 0, &[]);
    cases.add(7, 2, 8, 0, &[]);
    cases.add(5, 3, 12, 0, &[20]);
    cases.add(3, 4, 16, 0, &[7]);
    cases.add(10, 100, 400, 0, &[5, 3]);
    cases.expect([ALL, 0, 0], &[1, 3, 0, 2, 4]);
    cases.expect([439, 0, 0], &[1, 3, 0, 2]);
    // the withheld one is two links above
    cases.mark(0, 1);
    cases.expect([ALL, 0, 0], &[1, 3]);
    // one above two above one, listed in the other order
    cases.make(8, 20);
    cases.add(9, 1, 4, 0, &[]);
    cases.add(8, 2, 8, 0, &[9]);
    cases.add(2, 3, 12, 0, &[9]);
    cases.add(5, 100, 400, 0, &[8, 2, 9]);
    cases.expect([ALL, 0, 0], &[0, 2, 1, 3]);
    // what is selected already is not brought again, and a chunk of which nothing is left is passed over
    cases.add(6, 50, 200, 0, &[8]);
    cases.expect([ALL, 0, 0], &[0, 2, 1, 3, 4]);
    cases.expect([424, 0, 0], &[0, 2, 1, 3]);
    cases.expect([423, 0, 0], &[0, 1, 4, 2]);
}

/// A chunk that is passed over leaves no weight, no cost and no entry behind, whatever the reason.
fn traces(cases: &mut Cases) {
    // the second fails by its sigops, and the third fills the budget
    cases.make(3, 0);
    cases.add(1, 900, 400, 79_000, &[]);
    cases.add(2, 800, 400, 1_001, &[]);
    cases.add(3, 700, 400, 1_000, &[]);
    cases.expect([800, 0, 0], &[0, 2]);
    cases.expect([1_200, 0, 0], &[0, 2]);
    // the second fails by its weight, and the third fills the sigops
    cases.make(3, 0);
    cases.add(1, 900, 400, 79_000, &[]);
    cases.add(2, 8_000, 4_000, 1_000, &[]);
    cases.add(3, 700, 400, 1_000, &[]);
    cases.expect([800, 0, 0], &[0, 2]);
    cases.expect([4_399, 0, 0], &[0, 2]);
    // at one feerate a child is tried before the two parents that it brings, and fails
    cases.make(4, 0);
    cases.add(1, 10, 40, 1, &[]);
    cases.add(2, 20, 80, 2, &[]);
    cases.add(3, 100, 400, 80_000, &[1, 2]);
    cases.expect([ALL, 0, 0], &[1, 0]);
    cases.expect([ALL, 79_998, 0], &[1]);
    cases.list.set_cost(3, 3);
    cases.expect([519, 0, 0], &[1, 0]);
    cases.expect([520, 0, 0], &[0, 1, 2]);
    cases.mark(1, 1);
    cases.expect([ALL, 0, 0], &[0]);
    cases.mark(1, 0);
    cases.mark(2, 1);
    cases.expect([120, 79_997, 0], &[1, 0]);
    cases.mark(2, 0);
    cases.delta(2, -101);
    cases.expect([120, 79_997, 0], &[1, 0]);
}

/// Where rounded rates, products of one word and sums that wrap would answer otherwise.
fn exact(cases: &mut Cases) {
    cases.make(4, 20);
    cases.add(1, 1, 8_000, 0, &[]);
    cases.add(2, 2, 20_000, 0, &[]);
    cases.expect([ALL, 0, 0], &[0, 1]);
    cases.add(3, 1, 7_999, 0, &[]);
    cases.expect([ALL, 0, 0], &[2, 0, 1]);
    // virtual sizes would be equal here
    cases.make(4, 20);
    cases.add(1, 1, 3, 0, &[]);
    cases.add(2, 1, 1, 0, &[]);
    cases.add(3, 2, 3, 0, &[]);
    cases.expect([ALL, 0, 0], &[1, 2, 0]);
    // products past 2^64 that differ by 8,000
    cases.make(4, 20);
    cases.add(1, MOST_FEE - 5_198_019_802, 403_999, 0, &[]);
    cases.add(2, MOST_FEE, 404_000, 0, &[]);
    cases.expect([ALL, 0, 0], &[1, 0]);
    // an adjusted weight of 2^63, and one that is held
    cases.make(4, 1 << 63);
    cases.add(1, 10, 4, 2, &[]);
    cases.add(2, 10, 4, 1, &[]);
    cases.add(3, 9, 4, 1, &[]);
    cases.expect([ALL, 0, 0], &[1, 2, 0]);
    // a sum that is held: 2^62 vbytes
    cases.make(4, 1 << 63);
    cases.add(1, 0, 4, 1, &[]);
    cases.add(2, MOST_FEE, 4, 1, &[1]);
    cases.delta(0, MOST);
    cases.delta(1, MOST);
    cases.expect([ALL, 0, 1], &[0, 1]);
    cases.expect([ALL, 0, 2], &[]);
    cases.delta(0, 0);
    cases.expect([ALL, 0, 1], &[]);
}

/// 12, 1, 11, 3: each by itself, and each pair at once.
fn refusals(cases: &mut Cases) {
    cases.make(3, 20);
    cases.add(1, 100, 400, 0, &[]);
    cases.add(2, 200, 400, 0, &[1]);
    let numbers = [ALL, 0, 0];
    let good = [3, 3, 2];
    assert_eq!(cases.ask_with(good, numbers), Ok(vec![0, 1]));
    // not as long as the pool: one less, one more, none
    for lengths in [
        [2, 3, 2],
        [3, 2, 2],
        [4, 3, 2],
        [3, 4, 2],
        [2, 2, 2],
        [0, 0, 2],
        [4, 2, 2],
    ] {
        assert_eq!(cases.ask_with(lengths, numbers), Err(1));
    }
    assert_eq!(cases.ask_with([2, 3, 1], numbers), Err(1));
    assert_eq!(cases.ask_with([3, 4, 0], numbers), Err(1));
    // shorter than the entries, also where nothing would be written
    for room in [0, 1] {
        assert_eq!(cases.ask_with([3, 3, room], numbers), Err(11));
        assert_eq!(cases.ask_with([3, 3, room], [0, 0, 0]), Err(11));
    }
    for delta in [MOST + 1, -MOST - 1, i64::MAX, i64::MIN] {
        cases.delta(1, delta);
        assert_eq!(cases.ask_with(good, numbers), Err(3));
        assert_eq!(cases.ask_with([3, 3, 1], numbers), Err(11));
        assert_eq!(cases.ask_with([3, 2, 2], numbers), Err(1));
        assert_eq!(cases.ask_with([2, 3, 1], numbers), Err(1));
    }
    broken(cases, good);
    for delta in [MOST, -MOST] {
        cases.delta(1, delta);
        assert!(cases.ask_with(good, numbers).is_ok());
    }
    // an entry that goes takes the range of its delta with it, and the room may be shorter then
    cases.delta(1, MOST + 1);
    cases.list.remove(2);
    assert_eq!(cases.ask_with([3, 3, 1], numbers), Ok(vec![0]));
    cases.list.clear();
    assert_eq!(cases.ask_with([3, 3, 0], numbers), Ok(vec![]));
}

/// 12 goes before the others, of which all are true here too; slot 1 has a delta out of range.
fn broken(cases: &mut Cases, good: [usize; 3]) {
    let numbers = [ALL, 0, 0];
    let tries = [good, [2, 3, 2], [3, 3, 1], [0, 0, 0]];
    for (place, word, before) in [(3, 801, 800), (0, 1, 64), (1, 101_001, 101_000)] {
        cases.list.put(place, word);
        for lengths in tries {
            assert_eq!(cases.ask_with(lengths, numbers), Err(12));
        }
        cases.list.put(place, before);
    }
    for lent in [0, words(3) - 1, words(3) + 1] {
        cases.list.lend(lent);
        for lengths in tries {
            assert_eq!(cases.ask_with(lengths, numbers), Err(12));
        }
    }
    cases.list.lend(words(3));
    assert_eq!(cases.ask_with(good, numbers), Err(3));
}

/// A pool of 1,024 entries: clusters of 16, in each some chains, at feerates that have ties among them.
fn full(cases: &mut Cases) {
    cases.make(1024, 20);
    let scattered = |number: u64| number.wrapping_mul(0x9e37_79b9_7f4a_7c15);
    for number in 0..1024u64 {
        let parents: Vec<u64> = match number % 16 {
            0 => vec![],
            place if place % 3 == 0 => vec![scattered(number - 1), scattered(number - 3)],
            place => vec![scattered(number - place.min(2))],
        };
        let fee = (number * 7_919) % 997;
        let weight = 4 * (50 + (number * 31) % 150);
        cases.add(scattered(number), fee, weight, number % 90, &parents);
    }
    assert_eq!(cases.ask_with([1024, 1024, 1023], [ALL, 0, 0]), Err(11));
    assert!(cases.ask_with([1024, 1024, 1024], [ALL, 0, 0]).is_ok());
    cases.expect([0, 0, 0], &[]);
    cases.ask(200_000, 400, 0);
    cases.ask(200_001, 70_000, 1_500);
    for slot in (0..1024).step_by(37) {
        cases.mark(slot, 1 + (slot % 255) as u8);
        cases.delta(slot + 1, (slot as i64 - 500) * 3);
    }
    let most = cases.ask(ALL, 0, 0).len();
    assert!((100..1024).contains(&most));
    cases.ask(100_000, 400, 3_000);
}

/// Random calls and templates on pools of several sizes.
fn histories(cases: &mut Cases) {
    let mut rng = Rng::new(SEED);
    for slots in [1, 2, 3, 5, 8, 8, 13, 21, 34] {
        let bytes = rng.pick(&[0, 20, 20, 7]);
        cases.make(slots, bytes);
        for _ in 0..50 {
            any_call(cases, 2 * slots as u64, &mut rng);
            if rng.one_in(2) {
                any_setting(cases, &mut rng);
            }
            if rng.one_in(2) {
                any_template(cases, &mut rng);
            }
        }
    }
}

fn any_call(cases: &mut Cases, ids: u64, rng: &mut Rng) {
    let id = rng.below(ids);
    match rng.below(10) {
        0..=6 => {
            let parents: Vec<u64> = (0..rng.below(4)).map(|_| rng.below(ids)).collect();
            let any = 1 + rng.below(100);
            let weight = rng.pick(&[4, 8, 40, any]);
            let numbers = [rng.below(30), weight, rng.below(12) * rng.below(12)];
            cases.list.add_with(id, numbers, 0, &parents);
        }
        7..=8 => {
            cases.list.remove(id);
        }
        _ => {
            cases
                .list
                .set_cost(id, rng.pick(&[0, 1, 10, 30_000, 79_601, ALL]));
        }
    }
}

fn any_setting(cases: &mut Cases, rng: &mut Rng) {
    let slot = rng.index(cases.slots);
    match rng.below(4) {
        0 => cases.mark(slot, rng.pick(&[0, 0, 1, 255])),
        1 => cases.delta(slot, 0),
        _ => cases.delta(slot, rng.between(-30, 30)),
    }
}

fn any_template(cases: &mut Cases, rng: &mut Rng) {
    let some = rng.below(1 + 30 * cases.slots as u64);
    let near = 80_000 - rng.below(200);
    let rate = rng.below(2_000);
    cases.ask(
        rng.pick(&[ALL, some, some, 100]),
        rng.pick(&[0, 400, 79_990, near]),
        rng.pick(&[0, 0, rate]),
    );
}
