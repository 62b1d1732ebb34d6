//! A fixed list of pool calls with the answers of the second reading, and what each leaves in the table, for a program
//! that replays them without Rust (crates/run_pool_replay).
//!
//! A line has numbers with one space between them, the first of which says what is done:
//!
//! | line | what is done |
//! |---|---|
//! | `0 WORDS COUNT SIZE BYTES` | the first WORDS words are lent from here on; make |
//! | `1 ID FEE WEIGHT COST ODD ID ..` | add, with ODD bytes too many behind the listed parents |
//! | `2 ID`, `3 ID COST`, `4`, `5` | remove, set-cost, clear, totals |
//! | `6 PLACE WORD` | a word of the table is written by hand |
//! | `7 WORDS` | so many words are lent from here on |
//!
//! ID stands for the txid whose first and last eight bytes are that number, the highest byte first, and else 0. The answer
//! to a call is a line: number, the two values beside it, and a sum over all words of the table.

use crate::pool::{perform, Call, Limits, Newcomer, Txid};
use crate::rng::Rng;
use std::path::Path;

const SEED: u64 = 400;
/// The table's words, whatever part of them is lent: 1,024 slots, and one word more.
const WORDS: usize = 4 + 39 * 1024 + 1;

pub fn write(folder: &Path) -> Result<(), String> {
    let mut list = List::new();
    limits(&mut list);
    pairs(&mut list);
    full(&mut list);
    broken(&mut list);
    histories(&mut list);
    list.write(folder, SEED)
}

pub fn txid(id: u64) -> Txid {
    let mut txid = [0; 32];
    txid[..8].copy_from_slice(&id.to_be_bytes());
    txid[24..].copy_from_slice(&id.to_be_bytes());
    txid
}

/// A sum in which every word and its place count.
pub fn digest(words: &[u64]) -> u64 {
    let mut sum = 0u64;
    for word in words {
        sum = (sum % (1 << 32)) * 1_000_003 + word % (1 << 32) + word / (1 << 32);
    }
    sum
}

/// Lines that say what is done, and the lines that answer them.
pub struct List {
    pub table: Vec<u64>,
    pub lent: usize,
    asked: String,
    pub told: String,
    lines: usize,
}

impl List {
    pub fn new() -> Self {
        List {
            table: vec![0; WORDS],
            lent: WORDS - 1,
            asked: String::new(),
            told: String::new(),
            lines: 0,
        }
    }

    /// Writes `stdin` and `stdout` to a folder.
    pub fn write(self, folder: &Path, seed: u64) -> Result<(), String> {
        println!(
            "{} lines, {} bytes, seed {seed}",
            self.lines,
            self.asked.len()
        );
        let write = |name, text| std::fs::write(folder.join(name), text);
        write("stdin", self.asked)
            .and_then(|()| write("stdout", self.told))
            .map_err(|error| format!("{}: {error}", folder.display()))
    }

    pub fn line(&mut self, numbers: &[u64]) {
        let words: Vec<String> = numbers.iter().map(u64::to_string).collect();
        self.asked += &(words.join(" ") + "\n");
        self.lines += 1;
    }

    fn call(&mut self, numbers: &[u64], call: Call) -> u64 {
        self.line(numbers);
        let (number, [first, second]) = perform(&mut self.table[..self.lent], &call);
        let sum = digest(&self.table);
        self.told += &format!("{number} {first} {second} {sum}\n");
        number
    }

    pub fn lend(&mut self, words: usize) {
        self.lent = words;
        self.line(&[7, words as u64]);
    }

    pub fn put(&mut self, place: usize, word: u64) {
        self.table[place] = word;
        self.line(&[6, place as u64, word]);
    }

    pub fn make(&mut self, words: usize, count: u64, size: u64, bytes_per_sigop: u64) -> u64 {
        self.lent = words;
        let limits = Limits {
            count,
            size,
            bytes_per_sigop,
        };
        self.call(
            &[0, words as u64, count, size, bytes_per_sigop],
            Call::Make(limits),
        )
    }

    pub fn add_with(
        &mut self,
        id: u64,
        [fee, weight, cost]: [u64; 3],
        odd: u64,
        ids: &[u64],
    ) -> u64 {
        let mut parents: Vec<u8> = ids.iter().flat_map(|id| txid(*id)).collect();
        parents.extend((0..odd).map(|_| 0));
        let numbers = [&[1, id, fee, weight, cost, odd], ids].concat();
        self.call(
            &numbers,
            Call::Add(Newcomer {
                txid: txid(id),
                fee,
                weight,
                cost,
                parents,
            }),
        )
    }

    fn add(&mut self, id: u64, weight: u64, ids: &[u64]) -> u64 {
        self.add_with(id, [1000 + id % 1000, weight, id % 7], 0, ids)
    }

    pub fn remove(&mut self, id: u64) -> u64 {
        self.call(&[2, id], Call::Remove(txid(id)))
    }

    pub fn set_cost(&mut self, id: u64, cost: u64) -> u64 {
        self.call(&[3, id, cost], Call::SetCost(txid(id), cost))
    }

    pub fn clear(&mut self) -> u64 {
        self.call(&[4], Call::Clear)
    }

    fn totals(&mut self) -> u64 {
        self.call(&[5], Call::Totals)
    }

    /// Every call but make, none of which succeeds on a broken table.
    fn each(&mut self) {
        let answers = [
            self.add(900, 400, &[]),
            self.remove(2),
            self.set_cost(2, 5),
            self.clear(),
            self.totals(),
        ];
        assert_eq!(answers, [12; 5]);
    }
}

pub fn words(slots: usize) -> usize {
    4 + 39 * slots
}

/// The limits of "Values to hold against".
fn limits(list: &mut List) {
    list.make(words(70), 64, 101_000, 20);
    for id in 1..=64 {
        list.add(id, 400, &[id - 1]);
    }
    assert_eq!(list.add(65, 400, &[64]), 8);
    assert_eq!(list.add(65, 404_000, &[64]), 8);
    list.clear();
    assert_eq!(list.add(1, 404_001, &[]), 9);
    assert_eq!(list.add(1, 404_000, &[]), 0);
    assert_eq!(list.add(2, 1, &[1]), 9);
    assert_eq!(list.add(2, 1, &[]), 0);
    list.totals();
    // a cluster that both parents share counts once
    list.make(words(5), 3, 2, 0);
    list.add(1, 1, &[]);
    list.add(2, 1, &[1]);
    assert_eq!(list.add(3, 6, &[1, 2, 1, 2]), 0);
    assert_eq!(list.add(4, 1, &[3]), 8);
    list.make(words(5), 4, 2, 0);
    list.add(1, 1, &[]);
    list.add(2, 1, &[1]);
    assert_eq!(list.add(3, 7, &[1, 2]), 9);
    // a listed parent that is not there, the own txid, and a parent that comes later
    assert_eq!(list.add(3, 1, &[9, 3, 2]), 0);
    assert_eq!(list.add(9, 1, &[]), 0);
    // of a chain of three the middle one goes: two clusters are left
    list.remove(2);
    assert_eq!(list.add(2, 6, &[9]), 0);
}

/// Each pair of neighbouring refusals that are true at once, and each refusal at the ends of a range.
fn pairs(list: &mut List) {
    for (count, size) in [(0, 1), (65, 1), (1, 0), (1, 101_001), (64, 101_000), (1, 1)] {
        list.make(words(2), count, size, u64::MAX);
    }
    list.make(words(2) + 1, 1, 1, 0);
    list.make(0, 1, 1, 0);
    list.make(4, 1, 1, 0);
    list.make(WORDS, 1, 1, 0);
    list.make(words(2), 2, 1, 0);
    list.add(1, 1, &[]);
    let good = [1, 1, 1];
    list.lend(words(2) - 1);
    assert_eq!(list.add_with(2, good, 1, &[]), 12);
    list.lend(words(2));
    assert_eq!(list.add_with(2, [1, 0, 1], 31, &[1]), 1);
    assert_eq!(list.add_with(1, [1, 0, 1], 0, &[]), 3);
    assert_eq!(list.add_with(2, [2_100_000_000_000_001, 1, 1], 0, &[]), 3);
    assert_eq!(list.add_with(2, [1, 4_000_001, 1], 0, &[]), 3);
    assert_eq!(
        list.add_with(2, [2_100_000_000_000_000, 4_000_000, u64::MAX], 0, &[]),
        9
    );
    list.add(2, 1, &[1]);
    assert_eq!(list.add_with(1, good, 0, &[]), 6);
    assert_eq!(list.add_with(3, [1, 100, 1], 0, &[1]), 7);
    list.make(words(3), 1, 1, 0);
    list.add(1, 1, &[]);
    assert_eq!(list.add_with(2, [1, 100, 1], 0, &[1]), 8);
    assert_eq!(list.add_with(2, [1, 100, 1], 0, &[]), 9);
    assert_eq!(list.remove(2), 10);
    assert_eq!(list.set_cost(2, 1), 10);
    assert_eq!(list.set_cost(1, u64::MAX), 0);
    // the all-zero txid is one like any other
    assert_eq!(list.remove(0), 10);
    assert_eq!(list.add(0, 1, &[]), 0);
    assert_eq!(list.add(0, 1, &[]), 6);
}

/// Every slot of a table taken, one given back and taken again.
fn full(list: &mut List) {
    list.make(words(1024), 64, 101_000, 20);
    for id in 0..1024u64 {
        let scattered = id.wrapping_mul(0x9e37_79b9_7f4a_7c15);
        let parent = if id % 64 == 0 {
            vec![]
        } else {
            vec![(id - 1).wrapping_mul(0x9e37_79b9_7f4a_7c15)]
        };
        assert_eq!(list.add(scattered, 4, &parent), 0);
    }
    assert_eq!(list.add(1, 4, &[]), 7);
    assert_eq!(list.remove(700u64.wrapping_mul(0x9e37_79b9_7f4a_7c15)), 0);
    assert_eq!(list.add(1, 4, &[]), 0);
    assert_eq!(list.add(2, 4, &[]), 7);
    list.totals();
}

/// Each part of refusal 12 broken by one word, or by the pair of words that a link is, of a table that stands.
fn broken(list: &mut List) {
    list.make(words(70), 4, 100, 20);
    for id in 1..=4 {
        list.add(id, 40, &[id - 1]);
    }
    list.add(5, 40, &[]);
    list.remove(5);
    list.add(6, 40, &[]);
    let row = |slot: usize| 4 + 39 * slot;
    let last = row(69);
    let spots: Vec<Vec<(usize, u64)>> = vec![
        vec![(0, 0)], // the count limit out of its range
        vec![(0, 65)],
        vec![(1, 0)], // the size limit
        vec![(1, 101_001)],
        vec![(row(0) + 4, 2_100_000_000_000_001)], // a fee
        vec![(row(0) + 5, 4_000_001), (3, 4_000_161)], // a weight
        vec![(row(4), 1), (row(4) + 3, 1)],        // a txid twice
        vec![(3, 199)],                            // the total
        vec![(3, 201)],
        vec![(last + 6, 1)],                     // a free slot with a cost
        vec![(last + 38, 1 << 63)],              // .. with a child past the slots
        vec![(row(0) + 23, 0)],                  // a child lost
        vec![(row(1) + 7, 0)],                   // a parent lost
        vec![(row(0) + 7, 1 << 4)],              // a parent that does not answer
        vec![(row(0) + 23, 2 | 1 << 10)],        // a child that is free
        vec![(row(0) + 7 + 2, 1)],               // a parent past the slots
        vec![(row(0) + 7, 1), (row(0) + 23, 3)], // its own parent and child
        vec![(row(0) + 7, 8), (row(3) + 23, 1)], // a chain that closes
        vec![(0, 3)],                            // a cluster past the count limit
        vec![(1, 39)],                           // past the size limit
    ];
    for spot in spots {
        let before: Vec<(usize, u64)> = spot
            .iter()
            .map(|(place, _)| (*place, list.table[*place]))
            .collect();
        for (place, word) in spot {
            list.put(place, word);
        }
        list.each();
        for (place, word) in before {
            list.put(place, word);
        }
        assert_eq!(list.totals(), 0);
    }
    for lent in [0, 3, 4, 42, words(69) + 38, words(70) + 1, words(1024) + 1] {
        list.lend(lent);
        list.each();
    }
    list.lend(words(70));
    list.put(0, 4);
    assert_eq!(list.totals(), 0);
}

/// Random calls, refused ones in the mix, on pools of several sizes.
fn histories(list: &mut List) {
    let mut rng = Rng::new(SEED);
    for (slots, count, size) in [
        (1, 1, 1),
        (3, 2, 30),
        (7, 3, 60),
        (24, 6, 400),
        (24, 64, 101_000),
    ] {
        list.make(words(slots), count, size, 20);
        let ids = slots as u64 * 2;
        for _ in 0..120 {
            let id = rng.below(ids);
            match rng.below(16) {
                0..=9 => {
                    let parents: Vec<u64> = (0..rng.below(4)).map(|_| rng.below(ids)).collect();
                    let odd = u64::from(rng.one_in(40));
                    let weight = rng.below(4 * size / 2 + 3);
                    list.add_with(
                        id,
                        [rng.below(1_000_000), weight, rng.below(100)],
                        odd,
                        &parents,
                    );
                }
                10..=12 => {
                    list.remove(id);
                }
                13 => {
                    list.set_cost(id, rng.below(1 << 40));
                }
                14 => {
                    list.totals();
                }
                _ => {
                    if rng.one_in(5) {
                        list.clear();
                    }
                }
            }
        }
        list.totals();
    }
}
