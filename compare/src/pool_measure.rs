//! Times of pool calls on both sides: the test of refusal 12, add, remove and template.
//!
//! Every pass runs through many distinct pools, so that no branch predictor learns one of them, and both sides take
//! turns. Of each call on each pool the least time of all passes counts, in which nothing else ran meanwhile, and a cell
//! has the median of its pools. What a call is given is made before its time starts: the original's entry and transaction, its set of
//! parents, our list of them. The original allocates from what earlier calls gave back; ours writes to a table and a
//! room that are kept.

use crate::determined::broken;
use crate::library;
use crate::measure::{chosen, clock};
use crate::original::graph::{SelectBudget, TxEntry};
use crate::original_pool::OriginalPool;
use crate::pool::{words, Call, Limits, Newcomer, Pool, Txid};
use crate::rng::Rng;
use crate::template::{chunks, Asked};
use bitcoin::Transaction;
use std::collections::BTreeSet;
use std::hint::black_box;
use std::time::Instant;

const SEED: u64 = 1_000;
const LIMITS: Limits = Limits {
    count: 64,
    size: 101_000,
    bytes_per_sigop: 20,
};
/// The pools of a cell have so many entries together, or tables of so many words, if they are not too few or too many.
const ENTRIES: usize = 8_000;
const WORDS: usize = 1 << 20;
const POOLS: [usize; 2] = [16, 256];
/// A cell has so many rounds at least, and else as many as fill this time, in seconds.
const ROUNDS: usize = 21;
const SECONDS: f64 = 4.0;

#[derive(Clone, Copy)]
enum Shape {
    Single,
    Chains,
    Small,
    Large,
}

impl Shape {
    const ALL: [Shape; 4] = [Shape::Single, Shape::Chains, Shape::Small, Shape::Large];

    fn name(self) -> &'static str {
        match self {
            Shape::Single => "single",
            Shape::Chains => "chains",
            Shape::Small => "small",
            Shape::Large => "large",
        }
    }

    fn title(self) -> &'static str {
        match self {
            Shape::Single => "all single",
            Shape::Chains => "chains of 64",
            Shape::Small => "clusters of 1 to 8",
            Shape::Large => "clusters of 1 to 64",
        }
    }

    /// How many members a cluster has.
    fn members(self, rng: &mut Rng) -> usize {
        match self {
            Shape::Single => 1,
            Shape::Chains => 64,
            Shape::Small => 1 + rng.index(8),
            Shape::Large => 1 + rng.index(64),
        }
    }

    /// The parents of a member, of those before it.
    fn parents(self, before: &[usize], rng: &mut Rng) -> Vec<usize> {
        match (self, before) {
            (Shape::Single, _) | (_, []) => Vec::new(),
            (Shape::Chains, [.., last]) => vec![*last],
            _ => {
                let some = (0..=rng.below(3)).map(|_| rng.pick(before));
                BTreeSet::from_iter(some).into_iter().collect()
            }
        }
    }

    /// The entries of a pool in the order in which they are added: clusters in turn, parents before children.
    fn newcomers(self, entries: usize, rng: &mut Rng) -> Vec<Newcomer> {
        let mut numbers = Vec::new();
        while numbers.len() < entries {
            let members = self.members(rng).min(entries - numbers.len());
            let cluster = numbers.last().map_or(0, |last| last + 1);
            numbers.extend(vec![cluster; members]);
        }
        rng.shuffle(&mut numbers);
        let mut clusters = vec![Vec::new(); entries];
        let mut list: Vec<Newcomer> = Vec::new();
        for (place, number) in numbers.into_iter().enumerate() {
            let cluster: &mut Vec<usize> = &mut clusters[number];
            let parents = self.parents(cluster, rng);
            cluster.push(place);
            list.push(Newcomer {
                txid: random_txid(rng),
                fee: rng.below(1 << 31),
                weight: 4 * (100 + rng.below(900)),
                cost: 4 * rng.below(20),
                parents: parents.iter().flat_map(|at| list[*at].txid).collect(),
            });
        }
        list
    }
}

fn random_txid(rng: &mut Rng) -> Txid {
    let mut txid = [0; 32];
    txid.fill_with(|| rng.below(256) as u8);
    txid
}

/// One pool on both sides, with an entry that has no children, which is removed and added again.
struct Case {
    table: Vec<u64>,
    asked: Asked,
    room: Vec<usize>,
    add: Call,
    remove: Call,
    original: OriginalPool,
    budget: SelectBudget,
    txid: bitcoin::Txid,
    weight: u64,
    parents: BTreeSet<bitcoin::Txid>,
    body: Transaction,
    /// While it is not in the original's pool.
    entry: Option<TxEntry>,
}

impl Case {
    fn new(shape: Shape, entries: usize, slots: usize, rng: &mut Rng) -> Case {
        let list = shape.newcomers(entries, rng);
        let mut table = vec![0; words(slots)];
        library::perform(&mut table, &Call::Make(LIMITS));
        let mut original = OriginalPool::new(LIMITS);
        for (slot, new) in list.iter().enumerate() {
            let answer = library::perform(&mut table, &Call::Add(new.clone()));
            assert_eq!(answer, (0, [slot as u64, 0]));
            // one for each child, and two more, of which one may be spent elsewhere
            original.insert(new, slot, 2 + children(&list, new));
        }
        let childless = list.iter().filter(|new| children(&list, new) == 0);
        let childless: Vec<&Newcomer> = childless.collect();
        let last = childless[rng.index(childless.len())];
        let weight: u64 = list.iter().map(|new| new.weight).sum();
        let asked = Asked {
            deltas: vec![0; slots],
            marks: vec![0; slots],
            // three quarters of the pool, so that chunks are passed over
            budget: weight / 4 * 3,
            reserve: 400,
            minimum: 1_000,
        };
        let case = Case {
            budget: SelectBudget {
                max_weight_wu: asked.budget,
                reserved_sigops: asked.reserve,
                min_sat_kvb: asked.minimum,
            },
            table,
            asked,
            room: vec![0; slots],
            add: Call::Add(last.clone()),
            remove: Call::Remove(last.txid),
            txid: bitcoin::Txid(last.txid),
            weight: last.weight,
            parents: last
                .parents
                .chunks_exact(32)
                .map(|bytes| bitcoin::Txid(bytes.try_into().expect("32 bytes")))
                .collect(),
            body: original.bodies[&last.txid].clone(),
            entry: None,
            original,
        };
        case.check();
        case
    }

    /// Both have the same pool, and select the same where the original's order is determined.
    fn check(&self) {
        let pool = Pool::read(&self.table).expect("a table of the library");
        assert_eq!(self.original.difference(&pool), None);
        assert!(self.original.same_links(&pool));
        let mut room = self.room.clone();
        let (number, written) = library::template(&self.table, &self.asked, &mut room);
        assert_eq!(number, 0);
        let slots = self.original.template(&pool, &self.asked);
        let slots = slots.iter().map(|entry| pool.entries[&entry.txid.0].slot);
        if broken(&pool, &chunks(&pool, &self.asked), true).is_empty() {
            assert_eq!(room[..written], slots.collect::<Vec<_>>());
        }
    }

    fn original_template(&mut self) {
        let graph = &self.original.graph;
        black_box(graph.select_block_template(self.budget, |_| 0, |_| false));
    }

    fn original_remove(&mut self) {
        let graph = &mut self.original.graph;
        self.entry = graph.remove(&self.txid, &self.body);
    }

    fn original_limits(&mut self) {
        let graph = &self.original.graph;
        assert!(!graph.cluster_would_exceed(&self.parents, 1, self.weight));
    }

    fn original_insert(&mut self) {
        let entry = self.entry.take().expect("it was removed");
        self.original.graph.insert(entry, &self.body);
    }

    fn our_template(&mut self) {
        let answer = library::template(&self.table, &self.asked, &mut self.room);
        assert_eq!(answer.0, 0);
    }

    fn call(&mut self, call: fn(&Case) -> &Call) {
        let mut table = std::mem::take(&mut self.table);
        let answer = library::perform(&mut table, call(self));
        assert_eq!(answer.0, 0);
        self.table = table;
    }
}

fn children(list: &[Newcomer], new: &Newcomer) -> usize {
    let lists = |other: &&Newcomer| other.parents.chunks_exact(32).any(|txid| *txid == new.txid);
    list.iter().filter(lists).count()
}

/// What is measured.
#[derive(Clone, Copy)]
enum What {
    OriginalTemplate,
    OriginalCached,
    OurTemplate,
    OurTest,
    OriginalRemove,
    OurRemove,
    OriginalLimits,
    OriginalInsert,
    OurAdd,
}

const MEASURED: usize = 9;

/// For each pool the least nanoseconds that a call on it took.
struct Times([Vec<f64>; MEASURED]);

impl Times {
    fn new(pools: usize) -> Self {
        Times(std::array::from_fn(|_| vec![f64::INFINITY; pools]))
    }

    /// One call on every pool.
    fn pass(&mut self, what: What, cases: &mut [Case], call: impl Fn(&mut Case)) {
        for (case, least) in cases.iter_mut().zip(&mut self.0[what as usize]) {
            let (ran, start) = (clock(), Instant::now());
            call(black_box(case));
            let passed = start.elapsed().as_nanos() as f64;
            // the thread's own time, where something else ran meanwhile; asking for it takes longer
            let own = (clock() - ran) as f64;
            *least = least.min(passed).min(own);
        }
    }

    /// Everything once: both sides take turns, and every pool is as before at the end.
    fn round(&mut self, cases: &mut [Case]) {
        for case in cases.iter_mut() {
            case.original.graph.invalidate_chunk_cache();
        }
        self.pass(What::OriginalTemplate, cases, Case::original_template);
        self.pass(What::OurTemplate, cases, Case::our_template);
        self.pass(What::OriginalCached, cases, Case::original_template);
        self.pass(What::OurTest, cases, |case| case.call(|_| &Call::Totals));
        self.pass(What::OriginalRemove, cases, Case::original_remove);
        self.pass(What::OurRemove, cases, |case| {
            case.call(|case| &case.remove)
        });
        self.pass(What::OriginalLimits, cases, Case::original_limits);
        self.pass(What::OriginalInsert, cases, Case::original_insert);
        self.pass(What::OurAdd, cases, |case| case.call(|case| &case.add));
    }

    fn medians(mut self) -> [f64; MEASURED] {
        let mut medians = [0.0; MEASURED];
        for (times, median) in self.0.iter_mut().zip(&mut medians) {
            times.sort_by(f64::total_cmp);
            *median = times[times.len() / 2];
        }
        medians
    }
}

/// What is measured together: pools of one shape, with so many entries in a table of so many slots.
#[derive(Clone, Copy)]
struct Cell {
    shape: Shape,
    entries: usize,
    slots: usize,
}

impl Cell {
    fn all() -> Vec<Cell> {
        let full = |shape| {
            [16, 128, 1_000].map(|entries| Cell {
                shape,
                entries,
                slots: entries,
            })
        };
        let largest = [16, 128, 1_000, 1_024].map(|entries| Cell {
            shape: Shape::Small,
            entries,
            slots: 1_024,
        });
        Shape::ALL
            .into_iter()
            .flat_map(full)
            .chain(largest)
            .collect()
    }

    /// The name by which it is asked for.
    fn name(self) -> String {
        let Cell {
            shape,
            entries,
            slots,
        } = self;
        match slots == entries {
            true => format!("{}-{entries}", shape.name()),
            false => format!("{}-{entries}-{slots}", shape.name()),
        }
    }

    /// Its medians over its pools, which are the same whatever other cells are measured.
    fn measured(self, seed: u64) -> Row {
        let rng = &mut Rng::new(seed);
        let [few, many] = POOLS;
        let pools = (ENTRIES / self.entries).min(WORDS / words(self.slots));
        let mut cases: Vec<Case> = (0..pools.clamp(few, many))
            .map(|_| Case::new(self.shape, self.entries, self.slots, rng))
            .collect();
        let start = Instant::now();
        let mut times = Times::new(cases.len());
        let mut rounds = 0;
        while rounds < ROUNDS || start.elapsed().as_secs_f64() < SECONDS {
            times.round(&mut cases);
            rounds += 1;
        }
        for case in &cases {
            case.check();
        }
        Row {
            cell: self,
            times: times.medians(),
        }
    }
}

/// A cell with its medians.
struct Row {
    cell: Cell,
    times: [f64; MEASURED],
}

impl Row {
    /// Microseconds.
    fn time(&self, what: What) -> f64 {
        self.times[what as usize] / 1_000.0
    }

    fn print(&self, values: &[f64]) {
        let Cell {
            shape,
            entries,
            slots,
        } = self.cell;
        let mut line = format!("| {} | {entries} | {slots} |", shape.title());
        for value in values {
            line += &match *value {
                small if small < 100.0 => format!(" {small:.2} |"),
                large => format!(" {large:.0} |"),
            };
        }
        println!("{line}");
    }
}

/// The tables, of the cells whose names start with one of the words, or of all; the same pools for both sides.
pub fn bench(asked: &[&str]) -> Result<(), String> {
    let all = Cell::all();
    let chosen = chosen(asked, &all, |cell| cell.name())?;
    let rows: Vec<Row> = chosen
        .into_iter()
        .map(|at| all[at].measured(SEED + at as u64))
        .collect();
    print_templates(&rows);
    print_tests(&rows);
    print_changes(&rows);
    println!("\nSeed {SEED}; medians over pools of the least of at least {ROUNDS} times; both sides take turns.");
    Ok(())
}

fn print_head(columns: &[&str]) {
    println!("\n| shape | entries | slots | {} |", columns.join(" | "));
    println!("|---|--:|--:|{}", "--:|".repeat(columns.len()));
}

fn print_templates(rows: &[Row]) {
    print_head(&[
        "Rust µs",
        "Rust, cached µs",
        "ours µs",
        "ratio",
        "ratio, cached",
    ]);
    for row in rows {
        let measured = [
            What::OriginalTemplate,
            What::OriginalCached,
            What::OurTemplate,
        ];
        let [cold, cached, ours] = measured.map(|what| row.time(what));
        row.print(&[cold, cached, ours, cold / ours, cached / ours]);
    }
}

fn print_tests(rows: &[Row]) {
    print_head(&["test of 12 µs", "ns an entry", "Rust's template / test"]);
    for row in rows {
        let test = row.time(What::OurTest);
        let each = test * 1_000.0 / row.cell.entries as f64;
        row.print(&[test, each, row.time(What::OriginalTemplate) / test]);
    }
}

fn print_changes(rows: &[Row]) {
    print_head(&[
        "Rust: limits µs",
        "insert µs",
        "our add µs",
        "ratio",
        "Rust: remove µs",
        "our remove µs",
        "ratio",
    ]);
    for row in rows {
        let measured = [What::OriginalLimits, What::OriginalInsert, What::OurAdd];
        let [limits, insert, add] = measured.map(|what| row.time(what));
        let [remove, ours] = [What::OriginalRemove, What::OurRemove].map(|what| row.time(what));
        row.print(&[
            limits,
            insert,
            add,
            (limits + insert) / add,
            remove,
            ours,
            remove / ours,
        ]);
    }
}
