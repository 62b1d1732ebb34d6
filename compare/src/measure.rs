//! Times of the whole call (graph, order, chunk lengths) on both sides, and the benchmark's table.
//!
//! Memory: the library writes to buffers that are kept between calls. The original allocates its own
//! lists, which the allocator takes from what earlier calls gave back; the list of feerates that it
//! consumes is a copy made in the measured time, and the list that it cuts into chunks is kept.

use crate::cluster::Cluster;
use crate::generate::{cluster, Numbers, Shape};
use crate::model;
use crate::original::{chunk_lengths, DepGraph, FeeFrac};
use crate::rng::Rng;
use std::hint::black_box;

const SEED: u64 = 64;
const ROUNDS: usize = 15;
/// So many that no branch predictor learns them.
const CLUSTERS: usize = 3_000;
/// How long one side runs at a time, at least, in nanoseconds.
const BATCH: f64 = 5_000_000.0;

/// A cluster with the feerates that the original wants.
pub struct Input {
    pub cluster: Cluster,
    rates: Vec<FeeFrac>,
}

impl Input {
    pub fn new(cluster: Cluster) -> Input {
        let rates = cluster.rates();
        Input { cluster, rates }
    }
}

/// What is kept between calls.
pub struct Buffers {
    order: [usize; 64],
    lengths: [usize; 64],
    fees: [i64; 64],
    sizes: [u64; 64],
    rates: Vec<FeeFrac>,
}

impl Buffers {
    pub fn new() -> Buffers {
        Buffers {
            order: [0; 64],
            lengths: [0; 64],
            fees: [0; 64],
            sizes: [0; 64],
            rates: Vec::with_capacity(64),
        }
    }

    fn ours(&mut self, input: &Input) -> usize {
        let Cluster {
            fees, sizes, words, ..
        } = &input.cluster;
        let order =
            yaghrudil::linearize(fees, sizes, words, &mut self.order).expect("a good cluster");
        for (k, &i) in order.iter().enumerate() {
            self.fees[k] = fees[i];
            self.sizes[k] = sizes[i];
        }
        let n = order.len();
        let chunks = yaghrudil::chunk_lengths(&self.fees[..n], &self.sizes[..n], &mut self.lengths);
        chunks.expect("a good list").len()
    }

    fn original(&mut self, input: &Input) -> (Vec<usize>, Vec<usize>) {
        let graph = DepGraph::new(input.rates.clone(), &input.cluster.lists);
        let order = graph.linearize();
        self.rates.clear();
        self.rates.extend(order.iter().map(|&i| input.rates[i]));
        let chunks = chunk_lengths(&self.rates);
        (order, chunks)
    }
}

/// Nanoseconds of one call on each side.
#[derive(Clone, Copy)]
pub struct Times {
    pub original: f64,
    pub ours: f64,
}

impl Times {
    pub fn ratio(self) -> f64 {
        self.original / self.ours
    }
}

/// The nanoseconds that this thread has run, so that what else runs on the machine does not count as time.
pub fn clock() -> i64 {
    let mut time = [0; 2];
    // SAFETY: on 64-bit Linux a `timespec` is two `i64`, seconds and nanoseconds, and the call writes that alone.
    let answer = unsafe { clock_gettime(THREAD_CPUTIME, &mut time) };
    assert_eq!(answer, 0);
    let [seconds, nanoseconds] = time;
    seconds * 1_000_000_000 + nanoseconds
}

const THREAD_CPUTIME: i32 = 3;

extern "C" {
    fn clock_gettime(which: i32, time: &mut [i64; 2]) -> i32;
}

/// Mean nanoseconds of a call, over some runs through the inputs.
fn time(inputs: &[Input], runs: usize, mut call: impl FnMut(&Input)) -> f64 {
    let start = clock();
    for _ in 0..runs {
        for input in inputs {
            call(black_box(input));
        }
    }
    (clock() - start) as f64 / (runs * inputs.len()) as f64
}

/// Both sides, one after the other.
fn round(inputs: &[Input], runs: usize, buffers: &mut Buffers) -> Times {
    Times {
        original: time(inputs, runs, |input| _ = black_box(buffers.original(input))),
        ours: time(inputs, runs, |input| _ = black_box(buffers.ours(input))),
    }
}

/// Some rounds, in each of which our side takes about `batch` nanoseconds: the times of each side from
/// the least to the greatest, so that the first has both least times and the middle one both medians.
pub fn rounds(inputs: &[Input], count: usize, batch: f64, buffers: &mut Buffers) -> Vec<Times> {
    // the first call warms up, the second says how many runs fill a batch
    round(inputs, 1, buffers);
    let once = round(inputs, 1, buffers).ours * inputs.len() as f64;
    let runs = 1 + (batch / once) as usize;
    let (mut originals, mut ours): (Vec<f64>, Vec<f64>) = (0..count)
        .map(|_| round(inputs, runs, buffers))
        .map(|times| (times.original, times.ours))
        .unzip();
    originals.sort_by(f64::total_cmp);
    ours.sort_by(f64::total_cmp);
    let pairs = originals.into_iter().zip(ours);
    pairs
        .map(|(original, ours)| Times { original, ours })
        .collect()
}

pub fn print_head(first: &str) {
    println!("| {first} | n | compares | Rust ns | ours ns | ratio |");
    println!("|---|--:|--:|--:|--:|--:|");
}

/// Measures and prints one row, and returns its ratio.
pub fn print_row(first: &str, inputs: &[Input], buffers: &mut Buffers) -> f64 {
    let n = inputs[0].cluster.len();
    let compares: u64 = inputs
        .iter()
        .map(|input| model::solve(&input.cluster).compares)
        .sum();
    let compares = compares as f64 / inputs.len() as f64;
    let times = rounds(inputs, ROUNDS, BATCH, buffers)[ROUNDS / 2];
    let (Times { original, ours }, ratio) = (times, times.ratio());
    println!("| {first} | {n} | {compares:.0} | {original:.0} | {ours:.0} | {ratio:.2} |");
    ratio
}

/// Clusters of one kind: the name by which they are asked for, and the one in the table.
#[derive(Clone, Copy)]
struct Kind {
    name: &'static str,
    title: &'static str,
    shape: Shape,
    numbers: Numbers,
}

const fn kind(name: &'static str, title: &'static str, shape: Shape, numbers: Numbers) -> Kind {
    Kind {
        name,
        title,
        shape,
        numbers,
    }
}

const ORDINARY: [Kind; 5] = [
    kind("chain", "chain", Shape::Chain, Numbers::Ordinary),
    kind(
        "parents",
        "1-3 parents",
        Shape::FewParents,
        Numbers::Ordinary,
    ),
    kind("star", "star", Shape::Star, Numbers::Ordinary),
    kind(
        "equal",
        "equal feerates",
        Shape::FewParents,
        Numbers::EqualRates,
    ),
    kind("random", "random", Shape::Random, Numbers::Ordinary),
];
const ORDINARY_SIZES: [usize; 8] = [1, 2, 3, 4, 8, 16, 32, 64];

/// Numbers whose products do not fit a word, or whose sums are held.
const WIDE: [Kind; 3] = [
    kind(
        "wide",
        "fees to 2^40, sizes to 4,000,000",
        Shape::FewParents,
        Numbers::Weights,
    ),
    kind(
        "limits",
        "fees at the limits",
        Shape::FewParents,
        Numbers::Limits,
    ),
    kind(
        "held",
        "sizes that are held",
        Shape::FewParents,
        Numbers::HeldSizes,
    ),
];
const WIDE_SIZES: [usize; 3] = [8, 32, 64];

/// What is measured together: clusters of a kind and a size.
#[derive(Clone, Copy)]
struct Cell {
    kind: Kind,
    n: usize,
}

impl Cell {
    fn all() -> Vec<Cell> {
        let cells = |kinds: &[Kind], sizes: &[usize]| -> Vec<Cell> {
            let of = |&kind| sizes.iter().map(move |&n| Cell { kind, n });
            kinds.iter().flat_map(of).collect()
        };
        [cells(&ORDINARY, &ORDINARY_SIZES), cells(&WIDE, &WIDE_SIZES)].concat()
    }

    fn name(self) -> String {
        format!("{}-{}", self.kind.name, self.n)
    }

    /// Measures and prints its row. Its clusters are the same whatever other cells are measured.
    fn measure(self, seed: u64, buffers: &mut Buffers) -> f64 {
        let mut rng = Rng::new(seed);
        let Kind { shape, numbers, .. } = self.kind;
        let make = |_| Input::new(cluster(shape, numbers, self.n, &mut rng));
        let inputs: Vec<Input> = (0..CLUSTERS).map(make).collect();
        print_row(self.kind.title, &inputs, buffers)
    }
}

/// The tables, of the cells that are asked for or of all: each cell is the median of rounds over the same
/// clusters for both sides.
pub fn bench(asked: &[&str]) -> Result<(), String> {
    let all = Cell::all();
    let mut buffers = Buffers::new();
    let mut measured: Vec<(Cell, f64)> = Vec::new();
    print_head("clusters");
    for at in chosen(asked, &all, |cell| cell.name())? {
        measured.push((all[at], all[at].measure(SEED + at as u64, &mut buffers)));
    }
    println!("\n| clusters | least ratio from 2 members on | mean |");
    println!("|---|--:|--:|");
    for kind in ORDINARY.iter().chain(&WIDE) {
        let of_kind = |(cell, _): &&(Cell, f64)| cell.kind.name == kind.name && cell.n > 1;
        let ratios: Vec<f64> = measured.iter().filter(of_kind).map(|pair| pair.1).collect();
        if !ratios.is_empty() {
            let least = ratios.iter().copied().fold(f64::INFINITY, f64::min);
            let mean = ratios.iter().sum::<f64>() / ratios.len() as f64;
            println!("| {} | {least:.2} | {mean:.2} |", kind.title);
        }
    }
    println!("\n{CLUSTERS} distinct clusters a cell, seed {SEED}, medians of {ROUNDS} rounds in which both sides take turns.");
    println!("Ours writes to buffers that earlier calls used; the Rust allocates from what earlier calls gave back.");
    Ok(())
}

/// The places of the cells that are asked for by name, or by a name's start up to a `-`; all where none is.
pub fn chosen<C>(
    words: &[&str],
    cells: &[C],
    name: impl Fn(&C) -> String,
) -> Result<Vec<usize>, String> {
    let names: Vec<String> = cells.iter().map(name).collect();
    let starts = |name: &str, word: &str| {
        let behind = name.strip_prefix(word);
        behind.is_some_and(|rest| rest.is_empty() || rest.starts_with('-'))
    };
    for word in words {
        if !names.iter().any(|name| starts(name, word)) {
            return Err(format!(
                "no cell has the name {word}: there are {}",
                names.join(", ")
            ));
        }
    }
    let wanted =
        |at: &usize| words.is_empty() || words.iter().any(|word| starts(&names[*at], word));
    Ok((0..cells.len()).filter(wanted).collect())
}
