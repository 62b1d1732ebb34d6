//! A search for the clusters on which the library gains least over the original.
//!
//! The processor learns the branches of a single input by heart when it is run again and again, and the
//! library, which has little else to wait for, gains most by that. So a cluster is measured together with
//! copies of itself whose members have other positions.

use crate::cluster::Cluster;
use crate::expected::is_cyclic;
use crate::generate::any_cluster;
use crate::measure::{print_head, print_row, rounds, Buffers, Input};
use crate::rng::Rng;
use std::time::{Duration, Instant};

const SEED: u64 = 7;

/// How many rounds, and how long each of them is for our side, in nanoseconds.
const QUICK: (usize, f64) = (3, 5_000.0);
const LONGER: (usize, f64) = (9, 20_000.0);

/// The search keeps the worst of each band of sizes, as a small cluster would else hide all large ones.
const BANDS: [(usize, usize); 8] = [
    (0, 0),
    (1, 1),
    (2, 2),
    (3, 4),
    (5, 8),
    (9, 16),
    (17, 32),
    (33, 64),
];

/// The worst cluster so far and its copies, with the ratio that was measured in the search.
struct Held {
    inputs: Vec<Input>,
    ratio: f64,
}

struct Search {
    rng: Rng,
    buffers: Buffers,
    held: [Option<Held>; BANDS.len()],
    tried: u64,
}

/// Searches for so many seconds, a third of them by sampling and the rest by small changes.
pub fn worst(seconds: u64) {
    let mut search = Search {
        rng: Rng::new(SEED),
        buffers: Buffers::new(),
        held: Default::default(),
        tried: 0,
    };
    let start = Instant::now();
    let whole = Duration::from_secs(seconds);
    while start.elapsed() < whole / 3 {
        let (least, most) = search.rng.pick(&BANDS);
        let n = least + search.rng.index(most - least + 1);
        let cluster = any_cluster(n, &mut search.rng);
        search.consider(cluster);
    }
    while start.elapsed() < whole {
        let band = search.rng.index(BANDS.len());
        if let Some(held) = &search.held[band] {
            let mut cluster = held.inputs[0].cluster.clone();
            for _ in 0..=search.rng.below(3) {
                cluster = mutated(cluster, &mut search.rng);
            }
            search.consider(cluster);
        }
    }
    search.print();
}

impl Search {
    /// Takes a cluster as the worst of its band if it looks so at first, and again in a longer measurement
    /// of both. Some go there unseen, lest a ratio that was low by chance keeps all others out for good.
    fn consider(&mut self, cluster: Cluster) {
        let n = cluster.len();
        let inside = |&(least, most): &(usize, usize)| least <= n && n <= most;
        let band = BANDS.iter().position(inside);
        let band = band.expect("the bands cover all sizes");
        self.tried += 1;
        let inputs = with_copies(cluster);
        let Some(mut held) = self.held[band].take() else {
            let ratio = self.ratio(&inputs, LONGER);
            self.held[band] = Some(Held { inputs, ratio });
            return;
        };
        if self.ratio(&inputs, QUICK) < held.ratio || self.rng.one_in(16) {
            let ratio = self.ratio(&inputs, LONGER);
            held.ratio = self.ratio(&held.inputs, LONGER);
            if ratio < held.ratio {
                held = Held { inputs, ratio };
            }
        }
        self.held[band] = Some(held);
    }

    /// By the least time of each side, which other work on the machine disturbs least.
    fn ratio(&mut self, inputs: &[Input], (count, batch): (usize, f64)) -> f64 {
        rounds(inputs, count, batch, &mut self.buffers)[0].ratio()
    }

    fn print(mut self) {
        println!("{} clusters tried, seed {SEED}", self.tried);
        println!("the worst found of each band of sizes, each measured anew with its copies:\n");
        print_head("sizes");
        let mut found: Vec<Held> = Vec::new();
        for ((least, most), held) in BANDS.iter().zip(self.held) {
            if let Some(Held { inputs, .. }) = held {
                let name = format!("{least} to {most}");
                let ratio = print_row(&name, &inputs, &mut self.buffers);
                found.push(Held { inputs, ratio });
            }
        }
        found.sort_by(|a, b| a.ratio.total_cmp(&b.ratio));
        for Held { inputs, ratio } in &found {
            let Cluster {
                fees, sizes, lists, ..
            } = &inputs[0].cluster;
            println!(
                "\nratio {ratio:.2}\n  fees    {fees:?}\n  sizes   {sizes:?}\n  parents {lists:?}"
            );
        }
    }
}

/// The cluster and copies of it: the fewer members there are, the more inputs can be learnt.
fn with_copies(cluster: Cluster) -> Vec<Input> {
    let n = cluster.len();
    let copies = if n < 2 { 0 } else { 4 + 512 / n };
    // the same copies whenever the cluster comes again
    let mut rng = Rng::new(n as u64);
    let copy = |_| cluster.renamed(&rng.permutation(n));
    let renamed: Vec<Cluster> = (0..copies).map(copy).collect();
    let all = std::iter::once(cluster).chain(renamed);
    all.map(Input::new).collect()
}

/// The cluster with one thing changed, if that leaves it without a cycle.
fn mutated(cluster: Cluster, rng: &mut Rng) -> Cluster {
    let n = cluster.len();
    if n == 0 {
        return cluster;
    }
    let mut changed = cluster.clone();
    let (i, p) = (rng.index(n), rng.index(n));
    // numbers of any kind: those of a member made for this
    let other = any_cluster(1, rng);
    match rng.below(5) {
        0 => changed.fees[i] = other.fees[0],
        1 => changed.sizes[i] = other.sizes[0],
        2 => changed.words[i] |= 1 << p,
        3 => changed.words[i] &= !(1 << p),
        _ => changed = changed.without(i),
    }
    if is_cyclic(&changed.words) {
        return cluster;
    }
    Cluster::new(changed.fees, changed.sizes, changed.words)
}
