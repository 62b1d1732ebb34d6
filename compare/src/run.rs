//! The comparison: every small cluster, random clusters of all sizes, and inputs to be refused.

use crate::check::Tally;
use crate::cluster::{Cluster, Original};
use crate::damage::damaged;
use crate::exhaustive;
use crate::generate::any_cluster;
use crate::model;
use crate::original::chunk_lengths;
use crate::rng::Rng;
use std::time::Instant;

pub const SEED: u64 = 20_251_115;
pub const CLUSTERS: u64 = 1_200_000;

/// One in so many random clusters has 64 members, as many as fit.
const FULL: u64 = 50;
/// One in so many is also given to the model, whose count of compares the benchmark prints.
const MODELLED: u64 = 16;

/// Prints what each part compared, or stops with the first difference.
pub fn run(seed: u64, clusters: u64) -> Result<(), String> {
    println!("seed {seed}");
    let start = Instant::now();
    part("exhaustive", exhaustive::check)?;
    part("random", || random(seed, clusters))?;
    part("damaged", || refusals(seed, 1 + clusters / 4))?;
    println!("no difference, in {:.0} s", start.elapsed().as_secs_f64());
    Ok(())
}

fn part(name: &str, check: impl FnOnce() -> Result<Tally, String>) -> Result<(), String> {
    let start = Instant::now();
    let tally = check()?;
    println!(
        "{name}: {tally}\n  in {:.0} s",
        start.elapsed().as_secs_f64()
    );
    Ok(())
}

fn random(seed: u64, clusters: u64) -> Result<Tally, String> {
    let mut rng = Rng::new(seed);
    let mut tally = Tally::default();
    let mut of_size = [0u64; 65];
    let mut modelled = 0;
    for number in 0..clusters {
        let n = if number % FULL == 0 {
            64
        } else {
            small_mostly(&mut rng)
        };
        let cluster = any_cluster(n, &mut rng);
        let orders = [
            (0..n).collect(),
            (0..n).rev().collect(),
            rng.permutation(n),
            rng.permutation(n),
        ];
        tally.cluster(&cluster, &orders, rng.index(4))?;
        if number % MODELLED == 0 {
            check_model(&cluster)?;
            modelled += 1;
        }
        of_size[n] += 1;
    }
    let fewest = of_size.iter().min().expect("there are sizes");
    println!(
        "random: {} clusters of 64 members, at least {fewest} of every size",
        of_size[64]
    );
    println!("random: the model agrees with the original on {modelled} clusters");
    Ok(tally)
}

/// Large clusters take most of the time, and small ones have most of the cases.
fn small_mostly(rng: &mut Rng) -> usize {
    match rng.below(20) {
        0 => 33 + rng.index(32),
        1..=3 => 17 + rng.index(16),
        4..=7 => 9 + rng.index(8),
        _ => rng.index(9),
    }
}

fn check_model(cluster: &Cluster) -> Result<(), String> {
    let solved = model::solve(cluster);
    let original = Original::new(cluster);
    let order = original.order();
    let chunks = chunk_lengths(&cluster.listed(order).rates());
    if solved.order == order && solved.chunks == chunks {
        return Ok(());
    }
    let got = (solved.order, solved.chunks);
    Err(format!(
        "the model gives {got:?} instead of {order:?} and {chunks:?} for {cluster:?}"
    ))
}

fn refusals(seed: u64, inputs: u64) -> Result<Tally, String> {
    let mut rng = Rng::new(!seed);
    let mut tally = Tally::default();
    for _ in 0..inputs {
        let (cluster, calls) = damaged(&mut rng);
        tally.calls(&cluster, calls)?;
    }
    Ok(tally)
}
