//! A fixed list of cases with the original's answers, for a program that replays them without Rust.
//!
//! A case is a line `call=` with the call's name, a line `order=` for post_linearize, and the cluster in
//! the cluster program's form. Its answer has a line `order=` for linearize and post_linearize, and a line
//! `chunks=` for linearize (of the order) and chunk_lengths (of the members by position).

use crate::cluster::{commas, Call, Cluster, Original};
use crate::generate::{cluster, name_in_vain, Numbers, Shape};
use crate::original::chunk_lengths;
use crate::rng::Rng;
use crate::wrong::Wrong;
use std::path::Path;

const SEED: u64 = 300;
const SMALL: [usize; 14] = [0, 1, 2, 3, 3, 4, 4, 5, 5, 6, 6, 7, 7, 8];
/// Sizes that come in addition, each for every call.
const LARGE: [usize; 10] = [16, 16, 16, 16, 32, 32, 32, 64, 64, 64];

/// Writes `stdin` with the cases and `stdout` with the answers to a folder.
pub fn write(folder: &Path) -> Result<(), String> {
    let (mut asked, mut told) = (String::new(), String::new());
    let cases = cases();
    for (cluster, kind, order) in &cases {
        asked += &format!("call={}\n", Call::NAMES[*kind]);
        if *kind == 1 {
            asked += &format!("order={}\n", commas(order));
        }
        asked += &cluster.to_string();
        told += &answer(cluster, *kind, order);
    }
    println!("{} cases, {} bytes, seed {SEED}", cases.len(), asked.len());
    let write = |name, text| std::fs::write(folder.join(name), text);
    write("stdin", asked)
        .and_then(|()| write("stdout", told))
        .map_err(|error| format!("{}: {error}", folder.display()))
}

/// Clusters, each with the kind of a call, and an order for the one that takes it: random ones, and those that tell
/// wrong programs.
fn cases() -> Vec<(Cluster, usize, Vec<usize>)> {
    let mut rng = Rng::new(SEED);
    let mut cases = Vec::new();
    for kind in 0..Call::NAMES.len() {
        for shape in Shape::ALL {
            for numbers in Numbers::ALL {
                let n = rng.pick(&SMALL);
                cases.push((shape, numbers, n, kind));
            }
        }
        for n in LARGE {
            cases.push((rng.pick(&Shape::ALL), rng.pick(&Numbers::ALL), n, kind));
        }
    }
    let fill = |(shape, numbers, n, kind)| {
        let mut cluster = cluster(shape, numbers, n, &mut rng);
        if rng.one_in(3) {
            name_in_vain(&mut cluster, &mut rng);
        }
        (cluster, kind, rng.permutation(n))
    };
    let mut cases: Vec<_> = cases.into_iter().map(fill).collect();
    for kind in 0..Call::NAMES.len() {
        for cluster in Wrong::ALL.map(Wrong::telling) {
            let order = (0..cluster.len()).collect();
            cases.push((cluster, kind, order));
        }
    }
    cases
}

fn answer(cluster: &Cluster, kind: usize, order: &[usize]) -> String {
    let original = Original::new(cluster);
    let chunks = |order: &[usize]| commas(&chunk_lengths(&cluster.listed(order).rates()));
    match kind {
        0 => {
            let order = original.order();
            format!("order={}\nchunks={}\n", commas(order), chunks(order))
        }
        1 => format!("order={}\n", commas(&original.post_linearize(order))),
        _ => format!("chunks={}\n", commas(&chunk_lengths(&cluster.rates()))),
    }
}
