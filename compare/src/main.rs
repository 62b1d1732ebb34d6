//! The library and the original side by side: comparison, benchmark, and tables for the gate.

mod check;
mod cluster;
mod damage;
mod determined;
mod exhaustive;
mod expected;
mod generate;
mod history;
mod library;
mod measure;
mod model;
mod original;
mod original_pool;
mod ours;
mod pool;
mod pool_lines;
mod pool_measure;
mod pool_program;
mod pool_replay;
mod pool_script;
mod pool_trials;
mod replay;
mod rng;
mod run;
mod sketch;
mod smallest;
mod tables;
mod template;
mod template_replay;
mod templates;
mod texts;
mod worst;
mod wrong;

// graph.rs looks for it at the root, where it stands in its own crate
use original::linearize;
use ours::{Library, Reading};
use std::path::Path;
use std::process::ExitCode;

const USAGE: &str = "\
compare run [--seed S] [--clusters N]   compare the library with the original on good and bad inputs
compare bench [CELL..]                  print tables of times of a cluster's calls: of all cells, or of those that are
                                        named, as chain-8, or parents for all of its sizes
compare pool-bench [CELL..]             the same of a pool's calls: single-16, chains-128, small-16-1024, large
compare worst [--seconds S]             search for the clusters with the smallest gain
compare wrong [--tries N]               search for the smallest cluster that tells each wrong program from the right one
compare replay DIR                      write cases and answers, as stdin and stdout, to a folder
compare texts DIR                       write the table of crates/run_cluster_texts to a folder
compare templates [S] [--templates N] [--reading]
                                        compare templates, and the pools below them, with the original's, from a seed:
                                        the library's, held against the second reading too, or that reading's alone
compare tables [--seed S] [--tables N]  compare calls on damaged tables with the second reading
compare smallest                        search for the smallest pools whose templates differ from the original's
compare pool DIR                        write calls on pools and their answers, as stdin and stdout, to a folder
compare template DIR                    the same of templates
compare pool-lines                      answer the pool program's lines on standard input by the second reading
compare pool-history DIR                write a long history of the pool program, as stdin and stdout, to a folder
compare pool-program PROGRAM [--seed S] [--histories N]
                                        compare a built pool program with the second reading on random histories";

fn main() -> ExitCode {
    let words: Vec<String> = std::env::args().skip(1).collect();
    let words: Vec<&str> = words.iter().map(String::as_str).collect();
    match perform(&words) {
        Ok(()) => ExitCode::SUCCESS,
        Err(text) => {
            eprintln!("{text}");
            ExitCode::FAILURE
        }
    }
}

fn perform(words: &[&str]) -> Result<(), String> {
    match words {
        ["run", options @ ..] => {
            let [seed, clusters] = numbers(
                options,
                [("--seed", run::SEED), ("--clusters", run::CLUSTERS)],
            )?;
            run::run(seed, clusters)
        }
        ["bench", cells @ ..] => measure::bench(cells),
        ["pool-bench", cells @ ..] => pool_measure::bench(cells),
        ["worst", options @ ..] => {
            let [seconds] = numbers(options, [("--seconds", 60)])?;
            worst::worst(seconds);
            Ok(())
        }
        ["wrong", options @ ..] => {
            let [tries] = numbers(options, [("--tries", 400_000)])?;
            wrong::search(tries);
            Ok(())
        }
        ["templates", seed, options @ ..] if !seed.starts_with("--") => {
            let seed = seed.parse().map_err(|_| USAGE)?;
            compare_templates(seed, options)
        }
        ["templates", options @ ..] => compare_templates(templates::SEED, options),
        ["tables", options @ ..] => {
            let [seed, count] = numbers(
                options,
                [("--seed", tables::SEED), ("--tables", tables::TABLES)],
            )?;
            tables::run(seed, count)
        }
        ["smallest"] => {
            smallest::search();
            Ok(())
        }
        ["replay", folder] => replay::write(Path::new(folder)),
        ["pool", folder] => pool_replay::write(Path::new(folder)),
        ["template", folder] => template_replay::write(Path::new(folder)),
        ["pool-lines"] => pool_trials::answer_lines(),
        ["pool-history", folder] => pool_lines::write(Path::new(folder)),
        ["pool-program", program, options @ ..] => {
            let [seed, histories] = numbers(options, [("--seed", 1), ("--histories", 300)])?;
            pool_trials::run(Path::new(program), seed, histories)
        }
        ["texts", folder] => {
            let told = texts::write_table(Path::new(folder));
            told.map_err(|error| format!("{folder}: {error}"))
        }
        _ => Err(USAGE.to_string()),
    }
}

fn compare_templates(seed: u64, options: &[&str]) -> Result<(), String> {
    let (flags, options): (Vec<&str>, Vec<&str>) =
        options.iter().partition(|word| **word == "--reading");
    let [count] = numbers(&options, [("--templates", templates::TEMPLATES)])?;
    match flags.is_empty() {
        true => templates::run::<Library>(seed, count),
        false => templates::run::<Reading>(seed, count),
    }
}

/// The values of options that take a number, each with what it is by default.
fn numbers<const N: usize>(
    mut words: &[&str],
    options: [(&str, u64); N],
) -> Result<[u64; N], String> {
    let mut values = options.map(|(_, usual)| usual);
    while let [name, value, rest @ ..] = words {
        let at = options
            .iter()
            .position(|option| option.0 == *name)
            .ok_or(USAGE)?;
        values[at] = value
            .parse()
            .map_err(|_| format!("{name} takes a number, not {value}"))?;
        words = rest;
    }
    if words.is_empty() {
        Ok(values)
    } else {
        Err(USAGE.to_string())
    }
}
