//! The pool program as it is built, beside the second reading, byte by byte.

use crate::pool_lines::random;
use crate::pool_program::respond;
use crate::pool_script::Tally;
use std::io::{Read, Write};
use std::path::Path;
use std::process::{Command, Stdio};

/// Answers the lines on standard input, once they have ended.
pub fn answer_lines() -> Result<(), String> {
    let mut input = Vec::new();
    std::io::stdin()
        .read_to_end(&mut input)
        .and_then(|_| std::io::stdout().write_all(respond(&input).as_bytes()))
        .map_err(|error| error.to_string())
}

/// Random histories, one run of the program for each.
pub fn run(program: &Path, seed: u64, histories: u64) -> Result<(), String> {
    let mut tally = Tally::default();
    for seed in seed..seed + histories {
        let script = random(seed);
        let told = output(program, &script.asked)
            .map_err(|error| format!("{}: {error}", program.display()))?;
        if let Some(line) = first_difference(&told, script.told.as_bytes()) {
            return Err(format!("seed {seed}: line {line} of the output differs"));
        }
        tally.add(&script.tally);
    }
    println!(
        "{histories} histories from seed {seed}: {}; none different",
        tally.show()
    );
    Ok(())
}

/// What a program prints for an input, which is written while the output is read.
fn output(program: &Path, input: &[u8]) -> std::io::Result<Vec<u8>> {
    let mut child = Command::new(program)
        .stdin(Stdio::piped())
        .stdout(Stdio::piped())
        .spawn()?;
    let mut stdin = child.stdin.take().expect("piped");
    let mut stdout = child.stdout.take().expect("piped");
    let mut told = Vec::new();
    std::thread::scope(|scope| {
        // an error here is a program that has ended early, and its output tells
        scope.spawn(move || stdin.write_all(input));
        stdout.read_to_end(&mut told)
    })?;
    child.wait()?;
    Ok(told)
}

/// The number, from 1, of the first line in which two texts differ.
fn first_difference(a: &[u8], b: &[u8]) -> Option<usize> {
    if a == b {
        return None;
    }
    let same = a.iter().zip(b).take_while(|(a, b)| a == b).count();
    Some(1 + a[..same].iter().filter(|byte| **byte == b'\n').count())
}
