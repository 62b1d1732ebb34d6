//! A block template from a list that a person can read and edit: prints what was selected and what
//! was passed over, and draws the block's fee-size diagram.
//!
//!     template LIST [PICTURE]
//!
//! LIST is a file, or `-` for standard input; its form is in `pool.txt`, beside this file. PICTURE
//! is written as SVG. The tables go to standard output, everything else to standard error.

mod block;
mod list;
mod picture;
mod table;
#[cfg(test)]
mod tests;

use std::io::{Read, Write};
use std::process::ExitCode;
use std::{env, fs, io};

fn main() -> ExitCode {
    let words: Vec<String> = env::args().skip(1).collect();
    let done = match &words[..] {
        [list] => run(list, None),
        [list, picture] => run(list, Some(picture)),
        _ => Err("usage: template LIST [PICTURE]".into()),
    };
    match done {
        Ok(()) => ExitCode::SUCCESS,
        Err(message) => {
            eprintln!("{message}");
            ExitCode::FAILURE
        }
    }
}

fn run(list: &str, picture: Option<&String>) -> Result<(), String> {
    let name = if list == "-" { "standard input" } else { list };
    let bytes = read(list).map_err(|error| format!("{name}: {error}"))?;
    let (tables, svg) = answer(bytes).map_err(|wrong| format!("{name}:{wrong}"))?;
    let printed = io::stdout().write_all(tables.as_bytes());
    printed.map_err(|error| format!("standard output: {error}"))?;
    if let Some(path) = picture {
        fs::write(path, svg).map_err(|error| format!("{path}: {error}"))?;
        eprintln!("the diagram is in {path}");
    }
    Ok(())
}

fn read(list: &str) -> io::Result<Vec<u8>> {
    if list != "-" {
        return fs::read(list);
    }
    let mut bytes = vec![];
    io::stdin().read_to_end(&mut bytes)?;
    Ok(bytes)
}

/// The tables and the picture.
fn answer(bytes: Vec<u8>) -> Result<(String, String), list::Wrong> {
    let list = list::read(&list::text(bytes)?)?;
    let block = block::fill(&list)?;
    let tables = format!(
        "{}\n\n{}",
        table::summary(&list, &block),
        table::tables(&list, &block)
    );
    Ok((tables, picture::draw(&list, &block)))
}
