//! The block as text: what was selected, chunk by chunk, and what was passed over, with the reason.

use crate::block::{Block, Outcome};
use crate::list::{displayed, List};
use std::fmt::Write;

/// The first digits of a txid are enough for a person.
const DIGITS: usize = 12;

/// A number with its thousands apart.
pub fn grouped(number: i128) -> String {
    let digits = number.unsigned_abs().to_string();
    let mut text = String::new();
    for (place, digit) in digits.chars().enumerate() {
        if place > 0 && (digits.len() - place) % 3 == 0 {
            text.push(',');
        }
        text.push(digit);
    }
    if number < 0 {
        text.insert(0, '-');
    }
    text
}

/// The block in one sentence.
pub fn summary(list: &List, block: &Block) -> String {
    let each = || block.selected.iter().map(|&p| &list.transactions[p].entry);
    let taken = |outcome: &Outcome| matches!(outcome, Outcome::Taken(_));
    let chunks = block.chunks.iter().filter(|(_, outcome)| taken(outcome));
    format!(
        "{} of {} transactions in {} chunks, weight {} of {}, fees {} sat, sigop cost {} with reserve",
        block.selected.len(),
        list.transactions.len(),
        chunks.count(),
        grouped(each().map(|e| i128::from(e.weight)).sum()),
        grouped(list.terms.budget.into()),
        grouped(each().map(|e| i128::from(e.fee)).sum()),
        grouped(each().map(|e| i128::from(e.sigop_cost)).sum::<i128>() + i128::from(list.terms.reserve)),
    )
}

/// The columns that both tables have.
fn cells(list: &List, place: usize, chunk: usize, rate: i128) -> Vec<String> {
    let tx = &list.transactions[place];
    let cost = match tx.entry.sigop_cost {
        u64::MAX => "unknown".into(),
        cost => grouped(cost.into()),
    };
    vec![
        displayed(&tx.entry.txid)[..DIGITS].into(),
        grouped(tx.entry.fee.into()),
        grouped(tx.delta.into()),
        grouped(tx.entry.weight.into()),
        cost,
        chunk.to_string(),
        grouped(rate),
    ]
}

const HEADS: [&str; 7] = [
    "txid", "fee", "delta", "weight", "sigops", "chunk", "sat/kvB",
];

/// Both tables. Chunks have the numbers in whose order they were tried, from 1.
pub fn tables(list: &List, block: &Block) -> String {
    let mut selected = vec![];
    let mut passed = vec![];
    let mut out = block.selected.iter();
    for (number, (chunk, outcome)) in block.chunks.iter().enumerate() {
        match outcome {
            Outcome::Taken(length) => {
                for &place in out.by_ref().take(*length) {
                    selected.push(cells(list, place, number + 1, chunk.rate()));
                }
            }
            Outcome::Passed(reason) => {
                for &place in &chunk.members {
                    // brought by another chunk, it stands in the other table
                    if !block.selected.contains(&place) {
                        let mut row = cells(list, place, number + 1, chunk.rate());
                        row.push(reason.text().into());
                        passed.push(row);
                    }
                }
            }
        }
    }
    let mut text = String::from("selected, in the order of the block:\n\n");
    write_rows(&mut text, &HEADS, &selected);
    text.push_str("\npassed over:\n\n");
    write_rows(&mut text, &[&HEADS[..], &["why"]].concat(), &passed);
    text
}

/// Columns as wide as their widest cell, numbers to the right and words to the left.
fn write_rows(text: &mut String, heads: &[&str], rows: &[Vec<String>]) {
    let width = |column: usize| {
        let cells = rows.iter().map(|row| row[column].len());
        cells.chain([heads[column].len()]).max().unwrap_or(0)
    };
    let widths: Vec<usize> = (0..heads.len()).map(width).collect();
    let heads = heads.iter().map(|head| head.to_string()).collect();
    for row in [&heads].into_iter().chain(rows) {
        let mut line = String::new();
        for (column, cell) in row.iter().enumerate() {
            let wide = widths[column];
            let written = match column {
                0 | 7 => write!(line, "  {cell:<wide$}"),
                _ => write!(line, "  {cell:>wide$}"),
            };
            written.expect("a string takes all");
        }
        text.push_str(line.trim_end());
        text.push('\n');
    }
}
