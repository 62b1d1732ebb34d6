//! A pool and what a template is asked with, for a reader: entries by txid as (fee, weight; parents), with all else
//! that is not 0.

use crate::pool::{Entry, Pool, Txid};
use crate::template::Asked;

/// With the numbers beside the entries.
pub fn sketch(pool: &Pool, asked: Option<&Asked>) -> String {
    let mut text = format!("  {}\n  {:?}", entries(pool, asked), pool.limits);
    if let Some(asked) = asked {
        text += &format!(
            ", budget {}, reserve {}, minimum {}",
            asked.budget, asked.reserve, asked.minimum
        );
    }
    text
}

pub fn entries(pool: &Pool, asked: Option<&Asked>) -> String {
    let txids: Vec<Txid> = pool.entries.keys().copied().collect();
    let member = |entry| member(entry, &txids, asked);
    let members: Vec<String> = pool.entries.values().map(member).collect();
    members.join(", ")
}

fn member(entry: &Entry, txids: &[Txid], asked: Option<&Asked>) -> String {
    let mut text = format!("({},{}", entry.fee, entry.weight);
    let parents = (0..txids.len()).filter(|&p| entry.parents.contains(&txids[p]));
    for (k, parent) in parents.enumerate() {
        text += &format!("{}{parent}", if k == 0 { ";" } else { "," });
    }
    text += ")";
    let delta = asked.map_or(0, |asked| asked.deltas[entry.slot]);
    let mark = asked.map_or(0, |asked| i64::from(asked.marks[entry.slot]));
    let slot = entry.slot as i64;
    for (name, number) in [("slot", slot), ("delta", delta), ("mark", mark)] {
        if number != 0 {
            text += &format!(" {name} {number}");
        }
    }
    if entry.cost != 0 {
        text += &format!(" cost {}", entry.cost);
    }
    text
}
