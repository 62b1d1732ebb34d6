//! The list: what a node knows of its transactions, what the operator set, and what the block has
//! left. A line is a word and what belongs to it; `#` starts a comment. See `pool.txt`.

use std::collections::HashMap;
use std::fmt;
use yaghrudil::{Entry, Limits, Pool, Refusal, Terms, Txid, DELTA_MAX, SLOTS_MAX};

/// A transaction of the list.
#[derive(Debug)]
pub struct Transaction {
    pub entry: Entry,
    /// Its parents as places in the list.
    pub parents: Vec<usize>,
    pub delta: i64,
    pub withheld: bool,
    /// The line on which it stands.
    pub line: usize,
}

#[derive(Debug)]
pub struct List {
    pub limits: Limits,
    pub terms: Terms,
    pub transactions: Vec<Transaction>,
}

/// What is wrong, and on which line.
#[derive(Debug, PartialEq, Eq)]
pub struct Wrong {
    pub line: usize,
    pub what: String,
}

impl Wrong {
    /// What the library refuses.
    pub fn refused(line: usize, call: &str, refusal: Refusal) -> Wrong {
        Wrong {
            line,
            what: format!("{call} refuses with {}: {refusal}", refusal.number()),
        }
    }
}

impl fmt::Display for Wrong {
    fn fmt(&self, f: &mut fmt::Formatter) -> fmt::Result {
        write!(f, "{}: {}", self.line, self.what)
    }
}

/// A line without its comment, in words.
struct Line<'t> {
    number: usize,
    words: Vec<&'t str>,
}

impl Line<'_> {
    fn wrong<T>(&self, what: impl Into<String>) -> Result<T, Wrong> {
        Err(Wrong {
            line: self.number,
            what: what.into(),
        })
    }

    /// The second word, which names a transaction.
    fn name(&self) -> Result<&str, Wrong> {
        match self.words.get(1) {
            Some(word) => Ok(word),
            None => self.wrong(format!("`{}` wants a txid", self.words[0])),
        }
    }

    /// The values of `key=value` words from a place on, each key at most once.
    fn values(&self, from: usize, keys: &[&str]) -> Result<HashMap<&str, &str>, Wrong> {
        let mut values = HashMap::new();
        for word in &self.words[from.min(self.words.len())..] {
            let Some((key, value)) = word.split_once('=') else {
                return self.wrong(format!("`{word}` is not of the form key=value"));
            };
            if !keys.contains(&key) {
                return self.wrong(format!("`{key}` is none of {}", keys.join(", ")));
            }
            if values.insert(key, value).is_some() {
                return self.wrong(format!("`{key}` stands twice"));
            }
        }
        Ok(values)
    }

    /// The number of a key, or what it is where the key is missing.
    fn number(
        &self,
        values: &HashMap<&str, &str>,
        key: &str,
        missing: Option<u64>,
    ) -> Result<u64, Wrong> {
        let Some(text) = values.get(key) else {
            return missing.map_or_else(|| self.wrong(format!("`{key}=` is missing")), Ok);
        };
        self.parsed(text, key)
    }

    fn parsed<T: std::str::FromStr>(&self, text: &str, key: &str) -> Result<T, Wrong> {
        text.parse()
            .or_else(|_| self.wrong(format!("`{text}` is no number that {key} can be")))
    }
}

/// The text of a file; where it is none, the line is named on which that shows.
pub fn text(bytes: Vec<u8>) -> Result<String, Wrong> {
    String::from_utf8(bytes).map_err(|error| {
        let good = &error.as_bytes()[..error.utf8_error().valid_up_to()];
        Wrong {
            line: 1 + good.iter().filter(|byte| **byte == b'\n').count(),
            what: "this line is not text (UTF-8)".into(),
        }
    })
}

/// Reads a list.
pub fn read(text: &str) -> Result<List, Wrong> {
    let lines = lines_of(text);
    let mut list = List {
        limits: Limits::default(),
        terms: Terms {
            budget: 3_992_000,
            reserve: 400,
            minimum: 1000,
        },
        transactions: vec![],
    };
    // Transactions first, since the other lines may name one that stands below.
    for line in lines.iter().filter(|line| line.words[0] == "tx") {
        read_transaction(line, &mut list)?;
    }
    let txids = list.transactions.iter().map(|tx| tx.entry.txid);
    let names: Vec<String> = txids.map(|txid| displayed(&txid)).collect();
    for line in &lines {
        match line.words[0] {
            "tx" => read_parents(line, &names, &mut list)?,
            "delta" => read_delta(line, &names, &mut list)?,
            "withhold" => read_withheld(line, &names, &mut list)?,
            "limits" => read_limits(line, &mut list)?,
            "block" => read_terms(line, &mut list.terms)?,
            word => {
                let known = "tx, delta, withhold, limits, block";
                return line.wrong(format!("`{word}` is none of {known}"));
            }
        }
    }
    Ok(list)
}

/// The lines that say something.
fn lines_of(text: &str) -> Vec<Line<'_>> {
    let mut lines = vec![];
    for (place, line) in text.lines().enumerate() {
        let said = line.split('#').next().unwrap_or("");
        let words: Vec<&str> = said.split_whitespace().collect();
        if !words.is_empty() {
            let number = place + 1;
            lines.push(Line { number, words });
        }
    }
    lines
}

fn read_transaction(line: &Line, list: &mut List) -> Result<(), Wrong> {
    let name = line.name()?;
    let Some(txid) = stored(name) else {
        return line.wrong(format!("`{name}` is not 64 hexadecimal digits"));
    };
    if list.transactions.len() == SLOTS_MAX {
        return line.wrong(format!("a pool has {SLOTS_MAX} transactions at most"));
    }
    let twin = list.transactions.iter().find(|t| t.entry.txid == txid);
    if let Some(twin) = twin {
        return line.wrong(format!("the txid stands on line {} already", twin.line));
    }
    let values = line.values(2, &["fee", "weight", "sigops", "depends"])?;
    list.transactions.push(Transaction {
        entry: Entry {
            txid,
            fee: line.number(&values, "fee", None)?,
            weight: line.number(&values, "weight", None)?,
            sigop_cost: line.number(&values, "sigops", None)?,
        },
        parents: vec![],
        delta: 0,
        withheld: false,
        line: line.number,
    });
    Ok(())
}

fn read_parents(line: &Line, names: &[String], list: &mut List) -> Result<(), Wrong> {
    let values = line.values(2, &["fee", "weight", "sigops", "depends"])?;
    let listed = values.get("depends").copied().unwrap_or("");
    let parents: Result<Vec<usize>, Wrong> = listed
        .split(',')
        .filter(|name| !name.is_empty())
        .map(|name| named(line, name, names))
        .collect();
    let own = named(line, line.name()?, names)?;
    list.transactions[own].parents = parents?;
    Ok(())
}

fn read_delta(line: &Line, names: &[String], list: &mut List) -> Result<(), Wrong> {
    let [_, name, text] = line.words[..] else {
        return line.wrong("`delta` wants a txid and a number of satoshi");
    };
    let tx = &mut list.transactions[named(line, name, names)?];
    let more: i64 = line.parsed(text, "a delta")?;
    // a node adds up what it is told of one transaction, too
    match tx.delta.checked_add(more) {
        Some(sum) if (-DELTA_MAX..=DELTA_MAX).contains(&sum) => tx.delta = sum,
        _ => return line.wrong(format!("a delta is at most {DELTA_MAX} either way")),
    }
    Ok(())
}

fn read_withheld(line: &Line, names: &[String], list: &mut List) -> Result<(), Wrong> {
    let [_, name] = line.words[..] else {
        return line.wrong("`withhold` wants a txid");
    };
    list.transactions[named(line, name, names)?].withheld = true;
    Ok(())
}

fn read_limits(line: &Line, list: &mut List) -> Result<(), Wrong> {
    let values = line.values(1, &["count", "size", "bytes-per-sigop"])?;
    let limits = &mut list.limits;
    limits.count = line.number(&values, "count", Some(limits.count))?;
    limits.size = line.number(&values, "size", Some(limits.size))?;
    let bytes = Some(limits.bytes_per_sigop);
    limits.bytes_per_sigop = line.number(&values, "bytes-per-sigop", bytes)?;
    // tried at once, so that of two such lines the wrong one is named
    let tried = Pool::new(1, *limits);
    tried.map_err(|refusal| Wrong::refused(line.number, "make", refusal))?;
    Ok(())
}

fn read_terms(line: &Line, terms: &mut Terms) -> Result<(), Wrong> {
    let values = line.values(1, &["budget", "reserve", "minimum"])?;
    terms.budget = line.number(&values, "budget", Some(terms.budget))?;
    terms.reserve = line.number(&values, "reserve", Some(terms.reserve))?;
    terms.minimum = line.number(&values, "minimum", Some(terms.minimum))?;
    Ok(())
}

/// The place of the transaction that a txid, or the start of one, names.
fn named(line: &Line, name: &str, names: &[String]) -> Result<usize, Wrong> {
    let start = name.to_ascii_lowercase();
    let mut places = (0..names.len()).filter(|&place| names[place].starts_with(&start));
    match (places.next(), places.next()) {
        (Some(place), None) if start.len() >= 4 => Ok(place),
        (Some(_), None) => line.wrong(format!("`{name}` is too short: four digits at least")),
        (Some(_), Some(_)) => line.wrong(format!("`{name}` starts more than one txid")),
        (None, _) => line.wrong(format!("`{name}` starts no txid of the list")),
    }
}

/// The stored bytes of a txid as nodes display it: its digits spell the bytes backwards.
fn stored(name: &str) -> Option<Txid> {
    if name.len() != 64 || !name.bytes().all(|digit| digit.is_ascii_hexdigit()) {
        return None;
    }
    let mut txid = [0; 32];
    for (place, byte) in txid.iter_mut().rev().enumerate() {
        *byte = u8::from_str_radix(&name[2 * place..2 * place + 2], 16).ok()?;
    }
    Some(txid)
}

/// A txid as nodes display it.
pub fn displayed(txid: &Txid) -> String {
    txid.iter()
        .rev()
        .map(|byte| format!("{byte:02x}"))
        .collect()
}
