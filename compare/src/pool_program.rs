//! A second reading of the pool program, from README's table of its form and from document 01: lines in, answers out.
//! What a call does to a pool is asked of pool.rs and template.rs; what a line means, what it answers and what becomes
//! of deltas and marks is written here anew.

use crate::pool::{Call, Limits, Newcomer, Pool, Txid};
use crate::template::{select, Asked};
use crate::texts::{fee, number, MALFORMED};

/// The most bytes before a line's newline.
pub const LONGEST: usize = 8_192;
/// No call is possible before a pool is made: the table has no word then.
const ILL_FORMED: u64 = 12;
const OUT_OF_RANGE: u64 = 3;

#[derive(Clone, Debug)]
pub enum Request {
    Make(u64, Limits),
    /// Every other call of module 8.
    Call(Call),
    Delta(u64, i64),
    /// Any number but 0 withholds.
    Mark(u64, u64),
    Template([u64; 3]),
}

#[derive(Clone, Debug)]
pub enum Reply {
    Done,
    Slot(u64),
    Totals(u64, u64),
    Selected(Vec<(usize, Txid)>),
    Refused(u64),
    /// With the line's number.
    Malformed(u64),
}

/// What a line asks for, or 13.
pub fn request(line: &[u8]) -> Result<Request, u64> {
    if line.len() > LONGEST {
        return Err(MALFORMED);
    }
    // "words with one space between them": a second space makes an empty word, which nothing takes
    let words: Vec<&[u8]> = line.split(|byte| *byte == b' ').collect();
    let (first, rest) = (words[0], &words[1..]);
    Ok(match (first, rest) {
        (b"make", [slots, count, size, bytes]) => {
            let limits = Limits {
                count: number(count)?,
                size: number(size)?,
                bytes_per_sigop: number(bytes)?,
            };
            Request::Make(number(slots)?, limits)
        }
        (b"add", [id, fee, weight, cost, parents @ ..]) => {
            let parents: Result<Vec<Txid>, u64> = parents.iter().map(|word| txid(word)).collect();
            Request::Call(Call::Add(Newcomer {
                txid: txid(id)?,
                fee: number(fee)?,
                weight: number(weight)?,
                cost: number(cost)?,
                parents: parents?.concat(),
            }))
        }
        (b"remove", [id]) => Request::Call(Call::Remove(txid(id)?)),
        (b"set-cost", [id, cost]) => Request::Call(Call::SetCost(txid(id)?, number(cost)?)),
        (b"clear", []) => Request::Call(Call::Clear),
        (b"totals", []) => Request::Call(Call::Totals),
        (b"delta", [slot, sats]) => Request::Delta(number(slot)?, fee(sats)?),
        (b"mark", [slot, mark]) => Request::Mark(number(slot)?, number(mark)?),
        (b"template", [budget, reserve, minimum]) => {
            Request::Template([number(budget)?, number(reserve)?, number(minimum)?])
        }
        _ => return Err(MALFORMED),
    })
}

/// "64 lower-case hex digits of the stored bytes"
fn txid(word: &[u8]) -> Result<Txid, u64> {
    const DIGITS: &[u8] = b"0123456789abcdef";
    let value = |byte: &u8| DIGITS.iter().position(|digit| digit == byte);
    let digits: Vec<usize> = word
        .iter()
        .map(value)
        .collect::<Option<_>>()
        .ok_or(MALFORMED)?;
    let bytes: Vec<u8> = digits
        .chunks(2)
        .map(|pair| pair.iter().fold(0, |byte, digit| 16 * byte + *digit as u8))
        .collect();
    if digits.len() != 64 {
        return Err(MALFORMED);
    }
    bytes.try_into().map_err(|_| MALFORMED)
}

pub fn hex(txid: &Txid) -> String {
    txid.iter().map(|byte| format!("{byte:02x}")).collect()
}

/// What stands between two lines.
#[derive(Default)]
pub struct Session {
    /// None before the first make that succeeds.
    pub pool: Option<Pool>,
    /// By slot, as many as the pool has slots.
    pub deltas: Vec<i64>,
    pub marks: Vec<u8>,
    lines: u64,
}

impl Session {
    /// One line without its newline; the last one may have none.
    pub fn line(&mut self, line: &[u8], newline: bool) -> (Option<Request>, Reply) {
        self.lines += 1;
        match request(line) {
            Ok(request) if newline => {
                let reply = self.perform(&request).unwrap_or_else(Reply::Refused);
                (Some(request), reply)
            }
            _ => (None, Reply::Malformed(self.lines)),
        }
    }

    fn perform(&mut self, request: &Request) -> Result<Reply, u64> {
        if let Request::Make(slots, limits) = request {
            return self.make(*slots, *limits);
        }
        let pool = self.pool.as_mut().ok_or(ILL_FORMED)?;
        match request {
            Request::Make(..) => unreachable!("done above"),
            Request::Call(call) => {
                let [first, second] = pool.perform(call)?;
                match call {
                    Call::Totals => return Ok(Reply::Totals(first, second)),
                    Call::Clear => {
                        self.deltas.fill(0);
                        self.marks.fill(0);
                        return Ok(Reply::Done);
                    }
                    Call::Add(_) | Call::Remove(_) => {
                        self.deltas[first as usize] = 0;
                        self.marks[first as usize] = 0;
                    }
                    Call::SetCost(..) | Call::Make(_) => {}
                }
                Ok(Reply::Slot(first))
            }
            Request::Delta(slot, sats) => {
                *at(&mut self.deltas, *slot)? = *sats;
                Ok(Reply::Done)
            }
            Request::Mark(slot, mark) => {
                *at(&mut self.marks, *slot)? = u8::from(*mark != 0);
                Ok(Reply::Done)
            }
            Request::Template(terms) => self.template(*terms),
        }
    }

    fn make(&mut self, slots: u64, limits: Limits) -> Result<Reply, u64> {
        let slots = usize::try_from(slots).map_err(|_| OUT_OF_RANGE)?;
        let pool = Pool::new(slots, limits).ok_or(OUT_OF_RANGE)?;
        self.pool = Some(pool);
        self.deltas = vec![0; slots];
        self.marks = vec![0; slots];
        Ok(Reply::Done)
    }

    /// What a template is asked with now.
    pub fn asked(&self, [budget, reserve, minimum]: [u64; 3]) -> Asked {
        Asked {
            deltas: self.deltas.clone(),
            marks: self.marks.clone(),
            budget,
            reserve,
            minimum,
        }
    }

    fn template(&self, terms: [u64; 3]) -> Result<Reply, u64> {
        let pool = self.pool.as_ref().ok_or(ILL_FORMED)?;
        let slots = select(pool, &self.asked(terms), pool.slots)?;
        let named = |slot: usize| {
            let mut entries = pool.entries.iter();
            let (txid, _) = entries
                .find(|(_, entry)| entry.slot == slot)
                .expect("selected");
            (slot, *txid)
        };
        Ok(Reply::Selected(slots.into_iter().map(named).collect()))
    }
}

/// The setting of a slot; one that the pool has not is out of range.
fn at<T>(settings: &mut [T], slot: u64) -> Result<&mut T, u64> {
    let slot = usize::try_from(slot).map_err(|_| OUT_OF_RANGE)?;
    settings.get_mut(slot).ok_or(OUT_OF_RANGE)
}

/// What is printed for a reply.
pub fn show(reply: &Reply) -> String {
    match reply {
        Reply::Done => "0\n".to_string(),
        Reply::Slot(slot) => format!("0 slot={slot}\n"),
        Reply::Totals(entries, weight) => format!("0 entries={entries} weight={weight}\n"),
        Reply::Selected(list) => {
            let slots: Vec<String> = list.iter().map(|(slot, _)| slot.to_string()).collect();
            let txids: Vec<String> = list.iter().map(|(_, txid)| hex(txid)).collect();
            format!(
                "0 selected={}\ntxids={}\n",
                slots.join(","),
                txids.join(",")
            )
        }
        Reply::Refused(number) => format!("{number}\n"),
        Reply::Malformed(line) => format!("{MALFORMED} line={line}\n"),
    }
}

/// What the program prints for an input.
pub fn respond(input: &[u8]) -> String {
    let mut session = Session::default();
    let mut told = String::new();
    for line in input.split_inclusive(|byte| *byte == b'\n') {
        let (text, newline) = match line.strip_suffix(b"\n") {
            Some(text) => (text, true),
            None => (line, false),
        };
        told += &show(&session.line(text, newline).1);
    }
    told
}

#[cfg(test)]
mod tests {
    use super::*;
    use std::path::Path;

    const A: &str = "00112233445566778899aabbccddeeff00112233445566778899aabbccddeeff";
    const B: &str = "ffeeddccbbaa99887766554433221100ffeeddccbbaa99887766554433221100";

    fn told(lines: &[&str]) -> String {
        respond((lines.join("\n") + "\n").as_bytes())
    }

    #[test]
    fn stored_runs_of_the_program() {
        for name in ["pool", "run_pool_history"] {
            let crates = Path::new(env!("CARGO_MANIFEST_DIR")).join("../crates");
            let stored = |file| std::fs::read(crates.join(name).join(file)).expect("a stored run");
            assert!(
                respond(&stored("stdin")).into_bytes() == stored("stdout"),
                "{name}"
            );
        }
    }

    #[test]
    fn a_line_a_call() {
        let lines = [
            "totals",
            "make 3 64 101000 20",
            &format!("add {B} 100 400 0"),
            &format!("add {A} 300 400 0 {B}"),
            "template 800 0 0",
            "delta 0 300",
            "mark 1 256",
            "template 800 0 0",
            &format!("set-cost {B} 80001"),
            "template 800 0 0",
            &format!("remove {B}"),
            "totals",
            "clear",
            "totals",
        ];
        let answers = [
            "12".to_string(),
            "0".to_string(),
            "0 slot=0".to_string(),
            "0 slot=1".to_string(),
            format!("0 selected=0,1\ntxids={B},{A}"),
            "0".to_string(),
            "0".to_string(),
            format!("0 selected=0\ntxids={B}"),
            "0 slot=0".to_string(),
            "0 selected=\ntxids=".to_string(),
            "0 slot=0".to_string(),
            "0 entries=1 weight=400".to_string(),
            "0".to_string(),
            "0 entries=0 weight=0".to_string(),
        ];
        assert_eq!(told(&lines), answers.join("\n") + "\n");
    }

    #[test]
    fn not_of_the_form() {
        let upper = B.to_uppercase();
        let short = &A[..63];
        for line in [
            "",
            " totals",
            "totals ",
            "totals\r",
            "totals 0",
            "Totals",
            "make 3 64 101000",
            "make 3 64 101000 20 0",
            "make +3 64 101000 20",
            "make 03 64 101000 20",
            "make 3  64 101000 20",
            "make 18446744073709551616 64 101000 20",
            "delta 0 -0",
            "delta 0 9223372036854775808",
            "mark 0 -1",
            &format!("add {A} -1 400 0"),
            &format!("add {short} 1 400 0"),
            &format!("add {A}0 1 400 0"),
            &format!("add {upper} 1 400 0"),
            &format!("add {A} 1 400 0 "),
            &format!("add {A} 1 400 0{}", format!(" {B}").repeat(125)),
        ] {
            assert_eq!(
                respond(format!("{line}\n").as_bytes()),
                "13 line=1\n",
                "{line}"
            );
        }
        let parents = format!(" {B}").repeat(124);
        let most = format!("add {A} 1 400 0{parents}");
        assert_eq!(told(&["make 1 64 101000 20", &most]), "0\n0 slot=0\n");
    }

    #[test]
    fn ends_of_an_input() {
        assert_eq!(respond(b""), "");
        assert_eq!(respond(b"\n"), "13 line=1\n");
        assert_eq!(respond(b"totals"), "13 line=1\n");
        assert_eq!(respond(b"totals\ntotals"), "12\n13 line=2\n");
        let long = [vec![b'x'; LONGEST + 1], b"\ntotals\n".to_vec()].concat();
        assert_eq!(respond(&long), "13 line=1\n12\n");
    }
}
