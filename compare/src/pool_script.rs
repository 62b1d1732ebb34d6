//! A history of the pool program as it is made: the lines so far, and what the second reading answers to each.

use crate::history::Known;
use crate::pool::Call;
use crate::pool_program::{hex, show, Reply, Request, Session};
use crate::template::{chunks, fill, Chunk, Outcome};

#[derive(Default)]
pub struct Script {
    pub asked: Vec<u8>,
    pub told: String,
    pub session: Session,
    pub known: Known,
    pub tally: Tally,
}

/// What was answered.
#[derive(Clone, Copy, Default)]
pub struct Tally {
    pub lines: u64,
    /// By the answer's number.
    pub answers: [u64; 14],
    pub templates: u64,
    pub not_empty: u64,
    /// Templates in which a chunk brought ancestors that are not of it.
    pub brought: u64,
}

impl Tally {
    pub fn add(&mut self, other: &Tally) {
        self.lines += other.lines;
        for (sum, more) in self.answers.iter_mut().zip(other.answers) {
            *sum += more;
        }
        self.templates += other.templates;
        self.not_empty += other.not_empty;
        self.brought += other.brought;
    }

    pub fn show(&self) -> String {
        let answers: Vec<String> = (0..self.answers.len())
            .filter(|number| self.answers[*number] > 0)
            .map(|number| format!("{number}: {}", self.answers[number]))
            .collect();
        format!(
            "{} lines, answered {}; {} templates, {} not empty, {} with ancestors brought along",
            self.lines,
            answers.join(", "),
            self.templates,
            self.not_empty,
            self.brought
        )
    }
}

impl Script {
    /// A line, or several where the bytes hold a newline.
    pub fn line(&mut self, bytes: &[u8]) {
        for line in bytes.split(|byte| *byte == b'\n') {
            self.asked.extend([line, b"\n"].concat());
            self.take(line, true);
        }
    }

    pub fn say(&mut self, line: &str) {
        self.line(line.as_bytes());
    }

    /// What must be answered so.
    pub fn expect(&mut self, line: &str, told: &str) {
        let before = self.told.len();
        self.say(line);
        assert_eq!(&self.told[before..], format!("{told}\n"), "{line}");
    }

    /// The last line, without a newline.
    pub fn end(&mut self, line: &[u8]) {
        if !line.is_empty() && !line.contains(&b'\n') {
            self.asked.extend(line);
            self.take(line, false);
        }
    }

    fn take(&mut self, line: &[u8], newline: bool) {
        let (request, reply) = self.session.line(line, newline);
        self.told += &show(&reply);
        self.count(&request, &reply);
        if matches!(reply, Reply::Refused(_) | Reply::Malformed(_)) {
            return;
        }
        match request {
            Some(Request::Call(Call::Add(new))) => self.known.comes(new.txid),
            Some(Request::Call(Call::Remove(txid))) => self.known.goes(txid),
            Some(Request::Make(..) | Request::Call(Call::Clear)) => self.known.live.clear(),
            _ => {}
        }
    }

    fn count(&mut self, request: &Option<Request>, reply: &Reply) {
        let number = match reply {
            Reply::Refused(number) => *number,
            Reply::Malformed(_) => 13,
            _ => 0,
        };
        self.tally.lines += 1;
        self.tally.answers[number as usize] += 1;
        if let (Some(Request::Template(terms)), Reply::Selected(list)) = (request, reply) {
            self.tally.templates += 1;
            self.tally.not_empty += u64::from(!list.is_empty());
            self.tally.brought += u64::from(self.brings(*terms));
        }
    }

    fn brings(&self, terms: [u64; 3]) -> bool {
        let Some(pool) = &self.session.pool else {
            return false;
        };
        let asked = self.session.asked(terms);
        let chunks = chunks(pool, &asked);
        let (_, outcomes) = fill(pool, &asked, &chunks);
        let more = |(chunk, outcome): (&Chunk, &Outcome)| match outcome {
            Outcome::Taken(addition) => addition.iter().any(|txid| !chunk.members.contains(txid)),
            Outcome::Passed(_) => false,
        };
        chunks.iter().zip(&outcomes).any(more)
    }
}

/// The line that asks for something.
pub fn text(request: &Request) -> String {
    match request {
        Request::Make(slots, limits) => format!(
            "make {slots} {} {} {}",
            limits.count, limits.size, limits.bytes_per_sigop
        ),
        Request::Call(call) => text_of_call(call),
        Request::Delta(slot, sats) => format!("delta {slot} {sats}"),
        Request::Mark(slot, mark) => format!("mark {slot} {mark}"),
        Request::Template([budget, reserve, minimum]) => {
            format!("template {budget} {reserve} {minimum}")
        }
    }
}

pub fn text_of_call(call: &Call) -> String {
    match call {
        Call::Make(_) => unreachable!("the program's make has the slots too"),
        Call::Add(new) => {
            let mut words = vec![
                "add".to_string(),
                hex(&new.txid),
                new.fee.to_string(),
                new.weight.to_string(),
                new.cost.to_string(),
            ];
            let parents = new.parents.chunks(32);
            words.extend(parents.map(|bytes| hex(bytes.try_into().expect("whole 32s"))));
            words.join(" ")
        }
        Call::Remove(txid) => format!("remove {}", hex(txid)),
        Call::SetCost(txid, cost) => format!("set-cost {} {cost}", hex(txid)),
        Call::Clear => "clear".to_string(),
        Call::Totals => "totals".to_string(),
    }
}
