//! Histories of the pool program, line by line, with the answers of the second reading: a long one that the gate runs
//! without Rust (crates/run_pool_history), and random ones that are run beside a built program.

use crate::history::{budget, minimum, random_txid, reserve, Known, Numbers, Plan};
use crate::pool::{Limits, Pool, Txid, MOST_FEE};
use crate::pool_program::{hex, Request, Session, LONGEST};
use crate::pool_script::{text, text_of_call, Script};
use crate::rng::Rng;
use crate::template::chunks;
use std::path::Path;

const SEED: u64 = 600;
/// What an add of short numbers has in a line of the most bytes.
const MOST_PARENTS: usize = 124;
/// Of each of its pools.
const CALLS: usize = 1_100;

// ---- random lines

/// A pool of which random calls are made.
struct Course {
    plan: Plan,
    /// One in so many lines is a bulky one; 0 for none.
    bulky: u64,
}

impl Course {
    fn any(rng: &mut Rng) -> Course {
        let plan = Plan::any(rng);
        Course { plan, bulky: 400 }
    }

    fn start(&self, script: &mut Script) {
        let make = Request::Make(self.plan.slots as u64, self.plan.limits);
        script.say(&text(&make));
    }

    /// Adds, until the pool is as full as the plan wants it.
    fn grow(&self, script: &mut Script, rng: &mut Rng) {
        let mut calls = 0;
        while !self.plan.is_grown(script.known.live.len(), calls) {
            let call = self.plan.growth(&script.known, rng);
            script.say(&text_of_call(&call));
            calls += 1;
        }
    }

    fn step(&self, script: &mut Script, rng: &mut Rng) {
        if let Some(line) = mended(&script.session, rng) {
            script.say(&line);
        }
        if self.bulky != 0 && rng.one_in(self.bulky) {
            return script.line(&bulky(&script.known, rng));
        }
        let right = self.right(script, rng);
        if rng.one_in(9) {
            return script.line(&broken(&right, rng));
        }
        script.say(&right);
    }

    /// A line of the form.
    fn right(&self, script: &Script, rng: &mut Rng) -> String {
        let session = &script.session;
        let Some(pool) = &session.pool else {
            return "totals".to_string();
        };
        let kind = rng.below(100);
        let request = match kind {
            0..=11 => delta(pool, &script.known, rng),
            12..=18 => {
                let mark = rng.pick(&[0, 0, 1, 1, 2, 255, 256, 1 << 32, u64::MAX]);
                Request::Mark(slot(pool, &script.known, rng), mark)
            }
            19..=33 => Request::Template(terms(session, pool, rng)),
            34 => Request::Make(slots_out_of_range(rng), pool.limits),
            35 => Request::Make(pool.slots as u64, limits_out_of_range(rng)),
            _ => Request::Call(self.plan.call(&script.known, rng)),
        };
        text(&request)
    }
}

fn slots_out_of_range(rng: &mut Rng) -> u64 {
    rng.pick(&[0, 1_025, 1 << 32, 1 << 58, u64::MAX])
}

fn limits_out_of_range(rng: &mut Rng) -> Limits {
    let (count, size) = rng.pick(&[(0, 1), (65, 1), (1, 0), (1, 101_001), (u64::MAX, 1)]);
    Limits {
        count,
        size,
        bytes_per_sigop: rng.word(),
    }
}

/// A slot, which mostly is in use.
fn slot(pool: &Pool, known: &Known, rng: &mut Rng) -> u64 {
    let slots = pool.slots as u64;
    if rng.one_in(20) {
        return rng.pick(&[slots, slots + 1, 1_024, u64::MAX, 1 << 32]);
    }
    if known.live.is_empty() || rng.one_in(6) {
        return rng.below(slots);
    }
    let txid = known.live[rng.index(known.live.len())];
    pool.entries[&txid].slot as u64
}

fn delta(pool: &Pool, known: &Known, rng: &mut Rng) -> Request {
    let slot = slot(pool, known, rng);
    let mut entries = pool.entries.values();
    let held = entries.find(|entry| entry.slot as u64 == slot);
    let fee = held.map_or(1_000, |entry| entry.fee) as i64;
    let most = MOST_FEE as i64;
    let sats = match rng.below(24) {
        0 => rng.pick(&[most, -most]),
        1 => rng.pick(&[most + 1, -most - 1, i64::MAX, i64::MIN, -i64::MAX]),
        2..=4 => rng.pick(&[1, -1]),
        5..=7 => -fee.min(most - 1) - 1,
        8..=11 => 0,
        _ => rng.between(-fee, fee.min(most - 1) + 1),
    };
    Request::Delta(slot, sats)
}

/// Now and then what would leave every template empty, or refused, is set back.
fn mended(session: &Session, rng: &mut Rng) -> Option<String> {
    let pool = session.pool.as_ref()?;
    let mut far = pool.entries.values().map(|entry| entry.slot);
    let far = far.find(|slot| session.deltas[*slot].unsigned_abs() > MOST_FEE);
    if let Some(slot) = far.filter(|_| rng.one_in(4)) {
        return Some(format!("delta {slot} 0"));
    }
    let marked: Vec<usize> = (0..pool.slots)
        .filter(|slot| session.marks[*slot] != 0)
        .collect();
    if marked.len() * 6 <= pool.entries.len() + 6 {
        return None;
    }
    Some(format!("mark {} 0", rng.pick(&marked)))
}

fn terms(session: &Session, pool: &Pool, rng: &mut Rng) -> [u64; 3] {
    let mut terms = [budget(pool, rng), reserve(pool, rng), 0];
    let far = |slot: usize| session.deltas[slot].unsigned_abs() > MOST_FEE;
    let refused = pool.entries.values().any(|entry| far(entry.slot));
    if rng.one_in(2) && !refused {
        terms[2] = minimum(&chunks(pool, &session.asked(terms)), rng);
    }
    terms
}

// ---- lines that are not of the form, most of them

/// A right line changed in one way; a few are right still, and mean something else.
fn broken(right: &str, rng: &mut Rng) -> Vec<u8> {
    let mut words: Vec<String> = right.split(' ').map(str::to_string).collect();
    let at = rng.index(words.len());
    let word = words[at].clone();
    match rng.below(20) {
        0 => words[at].insert(0, '+'),
        1 => words[at].insert(0, '0'),
        2 => words[at].make_ascii_uppercase(),
        3 => words.insert(at, String::new()),
        4 => words.push(String::new()),
        5 => words.push("\r".to_string()),
        6 => words[at].push(rng.pick(&['\r', '\0', '\t', '.', ',', '0', 'f', 'g', '\u{a0}'])),
        7 => drop(words.remove(at)),
        8 => words.insert(at, word),
        9 => words[at] = past_a_word(rng),
        10 => drop(words[at].pop()),
        11 => words[at].insert(0, '-'),
        12 => words[at] = odd_number(rng).to_string(),
        13 => words[0] = wrong_word(rng).to_string(),
        14 => {
            return right
                .replace(' ', rng.pick(&["\t", "  ", ",", "", "="]))
                .into()
        }
        15 => return bytes(rng),
        16 | 17 => return one_byte(right.as_bytes(), rng),
        18 => words = vec![String::new()],
        _ => words[at] = format!("\"{word}\""),
    }
    words.join(" ").into_bytes()
}

/// A number that no u64 holds.
fn past_a_word(rng: &mut Rng) -> String {
    let nines = "9".repeat(20 + rng.index(60));
    let least = "18446744073709551616".to_string();
    let wrapped = (u128::from(u64::MAX) + 2 + u128::from(rng.below(5_000))).to_string();
    rng.pick(&[&nines, &least, &wrapped]).to_string()
}

fn odd_number(rng: &mut Rng) -> &'static str {
    rng.pick(&[
        "-0",
        "-",
        "--1",
        "0x1f",
        "1e3",
        "1_000",
        "1,000",
        "1.0",
        "00",
        "\u{663}",
        "9223372036854775808",
        "-9223372036854775809",
        "-9223372036854775808",
        "4294967296",
    ])
}

fn wrong_word(rng: &mut Rng) -> &'static str {
    rng.pick(&[
        "Totals",
        "total",
        "totalss",
        "addd",
        "ad",
        "set_cost",
        "setcost",
        "set-cost ",
        "mine",
        "makes",
        "CLEAR",
        "#",
        "remove\0",
        "templat",
        "deltas",
        "marks",
        "\u{feff}make",
    ])
}

fn bytes(rng: &mut Rng) -> Vec<u8> {
    let length = rng.index(80);
    (0..length).map(|_| rng.below(256) as u8).collect()
}

/// A byte changed, taken out or put in.
fn one_byte(right: &[u8], rng: &mut Rng) -> Vec<u8> {
    let mut bytes = right.to_vec();
    let at = rng.index(bytes.len());
    let byte = rng.below(256) as u8;
    match rng.below(4) {
        0 => bytes[at] = byte,
        1 => bytes[at] ^= 1 << rng.below(8),
        2 => drop(bytes.remove(at)),
        _ => bytes.insert(at, byte),
    }
    bytes
}

/// An add with as many parents as a line takes, or one more; a line at the limit of its bytes or past it, which ends like a
/// right one.
fn bulky(known: &Known, rng: &mut Rng) -> Vec<u8> {
    if rng.one_in(2) {
        let count = rng.pick(&[64, 65, MOST_PARENTS, MOST_PARENTS + 1]);
        let parents: Vec<Txid> = (0..count).map(|_| known.any(rng)).collect();
        return of_many_parents(random_txid(rng), 400, &parents).into_bytes();
    }
    let length = rng.pick(&[LONGEST, LONGEST + 1, LONGEST + 1, 2 * LONGEST, 20_000]);
    ends_like_right(length, rng.pick(&[b'x', b' ', b'0', 0, 255]))
}

fn of_many_parents(own: Txid, number: u64, parents: &[Txid]) -> String {
    let words: Vec<String> = parents.iter().map(hex).collect();
    let own = hex(&own);
    format!("add {own} {number} {number} {number} {}", words.join(" "))
}

/// So many bytes, behind which a line stands that is right by itself.
fn ends_like_right(length: usize, byte: u8) -> Vec<u8> {
    let tail = b"clear";
    let mut line = vec![byte; length];
    line.extend(tail);
    line
}

// ---- the history of the gate

/// Each call before a pool is made, and makings that are refused.
fn before(script: &mut Script) {
    let id = "ab".repeat(32);
    let calls = [
        "totals".to_string(),
        "clear".to_string(),
        format!("add {id} 1000 400 4"),
        format!("add {id} 0 0 0 {id}"),
        format!("remove {id}"),
        format!("set-cost {id} 5"),
        "delta 0 5".to_string(),
        "mark 0 1".to_string(),
        "template 4000000 400 1000".to_string(),
    ];
    let refused = [
        "make 0 64 101000 20",
        "make 1025 64 101000 20",
        "make 18446744073709551615 64 101000 20",
        "make 8 0 101000 20",
        "make 8 65 101000 20",
        "make 8 64 0 20",
        "make 8 64 101001 20",
    ];
    for call in &calls {
        script.expect(call, "12");
    }
    for line in refused {
        script.expect(line, "3");
    }
    for call in &calls {
        script.expect(call, "12");
    }
}

/// What a delta and a mark outlive, and what wipes them.
fn settings(script: &mut Script) {
    let [a, b] = ["0a".repeat(32), "0b".repeat(32)];
    let none = "0 selected=\ntxids=";
    let both = format!("0 selected=1,0\ntxids={b},{a}");
    let ask = "template 4000000 400 0";
    script.expect("make 4 64 101000 20", "0");
    script.expect(ask, none);
    script.expect(&format!("add {a} 1000 400 4"), "0 slot=0");
    script.expect(&format!("add {b} 500 400 4"), "0 slot=1");
    script.expect("delta 1 600", "0");
    script.expect(ask, &both);
    // they stand through what is refused, a making too, and through a cost that is set
    script.expect("make 1025 64 101000 20", "3");
    script.expect("delta 4 1", "3");
    script.expect("mark 4 1", "3");
    script.expect(&format!("add {a} 1000 400 4"), "6");
    script.expect(&format!("remove {}", "0c".repeat(32)), "10");
    script.expect(&format!("set-cost {b} 5"), "0 slot=1");
    script.expect(ask, &both);
    // a removed slot's are gone, and one that is set while the slot is free goes with the add that takes it
    script.expect(&format!("remove {b}"), "0 slot=1");
    script.expect("mark 1 7", "0");
    script.expect("delta 1 9223372036854775807", "0");
    script.expect(ask, &format!("0 selected=0\ntxids={a}"));
    script.expect(&format!("add {b} 500 400 4"), "0 slot=1");
    script.expect(ask, &format!("0 selected=0,1\ntxids={a},{b}"));
    // a delta out of its range is the template's refusal, as long as the slot is in use
    script.expect("delta 1 2100000000000001", "0");
    script.expect(ask, "3");
    script.expect("delta 1 2100000000000000", "0");
    script.expect(ask, &both);
    script.expect("delta 1 -501", "0");
    script.expect(ask, &format!("0 selected=0\ntxids={a}"));
    script.expect("mark 0 256", "0");
    script.expect(ask, none);
    script.expect("mark 0 0", "0");
    script.expect("clear", "0");
    script.expect("totals", "0 entries=0 weight=0");
    script.expect(&format!("add {a} 1000 400 4"), "0 slot=0");
    script.expect(&format!("add {b} 500 400 4"), "0 slot=1");
    script.expect(ask, &format!("0 selected=0,1\ntxids={a},{b}"));
    script.expect("totals", "0 entries=2 weight=800");
}

/// The most parents and one more; lines of the most bytes, of one more and of many more.
fn long_lines(script: &mut Script) {
    let id = |n: usize| [n as u8; 32];
    let parents: Vec<Txid> = (1..=MOST_PARENTS + 1).map(id).collect();
    script.expect("make 6 64 101000 20", "0");
    for parent in &parents[..2] {
        script.say(&format!("add {} 900 400 4", hex(parent)));
    }
    let most = &parents[..MOST_PARENTS];
    for (own, number, parents, told) in [
        (201, 400, &parents[..], "13 line="),
        (202, 400, &parents[1..], "0 slot=2"),
        (203, 400, &parents[..65], "0 slot=3"),
        (204, 400, &parents[..64], "0 slot=4"),
        // the longest line that is right: a byte less than a line may have
        (205, u64::MAX, most, "3"),
    ] {
        let before = script.told.len();
        script.say(&of_many_parents(id(own), number, parents));
        assert!(script.told[before..].starts_with(told), "{own}");
    }
    script.say("template 4000000 400 1000");
    for (length, byte) in [
        (LONGEST - 5, b' '),
        (LONGEST - 4, b'0'),
        (LONGEST, b'x'),
        (2 * LONGEST, 0),
    ] {
        script.line(&ends_like_right(length, byte));
        script.say("totals");
    }
}

/// Every way to break a line, on lines of every kind.
fn broken_lines(script: &mut Script, rng: &mut Rng) {
    let id = "0a".repeat(32);
    let rights = [
        "make 2 64 101000 20".to_string(),
        format!("add {} 1000 400 4 {id}", "0d".repeat(32)),
        format!("remove {id}"),
        format!("set-cost {id} 5"),
        "clear".to_string(),
        "totals".to_string(),
        "delta 1 -500".to_string(),
        "mark 1 1".to_string(),
        "template 4000000 400 1000".to_string(),
    ];
    for right in &rights {
        for _ in 0..40 {
            script.line(&broken(right, rng));
        }
    }
}

fn long_history() -> Script {
    let mut rng = Rng::new(SEED);
    let mut script = Script::default();
    before(&mut script);
    settings(&mut script);
    broken_lines(&mut script, &mut rng);
    long_lines(&mut script);
    for (slots, count, size, numbers) in [
        (20, 6, 2_500, Numbers::Sigops),
        (36, 64, 101_000, Numbers::Spread),
        (24, 25, 101_000, Numbers::EqualRates),
    ] {
        let limits = Limits {
            count,
            size,
            bytes_per_sigop: 20,
        };
        let plan = Plan::of(slots, limits, numbers, 3);
        let course = Course { plan, bulky: 0 };
        course.start(&mut script);
        for _ in 0..CALLS {
            course.step(&mut script, &mut rng);
        }
        script.say("totals");
    }
    script.end(b"totals");
    script
}

pub fn write(folder: &Path) -> Result<(), String> {
    let script = long_history();
    for number in [0, 3, 6, 7, 8, 9, 10, 12, 13] {
        assert!(script.tally.answers[number] > 0, "no answer {number}");
    }
    println!("{}, seed {SEED}", script.tally.show());
    println!(
        "{} bytes in, {} bytes out",
        script.asked.len(),
        script.told.len()
    );
    let write = |name, text: &[u8]| std::fs::write(folder.join(name), text);
    write("stdin", &script.asked)
        .and_then(|()| write("stdout", script.told.as_bytes()))
        .map_err(|error| format!("{}: {error}", folder.display()))
}

/// A history from a seed: some pools, one after the other.
pub fn random(seed: u64) -> Script {
    let mut rng = Rng::new(seed);
    let mut script = Script::default();
    if rng.one_in(4) {
        before(&mut script);
    }
    for _ in 0..1 + rng.below(3) {
        let course = Course::any(&mut rng);
        course.start(&mut script);
        course.grow(&mut script, &mut rng);
        for _ in 0..20 + rng.below(400) {
            course.step(&mut script, &mut rng);
        }
    }
    if rng.one_in(3) {
        let last = broken("totals", &mut rng);
        script.end(&last);
    }
    script
}
