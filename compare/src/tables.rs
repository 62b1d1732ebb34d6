//! Damaged tables: words of a valid table changed at random, and each call of the library on it held against the second
//! reading. Where that finds no pool in the table every call has to answer 12 and to leave all lent memory; where it
//! does the change was legal, and every call has to answer, and to leave the table, as on that pool.

use crate::history::{asked, Known, Plan};
use crate::library;
use crate::ours::{check_template, read_template};
use crate::pool::{words, Call, Pool, CHILDREN, HEADER, MOST_FEE, PARENTS, ROW};
use crate::rng::Rng;
use crate::template::Asked;
use std::collections::BTreeMap;
use std::fmt;
use std::time::Instant;

pub const SEED: u64 = 12;
pub const TABLES: u64 = 1_000_000;

/// So many damaged tables come from one valid one.
const EACH: u64 = 40;

/// Damages so many tables by one word, and a quarter as many by words that go together, and prints what was answered,
/// or stops with the first difference.
pub fn run(seed: u64, tables: u64) -> Result<(), String> {
    println!("seed {seed}");
    let start = Instant::now();
    let mut rng = Rng::new(seed);
    let mut tally = Tally::default();
    while tally.changed(Kind::is_one_word) < tables {
        let valid = Valid::any(&mut rng);
        for number in 0..EACH {
            let kinds: &[Kind] = match number % 5 {
                4 => &Kind::TOGETHER,
                _ => &Kind::ONE_WORD,
            };
            valid.check_damaged(kinds, &mut rng, &mut tally)?;
        }
        tally.valid += 1;
        tally.most_slots = tally.most_slots.max(valid.pool.slots);
    }
    println!("{tally}");
    println!("no difference, in {:.0} s", start.elapsed().as_secs_f64());
    Ok(())
}

/// What is changed.
#[derive(Clone, Copy, Debug, PartialEq, Eq, PartialOrd, Ord)]
enum Kind {
    /// Any word of the table.
    Any,
    CountLimit,
    SizeLimit,
    BytesPerSigop,
    Total,
    Txid,
    Fee,
    Weight,
    Cost,
    Parents,
    Children,
    FreeSlot,
    /// A link at both of its ends, which comes or goes.
    Link,
    /// A weight and the total.
    WeightAndTotal,
    /// A txid, which is another entry's then. One word of it hardly ever makes two the same.
    Twin,
}

impl Kind {
    const ONE_WORD: [Kind; 12] = [
        Kind::Any,
        Kind::CountLimit,
        Kind::SizeLimit,
        Kind::BytesPerSigop,
        Kind::Total,
        Kind::Txid,
        Kind::Fee,
        Kind::Weight,
        Kind::Cost,
        Kind::Parents,
        Kind::Children,
        Kind::FreeSlot,
    ];
    const TOGETHER: [Kind; 4] = [Kind::Link, Kind::Link, Kind::WeightAndTotal, Kind::Twin];

    fn is_one_word(self) -> bool {
        Kind::ONE_WORD.contains(&self)
    }
}

/// A pool that stands, its table, and what is asked of its damaged tables.
struct Valid {
    plan: Plan,
    pool: Pool,
    table: Vec<u64>,
    known: Known,
    taken: Vec<usize>,
    free: Vec<usize>,
    asked: Asked,
}

impl Valid {
    fn any(rng: &mut Rng) -> Valid {
        let plan = Plan::any(rng);
        let mut pool = Pool::new(plan.slots, plan.limits).expect("numbers in their ranges");
        let mut known = Known::default();
        let mut calls = 0;
        while !plan.is_grown(known.live.len(), calls) {
            calls += 1;
            let call = plan.growth(&known, rng);
            make_call(&mut pool, &mut known, &call);
        }
        for _ in 0..rng.below(8) {
            let call = plan.call(&known, rng);
            make_call(&mut pool, &mut known, &call);
        }
        let mut table = vec![0; words(pool.slots)];
        pool.write(&mut table);
        let taken: Vec<usize> = pool.entries.values().map(|entry| entry.slot).collect();
        let free = (0..pool.slots)
            .filter(|slot| !taken.contains(slot))
            .collect();
        Valid {
            asked: asked(&pool, rng),
            plan,
            pool,
            table,
            known,
            taken,
            free,
        }
    }

    fn check_damaged(
        &self,
        kinds: &[Kind],
        rng: &mut Rng,
        tally: &mut Tally,
    ) -> Result<(), String> {
        let kind = rng.pick(kinds);
        let Some(table) = self.damaged(kind, rng) else {
            return Ok(());
        };
        let found = Pool::read(&table);
        let count = tally.kinds.entry(kind).or_default();
        count.all += 1;
        count.legal += u64::from(found.is_some());
        let calls = [
            self.plan.growth(&self.known, rng),
            Call::Remove(self.known.any(rng)),
            Call::SetCost(self.known.any(rng), rng.below(100)),
            Call::Clear,
            Call::Totals,
        ];
        let told = |text: String| {
            let at = (0..table.len()).filter(|&at| table[at] != self.table[at]);
            let changed: Vec<_> = at.map(|at| (at, self.table[at], table[at])).collect();
            format!("a difference: {text}\n  {kind:?}, words (place, before, then) {changed:?}\n  of {:?}", self.pool)
        };
        for call in &calls {
            let number = check_call(&table, found.as_ref(), call).map_err(told)?;
            *tally.answers.entry(number).or_default() += 1;
        }
        let (asked, room) = self.asked_anyhow(rng);
        let expected = read_template(found.as_ref(), &asked, room);
        check_template(&table, &asked, room, &expected).map_err(told)?;
        *tally.templates.entry(expected.0).or_default() += 1;
        Ok(())
    }

    /// The table with words changed, where there are such words.
    fn damaged(&self, kind: Kind, rng: &mut Rng) -> Option<Vec<u64>> {
        let mut table = self.table.clone();
        let row = |slots: &[usize], rng: &mut Rng| {
            (!slots.is_empty()).then(|| HEADER + ROW * slots[rng.index(slots.len())])
        };
        let at = match kind {
            Kind::Any => rng.index(table.len()),
            Kind::CountLimit => 0,
            Kind::SizeLimit => 1,
            Kind::BytesPerSigop => 2,
            Kind::Total => 3,
            Kind::Txid => row(&self.taken, rng)? + rng.index(4),
            Kind::Fee => row(&self.taken, rng)? + 4,
            Kind::Weight => row(&self.taken, rng)? + 5,
            Kind::Cost => row(&self.taken, rng)? + 6,
            Kind::Parents => row(&self.taken, rng)? + PARENTS + self.set_word(rng),
            Kind::Children => row(&self.taken, rng)? + CHILDREN + self.set_word(rng),
            Kind::FreeSlot => row(&self.free, rng)? + rng.index(ROW),
            Kind::Link => return self.relinked(table, rng),
            Kind::WeightAndTotal => return self.reweighted(table, rng),
            Kind::Twin => return self.twinned(table, rng),
        };
        while table[at] == self.table[at] {
            table[at] = self.another(at, rng);
        }
        Some(table)
    }

    /// Which of a set's words, mostly one that has slots.
    fn set_word(&self, rng: &mut Rng) -> usize {
        match rng.one_in(3) {
            true => rng.index(CHILDREN - PARENTS),
            false => rng.index(self.pool.slots.div_ceil(64)),
        }
    }

    /// Another value for a word: any, near what it was, another slot's, or at the end of a range.
    fn another(&self, at: usize, rng: &mut Rng) -> u64 {
        const ENDS: [u64; 14] = [
            0,
            1,
            2,
            63,
            64,
            65,
            101_000,
            101_001,
            4_000_000,
            4_000_001,
            MOST_FEE,
            MOST_FEE + 1,
            1 << 63,
            u64::MAX,
        ];
        let old = self.table[at];
        match rng.below(7) {
            0 => rng.word(),
            1 => old ^ 1 << rng.below(64),
            2 => old ^ 1 << rng.below(self.pool.slots.min(64) as u64),
            3 => old.wrapping_add(rng.pick(&[1, u64::MAX])),
            4 if at >= HEADER => {
                let column = (at - HEADER) % ROW;
                self.table[HEADER + ROW * rng.index(self.pool.slots) + column]
            }
            5 => rng.pick(&ENDS),
            _ => rng.below(200),
        }
    }

    /// A link between two slots more or less, at both ends.
    fn relinked(&self, mut table: Vec<u64>, rng: &mut Rng) -> Option<Vec<u64>> {
        if self.taken.is_empty() {
            return None;
        }
        let parent = rng.pick(&self.taken);
        let child = match rng.one_in(8) {
            true => rng.index(self.pool.slots),
            false => rng.pick(&self.taken),
        };
        table[HEADER + ROW * child + PARENTS + parent / 64] ^= 1 << (parent % 64);
        table[HEADER + ROW * parent + CHILDREN + child / 64] ^= 1 << (child % 64);
        Some(table)
    }

    /// Another weight of an entry, and the total that goes with it.
    fn reweighted(&self, mut table: Vec<u64>, rng: &mut Rng) -> Option<Vec<u64>> {
        if self.taken.is_empty() {
            return None;
        }
        let at = HEADER + ROW * rng.pick(&self.taken) + 5;
        while table[at] == self.table[at] {
            table[at] = self.another(at, rng);
        }
        let others = table[3].wrapping_sub(self.table[at]);
        table[3] = others.wrapping_add(table[at]);
        Some(table)
    }

    /// An entry's txid in the place of another's.
    fn twinned(&self, mut table: Vec<u64>, rng: &mut Rng) -> Option<Vec<u64>> {
        let count = self.taken.len();
        if count < 2 {
            return None;
        }
        let from = rng.index(count);
        let to = (from + 1 + rng.index(count - 1)) % count;
        let [from, to] = [from, to].map(|place| HEADER + ROW * self.taken[place]);
        table.copy_within(from..from + 4, to);
        Some(table)
    }

    /// What a template is asked with, of which a part may be wrong as well.
    fn asked_anyhow(&self, rng: &mut Rng) -> (Asked, usize) {
        let mut asked = self.asked.clone();
        let mut room = self.pool.slots;
        let slot = rng.index(self.pool.slots);
        for _ in 0..rng.pick(&[0, 0, 1, 2]) {
            match rng.below(6) {
                0 => drop(asked.deltas.pop()),
                1 => asked.deltas.push(0),
                2 => drop(asked.marks.pop()),
                3 => asked.marks.push(0),
                4 => room = rng.index(self.pool.entries.len() + 1),
                _ if slot < asked.deltas.len() => {
                    asked.deltas[slot] = rng.pick(&[MOST_FEE as i64 + 1, i64::MIN]);
                }
                _ => {}
            }
        }
        (asked, room)
    }
}

fn make_call(pool: &mut Pool, known: &mut Known, call: &Call) {
    let (number, _) = pool.answer(call);
    match call {
        Call::Add(new) if number == 0 => known.comes(new.txid),
        Call::Remove(txid) if number == 0 => known.goes(*txid),
        Call::Clear => *known = Known::default(),
        _ => {}
    }
}

/// One call on a table in which the second reading finds this pool, or none: the number that both answer.
fn check_call(table: &[u64], found: Option<&Pool>, call: &Call) -> Result<u64, String> {
    let mut expected_table = table.to_vec();
    let expected = match found {
        None => (12, [0, 0]),
        Some(pool) => {
            let mut pool = pool.clone();
            let answer = pool.answer(call);
            if answer.0 == 0 {
                pool.write(&mut expected_table);
            }
            answer
        }
    };
    let mut lent = table.to_vec();
    let answer = library::perform(&mut lent, call);
    if answer != expected {
        return Err(format!("{answer:?} instead of {expected:?} to {call:?}"));
    }
    if lent != expected_table {
        return Err(format!("another table after {call:?}"));
    }
    Ok(answer.0)
}

#[derive(Default)]
struct Count {
    all: u64,
    legal: u64,
}

#[derive(Default)]
struct Tally {
    valid: u64,
    most_slots: usize,
    kinds: BTreeMap<Kind, Count>,
    /// Calls by the number that they answer, and templates.
    answers: BTreeMap<u64, u64>,
    templates: BTreeMap<u64, u64>,
}

impl Tally {
    fn of(&self, which: impl Fn(Kind) -> bool) -> impl Iterator<Item = &Count> {
        let kinds = self.kinds.iter();
        kinds
            .filter(move |(kind, _)| which(**kind))
            .map(|(_, count)| count)
    }

    fn changed(&self, which: impl Fn(Kind) -> bool) -> u64 {
        self.of(which).map(|count| count.all).sum()
    }

    fn legal(&self, which: impl Fn(Kind) -> bool) -> u64 {
        self.of(which).map(|count| count.legal).sum()
    }
}

impl fmt::Display for Tally {
    fn fmt(&self, f: &mut fmt::Formatter) -> fmt::Result {
        let together = |kind: Kind| !kind.is_one_word();
        writeln!(
            f,
            "{} valid tables of up to {} slots; damaged by one word: {}, of which {} legal; by two or more: {}, of which {} legal",
            self.valid,
            self.most_slots,
            self.changed(Kind::is_one_word),
            self.legal(Kind::is_one_word),
            self.changed(together),
            self.legal(together),
        )?;
        for (kind, count) in &self.kinds {
            writeln!(
                f,
                "  {kind:?}: {} changed, {} legal",
                count.all, count.legal
            )?;
        }
        writeln!(f, "calls by answer: {:?}", self.answers)?;
        write!(f, "templates by answer: {:?}", self.templates)
    }
}
