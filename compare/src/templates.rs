//! Histories of random calls on our pool and on the original's: entries, links, totals, admission, chunk lists and
//! templates. Templates have to be the same wherever document 01 says that the original's order is determined; outside
//! of that it is counted how often they differ, by what is broken.

use crate::determined::{broken, Clause};
use crate::history::{asked, Known, Plan};
use crate::original_pool::{as_original, OriginalPool};
use crate::ours::Ours;
use crate::pool::{Answer, Call, Newcomer, Pool, Txid};
use crate::rng::Rng;
use crate::sketch::sketch;
use crate::template::{chunks, fill, Asked, Chunk, Outcome};
use std::collections::BTreeMap;
use std::fmt;
use std::time::Instant;

pub const SEED: u64 = 20_261_115;
pub const TEMPLATES: u64 = 20_000;

/// Up to so many entries a pool is held against the original's behind every call, and else before a template.
const SMALL: usize = 32;
/// From so many entries on a pool counts as large.
const LARGE: usize = 500;

/// Runs histories until so many templates were compared, and prints what was, or stops with the first difference.
pub fn run<O: Ours>(seed: u64, templates: u64) -> Result<(), String> {
    println!("seed {seed}");
    let start = Instant::now();
    let mut rng = Rng::new(seed);
    let mut tally = Tally::default();
    while tally.determined.all < templates {
        history::<O>(&mut rng, &mut tally)?;
    }
    println!("{tally}");
    println!("no difference, in {:.0} s", start.elapsed().as_secs_f64());
    Ok(())
}

fn history<O: Ours>(rng: &mut Rng, tally: &mut Tally) -> Result<(), String> {
    let plan = Plan::any(rng);
    let mut sides = Sides::<O>::new(&plan);
    let mut calls = 0;
    while !plan.is_grown(sides.known.live.len(), calls) {
        calls += 1;
        sides.call(&plan.growth(&sides.known, rng), tally)?;
    }
    for _ in 0..plan.calls {
        sides.call(&plan.call(&sides.known, rng), tally)?;
        if rng.one_in(plan.pace) {
            for _ in 0..plan.asks {
                sides.any_template(rng, tally)?;
            }
        }
    }
    tally.histories += 1;
    Ok(())
}

/// One pool twice.
struct Sides<O> {
    ours: O,
    original: OriginalPool,
    known: Known,
    /// Whether the links may differ, since a parent may come after its child.
    late: bool,
}

impl<O: Ours> Sides<O> {
    fn new(plan: &Plan) -> Self {
        Sides {
            ours: O::made(plan.slots, plan.limits),
            original: OriginalPool::new(plan.limits),
            known: Known::default(),
            late: plan.late,
        }
    }

    fn call(&mut self, call: &Call, tally: &mut Tally) -> Result<(), String> {
        match call {
            Call::Add(new) => self.add(new.clone(), tally)?,
            _ => self.other_call(call, tally)?,
        }
        if self.known.live.len() <= SMALL {
            self.check_entries(tally)?;
        }
        Ok(())
    }

    /// Every call but make and add. Ours refuses a txid exactly where the original does not have it.
    fn other_call(&mut self, call: &Call, tally: &mut Tally) -> Result<(), String> {
        tally.calls += 1;
        let (number, values) = self.our_answer(call)?;
        let expected = match call {
            Call::Remove(txid) | Call::SetCost(txid, _) if !self.original.has(txid) => 10,
            _ => 0,
        };
        if number != expected {
            let text = format!("ours answers {number}, not {expected}, to {call:?}");
            return Err(self.told(&text, None));
        }
        match call {
            Call::Remove(txid) if number == 0 => {
                self.original.remove(txid);
                self.known.goes(*txid);
            }
            Call::SetCost(txid, cost) => self.original.set_cost(txid, *cost),
            Call::Clear => {
                self.original.clear();
                self.known = Known::default();
            }
            Call::Totals if values != self.original.totals() => {
                return Err(self.told(&format!("ours has {values:?} in all"), None));
            }
            _ => {}
        }
        Ok(())
    }

    fn add(&mut self, mut new: Newcomer, tally: &mut Tally) -> Result<(), String> {
        let there = self.known.live.contains(&new.txid);
        if !there && self.original.lists(&new.txid) {
            if !self.late {
                return Ok(());
            }
            // with parents it might close a circle in the original, whose template then runs out of stack
            new.parents.clear();
        }
        tally.calls += 1;
        let (number, [slot, _]) = self.our_answer(&Call::Add(new.clone()))?;
        *tally.adds.entry(number).or_default() += 1;
        if matches!(number, 0 | 8 | 9) && !self.late {
            self.check_admission(&new, number)?;
            tally.admissions += 1;
        }
        if number == 0 {
            self.original.add(&new, slot as usize);
            self.known.comes(new.txid);
        }
        Ok(())
    }

    fn our_answer(&mut self, call: &Call) -> Result<Answer, String> {
        let answer = self.ours.call(call);
        answer.map_err(|text| self.told(&text, None))
    }

    fn check_admission(&mut self, new: &Newcomer, number: u64) -> Result<(), String> {
        let original = self.original.refusal(new).unwrap_or(0);
        if original == number {
            return Ok(());
        }
        let text = format!("add: ours answers {number}, the original {original}, to {new:?}");
        Err(self.told(&text, None))
    }

    fn told(&self, text: &str, asked: Option<&Asked>) -> String {
        format!("a difference: {text}\n{}", sketch(self.ours.pool(), asked))
    }

    /// Whether the links are the same in both, as all else has to be. They are, unless a parent came after its child.
    fn check_entries(&self, tally: &mut Tally) -> Result<bool, String> {
        let pool = self.ours.pool();
        if let Some(text) = self.original.difference(pool) {
            return Err(self.told(&text, None));
        }
        let same_links = self.original.same_links(pool);
        if !same_links && !self.late {
            return Err(self.told("other links in the original", None));
        }
        tally.pools += 1;
        tally.other_links += u64::from(!same_links);
        Ok(same_links)
    }

    fn any_template(&self, rng: &mut Rng, tally: &mut Tally) -> Result<(), String> {
        let same_links = self.check_entries(tally)?;
        let pool = self.ours.pool();
        let asked = asked(pool, rng);
        let chunks = chunks(pool, &asked);
        if same_links {
            self.check_chunks(pool, &asked, &chunks, tally)?;
        }
        let told = |text: &str| self.told(text, Some(&asked));
        let room = pool.entries.len() + rng.index(3);
        let ours = self.ours.template(&asked, room);
        let (number, ours) = ours.map_err(|text| told(&text))?;
        if number != 0 {
            return Err(told(&format!("refused with {number}")));
        }
        let original = self.original_slots(pool, &asked);
        let original = original.map_err(|text| told(&text))?;
        let broken = broken(pool, &chunks, same_links);
        if broken.is_empty() && ours != original {
            return Err(told(&format!("ours {ours:?}, the original {original:?}")));
        }
        let templates = tally.templates(broken);
        templates.different += u64::from(ours != original);
        templates.not_empty += u64::from(!ours.is_empty());
        templates.count(pool, &asked, &chunks);
        Ok(())
    }

    /// The original's template as slots; its entries are to have our fees and costs.
    fn original_slots(&self, pool: &Pool, asked: &Asked) -> Result<Vec<usize>, String> {
        let mut slots = Vec::new();
        for selected in self.original.template(pool, asked) {
            let entry = &pool.entries[&selected.txid.0];
            if (selected.fee_sat, selected.sigop_cost) != (entry.fee, entry.cost) {
                return Err(format!("the original selected {selected:?}"));
            }
            slots.push(entry.slot);
        }
        Ok(slots)
    }

    /// The chunks of every cluster, with the deltas, in its order.
    fn check_chunks(
        &self,
        pool: &Pool,
        asked: &Asked,
        chunks: &[Chunk],
        tally: &mut Tally,
    ) -> Result<(), String> {
        let mut clusters: BTreeMap<Txid, Vec<&Chunk>> = BTreeMap::new();
        for chunk in chunks {
            clusters.entry(chunk.least).or_default().push(chunk);
        }
        for (least, mut list) in clusters {
            list.sort_by_key(|chunk| chunk.place);
            let ours: Vec<_> = list.into_iter().map(as_original).collect();
            let original = self.original.chunks(pool, &least, asked);
            if ours != original {
                let text = format!("chunks {ours:?}, the original's {original:?}");
                return Err(self.told(&text, Some(asked)));
            }
            tally.chunk_lists += 1;
        }
        Ok(())
    }
}

/// Templates of one kind.
#[derive(Default)]
struct Templates {
    all: u64,
    not_empty: u64,
    with_deltas: u64,
    with_marks: u64,
    with_costs: u64,
    different: u64,
    most_entries: usize,
    on_large: u64,
    outcomes: BTreeMap<String, u64>,
}

#[derive(Default)]
struct Tally {
    histories: u64,
    calls: u64,
    adds: BTreeMap<u64, u64>,
    admissions: u64,
    pools: u64,
    /// Of these, with a parent that came after its child.
    other_links: u64,
    chunk_lists: u64,
    determined: Templates,
    outside: BTreeMap<Vec<Clause>, Templates>,
}

impl Tally {
    fn templates(&mut self, broken: Vec<Clause>) -> &mut Templates {
        match broken.is_empty() {
            true => &mut self.determined,
            false => self.outside.entry(broken).or_default(),
        }
    }
}

impl Templates {
    fn count(&mut self, pool: &Pool, asked: &Asked, chunks: &[Chunk]) {
        let entries = || pool.entries.values();
        self.all += 1;
        self.with_deltas += u64::from(entries().any(|entry| asked.deltas[entry.slot] != 0));
        self.with_marks += u64::from(entries().any(|entry| asked.marks[entry.slot] != 0));
        self.with_costs += u64::from(entries().any(|entry| entry.cost != 0));
        self.most_entries = self.most_entries.max(entries().len());
        self.on_large += u64::from(entries().len() >= LARGE);
        for outcome in fill(pool, asked, chunks).1 {
            let name = match outcome {
                Outcome::Taken(_) => "Taken".to_string(),
                Outcome::Passed(reason) => format!("{reason:?}"),
            };
            *self.outcomes.entry(name).or_default() += 1;
        }
    }
}

impl fmt::Display for Templates {
    fn fmt(&self, f: &mut fmt::Formatter) -> fmt::Result {
        write!(
            f,
            "{} templates, {} not empty, {} with deltas, {} with marks, {} with sigops, \
             {} on pools of {LARGE} entries or more, the largest of {}",
            self.all,
            self.not_empty,
            self.with_deltas,
            self.with_marks,
            self.with_costs,
            self.on_large,
            self.most_entries
        )
    }
}

impl fmt::Display for Tally {
    fn fmt(&self, f: &mut fmt::Formatter) -> fmt::Result {
        writeln!(f, "{} histories, {} calls", self.histories, self.calls)?;
        writeln!(f, "adds by answer: {:?}", self.adds)?;
        writeln!(
            f,
            "compared: {} admissions, {} pools entry by entry ({} of them with other links), {} chunk lists",
            self.admissions, self.pools, self.other_links, self.chunk_lists
        )?;
        writeln!(f, "determined: {}", self.determined)?;
        writeln!(f, "  chunks by outcome: {:?}", self.determined.outcomes)?;
        write!(f, "outside of that, by what is broken (ties go by a hash order that is drawn anew in each run):")?;
        for (clauses, templates) in &self.outside {
            write!(
                f,
                "\n  {clauses:?}: {} different of {}",
                templates.different, templates.all
            )?;
        }
        Ok(())
    }
}
