//! Random histories for pools: what the entries' numbers look like, how they are linked, what is called, and what
//! templates are asked with.

use crate::pool::{Call, Limits, Newcomer, Pool, Txid, MOST_FEE};
use crate::rng::Rng;
use crate::template::{chunks, Asked, Chunk, MOST_SIGOPS};

/// What fees, weights and sigop costs look like.
#[derive(Clone, Copy, Debug, PartialEq, Eq)]
pub enum Numbers {
    Spread,
    Sigops,
    Limits,
    EqualRates,
    Alike,
    Few,
    CloseRates,
    OddWeights,
    HeldWeights,
}

impl Numbers {
    const ALL: [Numbers; 9] = [
        Numbers::Spread,
        Numbers::Sigops,
        Numbers::Limits,
        Numbers::EqualRates,
        Numbers::Alike,
        Numbers::Few,
        Numbers::CloseRates,
        Numbers::OddWeights,
        Numbers::HeldWeights,
    ];

    /// Such that the order is determined most of the time, also in large pools.
    const DETERMINED: [Numbers; 6] = [
        Numbers::Spread,
        Numbers::Spread,
        Numbers::Sigops,
        Numbers::Sigops,
        Numbers::Limits,
        Numbers::EqualRates,
    ];

    /// A fee, a weight and a sigop cost; the rate is that of entries which shall all have the same.
    fn entry(self, rate: u64, rng: &mut Rng) -> [u64; 3] {
        let usual = 4 * (25 + rng.below(1_000));
        let fee = rng.below(1 << 34);
        let part = 1 + rng.below(1_000);
        match self {
            Numbers::Spread => [fee, usual, if rng.one_in(4) { rng.below(400) } else { 0 }],
            Numbers::Sigops => {
                let many = [0, part, part, 30 * part, 79_600];
                let most = if rng.one_in(20) { u64::MAX } else { 0 };
                [fee, usual, most.max(rng.pick(&many))]
            }
            Numbers::Limits => {
                let fee = rng.below(MOST_FEE + 1);
                let ends = [MOST_FEE, MOST_FEE - rng.below(4), 0, fee, fee];
                [rng.pick(&ends), 4 * (1 + rng.below(50)), 0]
            }
            Numbers::EqualRates => {
                let part = 1 + rng.below(10_000);
                [rng.pick(&[rate, rate, rate, rate + 1]) * part, 4 * part, 0]
            }
            Numbers::Alike => [rate, rng.pick(&[400, 400, 800]), 0],
            Numbers::Few => [rng.below(4), 4 * (1 + rng.below(3)), rng.below(2)],
            Numbers::CloseRates => [rng.below(40), 4 * (250 + rng.below(20_000)), 0],
            Numbers::OddWeights => {
                let small = 1 + rng.below(40);
                let cost = rng.below(100);
                [fee % 100, rng.pick(&[small, small, part]), cost]
            }
            Numbers::HeldWeights => [fee, usual, rng.pick(&[0, 0, 0, 0, 1, 1, 3, 4])],
        }
    }

    fn bytes_per_sigop(self, rng: &mut Rng) -> u64 {
        match self {
            // products of a quarter and of three quarters of a word, and one past it
            Numbers::HeldWeights => 1 << 62,
            Numbers::OddWeights => rng.pick(&[0, 0, 1, 7]),
            _ => rng.pick(&[0, 4, 20, 20, 20]),
        }
    }
}

/// How a history runs.
pub struct Plan {
    pub slots: usize,
    pub limits: Limits,
    numbers: Numbers,
    rate: u64,
    /// How many entries the first adds shall make.
    target: usize,
    /// One in so many adds has no parents.
    alone: u64,
    /// Calls after the first adds.
    pub calls: usize,
    /// Templates are asked for behind one in so many calls, and then so many.
    pub pace: u64,
    pub asks: usize,
    /// Whether a parent may come after a child that lists it.
    pub late: bool,
}

impl Plan {
    pub fn any(rng: &mut Rng) -> Plan {
        let (slots, calls, pace, asks) = match rng.below(200) {
            0..=1 => (1024, 30, 3, 2),
            2..=15 => (30 + rng.index(120), 40, 5, 2),
            _ => (1 + rng.index(24), 24, 2, 1),
        };
        let large = slots > 24;
        let numbers = match large || rng.one_in(3) {
            true => rng.pick(&Numbers::DETERMINED),
            false => rng.pick(&Numbers::ALL),
        };
        // small limits refuse most adds, and a large pool is to be filled
        let counts: &[u64] = if large {
            &[64, 25, 8]
        } else {
            &[64, 64, 64, 25, 8, 4, 2, 1]
        };
        let limits = Limits {
            count: rng.pick(counts),
            size: rng.pick(&[101_000, 101_000, 101_000, 20_000, 1_500]),
            bytes_per_sigop: numbers.bytes_per_sigop(rng),
        };
        Plan {
            slots,
            limits,
            numbers,
            rate: 1 + rng.below(9),
            target: slots - rng.index(slots.div_ceil(3)),
            alone: rng.pick(if large { &[1, 2, 4] } else { &[1, 2, 3, 8, 64] }),
            calls,
            pace,
            asks,
            late: rng.one_in(25),
        }
    }

    /// A pool that is to be full soon, with parents for all but one in so many adds.
    pub fn of(slots: usize, limits: Limits, numbers: Numbers, alone: u64) -> Plan {
        Plan {
            slots,
            limits,
            numbers,
            rate: 3,
            target: slots,
            alone,
            calls: 0,
            pace: 1,
            asks: 0,
            late: true,
        }
    }

    /// Whether the first adds are done.
    pub fn is_grown(&self, entries: usize, calls: usize) -> bool {
        entries >= self.target || calls > 2 * self.slots
    }

    /// One of the first adds.
    pub fn growth(&self, known: &Known, rng: &mut Rng) -> Call {
        Call::Add(self.newcomer(known, rng))
    }

    /// Any call.
    pub fn call(&self, known: &Known, rng: &mut Rng) -> Call {
        match rng.below(24) {
            0..=13 => Call::Add(self.newcomer(known, rng)),
            14..=20 => Call::Remove(known.any(rng)),
            21..=22 => {
                let [_, _, cost] = self.numbers.entry(self.rate, rng);
                Call::SetCost(known.any(rng), cost)
            }
            _ if rng.one_in(8) => Call::Clear,
            _ => Call::Totals,
        }
    }

    fn newcomer(&self, known: &Known, rng: &mut Rng) -> Newcomer {
        let txid = known.fresh_or_gone(rng);
        let [mut fee, mut weight, cost] = self.numbers.entry(self.rate, rng);
        if rng.one_in(200) {
            (fee, weight) = rng.pick(&[(MOST_FEE + 1, weight), (fee, 0), (fee, 4_000_001)]);
        }
        Newcomer {
            txid: if rng.one_in(50) { known.any(rng) } else { txid },
            fee,
            weight,
            cost,
            parents: self.parents(txid, known, rng),
        }
    }

    /// Listed parents: entries, mostly those that came last, and sometimes what is ignored.
    fn parents(&self, own: Txid, known: &Known, rng: &mut Rng) -> Vec<u8> {
        let mut list = Vec::new();
        if !rng.one_in(self.alone) && !known.live.is_empty() {
            for _ in 0..=rng.pick(&[0, 0, 0, 1, 1, 2, 5]) {
                let near = known.live.len().min(rng.pick(&[1, 3, 10, 1024]));
                list.push(known.live[known.live.len() - 1 - rng.index(near)]);
            }
        }
        if rng.one_in(10) {
            let again = list.first().copied().unwrap_or(own);
            let others = [own, again, known.any(rng), random_txid(rng)];
            list.push(rng.pick(&others));
        }
        rng.shuffle(&mut list);
        list.concat()
    }
}

/// Random bytes; some begin alike, so that a later byte decides.
pub fn random_txid(rng: &mut Rng) -> Txid {
    let mut txid = [0; 32];
    let alike = rng.pick(&[0, 0, 0, 7, 8, 15, 24, 30]);
    for byte in &mut txid[alike..] {
        *byte = rng.below(256) as u8;
    }
    txid
}

/// The txids of a history so far.
#[derive(Default)]
pub struct Known {
    /// In the order in which they came.
    pub live: Vec<Txid>,
    /// The one that went last, which may come back.
    pub gone: Option<Txid>,
}

impl Known {
    pub fn comes(&mut self, txid: Txid) {
        self.live.push(txid);
    }

    pub fn goes(&mut self, txid: Txid) {
        self.live.retain(|other| *other != txid);
        self.gone = Some(txid);
    }

    /// Any txid, of which most are in the pool.
    pub fn any(&self, rng: &mut Rng) -> Txid {
        if self.live.is_empty() || rng.one_in(12) {
            return self.gone.unwrap_or(random_txid(rng));
        }
        self.live[rng.index(self.live.len())]
    }

    fn fresh_or_gone(&self, rng: &mut Rng) -> Txid {
        let back = self.gone.filter(|_| rng.one_in(4));
        back.unwrap_or(random_txid(rng))
    }
}

/// What a template is asked with on a pool.
pub fn asked(pool: &Pool, rng: &mut Rng) -> Asked {
    let mut asked = Asked {
        deltas: deltas(pool, rng),
        marks: marks(pool, rng),
        budget: budget(pool, rng),
        reserve: reserve(pool, rng),
        minimum: 0,
    };
    if rng.one_in(2) {
        asked.minimum = minimum(&chunks(pool, &asked), rng);
    }
    asked
}

/// Free slots have any delta.
fn deltas(pool: &Pool, rng: &mut Rng) -> Vec<i64> {
    let strange = [0, i64::MIN, i64::MAX, -1];
    let mut deltas: Vec<i64> = (0..pool.slots).map(|_| rng.pick(&strange)).collect();
    let kind = rng.below(6);
    for entry in pool.entries.values() {
        let fee = entry.fee as i64;
        let limit = MOST_FEE as i64;
        deltas[entry.slot] = match kind {
            0 | 1 => 0,
            2 if rng.one_in(8) => rng.between(-fee, fee.min(limit - 1) + 1),
            3 => rng.between(-fee / 2, fee),
            4 if rng.one_in(4) => -rng.between(fee / 2, (fee * 2).min(limit - 1) + 1),
            5 if rng.one_in(3) => rng.pick(&[limit, -limit, limit - 1, 1, -1]),
            _ => 0,
        };
    }
    deltas
}

/// Free slots have any mark.
fn marks(pool: &Pool, rng: &mut Rng) -> Vec<u8> {
    let mut marks: Vec<u8> = (0..pool.slots).map(|_| rng.below(256) as u8).collect();
    let times = rng.pick(&[0, 0, 40, 12, 4]);
    for entry in pool.entries.values() {
        let withheld = times > 0 && rng.one_in(times);
        marks[entry.slot] = if withheld {
            1 + rng.below(255) as u8
        } else {
            0
        };
    }
    marks
}

pub fn budget(pool: &Pool, rng: &mut Rng) -> u64 {
    let total: u64 = pool.entries.values().map(|entry| entry.weight).sum();
    match rng.below(16) {
        0 => 0,
        1..=4 => u64::MAX,
        5 => total,
        6 => pool.entries.values().next().map_or(1, |entry| entry.weight),
        _ => rng.below(total + 1),
    }
}

pub fn reserve(pool: &Pool, rng: &mut Rng) -> u64 {
    let costs = pool.entries.values().map(|entry| entry.cost);
    let costs = costs.fold(0, u64::saturating_add);
    match rng.below(16) {
        0 => rng.pick(&[u64::MAX, MOST_SIGOPS + 1, 1 << 63]),
        1 => MOST_SIGOPS,
        2..=5 => MOST_SIGOPS.saturating_sub(rng.below(costs.saturating_add(2))),
        6..=8 => 400,
        _ => 0,
    }
}

/// Often exactly the rate of a chunk, or one more.
pub fn minimum(chunks: &[Chunk], rng: &mut Rng) -> u64 {
    if chunks.is_empty() {
        return 1;
    }
    let chunk = &chunks[rng.index(chunks.len())];
    let rate = chunk.fee.max(0) * 1_000 / i128::from(chunk.adjusted.div_ceil(4));
    let rate = u64::try_from(rate).unwrap_or(u64::MAX);
    rng.pick(&[
        1,
        rate,
        rate.saturating_add(1),
        rate / 2,
        rate / 2,
        u64::MAX,
    ])
}
