//! A third reading of the rules, plain and slow, which counts the feerate compares of a call and can also err in
//! the ways that document 01 names.

use crate::cluster::Cluster;
use crate::wrong::Wrong;
use std::cmp::Ordering;

/// A fee and a size, each as a sum that stops at the ends of its type.
#[derive(Clone, Copy)]
struct Rate {
    fee: i64,
    size: u64,
}

impl Rate {
    const NONE: Rate = Rate { fee: 0, size: 0 };

    fn plus(self, other: Rate) -> Rate {
        Rate {
            fee: self.fee.saturating_add(other.fee),
            size: self.size.saturating_add(other.size),
        }
    }

    fn minus(self, other: Rate) -> Rate {
        Rate {
            fee: self.fee.saturating_sub(other.fee),
            size: self.size.saturating_sub(other.size),
        }
    }

    /// The fee over the size, rounded down; the fee alone over nothing.
    fn divided(self) -> i128 {
        i128::from(self.fee).div_euclid(i128::from(self.size.max(1)))
    }
}

/// What both passes of the post step keep of a group.
struct Group {
    members: Vec<usize>,
    needs: u64,
    rate: Rate,
}

/// One cluster, and the compares so far.
pub struct Model {
    rates: Vec<Rate>,
    ancestors: Vec<u64>,
    compares: u64,
    wrong: Option<Wrong>,
}

/// The order, its chunk lengths, and how many compares both took.
pub struct Solved {
    pub order: Vec<usize>,
    pub chunks: Vec<usize>,
    pub compares: u64,
}

pub fn solve(cluster: &Cluster) -> Solved {
    solve_wrongly(cluster, None)
}

/// The same with an error, where one is given.
pub fn solve_wrongly(cluster: &Cluster, wrong: Option<Wrong>) -> Solved {
    let mut model = Model::new(cluster, wrong);
    let taken = model.take_ancestor_sets();
    let back = model.pass(taken.into_iter().rev().collect(), true);
    let improved = model.pass(back.into_iter().rev().collect(), false);
    let mut order = model.put_out(&improved);
    if model.errs(Wrong::ByPosition) {
        order.sort_unstable();
    }
    let chunks = model.chunk_lengths(&order, Wrong::JoinsEqualChunks);
    Solved {
        order,
        chunks,
        compares: model.compares,
    }
}

fn has(set: u64, i: usize) -> bool {
    set >> i & 1 == 1
}

fn set_of(members: &[usize]) -> u64 {
    members.iter().fold(0, |set, i| set | 1 << i)
}

impl Model {
    fn new(cluster: &Cluster, wrong: Option<Wrong>) -> Model {
        let n = cluster.len();
        let rate = |i: usize| Rate {
            fee: cluster.fees[i],
            size: cluster.sizes[i],
        };
        let mut ancestors: Vec<u64> = (0..n).map(|i| 1 << i).collect();
        // a path has fewer than n links, so that n rounds of one link each reach all
        for _ in 0..n {
            for i in 0..n {
                let parents = (0..n).filter(|&p| has(cluster.words[i], p));
                ancestors[i] = parents.fold(ancestors[i], |set, p| set | ancestors[p]);
            }
        }
        Model {
            rates: (0..n).map(rate).collect(),
            ancestors,
            compares: 0,
            wrong,
        }
    }

    fn errs(&self, wrong: Wrong) -> bool {
        self.wrong == Some(wrong)
    }

    fn by_rate(&mut self, a: Rate, b: Rate) -> Ordering {
        self.compares += 1;
        if self.errs(Wrong::Divides) {
            return a.divided().cmp(&b.divided());
        }
        if self.errs(Wrong::OneWord) {
            let product = |fee: i64, size: u64| fee.wrapping_mul(size as i64);
            return product(a.fee, b.size).cmp(&product(b.fee, a.size));
        }
        let product = |fee: i64, size: u64| i128::from(fee) * i128::from(size);
        product(a.fee, b.size).cmp(&product(b.fee, a.size))
    }

    /// Whether a is strictly higher; with the error that is named, also where both are equal.
    fn surpasses(&mut self, a: Rate, b: Rate, where_equal: Wrong) -> bool {
        let order = self.by_rate(a, b);
        order.is_gt() || order.is_eq() && self.errs(where_equal)
    }

    fn rank(&mut self, a: Rate, b: Rate) -> Ordering {
        self.by_rate(a, b).then(b.size.cmp(&a.size))
    }

    fn sum(&self, set: u64) -> Rate {
        let members = (0..self.rates.len()).filter(|&i| has(set, i));
        members.fold(Rate::NONE, |sum, i| sum.plus(self.rates[i]))
    }

    /// The place of the highest rate in a list of candidates, the first where it is not surpassed.
    fn highest(&mut self, candidates: &[usize], rates: &[Rate]) -> Option<usize> {
        let (&first, rest) = candidates.split_first()?;
        let mut held = first;
        for &i in rest {
            if self.rank(rates[i], rates[held]).is_gt() {
                held = i;
            }
        }
        Some(held)
    }

    fn take_ancestor_sets(&mut self) -> Vec<usize> {
        let n = self.rates.len();
        let mut sums: Vec<Rate> = self.ancestors.iter().map(|&set| self.sum(set)).collect();
        let mut left: Vec<usize> = (0..n).collect();
        let mut order = Vec::new();
        while let Some(mut best) = self.highest(&left, &sums) {
            if self.errs(Wrong::FirstSetOnly) && !order.is_empty() {
                best = left[0];
            }
            let chosen = self.ancestors[best];
            let (mut out, kept): (Vec<_>, Vec<_>) = left.iter().partition(|&&i| has(chosen, i));
            left = kept;
            let given: &[usize] = if self.errs(Wrong::KeepsWhatIsOut) {
                &[]
            } else {
                &out
            };
            for &i in &left {
                for &gone in given.iter().filter(|&&gone| has(self.ancestors[i], gone)) {
                    sums[i] = sums[i].minus(self.rates[gone]);
                }
            }
            // `out` stands by position, and a stable sort keeps that among equals
            out.sort_by_key(|&i| self.ancestors[i].count_ones());
            order.append(&mut out);
        }
        order
    }

    /// One pass of the post step, over members in the order in which the pass meets them.
    fn pass(&mut self, members: Vec<usize>, back: bool) -> Vec<usize> {
        let mut groups: Vec<Group> = Vec::new();
        for i in members {
            let mut group = self.alone(i, back);
            let mut place = groups.len();
            while place > 0
                && self.surpasses(group.rate, groups[place - 1].rate, Wrong::MergesEqualGroups)
            {
                place -= 1;
                if group.needs & set_of(&groups[place].members) != 0 {
                    let before = groups.remove(place);
                    group = Group {
                        members: [before.members, group.members].concat(),
                        needs: before.needs | group.needs,
                        rate: before.rate.plus(group.rate),
                    };
                }
            }
            groups.insert(place, group);
        }
        groups.into_iter().flat_map(|group| group.members).collect()
    }

    fn alone(&self, i: usize, back: bool) -> Group {
        let Rate { fee, size } = self.rates[i];
        let descendants = (0..self.rates.len()).filter(|&d| has(self.ancestors[d], i));
        Group {
            members: vec![i],
            needs: if back {
                descendants.fold(0, |set, d| set | 1 << d)
            } else {
                self.ancestors[i]
            },
            rate: if back {
                Rate { fee: -fee, size }
            } else {
                Rate { fee, size }
            },
        }
    }

    fn chunk_lengths(&mut self, order: &[usize], where_equal: Wrong) -> Vec<usize> {
        let mut chunks: Vec<(Rate, usize)> = Vec::new();
        for &i in order {
            let (mut rate, mut length) = (self.rates[i], 1);
            while chunks
                .last()
                .is_some_and(|&(before, _)| self.surpasses(rate, before, where_equal))
            {
                let (before, members) = chunks.pop().expect("there is a last one");
                rate = rate.plus(before);
                length += members;
            }
            chunks.push((rate, length));
        }
        chunks.into_iter().map(|(_, length)| length).collect()
    }

    /// The chunks by rank, and in each its members by rank, ancestors first in both.
    fn put_out(&mut self, order: &[usize]) -> Vec<usize> {
        let mut rest = order;
        let mut chunks = Vec::new();
        for length in self.chunk_lengths(order, Wrong::CutsEqualTogether) {
            chunks.push(set_of(&rest[..length]));
            rest = &rest[length..];
        }
        let mut out = Vec::new();
        while let Some(at) = self.next_chunk(&chunks, set_of(&out)) {
            let chunk = chunks.remove(at);
            while let Some(i) = self.next_member(chunk & !set_of(&out), set_of(&out)) {
                out.push(i);
            }
        }
        out
    }

    fn next_chunk(&mut self, chunks: &[u64], done: u64) -> Option<usize> {
        let mut held: Option<usize> = None;
        for (k, &chunk) in chunks.iter().enumerate() {
            let members = (0..self.rates.len()).filter(|&i| has(chunk, i));
            let needed = members.fold(0, |set, i| set | self.ancestors[i]) & !chunk;
            let surpasses = |model: &mut Model, other: u64| {
                // the highest position of a set is lower where there are more zeros above it
                let position = chunk.leading_zeros().cmp(&other.leading_zeros());
                model
                    .rank(model.sum(chunk), model.sum(other))
                    .then(position)
                    .is_gt()
            };
            if needed & !done == 0 && held.is_none_or(|b| surpasses(self, chunks[b])) {
                held = Some(k);
            }
        }
        held
    }

    fn next_member(&mut self, left: u64, done: u64) -> Option<usize> {
        let ready = |&i: &usize| has(left, i) && self.ancestors[i] & !(1 << i) & !done == 0;
        let candidates: Vec<usize> = (0..self.rates.len()).filter(ready).collect();
        let rates = self.rates.clone();
        self.highest(&candidates, &rates)
    }
}
