//! The block: the list put into a pool, the template that the pool answers, and beside it how each
//! chunk fared, so that a person sees why a transaction is missing.

use crate::list::{List, Transaction, Wrong};
use std::cmp::Ordering;
use yaghrudil::{chunk_lengths, linearize, Pool, Terms, Txid, BLOCK_SIGOPS_MAX};

/// A chunk of a cluster: transactions that are mined together, as places in the list.
#[derive(Debug)]
pub struct Chunk {
    pub members: Vec<usize>,
    /// The fees of its members with their deltas.
    pub fee: i64,
    /// Their adjusted weights.
    pub size: u64,
    /// The least txid of its cluster, and which chunk of it this is.
    least: Txid,
    order: usize,
}

impl Chunk {
    /// The feerate in satoshi per 1,000 vbytes, rounded towards zero.
    pub fn rate(&self) -> i128 {
        i128::from(self.fee) * 4000 / i128::from(self.size)
    }

    /// Whether it is tried before or after another: by exact feerate, then the larger fee, then the
    /// cluster with the lower least txid, then the order in the cluster.
    fn tried(&self, other: &Chunk) -> Ordering {
        let ours = i128::from(self.fee) * i128::from(other.size);
        let theirs = i128::from(other.fee) * i128::from(self.size);
        theirs
            .cmp(&ours)
            .then(other.fee.cmp(&self.fee))
            .then(self.least.cmp(&other.least))
            .then(self.order.cmp(&other.order))
    }
}

/// How a chunk fared at its turn.
#[derive(Clone, Copy, Debug, PartialEq, Eq)]
pub enum Outcome {
    /// It went out, with so many transactions.
    Taken(usize),
    Passed(Reason),
}

/// Why a chunk is passed over; where several hold, the first.
#[derive(Clone, Copy, Debug, PartialEq, Eq)]
pub enum Reason {
    NegativeFee,
    BelowMinimum,
    Withheld,
    NothingLeft,
    WithheldAncestor,
    OverBudget,
    OverSigops,
}

impl Reason {
    pub fn text(self) -> &'static str {
        match self {
            Reason::NegativeFee => "its chunk's fees, with deltas, are below zero",
            Reason::BelowMinimum => "its chunk pays less than the minimum",
            Reason::Withheld => "its chunk has a withheld transaction",
            Reason::NothingLeft => "its chunk went out with another",
            Reason::WithheldAncestor => "its chunk needs a withheld ancestor",
            Reason::OverBudget => "its chunk does not fit the weight that was left",
            Reason::OverSigops => "its chunk does not fit the sigops that were left",
        }
    }
}

/// A block and how it came about.
#[derive(Debug)]
pub struct Block {
    /// The template, as places in the list.
    pub selected: Vec<usize>,
    /// All chunks as they were tried, and how each fared.
    pub chunks: Vec<(Chunk, Outcome)>,
}

/// Puts the list into a pool and asks it for a template.
pub fn fill(list: &List) -> Result<Block, Wrong> {
    let (pool, slots) = pool_of(list)?;
    let selected = template_of(list, &pool, &slots);
    let mut chunks = vec![];
    for cluster in clusters(&list.transactions) {
        chunks.extend(chunks_of(list, &cluster));
    }
    chunks.sort_by(Chunk::tried);
    let outcomes = outcomes(list, &chunks, &selected);
    Ok(Block {
        selected,
        chunks: chunks.into_iter().zip(outcomes).collect(),
    })
}

/// A pool with the list in it, parents before children, and the slot of each transaction.
fn pool_of(list: &List) -> Result<(Pool, Vec<usize>), Wrong> {
    let n = list.transactions.len();
    let mut pool = Pool::new(n.max(1), list.limits).expect("numbers that the list tried");
    let mut slots = vec![usize::MAX; n];
    for place in parents_first(&list.transactions)? {
        let tx = &list.transactions[place];
        let parents: Vec<Txid> = tx
            .parents
            .iter()
            .map(|&p| list.transactions[p].entry.txid)
            .collect();
        slots[place] = pool
            .add(&tx.entry, &parents)
            .map_err(|refusal| Wrong::refused(tx.line, "add", refusal))?;
    }
    Ok((pool, slots))
}

/// The places of the list with every parent before its children, else as they stand.
fn parents_first(transactions: &[Transaction]) -> Result<Vec<usize>, Wrong> {
    let mut order: Vec<usize> = vec![];
    let mut out = vec![false; transactions.len()];
    let mut left: Vec<usize> = (0..transactions.len()).collect();
    while !left.is_empty() {
        let before = order.len();
        left.retain(|&place| {
            let ready = transactions[place].parents.iter().all(|&p| out[p]);
            if ready {
                out[place] = true;
                order.push(place);
            }
            !ready
        });
        if order.len() == before {
            return Err(Wrong {
                line: transactions[on_circle(transactions, &out, left[0])].line,
                what: "what it depends on leads back to itself".into(),
            });
        }
    }
    Ok(order)
}

/// A place that its own parents lead back to. Where nothing is ready, who is not out has a parent that
/// is not out; following these as often as there are places ends in a circle.
fn on_circle(transactions: &[Transaction], out: &[bool], from: usize) -> usize {
    transactions.iter().fold(from, |place, _| {
        let mut parents = transactions[place].parents.iter().copied();
        parents.find(|&p| !out[p]).expect("it is not ready")
    })
}

/// What the pool answers, as places in the list. Deltas and marks stand by slot.
fn template_of(list: &List, pool: &Pool, slots: &[usize]) -> Vec<usize> {
    let mut deltas = vec![0; pool.slots()];
    let mut withheld = vec![0; pool.slots()];
    let mut places = vec![usize::MAX; pool.slots()];
    for (place, &slot) in slots.iter().enumerate() {
        deltas[slot] = list.transactions[place].delta;
        withheld[slot] = u8::from(list.transactions[place].withheld);
        places[slot] = place;
    }
    let mut room = vec![0; pool.slots()];
    // the lengths are the pool's, and the list has no delta out of range
    let selected = pool.template(&deltas, &withheld, list.terms, &mut room);
    let selected = selected.expect("nothing to refuse");
    selected.iter().map(|&slot| places[slot]).collect()
}

/// The clusters of the list, each by txid.
fn clusters(transactions: &[Transaction]) -> Vec<Vec<usize>> {
    let mut cluster: Vec<usize> = (0..transactions.len()).collect();
    for (place, tx) in transactions.iter().enumerate() {
        for &parent in &tx.parents {
            let (from, to) = (cluster[parent], cluster[place]);
            for number in cluster.iter_mut().filter(|number| **number == from) {
                *number = to;
            }
        }
    }
    let mut members = vec![vec![]; transactions.len()];
    for (place, &number) in cluster.iter().enumerate() {
        members[number].push(place);
    }
    members.retain(|cluster| !cluster.is_empty());
    for cluster in &mut members {
        cluster.sort_by_key(|&place| transactions[place].entry.txid);
    }
    members
}

/// The larger of raw weight and sigop cost times the bytes per sigop.
pub fn adjusted_weight(list: &List, tx: &Transaction) -> u64 {
    let by_sigops = tx
        .entry
        .sigop_cost
        .saturating_mul(list.limits.bytes_per_sigop);
    tx.entry.weight.max(by_sigops)
}

/// The chunks of a cluster, by the library's own calls. The pool took it, so no call refuses.
fn chunks_of(list: &List, cluster: &[usize]) -> Vec<Chunk> {
    let tx = |position: usize| &list.transactions[cluster[position]];
    let n = cluster.len();
    let fees: Vec<i64> = (0..n)
        .map(|i| tx(i).entry.fee as i64 + tx(i).delta)
        .collect();
    let sizes: Vec<u64> = (0..n).map(|i| adjusted_weight(list, tx(i))).collect();
    let is_parent = |p: usize, i: usize| tx(i).parents.contains(&cluster[p]);
    let word = |i: usize| (0..n).filter(|&p| is_parent(p, i)).map(|p| 1u64 << p).sum();
    let parents: Vec<u64> = (0..n).map(word).collect();
    let mut room = vec![0; n];
    let order = linearize(&fees, &sizes, &parents, &mut room).expect("a cluster of a pool");
    let ordered_fees: Vec<i64> = order.iter().map(|&i| fees[i]).collect();
    let ordered_sizes: Vec<u64> = order.iter().map(|&i| sizes[i]).collect();
    let mut lengths = vec![0; n];
    let lengths = chunk_lengths(&ordered_fees, &ordered_sizes, &mut lengths).expect("its order");
    let mut rest = order;
    let mut chunks = vec![];
    for (number, &length) in lengths.iter().enumerate() {
        let (positions, behind) = rest.split_at(length);
        rest = behind;
        chunks.push(Chunk {
            members: positions.iter().map(|&i| cluster[i]).collect(),
            fee: positions.iter().map(|&i| fees[i]).sum(),
            size: positions
                .iter()
                .fold(0, |sum, &i| sum.saturating_add(sizes[i])),
            least: tx(0).entry.txid,
            order: number,
        });
    }
    chunks
}

/// What went out so far.
struct Out {
    selected: Vec<bool>,
    weight: u128,
    cost: u128,
}

/// How each chunk fared. The template says what went out; a chunk's reason is worked out from what
/// had gone out before its turn.
fn outcomes(list: &List, chunks: &[Chunk], selected: &[usize]) -> Vec<Outcome> {
    let mut out = Out {
        selected: vec![false; list.transactions.len()],
        weight: 0,
        cost: list.terms.reserve.into(),
    };
    let mut rest = selected;
    let mut outcomes = vec![];
    for chunk in chunks {
        let mut addition = addition(list, chunk, &out);
        let outcome = match reason(list, chunk, &addition, &out) {
            Some(reason) => Outcome::Passed(reason),
            None => Outcome::Taken(addition.len()),
        };
        if let Outcome::Taken(length) = outcome {
            let (now, behind) = rest
                .split_at_checked(length)
                .expect("it is in the template");
            let mut gone = now.to_vec();
            gone.sort();
            addition.sort();
            assert_eq!(gone, addition, "the template has another chunk here");
            rest = behind;
            for place in addition {
                out.selected[place] = true;
                out.weight += u128::from(list.transactions[place].entry.weight);
                out.cost += u128::from(list.transactions[place].entry.sigop_cost);
            }
        }
        outcomes.push(outcome);
    }
    assert!(rest.is_empty(), "the template has more than the chunks");
    outcomes
}

/// What a chunk would bring: its members and their ancestors, without those that are out.
fn addition(list: &List, chunk: &Chunk, out: &Out) -> Vec<usize> {
    let mut addition = vec![];
    let mut next = chunk.members.clone();
    while let Some(place) = next.pop() {
        if !out.selected[place] && !addition.contains(&place) {
            addition.push(place);
            next.extend(&list.transactions[place].parents);
        }
    }
    addition
}

/// The first reason that holds.
fn reason(list: &List, chunk: &Chunk, addition: &[usize], out: &Out) -> Option<Reason> {
    let Terms {
        budget, minimum, ..
    } = list.terms;
    let withheld = |&place: &usize| list.transactions[place].withheld;
    let sum = |of: fn(&Transaction) -> u64| -> u128 {
        let each = addition.iter().map(|&place| of(&list.transactions[place]));
        each.map(u128::from).sum()
    };
    let reasons = [
        (Reason::NegativeFee, chunk.fee < 0),
        (
            Reason::BelowMinimum,
            minimum != 0
                && i128::from(chunk.fee) * 1000
                    < i128::from(minimum) * i128::from(chunk.size.div_ceil(4)),
        ),
        (Reason::Withheld, chunk.members.iter().any(withheld)),
        (Reason::NothingLeft, addition.is_empty()),
        (Reason::WithheldAncestor, addition.iter().any(withheld)),
        (
            Reason::OverBudget,
            out.weight + sum(|tx| tx.entry.weight) > budget.into(),
        ),
        (
            Reason::OverSigops,
            out.cost + sum(|tx| tx.entry.sigop_cost) > BLOCK_SIGOPS_MAX.into(),
        ),
    ];
    reasons
        .iter()
        .find(|(_, holds)| *holds)
        .map(|(reason, _)| *reason)
}
