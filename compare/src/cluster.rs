//! A cluster as both sides take it, the calls, and what each side answers.

use crate::original::{chunk_lengths, DepGraph, FeeFrac};
use std::cell::OnceCell;
use std::fmt;
use std::hint::black_box;
use yaghrudil::Refusal;

/// The highest fee of a member; the lowest is as far below 0.
pub const HIGHEST: i64 = 4_200_000_000_000_000;

/// Members by position. Words and lists name the same links; either may also name what links nothing.
#[derive(Clone, Debug, PartialEq, Eq)]
pub struct Cluster {
    pub fees: Vec<i64>,
    pub sizes: Vec<u64>,
    /// Parents for the library: bit p of word i.
    pub words: Vec<u64>,
    /// Parents for the original.
    pub lists: Vec<Vec<usize>>,
}

impl Cluster {
    pub fn new(fees: Vec<i64>, sizes: Vec<u64>, words: Vec<u64>) -> Self {
        let list = |word: &u64| (0..64).filter(|p| word >> p & 1 == 1).collect();
        let lists = words.iter().map(list).collect();
        Cluster {
            fees,
            sizes,
            words,
            lists,
        }
    }

    pub fn len(&self) -> usize {
        self.fees.len()
    }

    pub fn rates(&self) -> Vec<FeeFrac> {
        let members = self.fees.iter().zip(&self.sizes);
        members
            .map(|(&fee, &size)| FeeFrac::new(fee, size))
            .collect()
    }

    /// The members as a list in this order, without links.
    pub fn listed(&self, order: &[usize]) -> Cluster {
        let fees = order.iter().map(|&i| self.fees[i]).collect();
        let sizes = order.iter().map(|&i| self.sizes[i]).collect();
        Cluster::new(fees, sizes, vec![0; order.len()])
    }

    /// The same cluster, whose member i has the new position `names[i]`; it names nothing in vain.
    pub fn renamed(&self, names: &[usize]) -> Cluster {
        let n = self.len();
        let (mut fees, mut sizes, mut words) = (vec![0; n], vec![0; n], vec![0; n]);
        for (i, &name) in names.iter().enumerate() {
            fees[name] = self.fees[i];
            sizes[name] = self.sizes[i];
            let parents = (0..n).filter(|&p| p != i && self.words[i] >> p & 1 == 1);
            words[name] = parents.fold(0, |word, p| word | 1 << names[p]);
        }
        Cluster::new(fees, sizes, words)
    }

    /// The cluster with one member fewer; those behind it move down.
    pub fn without(&self, gone: usize) -> Cluster {
        let mut left = self.clone();
        remove_if_there(&mut left.fees, gone);
        remove_if_there(&mut left.sizes, gone);
        remove_if_there(&mut left.words, gone);
        remove_if_there(&mut left.lists, gone);
        for word in &mut left.words {
            if gone < 64 {
                let below = (1 << gone) - 1;
                *word = *word & below | *word >> 1 & !below;
            }
        }
        for list in &mut left.lists {
            *list = list_without(list, gone);
        }
        left
    }
}

/// The cluster program's form.
impl fmt::Display for Cluster {
    fn fmt(&self, f: &mut fmt::Formatter) -> fmt::Result {
        writeln!(f, "n={}", self.len())?;
        for ((fee, size), list) in self.fees.iter().zip(&self.sizes).zip(&self.lists) {
            writeln!(f, "fee={fee}\nsize={size}\nparents={}", commas(list))?;
        }
        Ok(())
    }
}

pub fn commas(list: &[usize]) -> String {
    let words: Vec<String> = list.iter().map(usize::to_string).collect();
    words.join(",")
}

fn remove_if_there<T>(list: &mut Vec<T>, at: usize) {
    if at < list.len() {
        list.remove(at);
    }
}

fn list_without(list: &[usize], gone: usize) -> Vec<usize> {
    let kept = list.iter().filter(|&&p| p != gone);
    kept.map(|&p| if p > gone { p - 1 } else { p }).collect()
}

/// A call with what it lends besides the cluster: the length of a room, or an order.
#[derive(Clone, Debug)]
pub enum Call {
    Linearize { room: usize },
    PostLinearize { order: Vec<usize> },
    ChunkLengths { room: usize },
}

impl Call {
    pub const NAMES: [&'static str; 3] = ["linearize", "post_linearize", "chunk_lengths"];

    /// Its place among the names.
    pub fn kind(&self) -> usize {
        match self {
            Call::Linearize { .. } => 0,
            Call::PostLinearize { .. } => 1,
            Call::ChunkLengths { .. } => 2,
        }
    }

    /// The call that fits a cluster with one member fewer.
    pub fn without(&self, gone: usize) -> Call {
        match self {
            Call::Linearize { room } => Call::Linearize {
                room: room.saturating_sub(1),
            },
            Call::ChunkLengths { room } => Call::ChunkLengths {
                room: room.saturating_sub(1),
            },
            Call::PostLinearize { order } => Call::PostLinearize {
                order: list_without(order, gone),
            },
        }
    }
}

#[derive(Clone, Debug, PartialEq, Eq)]
pub enum Answer {
    Wrote(Vec<usize>),
    Refused(u64),
    /// Memory changed that had to stay. Only the library can be found to do this.
    Disturbed(&'static str),
}

/// What stands in a room before a call: no position, and another number at each place.
fn untouched(at: usize) -> usize {
    usize::MAX - at
}

/// The library's answer. It is lent a copy of the cluster, so that a change of what it may only read shows.
pub fn ours(cluster: &Cluster, call: &Call) -> Answer {
    let (fees, sizes) = (cluster.fees.clone(), cluster.sizes.clone());
    let words = cluster.words.clone();
    let before: Vec<usize> = match call {
        Call::Linearize { room } | Call::ChunkLengths { room } => {
            (0..*room).map(untouched).collect()
        }
        Call::PostLinearize { order } => order.clone(),
    };
    let mut room = before.clone();
    let written: Result<usize, Refusal> = match call {
        Call::Linearize { .. } => {
            yaghrudil::linearize(&fees, &sizes, &words, &mut room).map(<[usize]>::len)
        }
        Call::PostLinearize { .. } => {
            yaghrudil::post_linearize(&fees, &sizes, &words, &mut room).map(|()| before.len())
        }
        Call::ChunkLengths { .. } => {
            yaghrudil::chunk_lengths(&fees, &sizes, &mut room).map(<[usize]>::len)
        }
    };
    // the compiler takes it that a shared slice does not change, which is what is to be tested
    let (fees, sizes, words) = black_box((fees, sizes, words));
    if fees != cluster.fees || sizes != cluster.sizes || words != cluster.words {
        return Answer::Disturbed("the cluster changed");
    }
    match written {
        Ok(count) if room[count..] != before[count..] => {
            Answer::Disturbed("the room changed behind what was written")
        }
        Ok(count) => {
            room.truncate(count);
            Answer::Wrote(room)
        }
        Err(_) if room != before => Answer::Disturbed("a refusal changed the written slice"),
        Err(refusal) => Answer::Refused(refusal.number()),
    }
}

/// The original on one cluster. Its graph and order are made once, and only if they are asked for.
pub struct Original<'c> {
    pub cluster: &'c Cluster,
    graph: OnceCell<DepGraph>,
    order: OnceCell<Vec<usize>>,
}

impl<'c> Original<'c> {
    pub fn new(cluster: &'c Cluster) -> Self {
        Original {
            cluster,
            graph: OnceCell::new(),
            order: OnceCell::new(),
        }
    }

    /// The answer to a call that is not to be refused.
    pub fn answer(&self, call: &Call) -> Answer {
        Answer::Wrote(match call {
            Call::Linearize { .. } => self.order().to_vec(),
            Call::PostLinearize { order } => self.post_linearize(order),
            Call::ChunkLengths { .. } => chunk_lengths(&self.cluster.rates()),
        })
    }

    pub fn order(&self) -> &[usize] {
        self.order.get_or_init(|| self.graph().linearize())
    }

    pub fn post_linearize(&self, order: &[usize]) -> Vec<usize> {
        let mut order = order.to_vec();
        self.graph().post_linearize(&mut order);
        order
    }

    fn graph(&self) -> &DepGraph {
        let make = || DepGraph::new(self.cluster.rates(), &self.cluster.lists);
        self.graph.get_or_init(make)
    }
}
