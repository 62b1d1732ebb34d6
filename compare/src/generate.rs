//! Random clusters: which members are linked, what their numbers are, and what is named in vain.

use crate::cluster::{Cluster, HIGHEST};
use crate::rng::Rng;
use std::ops::Range;

#[derive(Clone, Copy, Debug, PartialEq, Eq)]
pub enum Shape {
    Chain,
    ReversedChain,
    Tree,
    Star,
    InvertedStar,
    Dense,
    Layered,
    FewParents,
    Random,
    Unlinked,
}

impl Shape {
    pub const ALL: [Shape; 10] = [
        Shape::Chain,
        Shape::ReversedChain,
        Shape::Tree,
        Shape::Star,
        Shape::InvertedStar,
        Shape::Dense,
        Shape::Layered,
        Shape::FewParents,
        Shape::Random,
        Shape::Unlinked,
    ];

    /// The parents of each of n members as words, without a cycle.
    fn words(self, n: usize, rng: &mut Rng) -> Vec<u64> {
        let width = 1 + rng.index(8);
        let percent = if self == Shape::Dense {
            75
        } else {
            1 + rng.below(99)
        };
        let word = |i: usize| match self {
            Shape::Chain if i > 0 => 1 << (i - 1),
            Shape::ReversedChain if i + 1 < n => 1 << (i + 1),
            Shape::Tree if i > 0 => 1 << rng.index(i),
            Shape::Star if i > 0 => 1,
            Shape::InvertedStar if i + 1 == n => (1 << i) - 1,
            Shape::FewParents if i > 0 => {
                (0..=rng.below(3)).fold(0, |word, _| word | 1 << rng.index(i))
            }
            Shape::Layered => some_of(layer_before(i, width), percent, rng),
            Shape::Dense | Shape::Random => some_of(0..i, percent, rng),
            _ => 0,
        };
        (0..n).map(word).collect()
    }
}

fn layer_before(i: usize, width: usize) -> Range<usize> {
    let own = i / width * width;
    own.saturating_sub(width)..own
}

fn some_of(positions: Range<usize>, percent: u64, rng: &mut Rng) -> u64 {
    let chosen = positions.filter(|_| rng.below(100) < percent);
    chosen.fold(0, |word, p| word | 1 << p)
}

/// What fees and sizes look like.
#[derive(Clone, Copy, Debug, PartialEq, Eq)]
pub enum Numbers {
    Ordinary,
    FewValues,
    ZeroSizes,
    HeldSizes,
    NegativeFees,
    Limits,
    ZeroFees,
    EqualRates,
    Weights,
    WordEnds,
    Mixed,
}

impl Numbers {
    pub const ALL: [Numbers; 11] = [
        Numbers::Ordinary,
        Numbers::FewValues,
        Numbers::ZeroSizes,
        Numbers::HeldSizes,
        Numbers::NegativeFees,
        Numbers::Limits,
        Numbers::ZeroFees,
        Numbers::EqualRates,
        Numbers::Weights,
        Numbers::WordEnds,
        Numbers::Mixed,
    ];

    fn list(self, n: usize, rng: &mut Rng) -> (Vec<i64>, Vec<u64>) {
        let rate = rng.between(-3, 12);
        (0..n).map(|_| self.member(rate, rng)).unzip()
    }

    /// A fee and a size; the rate is that of members which shall all have the same.
    fn member(self, rate: i64, rng: &mut Rng) -> (i64, u64) {
        let usual = 100 + rng.below(3901);
        match self {
            Numbers::Ordinary => (rng.between(0, 1 << 31), usual),
            Numbers::FewValues => (rng.between(-1, 3), 1 + rng.below(2)),
            Numbers::ZeroSizes => (rng.between(-5, 5), rng.pick(&[0, 1, 2, usual])),
            Numbers::HeldSizes => (huge_fee(rng), huge_size(rng)),
            Numbers::NegativeFees => (rng.between(-(1 << 31), 1 << 29), usual),
            Numbers::Limits => (huge_fee(rng), rng.pick(&[1, 2, 3, usual])),
            Numbers::ZeroFees => (rng.pick(&[0, 0, 0, 1]), rng.pick(&[0, 1, 1, usual])),
            Numbers::EqualRates => (rate * usual as i64, usual),
            Numbers::Weights => (rng.between(0, 1 << 40), 1 + rng.below(4_000_000)),
            Numbers::WordEnds => (word_end_fee(rng), word_end_size(rng)),
            Numbers::Mixed => rng.pick(&Numbers::ALL[..10]).member(rate, rng),
        }
    }
}

/// At the ends of the range, near them, or next to nothing.
fn huge_fee(rng: &mut Rng) -> i64 {
    let near = HIGHEST - rng.between(0, 3);
    rng.pick(&[HIGHEST, -HIGHEST, near, -near, HIGHEST / 2, 0, 1, -1])
}

/// About the widest fee that the library compares by products of one word.
fn word_end_fee(rng: &mut Rng) -> i64 {
    let near = (1 << 35) + rng.between(-2, 2);
    rng.pick(&[near, -near, near / 2, near - 1, 1])
}

/// The same of sizes.
fn word_end_size(rng: &mut Rng) -> u64 {
    let near = (1 << 28) + rng.below(5) - 2;
    rng.pick(&[near, near / 2, near - 1, 1])
}

/// Such that a few of them reach the end of a u64, or one of them does.
fn huge_size(rng: &mut Rng) -> u64 {
    let near = u64::MAX - rng.below(4);
    let half = (1 << 63) + rng.below(5) - 2;
    let small = rng.below(100);
    rng.pick(&[u64::MAX, near, half, 1 << 62, u64::MAX / 3, small])
}

/// A cluster of n members; in half of the cases their positions say nothing about their links.
pub fn cluster(shape: Shape, numbers: Numbers, n: usize, rng: &mut Rng) -> Cluster {
    let (fees, sizes) = numbers.list(n, rng);
    let cluster = Cluster::new(fees, sizes, shape.words(n, rng));
    if rng.one_in(2) {
        return cluster.renamed(&rng.permutation(n));
    }
    cluster
}

/// Any shape and numbers, and links named in vain in a third of the cases.
pub fn any_cluster(n: usize, rng: &mut Rng) -> Cluster {
    let (shape, numbers) = (rng.pick(&Shape::ALL), rng.pick(&Numbers::ALL));
    let mut cluster = cluster(shape, numbers, n, rng);
    if rng.one_in(3) {
        name_in_vain(&mut cluster, rng);
    }
    cluster
}

/// Adds own positions and positions outside to the parents, and repeats to the lists; no link changes.
pub fn name_in_vain(cluster: &mut Cluster, rng: &mut Rng) {
    let n = cluster.len();
    for (i, word) in cluster.words.iter_mut().enumerate() {
        let list = &mut cluster.lists[i];
        let outside = n + rng.index(65 - n);
        for vain in [i, outside] {
            if vain < 64 && rng.one_in(2) {
                *word |= 1 << vain;
                list.push(vain);
            }
        }
        // what no bit can say
        for _ in 0..rng.below(3) {
            let repeat = list.first().copied().unwrap_or(64);
            list.push(rng.pick(&[repeat, 64, 1000, usize::MAX]));
        }
        rng.shuffle(list);
    }
}

#[cfg(test)]
mod tests {
    use super::*;
    use crate::expected::is_cyclic;

    #[test]
    fn no_shape_has_a_cycle() {
        let mut rng = Rng::new(1);
        for shape in Shape::ALL {
            for n in 0..=64 {
                let cluster = cluster(shape, Numbers::Mixed, n, &mut rng);
                assert!(!is_cyclic(&cluster.words), "{shape:?}");
                assert!(cluster.fees.iter().all(|fee| fee.abs() <= HIGHEST));
            }
        }
    }

    #[test]
    fn what_is_named_in_vain_links_nothing() {
        let mut rng = Rng::new(2);
        for n in 1..=64 {
            let plain = cluster(Shape::Random, Numbers::Ordinary, n, &mut rng);
            let mut named = plain.clone();
            name_in_vain(&mut named, &mut rng);
            let inside = u64::MAX >> (64 - n);
            for i in 0..n {
                let links = named.words[i] & inside & !(1 << i);
                assert_eq!(links, plain.words[i]);
                let listed = named.lists[i].iter().filter(|&&p| p < n && p != i);
                assert_eq!(listed.fold(0, |word, p| word | 1 << p), links);
            }
        }
    }
}
