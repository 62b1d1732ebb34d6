//! The wrong programs that document 01 names for a cluster, and clusters on which each answers the whole call
//! otherwise than the rules do: what an early step does wrong, a later one may well repair.

use crate::cluster::{commas, Cluster, HIGHEST};
use crate::expected::is_cyclic;
use crate::model::{solve, solve_wrongly};
use crate::rng::Rng;

const SEED: u64 = 1;
const MOST: usize = 6;

#[derive(Clone, Copy, Debug, PartialEq, Eq)]
pub enum Wrong {
    /// "always the order 0..n-1"
    ByPosition,
    /// "choosing the first ancestor set well and then running by position": later rounds take the lowest that is left
    FirstSetOnly,
    /// "Using ancestor sums without giving back the members already out"
    KeepsWhatIsOut,
    /// "Joining chunks at equal feerate": in the chunk lengths that the call answers
    JoinsEqualChunks,
    /// the same, where module 7 cuts its list
    CutsEqualTogether,
    /// the same, where a post pass merges groups
    MergesEqualGroups,
    /// "Comparing fee / size after division"
    Divides,
    /// "or products in 64 bits"
    OneWord,
}

impl Wrong {
    pub const ALL: [Wrong; 8] = [
        Wrong::ByPosition,
        Wrong::FirstSetOnly,
        Wrong::KeepsWhatIsOut,
        Wrong::JoinsEqualChunks,
        Wrong::CutsEqualTogether,
        Wrong::MergesEqualGroups,
        Wrong::Divides,
        Wrong::OneWord,
    ];

    /// The cluster that stands for it in crates/linearize/specs/Cases.antt and in the list of cases to replay.
    pub fn telling(self) -> Cluster {
        let members: &[(i64, u64, u64)] = match self {
            Wrong::ByPosition => &[(200, 200, 0), (100, 100, 0)],
            Wrong::FirstSetOnly => &[(6, 2, 0), (4, 1, 21), (1, 1, 0), (8, 2, 16), (2, 2, 0)],
            Wrong::KeepsWhatIsOut => &[(1, 3, 8), (4, 2, 25), (3, 2, 16), (5, 1, 0), (0, 1, 0)],
            Wrong::JoinsEqualChunks => &[(100, 100, 0), (100, 100, 1)],
            Wrong::CutsEqualTogether => &[(0, 1, 0), (1, 1, 1), (1, 2, 0)],
            Wrong::MergesEqualGroups => &[
                (3, 3, 0),
                (8, 2, 4),
                (0, 2, 0),
                (9, 2, 4),
                (9, 1, 44),
                (7, 3, 1),
            ],
            Wrong::Divides => &[(0, 1, 0), (1, 2, 0)],
            Wrong::OneWord => &[(1, 1 << 13, 0), (1 << 50, 1, 0)],
        };
        Cluster::new(
            members.iter().map(|member| member.0).collect(),
            members.iter().map(|member| member.1).collect(),
            members.iter().map(|member| member.2).collect(),
        )
    }

    /// Whether the whole call, its order or the chunks of that, shows the error.
    fn shows(self, cluster: &Cluster) -> bool {
        let right = solve(cluster);
        let wrong = solve_wrongly(cluster, Some(self));
        right.order != wrong.order || right.chunks != wrong.chunks
    }

    /// A cluster that may show the error, with small numbers where they do.
    fn any_cluster(self, n: usize, rng: &mut Rng) -> Cluster {
        let top = if self == Wrong::OneWord { HIGHEST } else { 9 };
        let fee = |rng: &mut Rng| {
            if rng.one_in(2) {
                rng.between(0, 9)
            } else {
                rng.between(0, top)
            }
        };
        let size = |rng: &mut Rng| {
            if self == Wrong::OneWord {
                1 << rng.below(14)
            } else {
                1 + rng.below(3)
            }
        };
        let percent = rng.below(60);
        let word = |i: usize, rng: &mut Rng| {
            (0..n)
                .filter(|&p| p != i && rng.below(100) < percent)
                .fold(0, |word, p| word | 1 << p)
        };
        loop {
            let words: Vec<u64> = (0..n).map(|i| word(i, rng)).collect();
            if !is_cyclic(&words) {
                let fees = (0..n).map(|_| fee(rng)).collect();
                let sizes = (0..n).map(|_| size(rng)).collect();
                return Cluster::new(fees, sizes, words);
            }
        }
    }
}

/// Prints for each wrong program the smallest cluster that was found to show it.
pub fn search(tries: u64) {
    let mut rng = Rng::new(SEED);
    for wrong in Wrong::ALL {
        println!("{wrong:?}");
        match (1..=MOST).find_map(|n| smallest(wrong, n, tries, &mut rng)) {
            None => println!("  no cluster of up to {MOST} members was found"),
            Some(cluster) => tell(wrong, &cluster),
        }
    }
}

/// Of so many clusters of n members, that with the fewest links, then the smallest numbers.
fn smallest(wrong: Wrong, n: usize, tries: u64, rng: &mut Rng) -> Option<Cluster> {
    let clusters = (0..tries).map(|_| wrong.any_cluster(n, rng));
    clusters
        .filter(|cluster| wrong.shows(cluster))
        .min_by_key(weight)
}

fn weight(cluster: &Cluster) -> (usize, i64, u64) {
    let links = cluster.lists.iter().map(Vec::len).sum();
    (links, cluster.fees.iter().sum(), cluster.sizes.iter().sum())
}

fn tell(wrong: Wrong, cluster: &Cluster) {
    let member = |i: usize| {
        let (fee, size, parents) = (cluster.fees[i], cluster.sizes[i], &cluster.lists[i]);
        let behind = if parents.is_empty() { "" } else { ";" };
        format!("({fee},{size}{behind}{})", commas(parents))
    };
    let members: Vec<String> = (0..cluster.len()).map(member).collect();
    println!("  {}", members.join(", "));
    for (name, solved) in [
        ("right", solve(cluster)),
        ("wrong", solve_wrongly(cluster, Some(wrong))),
    ] {
        println!(
            "  {name}: order {}; chunks {}",
            commas(&solved.order),
            commas(&solved.chunks)
        );
    }
}

#[cfg(test)]
mod tests {
    use super::*;
    use crate::cluster::Original;

    #[test]
    fn each_is_told_by_its_cluster() {
        for wrong in Wrong::ALL {
            let cluster = wrong.telling();
            assert!(wrong.shows(&cluster), "{wrong:?}");
            assert_eq!(solve(&cluster).order, Original::new(&cluster).order());
        }
    }
}
