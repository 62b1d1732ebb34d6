//! Which refusal a call has to give, worked out without either side.

use crate::cluster::{Call, Cluster, HIGHEST};

/// The number of the first refusal, in the order of the call, whose condition holds.
pub fn refusal(cluster: &Cluster, call: &Call) -> Option<u64> {
    let order: &[u64] = match call {
        Call::Linearize { .. } => &[1, 2, 11, 3, 4],
        Call::PostLinearize { .. } => &[1, 2, 3, 4, 5],
        Call::ChunkLengths { .. } => &[1, 2, 11, 3],
    };
    order
        .iter()
        .copied()
        .find(|&number| holds(number, cluster, call))
}

fn holds(number: u64, cluster: &Cluster, call: &Call) -> bool {
    let n = cluster.fees.len();
    match (number, call) {
        (1, Call::ChunkLengths { .. }) => cluster.sizes.len() != n,
        (1, _) => cluster.sizes.len() != n || cluster.words.len() != n,
        (2, _) => n > 64,
        (3, _) => cluster
            .fees
            .iter()
            .any(|&fee| fee.unsigned_abs() > HIGHEST as u64),
        (4, _) => is_cyclic(&cluster.words),
        (5, Call::PostLinearize { order }) => !is_order(order, n),
        (11, Call::Linearize { room } | Call::ChunkLengths { room }) => *room < n,
        _ => unreachable!("{call:?} has no refusal {number}"),
    }
}

/// Whether some member of at most 64 reaches itself: its own bit and those outside are no links.
pub fn is_cyclic(words: &[u64]) -> bool {
    let n = words.len();
    let inside = if n == 64 { u64::MAX } else { (1 << n) - 1 };
    let mut reached: Vec<u64> = (0..n).map(|i| words[i] & inside & !(1 << i)).collect();
    for through in 0..n {
        for i in 0..n {
            if reached[i] >> through & 1 == 1 {
                reached[i] |= reached[through];
            }
        }
    }
    (0..n).any(|i| reached[i] >> i & 1 == 1)
}

fn is_order(order: &[usize], n: usize) -> bool {
    let mut sorted = order.to_vec();
    sorted.sort_unstable();
    sorted.iter().copied().eq(0..n)
}

#[cfg(test)]
mod tests {
    use super::*;

    const ROOM: Call = Call::Linearize { room: 1 };

    #[test]
    fn the_first_refusal_of_several() {
        let circle = vec![0b10, 0b01];
        let mut cluster = Cluster::new(vec![HIGHEST + 1, 0], vec![1, 1], circle);
        assert_eq!(refusal(&cluster, &ROOM), Some(11));
        assert_eq!(refusal(&cluster, &Call::Linearize { room: 2 }), Some(3));
        assert_eq!(
            refusal(&cluster, &Call::PostLinearize { order: vec![] }),
            Some(3)
        );
        cluster.fees[0] = -HIGHEST;
        assert_eq!(refusal(&cluster, &Call::Linearize { room: 2 }), Some(4));
        assert_eq!(
            refusal(&cluster, &Call::PostLinearize { order: vec![] }),
            Some(4)
        );
        assert_eq!(refusal(&cluster, &Call::ChunkLengths { room: 2 }), None);
        cluster.words.pop();
        assert_eq!(refusal(&cluster, &ROOM), Some(1));
        assert_eq!(refusal(&cluster, &Call::ChunkLengths { room: 2 }), None);
    }

    #[test]
    fn cycles() {
        assert!(!is_cyclic(&[u64::MAX]));
        assert!(!is_cyclic(&[0, 0b011, 0b111]));
        assert!(is_cyclic(&[0b100, 0b001, 0b010]));
    }
}
