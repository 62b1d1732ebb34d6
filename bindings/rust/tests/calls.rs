//! Known clusters, and each refusal of each call.

use yaghrudil::{chunk_lengths, linearize, post_linearize, Refusal};

const HIGHEST: i64 = 4_200_000_000_000_000;
const UNTOUCHED: usize = 12345;

struct Cluster {
    fees: Vec<i64>,
    sizes: Vec<u64>,
    parents: Vec<u64>,
}

/// A cluster by each member's fee, size and parents.
fn cluster(members: &[(i64, u64, &[u32])]) -> Cluster {
    let word = |parents: &[u32]| parents.iter().map(|p| 1u64 << p).sum();
    Cluster {
        fees: members.iter().map(|m| m.0).collect(),
        sizes: members.iter().map(|m| m.1).collect(),
        parents: members.iter().map(|m| word(m.2)).collect(),
    }
}

/// Members of fee 1 and size 1 without parents.
fn plain(n: usize) -> Cluster {
    cluster(&vec![(1, 1, &[][..]); n])
}

/// The order, in a room that is longer than needed and must keep what is behind the order.
fn order_of(c: &Cluster) -> Result<Vec<usize>, Refusal> {
    let n = c.fees.len();
    let mut room = vec![UNTOUCHED; n + 2];
    let order = linearize(&c.fees, &c.sizes, &c.parents, &mut room).map(<[usize]>::to_vec);
    let written = order.as_ref().map_or(0, Vec::len);
    assert!(room[written..].iter().all(|&place| place == UNTOUCHED));
    order
}

fn chunks_of(fees: &[i64], sizes: &[u64]) -> Result<Vec<usize>, Refusal> {
    let mut room = vec![UNTOUCHED; fees.len() + 2];
    let chunks = chunk_lengths(fees, sizes, &mut room).map(<[usize]>::to_vec);
    let written = chunks.as_ref().map_or(0, Vec::len);
    assert!(room[written..].iter().all(|&place| place == UNTOUCHED));
    chunks
}

/// The order and the chunks of it.
fn solve(members: &[(i64, u64, &[u32])]) -> (Vec<usize>, Vec<usize>) {
    let c = cluster(members);
    let order = order_of(&c).unwrap();
    let fees: Vec<i64> = order.iter().map(|&i| c.fees[i]).collect();
    let sizes: Vec<u64> = order.iter().map(|&i| c.sizes[i]).collect();
    (order, chunks_of(&fees, &sizes).unwrap())
}

#[test]
fn orders_and_chunks() {
    assert_eq!(solve(&[]), (vec![], vec![]));
    assert_eq!(solve(&[(7, 100, &[])]), (vec![0], vec![1]));
    assert_eq!(
        solve(&[(0, 100, &[]), (300, 100, &[0])]),
        (vec![0, 1], vec![2])
    );
    assert_eq!(
        solve(&[(100, 100, &[]), (100, 100, &[0])]),
        (vec![0, 1], vec![1, 1])
    );
    assert_eq!(
        solve(&[(200, 200, &[]), (100, 100, &[])]),
        (vec![1, 0], vec![1, 1])
    );
    let rising: [(i64, u64, &[u32]); 3] = [(10, 100, &[]), (20, 100, &[]), (30, 100, &[])];
    assert_eq!(solve(&rising).0, [2, 1, 0]);
    let family: [(i64, u64, &[u32]); 3] = [(0, 100, &[]), (100, 100, &[0]), (300, 100, &[0])];
    assert_eq!(solve(&family), (vec![0, 2, 1], vec![2, 1]));
}

#[test]
fn chunks_of_lists() {
    assert_eq!(chunks_of(&[1, 0, 2], &[1, 1, 1]), Ok(vec![1, 2]));
    assert_eq!(chunks_of(&[0, 0], &[0, 0]), Ok(vec![1, 1]));
    assert_eq!(chunks_of(&[1, 5], &[1, 0]), Ok(vec![2]));
}

#[test]
fn bits_that_link_nothing_are_ignored() {
    let c = Cluster {
        fees: vec![7],
        sizes: vec![100],
        parents: vec![u64::MAX],
    };
    assert_eq!(order_of(&c), Ok(vec![0]));
}

#[test]
fn limits_are_accepted() {
    assert_eq!(order_of(&plain(64)), Ok((0..64).collect()));
    for fee in [HIGHEST, -HIGHEST] {
        assert_eq!(solve(&[(fee, u64::MAX, &[])]), (vec![0], vec![1]));
    }
}

#[test]
fn post_linearize_improves_in_place() {
    let c = cluster(&[(0, 100, &[]), (100, 100, &[0]), (300, 100, &[0])]);
    let mut order = [0, 1, 2];
    assert_eq!(
        post_linearize(&c.fees, &c.sizes, &c.parents, &mut order),
        Ok(())
    );
    assert_eq!(order, [0, 2, 1]);
}

#[test]
fn linearize_refuses() {
    let mut room = [UNTOUCHED; 70];
    let mut refusal = |c: &Cluster, places: usize| {
        let refusal = linearize(&c.fees, &c.sizes, &c.parents, &mut room[..places]).err();
        assert_eq!(room, [UNTOUCHED; 70]);
        refusal
    };
    let mut uneven = plain(3);
    uneven.parents.pop();
    assert_eq!(refusal(&uneven, 3), Some(Refusal::LengthsDiffer));
    assert_eq!(refusal(&plain(65), 65), Some(Refusal::TooManyMembers));
    assert_eq!(refusal(&plain(3), 2), Some(Refusal::RoomTooShort));
    for fee in [HIGHEST + 1, -HIGHEST - 1] {
        assert_eq!(
            refusal(&cluster(&[(fee, 1, &[])]), 1),
            Some(Refusal::OutOfRange)
        );
    }
    let circle = cluster(&[(1, 1, &[1]), (1, 1, &[0])]);
    assert_eq!(refusal(&circle, 2), Some(Refusal::Cycle));
    // several at once: a room that is too short goes before a fee and a circle
    let circle = cluster(&[(HIGHEST + 1, 1, &[1]), (1, 1, &[0])]);
    assert_eq!(refusal(&circle, 1), Some(Refusal::RoomTooShort));
    assert_eq!(refusal(&circle, 2), Some(Refusal::OutOfRange));
}

#[test]
fn post_linearize_refuses() {
    fn refusal(c: &Cluster, order: &[usize]) -> Option<Refusal> {
        let mut lent = order.to_vec();
        let refusal = post_linearize(&c.fees, &c.sizes, &c.parents, &mut lent).err();
        assert!(refusal.is_none() || lent == order);
        refusal
    }
    let mut uneven = plain(2);
    uneven.sizes.push(1);
    assert_eq!(refusal(&uneven, &[0, 1]), Some(Refusal::LengthsDiffer));
    let all: Vec<usize> = (0..65).collect();
    assert_eq!(refusal(&plain(65), &all), Some(Refusal::TooManyMembers));
    assert_eq!(
        refusal(&cluster(&[(i64::MIN, 1, &[])]), &[0]),
        Some(Refusal::OutOfRange)
    );
    let circle = cluster(&[(1, 1, &[1]), (1, 1, &[0])]);
    assert_eq!(refusal(&circle, &[0, 1]), Some(Refusal::Cycle));
    for order in [
        &[0, 0][..],
        &[0, 2],
        &[1],
        &[0, 1, 1],
        &[],
        &[usize::MAX, 0],
    ] {
        assert_eq!(refusal(&plain(2), order), Some(Refusal::NotAnOrder));
    }
    assert_eq!(refusal(&plain(2), &[1, 0]), None);
}

#[test]
fn chunk_lengths_refuses() {
    let mut room = [UNTOUCHED; 70];
    let mut refusal = |fees: &[i64], sizes: &[u64], places: usize| {
        let refusal = chunk_lengths(fees, sizes, &mut room[..places]).err();
        assert_eq!(room, [UNTOUCHED; 70]);
        refusal
    };
    assert_eq!(refusal(&[1, 2], &[1], 2), Some(Refusal::LengthsDiffer));
    assert_eq!(
        refusal(&[1; 65], &[1; 65], 65),
        Some(Refusal::TooManyMembers)
    );
    // one chunk would do, but room for as many chunks as members is asked for
    assert_eq!(refusal(&[0, 5], &[1, 1], 1), Some(Refusal::RoomTooShort));
    assert_eq!(refusal(&[HIGHEST + 1], &[1], 1), Some(Refusal::OutOfRange));
}
