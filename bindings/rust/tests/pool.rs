//! Each call of a pool through the wrapper, and each of its refusals.

use yaghrudil::{
    table_words, Entry, Limits, Pool, Refusal, Terms, Totals, Txid, COUNT_LIMIT_MAX, DELTA_MAX,
    POOL_FEE_MAX, SIZE_LIMIT_MAX, SLOTS_MAX, WEIGHT_MAX,
};

/// A txid that is told by a number.
fn txid(number: u16) -> Txid {
    let mut bytes = [7; 32];
    bytes[..2].copy_from_slice(&number.to_be_bytes());
    bytes
}

/// An entry of fee 1,000 and weight 400.
fn entry(number: u16) -> Entry {
    Entry {
        txid: txid(number),
        fee: 1000,
        weight: 400,
        sigop_cost: 4,
    }
}

fn pool(slots: usize) -> Pool {
    Pool::new(slots, Limits::default()).unwrap()
}

/// That a call is refused so, and leaves every word.
fn refuses<T: std::fmt::Debug + PartialEq>(
    pool: &mut Pool,
    refusal: Refusal,
    call: impl FnOnce(&mut Pool) -> Result<T, Refusal>,
) {
    let before = pool.words().to_vec();
    assert_eq!(call(pool), Err(refusal));
    assert_eq!(pool.words(), before);
}

#[test]
fn slots_of_a_pool() {
    for slots in [1, 2, 1000, SLOTS_MAX] {
        let pool = pool(slots);
        assert_eq!(pool.slots(), slots);
        assert_eq!(pool.words().len(), table_words(slots));
    }
    for slots in [0, SLOTS_MAX + 1, usize::MAX] {
        let refused = Pool::new(slots, Limits::default()).err();
        assert_eq!(refused, Some(Refusal::OutOfRange));
    }
}

#[test]
fn limits_of_a_pool() {
    let good = Limits::default();
    for limits in [
        Limits { count: 1, ..good },
        Limits { size: 1, ..good },
        Limits {
            bytes_per_sigop: 0,
            ..good
        },
        Limits {
            bytes_per_sigop: u64::MAX,
            ..good
        },
    ] {
        assert!(Pool::new(3, limits).is_ok());
    }
    for limits in [
        Limits { count: 0, ..good },
        Limits {
            count: COUNT_LIMIT_MAX + 1,
            ..good
        },
        Limits { size: 0, ..good },
        Limits {
            size: SIZE_LIMIT_MAX + 1,
            ..good
        },
    ] {
        assert_eq!(Pool::new(3, limits).err(), Some(Refusal::OutOfRange));
        refuses(&mut pool(3), Refusal::OutOfRange, |pool| pool.make(limits));
    }
}

#[test]
fn adds_take_the_lowest_free_slot() {
    let mut pool = pool(3);
    for n in 0..3 {
        assert_eq!(pool.add(&entry(n), &[]), Ok(n.into()));
    }
    assert_eq!(pool.remove(&txid(1)), Ok(1));
    assert_eq!(pool.add(&entry(9), &[]), Ok(1));
    let totals = pool.totals().unwrap();
    assert_eq!((totals.entries, totals.weight), (3, 1200));
}

#[test]
fn numbers_arrive_where_they_belong() {
    // each in its own range alone, so that no two can be mixed up
    let mut pool = pool(1);
    let wide = Entry {
        txid: txid(1),
        fee: POOL_FEE_MAX,
        weight: WEIGHT_MAX,
        sigop_cost: u64::MAX,
    };
    let limit = Entry {
        weight: 4 * SIZE_LIMIT_MAX,
        ..wide
    };
    refuses(&mut pool, Refusal::ClusterTooLarge, |pool| {
        pool.add(&wide, &[])
    });
    assert_eq!(pool.add(&limit, &[]), Ok(0));
    assert_eq!(
        pool.totals(),
        Ok(Totals {
            entries: 1,
            weight: 404_000
        })
    );
}

#[test]
fn parents_that_do_not_stand_are_ignored() {
    let mut pool = pool(4);
    pool.add(&entry(1), &[]).unwrap();
    let listed = [txid(1), txid(1), txid(2), txid(8)];
    assert_eq!(pool.add(&entry(2), &listed), Ok(1));
    // 2 is linked with 1 alone: with both gone nothing is left
    pool.remove(&txid(1)).unwrap();
    pool.remove(&txid(2)).unwrap();
    assert_eq!(pool.words(), self::pool(4).words());
}

#[test]
fn add_refuses() {
    let mut one = pool(1);
    for wrong in [
        Entry {
            fee: POOL_FEE_MAX + 1,
            ..entry(1)
        },
        Entry {
            weight: 0,
            ..entry(1)
        },
        Entry {
            weight: WEIGHT_MAX + 1,
            ..entry(1)
        },
    ] {
        refuses(&mut one, Refusal::OutOfRange, |pool| pool.add(&wrong, &[]));
    }
    one.add(&entry(1), &[]).unwrap();
    // present goes before full
    refuses(&mut one, Refusal::TxidPresent, |pool| {
        pool.add(&entry(1), &[])
    });
    refuses(&mut one, Refusal::NoSlotFree, |pool| {
        pool.add(&entry(2), &[])
    });
}

#[test]
fn clusters_stay_within_their_limits() {
    let mut chain = pool(100);
    let mut before = vec![];
    for n in 0..64 {
        assert_eq!(chain.add(&entry(n), &before), Ok(n.into()));
        before = vec![txid(n)];
    }
    refuses(&mut chain, Refusal::ClusterTooMany, |pool| {
        pool.add(&entry(64), &[txid(63)])
    });
    // too many goes before too large
    let large = Entry {
        weight: 404_000,
        ..entry(64)
    };
    refuses(&mut chain, Refusal::ClusterTooMany, |pool| {
        pool.add(&large, &[txid(63)])
    });
    // by itself it is taken, and then nothing fits beside it
    assert_eq!(chain.add(&large, &[]), Ok(64));
    let small = Entry {
        weight: 1,
        ..entry(65)
    };
    refuses(&mut chain, Refusal::ClusterTooLarge, |pool| {
        pool.add(&small, &[txid(64)])
    });
}

#[test]
fn remove_and_set_cost() {
    let mut pool = pool(4);
    pool.add(&entry(1), &[]).unwrap();
    pool.add(&entry(2), &[txid(1)]).unwrap();
    let before = pool.words().to_vec();
    assert_eq!(pool.set_cost(&txid(2), 80), Ok(1));
    let changed = pool.words().iter().zip(&before).filter(|(a, b)| a != b);
    assert_eq!(changed.collect::<Vec<_>>(), [(&80, &4)]);
    assert_eq!(pool.remove(&txid(1)), Ok(0));
    for absent in [1, 3] {
        refuses(&mut pool, Refusal::TxidAbsent, |pool| {
            pool.remove(&txid(absent))
        });
        refuses(&mut pool, Refusal::TxidAbsent, |pool| {
            pool.set_cost(&txid(absent), 1)
        });
    }
}

#[test]
fn clear_keeps_the_limits() {
    let limits = Limits {
        count: 2,
        size: 300,
        bytes_per_sigop: 5,
    };
    let mut pool = Pool::new(5, limits).unwrap();
    let empty = pool.clone();
    pool.add(&entry(1), &[]).unwrap();
    pool.add(&entry(2), &[txid(1)]).unwrap();
    assert_eq!(pool.clear(), Ok(()));
    assert_eq!(pool.words(), empty.words());
    let mut anew = empty;
    anew.add(&entry(1), &[]).unwrap();
    assert_eq!(anew.make(Limits::default()), Ok(()));
    assert_eq!(anew.words(), self::pool(5).words());
}

const UNTOUCHED: usize = 12345;

/// A block that takes what it is offered.
const WIDE: Terms = Terms {
    budget: 4_000_000,
    reserve: 0,
    minimum: 0,
};

/// The slots of a template, in a room that is longer than needed and must keep what is behind them.
fn template(
    pool: &Pool,
    deltas: &[i64],
    withheld: &[u8],
    terms: Terms,
) -> Result<Vec<usize>, Refusal> {
    let mut room = vec![UNTOUCHED; pool.slots() + 2];
    let slots = pool
        .template(deltas, withheld, terms, &mut room)
        .map(<[usize]>::to_vec);
    let written = slots.as_ref().map_or(0, Vec::len);
    assert!(room[written..].iter().all(|&place| place == UNTOUCHED));
    slots
}

/// Slot 0 pays little and is the parent of slot 1, which pays much; slot 2 stands alone; slot 3 is
/// free.
fn family() -> Pool {
    let mut pool = pool(4);
    for (number, fee, parents) in [(1, 0, &[][..]), (2, 3000, &[txid(1)]), (3, 1000, &[])] {
        let entry = Entry {
            fee,
            ..entry(number)
        };
        pool.add(&entry, parents).unwrap();
    }
    pool
}

#[test]
fn a_template_has_the_best_first() {
    let pool = family();
    let none = ([0; 4], [0; 4]);
    assert_eq!(template(&pool, &none.0, &none.1, WIDE), Ok(vec![0, 1, 2]));
    let empty = self::pool(4);
    assert_eq!(template(&empty, &none.0, &none.1, WIDE), Ok(vec![]));
    // a delta lifts the one that stands alone; what a free slot has is not looked at
    let lifted = [0, 0, 501, i64::MAX];
    assert_eq!(template(&pool, &lifted, &none.1, WIDE), Ok(vec![2, 0, 1]));
    // any mark but 0 withholds, an ancestor too
    for mark in [1, 2, 255] {
        let withheld = [mark, 0, 0, 1];
        assert_eq!(template(&pool, &none.0, &withheld, WIDE), Ok(vec![2]));
    }
}

#[test]
fn a_template_keeps_to_its_terms() {
    let pool = family();
    let selected = |terms| template(&pool, &[0; 4], &[0; 4], terms).unwrap();
    let budget = |budget| selected(Terms { budget, ..WIDE });
    assert_eq!(budget(1200), [0, 1, 2]);
    assert_eq!(budget(1199), [0, 1]);
    // the family does not fit; what is smaller still goes
    assert_eq!(budget(799), [2]);
    assert!(budget(0).is_empty());
    let reserve = |reserve| selected(Terms { reserve, ..WIDE });
    assert_eq!(reserve(80_000 - 12), [0, 1, 2]);
    assert_eq!(reserve(80_000 - 11), [0, 1]);
    assert_eq!(reserve(80_000 - 7), [2]);
    assert!(reserve(u64::MAX).is_empty());
    // 1,000 sat over 100 vbytes, and 3,000 over 200
    let minimum = |minimum| selected(Terms { minimum, ..WIDE });
    assert_eq!(minimum(10_000), [0, 1, 2]);
    assert_eq!(minimum(10_001), [0, 1]);
    assert!(minimum(15_001).is_empty());
}

#[test]
fn template_refuses() {
    let pool = family();
    let refused = |deltas: &[i64], withheld: &[u8], places: usize| {
        let mut room = [UNTOUCHED; 4];
        let answer = pool.template(deltas, withheld, WIDE, &mut room[..places]);
        let refusal = answer.err();
        assert!(refusal.is_none() || room == [UNTOUCHED; 4]);
        refusal
    };
    for length in [0, 3, 5] {
        let short = Some(Refusal::LengthsDiffer);
        assert_eq!(refused(&vec![0; length], &[0; 4], 4), short);
        assert_eq!(refused(&[0; 4], &vec![0; length], 4), short);
    }
    assert_eq!(refused(&[0; 4], &[0; 4], 2), Some(Refusal::RoomTooShort));
    assert_eq!(refused(&[0; 4], &[0; 4], 3), None);
    for delta in [DELTA_MAX + 1, -DELTA_MAX - 1, i64::MIN] {
        let deltas = [0, delta, 0, 0];
        assert_eq!(refused(&deltas, &[0; 4], 3), Some(Refusal::OutOfRange));
        // a room that is too short goes before it, and lengths before both
        assert_eq!(refused(&deltas, &[0; 4], 2), Some(Refusal::RoomTooShort));
        assert_eq!(refused(&deltas, &[0; 3], 2), Some(Refusal::LengthsDiffer));
    }
    for delta in [DELTA_MAX, -DELTA_MAX] {
        assert_eq!(refused(&[0, delta, 0, 0], &[0; 4], 3), None);
    }
}

/// Of the fewest slots and of the most.
#[test]
fn full_pools_give_templates() {
    for slots in [1, SLOTS_MAX] {
        let mut pool = pool(slots);
        for n in 0..slots {
            assert_eq!(pool.add(&entry(n as u16), &[]), Ok(n));
        }
        refuses(&mut pool, Refusal::NoSlotFree, |pool| {
            pool.add(&entry(u16::MAX), &[])
        });
        // all pay the same, and so they go by txid
        let all: Vec<usize> = (0..slots).collect();
        let selected = template(&pool, &vec![0; slots], &vec![0; slots], WIDE);
        assert_eq!(selected, Ok(all));
    }
}

/// Two threads ask one pool at the same time, and then another has it.
#[test]
fn pools_go_between_threads() {
    let pool = family();
    let ask = || template(&pool, &[0; 4], &[0; 4], WIDE);
    std::thread::scope(|scope| {
        for asked in [scope.spawn(ask), scope.spawn(ask)] {
            assert_eq!(asked.join().unwrap(), Ok(vec![0, 1, 2]));
        }
    });
    let taken = std::thread::spawn(move || pool.totals());
    assert_eq!(taken.join().unwrap().map(|totals| totals.entries), Ok(3));
}

#[test]
fn memory_can_be_lent() {
    let mut words = vec![u64::MAX; table_words(2)];
    let mut lent = Pool::make_in(&mut words[..], Limits::default()).unwrap();
    lent.add(&entry(1), &[]).unwrap();
    // the pool stays where it stood
    let mut again = Pool::on(&mut words[..]).unwrap();
    assert_eq!(again.remove(&txid(1)), Ok(0));
    // an array, a vector, what a pool of its own had
    let array = Pool::make_in([0; table_words(1)], Limits::default()).unwrap();
    assert_eq!(array.into_memory().len(), table_words(1));
    let stored: Vec<u64> = pool(3).into_memory().into_vec();
    assert_eq!(Pool::on(stored).unwrap().slots(), 3);
    // memory of a wrong length stays as it is
    let mut odd = vec![5; table_words(2) + 1];
    let refused = Pool::make_in(&mut odd[..], Limits::default()).err();
    assert_eq!(refused, Some(Refusal::OutOfRange));
    assert_eq!(odd, vec![5; table_words(2) + 1]);
}

#[test]
fn damaged_tables_are_refused() {
    let mut good = pool(2);
    good.add(&entry(1), &[]).unwrap();
    let mut words = good.into_memory();
    assert!(Pool::on(&mut words[..]).is_ok());
    words[3] += 1; // the stored total
    assert_eq!(
        Pool::on(&mut words[..]).err(),
        Some(Refusal::TableIllFormed)
    );
    for length in [0, 3, 4, table_words(2) - 1] {
        let refused = Pool::on(&mut words[..length]).err();
        assert_eq!(refused, Some(Refusal::TableIllFormed));
    }
}

/// Memory that was damaged between two calls, as another holder of shared memory might do.
struct Shared(std::rc::Rc<std::cell::Cell<bool>>, Vec<u64>, Vec<u64>);

impl AsRef<[u64]> for Shared {
    fn as_ref(&self) -> &[u64] {
        if self.0.get() {
            &self.2
        } else {
            &self.1
        }
    }
}

impl AsMut<[u64]> for Shared {
    fn as_mut(&mut self) -> &mut [u64] {
        if self.0.get() {
            &mut self.2
        } else {
            &mut self.1
        }
    }
}

#[test]
fn every_call_but_make_tests_the_table() {
    let damaged = std::rc::Rc::new(std::cell::Cell::new(false));
    let memory = Shared(
        damaged.clone(),
        pool(2).into_memory().into_vec(),
        vec![1; 82],
    );
    let mut pool = Pool::on(memory).unwrap();
    damaged.set(true);
    let ill = Refusal::TableIllFormed;
    assert_eq!(pool.add(&entry(1), &[]), Err(ill));
    assert_eq!(pool.remove(&txid(1)), Err(ill));
    assert_eq!(pool.set_cost(&txid(1), 1), Err(ill));
    assert_eq!(pool.clear(), Err(ill));
    assert_eq!(pool.totals(), Err(ill));
    let mut room = [UNTOUCHED; 2];
    // it goes before lengths
    assert_eq!(pool.template(&[], &[], WIDE, &mut room), Err(ill));
    assert_eq!(room, [UNTOUCHED; 2]);
    assert_eq!(pool.words(), [1; 82]);
    assert_eq!(pool.make(Limits::default()), Ok(()));
    assert_eq!(pool.add(&entry(1), &[]), Ok(0));
}

#[test]
fn a_pool_shows_what_it_holds() {
    let mut pool = pool(2);
    pool.add(&entry(1), &[]).unwrap();
    assert_eq!(
        format!("{pool:?}"),
        "Pool { slots: 2, totals: Ok(Totals { entries: 1, weight: 400 }) }"
    );
}
