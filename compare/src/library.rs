//! The pool calls of the linked library as C calls them: on a table that the caller lends, whatever its words are.

use crate::pool::{Answer, Call, Limits, Txid};
use crate::template::Asked;

/// Makes a call on a table: the answer, and what it answers beside it, also where it refuses.
pub fn perform(table: &mut [u64], call: &Call) -> Answer {
    let (words, count) = (table.as_mut_ptr(), table.len());
    // SAFETY: each pointer and count are those of one slice, each txid is 32 bytes, and the table, which alone is
    // written, overlaps nothing else. No call keeps any of them.
    unsafe {
        match call {
            Call::Make(limits) => (yaghrudil_pool_make(words, count, *limits), [0, 0]),
            Call::Add(new) => yaghrudil_pool_add(
                words,
                count,
                &new.txid,
                new.fee,
                new.weight,
                new.cost,
                new.parents.as_ptr(),
                new.parents.len(),
            )
            .answer(),
            Call::Remove(txid) => yaghrudil_pool_remove(words, count, txid).answer(),
            Call::SetCost(txid, cost) => {
                yaghrudil_pool_set_cost(words, count, txid, *cost).answer()
            }
            Call::Clear => (yaghrudil_pool_clear(words, count), [0, 0]),
            Call::Totals => {
                let totals = yaghrudil_pool_totals(words, count);
                (totals.answer, [totals.entries as u64, totals.weight])
            }
        }
    }
}

/// The template: the answer's number, and how many slots stand at the room's start.
pub fn template(table: &[u64], asked: &Asked, room: &mut [usize]) -> (u64, usize) {
    let terms = Terms {
        budget: asked.budget,
        reserve: asked.reserve,
        minimum: asked.minimum,
    };
    // SAFETY: as in `perform`; the room alone is written.
    let reply = unsafe {
        yaghrudil_pool_template(
            table.as_ptr(),
            table.len(),
            asked.deltas.as_ptr(),
            asked.deltas.len(),
            asked.marks.as_ptr(),
            asked.marks.len(),
            terms,
            room.as_mut_ptr(),
            room.len(),
        )
    };
    (reply.answer, reply.written)
}

#[repr(C)]
struct Placed {
    answer: u64,
    slot: usize,
}

impl Placed {
    fn answer(self) -> Answer {
        (self.answer, [self.slot as u64, 0])
    }
}

#[repr(C)]
struct Totals {
    answer: u64,
    entries: usize,
    weight: u64,
}

#[repr(C)]
struct Terms {
    budget: u64,
    reserve: u64,
    minimum: u64,
}

#[repr(C)]
struct Reply {
    answer: u64,
    written: usize,
}

extern "C" {
    fn yaghrudil_pool_make(table: *mut u64, table_count: usize, limits: Limits) -> u64;

    fn yaghrudil_pool_add(
        table: *mut u64,
        table_count: usize,
        txid: &Txid,
        fee: u64,
        weight: u64,
        cost: u64,
        parents: *const u8,
        parents_count: usize,
    ) -> Placed;

    fn yaghrudil_pool_remove(table: *mut u64, table_count: usize, txid: &Txid) -> Placed;

    fn yaghrudil_pool_set_cost(
        table: *mut u64,
        table_count: usize,
        txid: &Txid,
        cost: u64,
    ) -> Placed;

    fn yaghrudil_pool_clear(table: *mut u64, table_count: usize) -> u64;

    fn yaghrudil_pool_totals(table: *const u64, table_count: usize) -> Totals;

    fn yaghrudil_pool_template(
        table: *const u64,
        table_count: usize,
        deltas: *const i64,
        deltas_count: usize,
        marks: *const u8,
        marks_count: usize,
        terms: Terms,
        room: *mut usize,
        room_count: usize,
    ) -> Reply;
}
