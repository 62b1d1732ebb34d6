//! The library's functions as C declares them in `yaghrudil.h`, and what they return by value.

use crate::Refusal;

/// How many places a call wrote.
#[repr(C)]
pub struct Reply {
    answer: u64,
    written: usize,
}

/// Where an entry stands.
#[repr(C)]
pub struct Placed {
    answer: u64,
    slot: usize,
}

/// What a pool holds.
#[repr(C)]
pub struct Totals {
    answer: u64,
    entries: usize,
    weight: u64,
}

impl Reply {
    /// How many places a successful call wrote. A refusal wrote none.
    #[inline]
    pub fn written(self) -> Result<usize, Refusal> {
        told(self.answer, self.written, self.written == 0)
    }
}

impl Placed {
    #[inline]
    pub fn slot(self) -> Result<usize, Refusal> {
        told(self.answer, self.slot, self.slot == 0)
    }
}

impl Totals {
    #[inline]
    pub fn both(self) -> Result<(usize, u64), Refusal> {
        let zeros = self.entries == 0 && self.weight == 0;
        told(self.answer, (self.entries, self.weight), zeros)
    }
}

/// An answer that is a number alone.
#[inline]
pub fn done(answer: u64) -> Result<(), Refusal> {
    told(answer, (), true)
}

/// The value of a success, or the refusal, beside which the library leaves everything zero.
#[inline]
fn told<T>(answer: u64, value: T, zeros: bool) -> Result<T, Refusal> {
    match (answer, zeros) {
        (0, _) => Ok(value),
        (number, true) => match Refusal::from_number(number) {
            Some(refusal) => Err(refusal),
            None => broken(number),
        },
        (number, false) => broken(number),
    }
}

#[cold]
fn broken(answer: u64) -> ! {
    panic!("libyaghrudil.a breaks its contract: it answers {answer}")
}

extern "C" {
    pub fn yaghrudil_linearize(
        fees: *const i64,
        fees_count: usize,
        sizes: *const u64,
        sizes_count: usize,
        parents: *const u64,
        parents_count: usize,
        room: *mut usize,
        room_count: usize,
    ) -> Reply;

    pub fn yaghrudil_post_linearize(
        fees: *const i64,
        fees_count: usize,
        sizes: *const u64,
        sizes_count: usize,
        parents: *const u64,
        parents_count: usize,
        order: *mut usize,
        order_count: usize,
    ) -> Reply;

    pub fn yaghrudil_chunk_lengths(
        fees: *const i64,
        fees_count: usize,
        sizes: *const u64,
        sizes_count: usize,
        room: *mut usize,
        room_count: usize,
    ) -> Reply;

    pub fn yaghrudil_pool_make(table: *mut u64, table_count: usize, limits: crate::Limits) -> u64;

    pub fn yaghrudil_pool_add(
        table: *mut u64,
        table_count: usize,
        txid: *const [u8; 32],
        fee: u64,
        weight: u64,
        cost: u64,
        parents: *const u8,
        parents_count: usize,
    ) -> Placed;

    pub fn yaghrudil_pool_remove(
        table: *mut u64,
        table_count: usize,
        txid: *const [u8; 32],
    ) -> Placed;

    pub fn yaghrudil_pool_set_cost(
        table: *mut u64,
        table_count: usize,
        txid: *const [u8; 32],
        cost: u64,
    ) -> Placed;

    pub fn yaghrudil_pool_clear(table: *mut u64, table_count: usize) -> u64;

    pub fn yaghrudil_pool_totals(table: *const u64, table_count: usize) -> Totals;

    pub fn yaghrudil_pool_template(
        table: *const u64,
        table_count: usize,
        deltas: *const i64,
        deltas_count: usize,
        withheld: *const u8,
        withheld_count: usize,
        terms: crate::Terms,
        room: *mut usize,
        room_count: usize,
    ) -> Reply;
}
