//! A pool of transactions, and its calls.

use crate::calls::{
    done, yaghrudil_pool_add, yaghrudil_pool_clear, yaghrudil_pool_make, yaghrudil_pool_remove,
    yaghrudil_pool_set_cost, yaghrudil_pool_template, yaghrudil_pool_totals,
};
use crate::Refusal;
use std::fmt;

/// The most slots of a pool; the fewest are 1.
pub const SLOTS_MAX: usize = 1024;

/// The highest fee of an entry.
pub const POOL_FEE_MAX: u64 = 2_100_000_000_000_000;

/// The highest delta; the lowest is the same below zero.
pub const DELTA_MAX: i64 = 2_100_000_000_000_000;

/// The highest raw weight of an entry; the lowest is 1.
pub const WEIGHT_MAX: u64 = 4_000_000;

/// The highest count limit of a pool's clusters, in members; the lowest is 1.
pub const COUNT_LIMIT_MAX: u64 = 64;

/// The highest size limit of a pool's clusters, in vbytes; the lowest is 1.
pub const SIZE_LIMIT_MAX: u64 = 101_000;

/// The sigop cost that a block may have, the reserve included.
pub const BLOCK_SIGOPS_MAX: u64 = 80_000;

/// The words of a table of that many slots; `usize::MAX` where there are too many to count.
pub const fn table_words(slots: usize) -> usize {
    slots.saturating_mul(39).saturating_add(4)
}

/// A transaction's name: 32 bytes in the order in which they are hashed and stored, as an input's
/// outpoint has them. The digits that a node displays have the bytes the other way round.
pub type Txid = [u8; 32];

/// What a pool is made with, and keeps until it is made anew.
#[derive(Clone, Copy, Debug, PartialEq, Eq, Hash)]
#[repr(C)]
pub struct Limits {
    /// The most entries of a cluster, 1 to [`COUNT_LIMIT_MAX`].
    pub count: u64,
    /// The most vbytes of a cluster, 1 to [`SIZE_LIMIT_MAX`].
    pub size: u64,
    /// An entry's adjusted weight is at least its sigop cost times this. Any number.
    pub bytes_per_sigop: u64,
}

impl Default for Limits {
    /// The highest limits, and 20 bytes per sigop, as nodes have them where nothing else is set.
    fn default() -> Limits {
        Limits {
            count: COUNT_LIMIT_MAX,
            size: SIZE_LIMIT_MAX,
            bytes_per_sigop: 20,
        }
    }
}

/// A transaction as it is added to a pool.
#[derive(Clone, Copy, Debug, PartialEq, Eq, Hash)]
pub struct Entry {
    /// Its name, in stored byte order.
    pub txid: Txid,
    /// Its own fee in satoshi, without any delta; 0 to [`POOL_FEE_MAX`].
    pub fee: u64,
    /// Its raw weight in weight units; 1 to [`WEIGHT_MAX`].
    pub weight: u64,
    /// Its sigop cost by BIP 141. Any number; `u64::MAX` where it is not known, and then it goes
    /// into no template.
    pub sigop_cost: u64,
}

/// What a block has left for a template.
#[derive(Clone, Copy, Debug, PartialEq, Eq, Hash)]
#[repr(C)]
pub struct Terms {
    /// The raw weight that the template may have, in weight units: the block's 4,000,000 less what
    /// the header and the coinbase take, usually 8,000. With 0 the template is empty.
    pub budget: u64,
    /// The sigop cost that is kept for the coinbase, usually 400. With the template's it is at most
    /// [`BLOCK_SIGOPS_MAX`]; where it is more by itself, the template is empty.
    pub reserve: u64,
    /// The least feerate of a chunk, in satoshi per 1,000 vbytes; 0 lets all pass that do not pay
    /// less than nothing.
    pub minimum: u64,
}

/// What a pool holds.
#[derive(Clone, Copy, Debug, PartialEq, Eq, Hash)]
pub struct Totals {
    /// How many entries there are.
    pub entries: usize,
    /// Their raw weight together.
    pub weight: u64,
}

/// A pool of transactions: a table of `u64` words, by default one that it owns.
///
/// An entry stands in a slot, from 0 to [`slots`](Pool::slots) - 1, which [`add`](Pool::add)
/// returns and which it keeps until it is removed. A slot that was freed is taken again by another
/// entry, so what a caller holds by slot has to go when its entry goes.
///
/// Every call but a making tests the whole table first, and refuses with
/// [`Refusal::TableIllFormed`] what no pool's call would have left. That can't happen to a pool
/// that owns its table.
///
/// ```
/// use yaghrudil::{Entry, Limits, Pool, Refusal};
///
/// let mut pool = Pool::new(16, Limits::default())?;
/// let parent = Entry { txid: [1; 32], fee: 100, weight: 400, sigop_cost: 4 };
/// let child = Entry { txid: [2; 32], fee: 900, weight: 600, sigop_cost: 4 };
/// assert_eq!(pool.add(&parent, &[])?, 0);
/// assert_eq!(pool.add(&child, &[parent.txid])?, 1);
/// assert_eq!(pool.add(&child, &[]), Err(Refusal::TxidPresent));
/// assert_eq!(pool.totals()?.weight, 1000);
/// assert_eq!(pool.remove(&parent.txid)?, 0);
/// # Ok::<(), Refusal>(())
/// ```
#[derive(Clone)]
pub struct Pool<M = Box<[u64]>> {
    table: M,
}

impl Pool {
    /// An empty pool of that many slots, 1 to [`SLOTS_MAX`], in a table of its own.
    ///
    /// Refuses with [`Refusal::OutOfRange`] another number of slots, and limits out of their ranges.
    pub fn new(slots: usize, limits: Limits) -> Result<Pool, Refusal> {
        // one slot too many is enough for the refusal
        let words = table_words(slots.min(SLOTS_MAX + 1));
        Pool::make_in(vec![0; words].into_boxed_slice(), limits)
    }
}

impl<M: AsRef<[u64]> + AsMut<[u64]>> Pool<M> {
    /// An empty pool in memory of the caller's: a mutable borrow, an array, a vector. What it held
    /// is overwritten. It has to have [`table_words`] of some number of slots.
    ///
    /// Refuses with [`Refusal::OutOfRange`] memory of another length, and limits out of their
    /// ranges; a borrowed table is then as it was.
    ///
    /// ```
    /// use yaghrudil::{table_words, Limits, Pool};
    ///
    /// let mut words = [0; table_words(8)];
    /// let pool = Pool::make_in(&mut words[..], Limits::default())?;
    /// assert_eq!(pool.slots(), 8);
    /// # Ok::<(), yaghrudil::Refusal>(())
    /// ```
    pub fn make_in(memory: M, limits: Limits) -> Result<Pool<M>, Refusal> {
        let mut pool = Pool { table: memory };
        pool.make(limits)?;
        Ok(pool)
    }

    /// The pool that stands in memory of the caller's: lent before, copied, or loaded.
    ///
    /// Refuses with [`Refusal::TableIllFormed`] memory in which none stands.
    ///
    /// ```
    /// # use yaghrudil::{Limits, Pool, Refusal};
    /// let pool = Pool::new(8, Limits::default())?;
    /// let stored: Vec<u64> = pool.words().to_vec();
    /// assert!(Pool::on(stored).is_ok());
    /// assert_eq!(Pool::on(vec![0; 40]).err(), Some(Refusal::TableIllFormed));
    /// # Ok::<(), Refusal>(())
    /// ```
    pub fn on(memory: M) -> Result<Pool<M>, Refusal> {
        let pool = Pool { table: memory };
        pool.totals()?;
        Ok(pool)
    }

    /// Makes the pool anew: empty, with these limits.
    ///
    /// Refuses with [`Refusal::OutOfRange`] limits out of their ranges.
    pub fn make(&mut self, limits: Limits) -> Result<(), Refusal> {
        let table = self.table.as_mut();
        // SAFETY: the pointer and the count are those of one slice, which is borrowed mutably. The
        // call keeps neither.
        done(unsafe { yaghrudil_pool_make(table.as_mut_ptr(), table.len(), limits) })
    }

    /// Adds an entry and returns its slot, the lowest free one.
    ///
    /// It is linked with each of the parents that is in the pool; others, its own txid and repeats
    /// are ignored. So a parent has to be added before its children: one that comes later is not
    /// linked with them. Of a parent that is neither confirmed nor in the pool, as one that was
    /// refused, no children should be added: they would go into a block without it.
    ///
    /// Refuses with the first that holds of [`Refusal::TableIllFormed`], [`Refusal::OutOfRange`],
    /// [`Refusal::TxidPresent`], [`Refusal::NoSlotFree`], [`Refusal::ClusterTooMany`],
    /// [`Refusal::ClusterTooLarge`].
    pub fn add(&mut self, entry: &Entry, parents: &[Txid]) -> Result<usize, Refusal> {
        let table = self.table.as_mut();
        let listed = parents.as_flattened();
        // SAFETY: as in `make`; the txid and the parents are lent for the call, and overlap no
        // mutable borrow.
        let placed = unsafe {
            yaghrudil_pool_add(
                table.as_mut_ptr(),
                table.len(),
                &entry.txid,
                entry.fee,
                entry.weight,
                entry.sigop_cost,
                listed.as_ptr(),
                listed.len(),
            )
        };
        placed.slot()
    }

    /// Removes an entry with its links, and returns the slot that is free now. Its parents and
    /// children stay.
    ///
    /// Refuses with the first that holds of [`Refusal::TableIllFormed`], [`Refusal::TxidAbsent`].
    pub fn remove(&mut self, txid: &Txid) -> Result<usize, Refusal> {
        let table = self.table.as_mut();
        // SAFETY: as in `add`.
        unsafe { yaghrudil_pool_remove(table.as_mut_ptr(), table.len(), txid) }.slot()
    }

    /// Sets an entry's sigop cost, and returns its slot.
    ///
    /// Refuses with the first that holds of [`Refusal::TableIllFormed`], [`Refusal::TxidAbsent`].
    pub fn set_cost(&mut self, txid: &Txid, sigop_cost: u64) -> Result<usize, Refusal> {
        let table = self.table.as_mut();
        // SAFETY: as in `add`.
        unsafe { yaghrudil_pool_set_cost(table.as_mut_ptr(), table.len(), txid, sigop_cost) }.slot()
    }

    /// Removes every entry and keeps the limits.
    ///
    /// Refuses with [`Refusal::TableIllFormed`].
    pub fn clear(&mut self) -> Result<(), Refusal> {
        let table = self.table.as_mut();
        // SAFETY: as in `make`.
        done(unsafe { yaghrudil_pool_clear(table.as_mut_ptr(), table.len()) })
    }

    /// How many entries there are, and their raw weight.
    ///
    /// Refuses with [`Refusal::TableIllFormed`].
    pub fn totals(&self) -> Result<Totals, Refusal> {
        let table = self.table.as_ref();
        // SAFETY: the pointer and the count are those of one slice. The call keeps neither.
        let totals = unsafe { yaghrudil_pool_totals(table.as_ptr(), table.len()) };
        let (entries, weight) = totals.both()?;
        Ok(Totals { entries, weight })
    }

    /// Selects transactions for a block: writes their slots to the start of `room`, in the order in
    /// which they go into the block, each once and behind its ancestors in the pool, and returns
    /// them.
    ///
    /// `deltas` and `withheld` stand by slot and are as long as the pool has slots; those of free
    /// slots are not looked at. A delta, within [`DELTA_MAX`] above and below zero, is added to its
    /// transaction's fee. A mark other than 0 keeps its transaction out, and with it every
    /// transaction that needs it.
    ///
    /// The chunks of all clusters are tried by exact feerate, the highest first, and each goes out
    /// with the ancestors that it needs, or is passed over: where it pays less than the minimum, or
    /// needs what is withheld, or does not fit the budget or the sigops that are left. Smaller
    /// chunks behind it are still tried.
    ///
    /// The call uses up to 300 kilobytes of stack.
    ///
    /// Refuses with the first that holds of [`Refusal::TableIllFormed`], [`Refusal::LengthsDiffer`]
    /// (`deltas`, `withheld`), [`Refusal::RoomTooShort`] (there must be room for every entry of the
    /// pool), [`Refusal::OutOfRange`] (a delta).
    ///
    /// ```
    /// use yaghrudil::{Entry, Limits, Pool, Refusal, Terms};
    ///
    /// let mut pool = Pool::new(4, Limits::default())?;
    /// let parent = Entry { txid: [1; 32], fee: 0, weight: 400, sigop_cost: 4 };
    /// let child = Entry { txid: [2; 32], fee: 900, weight: 600, sigop_cost: 4 };
    /// let alone = Entry { txid: [3; 32], fee: 600, weight: 600, sigop_cost: 4 };
    /// for (entry, parents) in [(alone, vec![]), (parent, vec![]), (child, vec![[1; 32]])] {
    ///     pool.add(&entry, &parents)?;
    /// }
    /// let terms = Terms { budget: 1200, reserve: 400, minimum: 1000 };
    /// let mut room = [0; 4];
    /// // the one that stands alone pays more than parent and child together, and leaves no room
    /// assert_eq!(pool.template(&[0; 4], &[0; 4], terms, &mut room)?, [0]);
    /// // a delta lifts the child, and with it the parent
    /// assert_eq!(pool.template(&[0, 0, 500, 0], &[0; 4], terms, &mut room)?, [1, 2]);
    /// # Ok::<(), Refusal>(())
    /// ```
    pub fn template<'r>(
        &self,
        deltas: &[i64],
        withheld: &[u8],
        terms: Terms,
        room: &'r mut [usize],
    ) -> Result<&'r [usize], Refusal> {
        let table = self.table.as_ref();
        // SAFETY: each pointer and count are those of one slice, and the mutable borrow overlaps no
        // other. The call keeps none.
        let reply = unsafe {
            yaghrudil_pool_template(
                table.as_ptr(),
                table.len(),
                deltas.as_ptr(),
                deltas.len(),
                withheld.as_ptr(),
                withheld.len(),
                terms,
                room.as_mut_ptr(),
                room.len(),
            )
        };
        Ok(&room[..reply.written()?])
    }

    /// How many slots there are.
    pub fn slots(&self) -> usize {
        self.words().len().saturating_sub(table_words(0)) / (table_words(1) - table_words(0))
    }

    /// The table: a copy of it is a copy of the pool.
    pub fn words(&self) -> &[u64] {
        self.table.as_ref()
    }

    /// The memory in which the pool stands.
    pub fn into_memory(self) -> M {
        self.table
    }
}

impl<M: AsRef<[u64]> + AsMut<[u64]>> fmt::Debug for Pool<M> {
    fn fmt(&self, f: &mut fmt::Formatter) -> fmt::Result {
        f.debug_struct("Pool")
            .field("slots", &self.slots())
            .field("totals", &self.totals())
            .finish()
    }
}
