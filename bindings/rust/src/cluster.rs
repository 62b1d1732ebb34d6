//! The three calls on one cluster.

use crate::calls::{yaghrudil_chunk_lengths, yaghrudil_linearize, yaghrudil_post_linearize, Reply};
use crate::Refusal;

/// The most members of a cluster.
pub const MEMBERS_MAX: usize = 64;

/// The highest fee of a cluster's member; the lowest is the same below zero.
pub const FEE_MAX: i64 = 4_200_000_000_000_000;

/// Orders a cluster: writes its n positions to the start of `room`, every parent before its
/// children, and returns them.
///
/// A cluster has n members, 0 to 64, which are named by their positions 0 to n - 1 in three slices
/// of n elements each:
///
/// - `fees`: a member's fee, within [`FEE_MAX`] above and below zero;
/// - `sizes`: a member's size, any `u64`; sums of sizes stop at `u64::MAX`;
/// - `parents`: one word a member, where bit p of word i says that p is a parent of i. Bit i of
///   word i and the bits at n and above are ignored.
///
/// Refuses with the first that holds of [`Refusal::LengthsDiffer`], [`Refusal::TooManyMembers`],
/// [`Refusal::RoomTooShort`], [`Refusal::OutOfRange`], [`Refusal::Cycle`].
///
/// ```
/// // Member 1 pays for its parent 0; together they come before 2.
/// let mut room = [0; 64];
/// let order = yaghrudil::linearize(&[100, 5000, 900], &[400, 200, 300], &[0, 1 << 0, 0], &mut room);
/// assert_eq!(order, Ok(&[0, 1, 2][..]));
/// ```
#[inline]
pub fn linearize<'r>(
    fees: &[i64],
    sizes: &[u64],
    parents: &[u64],
    room: &'r mut [usize],
) -> Result<&'r [usize], Refusal> {
    let written = on_cluster(yaghrudil_linearize, fees, sizes, parents, room)?;
    Ok(&room[..written])
}

/// Improves an order of a cluster, which is given as to [`linearize`], in place. It has to list
/// each position once, but parents need not stand before their children.
///
/// Refuses with the first that holds of [`Refusal::LengthsDiffer`], [`Refusal::TooManyMembers`],
/// [`Refusal::OutOfRange`], [`Refusal::Cycle`], [`Refusal::NotAnOrder`]; the last is also the
/// refusal of an order of another length than n.
///
/// ```
/// // The dearer of two members that do not depend on each other steps forward.
/// let mut order = [0, 1];
/// yaghrudil::post_linearize(&[10, 30], &[100, 100], &[0, 0], &mut order)?;
/// assert_eq!(order, [1, 0]);
/// # Ok::<(), yaghrudil::Refusal>(())
/// ```
#[inline]
pub fn post_linearize(
    fees: &[i64],
    sizes: &[u64],
    parents: &[u64],
    order: &mut [usize],
) -> Result<(), Refusal> {
    let written = on_cluster(yaghrudil_post_linearize, fees, sizes, parents, order)?;
    assert_eq!(written, order.len(), "libyaghrudil.a breaks its contract");
    Ok(())
}

/// Cuts a list of members, given in the order in which they are to be mined, into chunks: writes how
/// many members each chunk has to the start of `room`, and returns these lengths.
///
/// Refuses with the first that holds of [`Refusal::LengthsDiffer`], [`Refusal::TooManyMembers`],
/// [`Refusal::RoomTooShort`] (there must be room for n chunks), [`Refusal::OutOfRange`].
///
/// ```
/// // The third member lifts the second, but not above the first.
/// let mut room = [0; 64];
/// let chunks = yaghrudil::chunk_lengths(&[2, 0, 3], &[1, 1, 1], &mut room);
/// assert_eq!(chunks, Ok(&[1, 2][..]));
/// ```
#[inline]
pub fn chunk_lengths<'r>(
    fees: &[i64],
    sizes: &[u64],
    room: &'r mut [usize],
) -> Result<&'r [usize], Refusal> {
    // SAFETY: as in `on_cluster`.
    let reply = unsafe {
        yaghrudil_chunk_lengths(
            fees.as_ptr(),
            fees.len(),
            sizes.as_ptr(),
            sizes.len(),
            room.as_mut_ptr(),
            room.len(),
        )
    };
    Ok(&room[..reply.written()?])
}

/// The two calls on a cluster, which write to one slice.
type ClusterCall = unsafe extern "C" fn(
    *const i64,
    usize,
    *const u64,
    usize,
    *const u64,
    usize,
    *mut usize,
    usize,
) -> Reply;

#[inline]
fn on_cluster(
    call: ClusterCall,
    fees: &[i64],
    sizes: &[u64],
    parents: &[u64],
    written: &mut [usize],
) -> Result<usize, Refusal> {
    // SAFETY: `call` is one of the library's. Each pointer and count are those of one slice, and so
    // are aligned, not null and of memory that is there; the mutable borrow overlaps no other. The
    // call keeps none.
    let reply = unsafe {
        call(
            fees.as_ptr(),
            fees.len(),
            sizes.as_ptr(),
            sizes.len(),
            parents.as_ptr(),
            parents.len(),
            written.as_mut_ptr(),
            written.len(),
        )
    };
    reply.written()
}
