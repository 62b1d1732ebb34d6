//! Why a call did nothing.

use std::error::Error;
use std::fmt;

/// Why a call did nothing. Where several reasons hold, the documentation of the call says which of
/// them it gives.
///
/// Each has a number, the same in the header for C and in the documents; [`u64::from`] and
/// [`Refusal::try_from`] go from one to the other. More may come.
#[derive(Clone, Copy, Debug, PartialEq, Eq, Hash)]
#[non_exhaustive]
#[repr(u64)]
pub enum Refusal {
    /// Slices that belong together have different lengths, or txids are not whole 32 bytes.
    LengthsDiffer = 1,
    /// The cluster has more than 64 members.
    TooManyMembers = 2,
    /// A number is outside its range.
    OutOfRange = 3,
    /// Following parents from some member leads through another back to it.
    Cycle = 4,
    /// The order does not list every position exactly once.
    NotAnOrder = 5,
    /// The txid is already in the pool.
    TxidPresent = 6,
    /// The pool is full.
    NoSlotFree = 7,
    /// The parents' clusters together, plus one, pass the pool's count limit.
    ClusterTooMany = 8,
    /// The raw weight of the parents' clusters with the new one, as virtual size, passes the pool's
    /// size limit.
    ClusterTooLarge = 9,
    /// The txid is not in the pool.
    TxidAbsent = 10,
    /// The room has fewer places than the cluster has members, or the pool entries.
    RoomTooShort = 11,
    /// The table is not one that the calls of a pool leave.
    TableIllFormed = 12,
    /// A text is not of its form: an answer of the programs, and of no call of this crate.
    InputIllFormed = 13,
}

impl Refusal {
    /// The number by which the library names the refusal.
    pub const fn number(self) -> u64 {
        self as u64
    }

    /// The refusal of a number; none for 0, which is success, and for numbers that are not in use.
    pub const fn from_number(number: u64) -> Option<Refusal> {
        Some(match number {
            1 => Refusal::LengthsDiffer,
            2 => Refusal::TooManyMembers,
            3 => Refusal::OutOfRange,
            4 => Refusal::Cycle,
            5 => Refusal::NotAnOrder,
            6 => Refusal::TxidPresent,
            7 => Refusal::NoSlotFree,
            8 => Refusal::ClusterTooMany,
            9 => Refusal::ClusterTooLarge,
            10 => Refusal::TxidAbsent,
            11 => Refusal::RoomTooShort,
            12 => Refusal::TableIllFormed,
            13 => Refusal::InputIllFormed,
            _ => return None,
        })
    }

    /// The refusal in words, the same as in the header for C.
    pub const fn text(self) -> &'static str {
        match self {
            Refusal::LengthsDiffer => "lengths differ, or txids are not whole 32 bytes",
            Refusal::TooManyMembers => "the cluster has more than 64 members",
            Refusal::OutOfRange => "a number is out of its range",
            Refusal::Cycle => "the parents form a cycle",
            Refusal::NotAnOrder => "the order does not list each position once",
            Refusal::TxidPresent => "the txid is already in the pool",
            Refusal::NoSlotFree => "the pool has no slot free",
            Refusal::ClusterTooMany => "the cluster would pass the count limit",
            Refusal::ClusterTooLarge => "the cluster would pass the size limit",
            Refusal::TxidAbsent => "the txid is not in the pool",
            Refusal::RoomTooShort => "the room is too short",
            Refusal::TableIllFormed => "the pool's table is ill-formed",
            Refusal::InputIllFormed => "the input is ill-formed",
        }
    }
}

impl fmt::Display for Refusal {
    fn fmt(&self, f: &mut fmt::Formatter) -> fmt::Result {
        f.write_str(self.text())
    }
}

impl Error for Refusal {}

impl From<Refusal> for u64 {
    fn from(refusal: Refusal) -> u64 {
        refusal.number()
    }
}

impl TryFrom<u64> for Refusal {
    type Error = UnknownNumber;

    fn try_from(number: u64) -> Result<Refusal, UnknownNumber> {
        Refusal::from_number(number).ok_or(UnknownNumber(number))
    }
}

/// A number that names no refusal.
#[derive(Clone, Copy, Debug, PartialEq, Eq, Hash)]
pub struct UnknownNumber(pub u64);

impl fmt::Display for UnknownNumber {
    fn fmt(&self, f: &mut fmt::Formatter) -> fmt::Result {
        write!(f, "no refusal has the number {}", self.0)
    }
}

impl Error for UnknownNumber {}
