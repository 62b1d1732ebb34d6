#![doc = include_str!("../README.md")]
#![warn(missing_docs)]

mod calls;
mod cluster;
mod pool;
mod refusal;

pub use cluster::{chunk_lengths, linearize, post_linearize, FEE_MAX, MEMBERS_MAX};
pub use pool::{
    table_words, Entry, Limits, Pool, Terms, Totals, Txid, BLOCK_SIGOPS_MAX, COUNT_LIMIT_MAX,
    DELTA_MAX, POOL_FEE_MAX, SIZE_LIMIT_MAX, SLOTS_MAX, WEIGHT_MAX,
};
pub use refusal::{Refusal, UnknownNumber};

/// The version of this crate, and of the header and the archive that it goes with.
pub const VERSION: &str = env!("CARGO_PKG_VERSION");

const _: () = assert!(usize::BITS == 64, "the library's positions are 64-bit");
