//! A stand-in for the crate `rbitcoin_consensus`, which can't be had: two helpers and a constant that graph.rs takes
//! from it, written from what documents 01 and 02 say of them.

pub mod block {
    /// 80,000 "by a comment in 001", says document 01.
    pub const MAX_BLOCK_SIGOPS_COST: u64 = 80_000;
}

pub mod policy {
    /// Virtual size by BIP 141: weight / 4, rounded up.
    pub fn vbytes_ceil(weight: u64) -> u64 {
        weight.div_ceil(4)
    }

    /// "fee × 1,000 / virtual size, rounded down, held at 2^64 - 1" (document 02). No weight is 0; 0 for one that is.
    ///
    /// How the true one is written is not known. For weights that are multiples of four and fees × 4,000 below 2^64,
    /// where document 01 compares templates, fee × 4,000 / weight and products held in one word come to the same.
    pub fn fee_rate_sat_per_kvb(fee_sat: u64, weight: u64) -> u64 {
        let size = u128::from(vbytes_ceil(weight));
        let rate = (u128::from(fee_sat) * 1_000).checked_div(size);
        rate.map_or(0, |rate| u64::try_from(rate).unwrap_or(u64::MAX))
    }
}
