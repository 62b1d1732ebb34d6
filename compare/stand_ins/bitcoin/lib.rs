//! A stand-in for the crate `bitcoin`, which can't be had: the types that graph.rs takes from it, and of each what
//! graph.rs asks for. The order of txids is document 01's, the 32 stored bytes, first byte first; the true crate's was
//! not run. Inputs and outputs are bare: which output an input spends, and how many outputs there are.

#[derive(Clone, Copy, Debug, PartialEq, Eq, PartialOrd, Ord, Hash)]
pub struct Txid(pub [u8; 32]);

#[derive(Clone, Copy, Debug, PartialEq, Eq, PartialOrd, Ord, Hash)]
pub struct Wtxid(pub [u8; 32]);

#[derive(Clone, Copy, Debug, PartialEq, Eq, PartialOrd, Ord, Hash)]
pub struct OutPoint {
    pub txid: Txid,
    pub vout: u32,
}

#[derive(Clone, Debug)]
pub struct TxIn {
    pub previous_output: OutPoint,
}

#[derive(Clone, Debug)]
pub struct TxOut;

#[derive(Clone, Debug)]
pub struct Transaction {
    pub input: Vec<TxIn>,
    pub output: Vec<TxOut>,
}
