//! The original files, compiled into this program unchanged; build.rs says from where. graph.rs leans on two crates
//! that can't be had: compare/stand_ins has what it takes from them.

include!(concat!(env!("OUT_DIR"), "/original.rs"));

pub use linearize::{chunk_lengths, DepGraph, FeeFrac};
