//! Writes the lines that take the original files into this crate, from wherever they stand.

use std::env;
use std::fs;
use std::path::{Path, PathBuf};
use std::process::exit;

/// Where the original stands beside the repository, seen from the repository's root.
const USUAL: &str = "../shared/docs/src/crates/rbitcoin-mempool/src/linearize.rs";

fn main() {
    println!("cargo:rerun-if-env-changed=LINEARIZE_RS");
    let package = PathBuf::from(env::var_os("CARGO_MANIFEST_DIR").expect("cargo sets it"));
    let named = env::var_os("LINEARIZE_RS").filter(|path| !path.is_empty());
    // `join` leaves an absolute path as it is
    let linearize = package
        .join("..")
        .join(named.map_or(PathBuf::from(USUAL), PathBuf::from));
    // as in the original's own folder
    let graph = linearize.with_file_name("graph.rs");
    let lines = module("linearize", &linearize) + &module("graph", &graph);
    let folder = PathBuf::from(env::var_os("OUT_DIR").expect("cargo sets it"));
    fs::write(folder.join("original.rs"), lines).expect("OUT_DIR can be written to");
}

/// The lines that make a file the module of a name.
fn module(name: &str, wanted: &Path) -> String {
    let Ok(original) = wanted.canonicalize() else {
        eprintln!(
            "there is no {}: set LINEARIZE_RS to the path of the original linearize.rs, \
             absolute or seen from the repository's root; graph.rs is taken from beside it",
            wanted.display()
        );
        exit(1)
    };
    println!("cargo:rerun-if-changed={}", original.display());
    format!("#[path = {original:?}]\n#[allow(dead_code)]\npub mod {name};\n")
}
