//! Has the prover make the archive of the library, or takes one that is named, and links it.

use std::env;
use std::path::{Path, PathBuf};
use std::process::{exit, Command};

const ARCHIVE: &str = "libyaghrudil.a";

fn main() {
    println!("cargo:rerun-if-env-changed=YAGHRUDIL_LIB");
    let folder = match env::var_os("YAGHRUDIL_LIB").filter(|folder| !folder.is_empty()) {
        Some(folder) => named(PathBuf::from(folder)),
        None => of_repository(),
    };
    println!("cargo:rerun-if-changed={}", folder.join(ARCHIVE).display());
    println!("cargo:rustc-link-search=native={}", folder.display());
    println!("cargo:rustc-link-lib=static=yaghrudil");
}

/// The folder that the caller named; what machine its archive is for is the caller's affair.
fn named(folder: PathBuf) -> PathBuf {
    // whole, since the linker does not run where this script does
    match folder.canonicalize() {
        Ok(whole) if whole.join(ARCHIVE).is_file() => whole,
        _ => stop(&format!(
            "YAGHRUDIL_LIB names {}, where there is no {ARCHIVE}; \
             a path that is not absolute is seen from the folder of this package",
            folder.display()
        )),
    }
}

/// The folder in which the prover writes archives.
fn of_repository() -> PathBuf {
    let machine = env::var("CARGO_CFG_TARGET_ARCH").unwrap_or_default();
    if machine != "x86_64" {
        stop(&format!(
            "{ARCHIVE} is made for x86-64 alone, and this build is for {machine}: \
             set YAGHRUDIL_LIB to a folder with one for that machine"
        ));
    }
    let package = PathBuf::from(env::var_os("CARGO_MANIFEST_DIR").expect("cargo sets it"));
    let root = package.join("../..").canonicalize().expect("it is there");
    // cargo asks again where a crate changed, so that no older archive is linked
    for part in sources(&root) {
        println!("cargo:rerun-if-changed={}", part.display());
    }
    println!(
        "cargo:rerun-if-changed={}",
        root.join("crates.txt").display()
    );
    let library = root.join("crates/yaghrudil");
    make_archive(&library);
    library.join("out")
}

/// What the archive is made from: the prover's own work lies beside it, in each crate's out/.
fn sources(root: &Path) -> Vec<PathBuf> {
    let crates = std::fs::read_dir(root.join("crates")).expect("it is there");
    let parts = crates
        .flatten()
        .flat_map(|it| ["src", "specs", "proofs"].map(|part| it.path().join(part)));
    parts.filter(|part| part.is_dir()).collect()
}

fn make_archive(library: &Path) {
    let made = Command::new("rt").arg("lib").current_dir(library).status();
    match made {
        Ok(status) if status.success() => {}
        Ok(status) => stop(&format!("`rt lib` failed: {status}")),
        Err(error) => stop(&format!(
            "`rt`, which makes {ARCHIVE}, does not start ({error}): \
             put it on the PATH, or set YAGHRUDIL_LIB to a folder with the archive"
        )),
    }
}

fn stop(message: &str) -> ! {
    eprintln!("{message}");
    exit(1)
}
