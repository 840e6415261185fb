//! Links libvaskelbi.a: one from the folder VASKELBI_LIB_DIR, or else the one that ../archive proves and makes.

use std::process::Command;
use std::{env, fs};

fn main() {
    println!("cargo::rerun-if-env-changed=VASKELBI_LIB_DIR");
    let folder = env::var("VASKELBI_LIB_DIR").map_or_else(|_| made(), given);
    let out = env::var("OUT_DIR").unwrap();
    // A copy of cargo's own, as each run of ../archive removes the folder.
    fs::copy(format!("{folder}/libvaskelbi.a"), format!("{out}/libvaskelbi.a"))
        .unwrap_or_else(|error| panic!("{folder}/libvaskelbi.a: {error}"));
    println!("cargo::rustc-link-search=native={out}");
    println!("cargo::rustc-link-lib=static=vaskelbi");
}

/// A folder with an archive, which is looked at again when that is another.
fn given(folder: String) -> String {
    println!("cargo::rerun-if-changed={folder}/libvaskelbi.a");
    folder
}

/// Proves the library, and answers the folder with its archive for the target.
fn made() -> String {
    println!("cargo::rerun-if-changed=../archive");
    println!("cargo::rerun-if-changed=../../crates.txt");
    // Not what `rt` makes beside them.
    for part in fs::read_dir("../../crates").unwrap().flat_map(|folder| {
        let folder = folder.unwrap().path();
        ["src", "specs", "proofs"].map(|name| folder.join(name))
    }) {
        if part.is_dir() {
            println!("cargo::rerun-if-changed={}", part.display());
        }
    }
    let arch = env::var("CARGO_CFG_TARGET_ARCH").unwrap();
    let run = Command::new("../archive").arg(arch).output().expect("../archive does not start");
    let said = String::from_utf8_lossy(&run.stderr);
    assert!(run.status.success(), "libvaskelbi.a was not made:\n{said}");
    String::from_utf8(run.stdout).unwrap().trim_end().to_owned()
}
