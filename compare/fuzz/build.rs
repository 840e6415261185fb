//! Links the archive of the proved registry; `../texts` says where it lies.

use std::{env, fs};

/// Where the proved registry says how many words it has.
const MEMORY: &str = "../../crates/memory/src/lib.rt";

fn main() {
    println!("cargo:rerun-if-env-changed=VASKELBI");
    if env::var_os("CARGO_FEATURE_ALONE").is_none() {
        let folder = env::var("VASKELBI").expect("VASKELBI names a folder; see ../texts");
        println!("cargo:rerun-if-changed={folder}/libvaskelbi.a");
        println!("cargo:rustc-link-search=native={folder}");
        println!("cargo:rustc-link-lib=static=vaskelbi");
        println!("cargo:rerun-if-changed={MEMORY}");
        println!("cargo:rustc-env=WORDS={}", words());
    }
}

fn words() -> String {
    let memory = fs::read_to_string(MEMORY).expect(MEMORY);
    let line = memory.lines().find_map(|line| line.strip_prefix("pub const WORDS: usize = "));
    line.expect(MEMORY).trim_end_matches(';').to_string()
}
