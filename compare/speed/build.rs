//! Links the sides; `run` says where they lie.

use std::{env, fs};

/// Where the proved registry says how many words it has.
const MEMORY: &str = "../../crates/memory/src/lib.rt";

fn main() {
    let folder = |name: &str| {
        println!("cargo:rerun-if-env-changed={name}");
        env::var(name).unwrap_or_else(|_| panic!("{name} names a folder; see run"))
    };
    let plain = folder("PLAIN_SIDE");
    let link = |library: &str| {
        println!("cargo:rerun-if-changed={plain}/lib{library}.so");
        println!("cargo:rustc-link-lib=dylib={library}");
    };
    println!("cargo:rustc-link-search=native={plain}");
    println!("cargo:rustc-link-arg=-Wl,-rpath,$ORIGIN");
    link("plain_side");
    if env::var_os("CARGO_FEATURE_TWICE").is_none() {
        link("summary_side");
        let ours = folder("VASKELBI");
        println!("cargo:rerun-if-changed={ours}/libvaskelbi.a");
        println!("cargo:rustc-link-search=native={ours}");
        println!("cargo:rustc-link-lib=static=vaskelbi");
    }
    println!("cargo:rerun-if-changed={MEMORY}");
    println!("cargo:rustc-env=WORDS={}", words());
}

fn words() -> String {
    let memory = fs::read_to_string(MEMORY).expect(MEMORY);
    let line = memory.lines().find_map(|line| line.strip_prefix("pub const WORDS: usize = "));
    line.expect(MEMORY).trim_end_matches(';').to_string()
}
