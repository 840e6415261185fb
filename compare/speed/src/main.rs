//! The speed of the proved registry against two plain ones: `speed [TABLE]` compares
//! answers, then times and counts, and writes a table to standard output and to the
//! file. `speed only WORDS` measures the cases whose names have these words, and
//! writes no file.

mod answers;
mod cases;
mod counting;
mod sides;
mod slots;
mod table;
mod timing;
mod worlds;

use std::hint::black_box;
use std::process::ExitCode;
use std::{env, fs};

use cases::CASES;

/// How many operations are carried out on all sides before anything is timed.
const OPERATIONS: u64 = 200_000;

/// How many of slots.
const SLOT_OPERATIONS: u64 = 200_000;

fn main() -> ExitCode {
    let words: Vec<String> = env::args().skip(1).collect();
    let words: Vec<&str> = words.iter().map(String::as_str).collect();
    let measured = match words[..] {
        // What valgrind runs.
        ["inner", side, case, worlds] => {
            let number = |word: &str| word.parse().expect("a number");
            black_box(counting::inner(side, number(case), number(worlds)));
            return ExitCode::SUCCESS;
        }
        [] => measure("", None),
        ["only", part] => measure(part, None),
        [path] => measure("", Some(path)),
        _ => Err("usage: speed [TABLE | only WORDS]".to_string()),
    };
    match measured {
        Ok(()) => ExitCode::SUCCESS,
        Err(why) => {
            eprintln!("{why}");
            ExitCode::FAILURE
        }
    }
}

fn measure(part: &str, path: Option<&str>) -> Result<(), String> {
    if !sides::fit() {
        return Err("a registry is larger than a world".to_string());
    }
    let cases: Vec<usize> = (0..CASES.len()).filter(|&n| CASES[n].name.contains(part)).collect();
    let tally = answers::compare(OPERATIONS, SLOT_OPERATIONS)?;
    for &case in &cases {
        timing::check(&CASES[case])?;
    }
    let count = tally.operations + tally.slot_operations;
    eprintln!("{count} operations, all answers alike; now the times of {} cases", cases.len());
    let times: Vec<_> = cases.iter().map(|&case| timing::time(&CASES[case])).collect();
    let load = timing::load();
    let counts = counting::possible().then(|| {
        eprintln!("now the instructions");
        counting::all(&cases)
    });
    let text = table::write(&tally, load, &cases, &times, counts.as_deref());
    print!("{text}");
    path.map_or(Ok(()), |path| fs::write(path, text).map_err(|why| format!("{path}: {why}")))
}
