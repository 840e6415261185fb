//! Instructions, counted by valgrind: a run on all worlds less a run on none.

use std::process::Command;
use std::sync::Mutex;
use std::sync::atomic::{AtomicUsize, Ordering};
use std::thread;

use crate::cases::CASES;
use crate::sides::{EMPTY, Measured, SIDES, Side};
use crate::timing::{copies, prepared, run, text};

/// Worlds that lie ready in either run. Now and then the start of a program takes a
/// few instructions more or less: with so many worlds that is a hundredth of an
/// instruction for an operation, and counts are told to a tenth.
const WORLDS: usize = 64;

/// The inner run: makes the worlds ready and uses so many of them.
pub fn inner(side: &str, case: usize, worlds: usize) -> u64 {
    let side = side_named(side);
    let case = &CASES[case];
    run(side, case, &mut copies(&prepared(side, case), WORLDS), worlds, &mut text(case))
}

fn side_named(name: &str) -> &'static Side {
    SIDES.into_iter().chain([&EMPTY]).find(|side| side.name == name).expect("a side's name")
}

/// Whether valgrind is there.
pub fn possible() -> bool {
    Command::new("valgrind").arg("--version").output().is_ok_and(|said| said.status.success())
}

/// Instructions of a whole inner run.
fn whole(side: &Side, case: usize, worlds: usize) -> u64 {
    let program = std::env::current_exe().expect("the program's own path");
    let said = Command::new("valgrind")
        .args(["--tool=cachegrind", "--cache-sim=no", "--cachegrind-out-file=/dev/null"])
        .arg(program)
        .args(["inner", side.name, &case.to_string(), &worlds.to_string()])
        .output()
        .expect("valgrind starts");
    let text = String::from_utf8_lossy(&said.stderr);
    let counted = text.lines().find_map(|line| line.split_once("refs:"));
    let digits: String = match counted {
        Some((_, number)) if said.status.success() => {
            number.chars().filter(char::is_ascii_digit).collect()
        }
        _ => panic!("valgrind counted nothing: {text}"),
    };
    digits.parse().expect("a number of instructions")
}

/// Instructions of a case's operations on all worlds, with the driver's.
fn used(side: &Side, case: usize) -> u64 {
    whole(side, case, WORLDS) - whole(side, case, 0)
}

/// Instructions of one operation, without the driver's and a return for each call.
fn count(case: usize) -> Measured {
    let driver = used(&EMPTY, case);
    let operations = CASES[case].operations * WORLDS as u64;
    SIDES.map(|side| {
        let count = (used(side, case) as f64 - driver as f64) / operations as f64;
        (count * 10.0).round() / 10.0
    })
}

/// Counts these cases, several at a time: a count doesn't depend on what else runs.
pub fn all(cases: &[usize]) -> Vec<Measured> {
    let next = AtomicUsize::new(0);
    let counts = Mutex::new(Vec::new());
    thread::scope(|scope| {
        for _ in 0..thread::available_parallelism().map_or(1, usize::from) {
            scope.spawn(|| {
                while let Some(&case) = cases.get(next.fetch_add(1, Ordering::Relaxed)) {
                    let counted = count(case);
                    counts.lock().expect("no count panics").push((case, counted));
                }
            });
        }
    });
    let mut counts = counts.into_inner().expect("no count panics");
    counts.sort_by_key(|&(case, _)| case);
    counts.into_iter().map(|(_, counted)| counted).collect()
}
