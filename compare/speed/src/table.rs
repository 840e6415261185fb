//! The results as a Markdown table.

use std::env::consts::ARCH;
use std::fmt::Write;

use crate::answers::Tally;
use crate::cases::CASES;
use crate::sides::Measured;

/// The measurement itself is a load of 1.
const QUIET: f64 = 1.3;

/// Below this many nanoseconds a ratio says nothing.
const SHORTEST: f64 = 1.0;

/// `load` is what the machine had to do while the times were taken.
pub fn write(
    tally: &Tally,
    load: Option<f64>,
    cases: &[usize],
    times: &[Measured],
    counts: Option<&[Measured]>,
) -> String {
    let mut text = String::new();
    let mut line = |words: String| writeln!(text, "{words}").expect("a string can be written to");
    line("# Speed, against plain Rust\n".to_string());
    line("Written by `compare/speed/run`; README.md says what is measured.\n".to_string());
    line(format!("Machine: {ARCH}. {}\n", built()));
    line(format!(
        "First, {} operations of random scripts and {} of slots on all sides: {} answers, {} kinds of refusal, all alike.\n",
        tally.operations,
        tally.slot_operations,
        tally.answers(),
        tally.refusals()
    ));
    if let Some(load) = load.filter(|&load| load > QUIET) {
        line(format!(
            "The machine was busy (load {load}) while the times were taken: they are rough.\n"
        ));
    }
    if counts.is_none() {
        line("valgrind was not to be had, so no instructions are counted.\n".to_string());
    }
    line(HEAD.to_string());
    line("|---|--:|--:|--:|--:|--:|--:|--:|--:|--:|--:|".to_string());
    for (n, (&case, &time)) in cases.iter().zip(times).enumerate() {
        let counted = match counts {
            Some(counts) => cells(counts[n], 0, 0.0),
            None => "– | – | – | – | –".to_string(),
        };
        line(format!("| {} | {} | {counted} |", CASES[case].name, cells(time, 1, SHORTEST)));
    }
    let texts = cases.iter().zip(times).map(|(&case, time)| (&CASES[case], time));
    for (n, (case, time)) in texts.filter(|(case, _)| case.bytes > 0).enumerate() {
        if n == 0 {
            line(String::new());
        }
        // Bytes by nanoseconds are thousands of megabytes by seconds.
        let [plain, summary, ours] = time.map(|time| 1000.0 * case.bytes as f64 / time);
        line(format!(
            "- {}, {} bytes: plain {plain:.0} MB/s, summary {summary:.0} MB/s, ours {ours:.0} MB/s",
            case.name, case.bytes
        ));
    }
    text
}

/// The columns; the words `ours/plain` stand for a ratio.
const HEAD: &str = "| Operation | plain ns | summary ns | ours ns | ours/plain | ours/summary \
    | plain instructions | summary instructions | ours instructions | ours/plain | ours/summary |";

/// What was measured on each side with so many decimals, and its ratios, which are left off if
/// a side has less than the least.
fn cells([plain, summary, ours]: Measured, decimals: usize, least: f64) -> String {
    let [to_plain, to_summary] = [plain, summary].map(|other| {
        if ours.min(other) < least { "–".to_string() } else { format!("{:.2}", ours / other) }
    });
    format!(
        "{plain:.decimals$} | {summary:.decimals$} | {ours:.decimals$} | {to_plain} | {to_summary}"
    )
}

/// Which build is measured.
fn built() -> &'static str {
    if cfg!(feature = "twice") {
        "The plain registry is on all sides: this shows what the measurement itself gets wrong."
    } else {
        "Ours is the archive as the toolchain writes it."
    }
}
