//! Prints what scripts reach: `coverage FILE..`, or one on standard input.

use std::env;
use std::fs::File;
use std::io::{self, BufRead, BufReader};
use std::process::ExitCode;

use plain::console::Lines;
use plain::coverage::Coverage;

fn main() -> io::Result<ExitCode> {
    let mut coverage = Coverage::new();
    let mut files = env::args_os().skip(1).peekable();
    if files.peek().is_none() {
        count(&mut coverage, io::stdin().lock())?;
    }
    for file in files {
        count(&mut coverage, BufReader::new(File::open(file)?))?;
    }
    println!("{coverage}");
    Ok(if coverage.disagreements().is_empty() { ExitCode::SUCCESS } else { ExitCode::FAILURE })
}

fn count(coverage: &mut Coverage, script: impl BufRead) -> io::Result<()> {
    coverage.start_script();
    let mut lines = Lines::new(script);
    while let Some(line) = lines.next_line()? {
        coverage.line(line);
    }
    Ok(())
}
