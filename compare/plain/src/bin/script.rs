//! Writes a random script to standard output: `script SEED LINES`.

use std::env;
use std::io::{self, BufWriter, Write};
use std::process::ExitCode;

fn main() -> io::Result<ExitCode> {
    let numbers: Option<Vec<u64>> = env::args().skip(1).map(|word| word.parse().ok()).collect();
    let Some(&[seed, lines]) = numbers.as_deref() else {
        eprintln!("usage: script SEED LINES");
        return Ok(ExitCode::FAILURE);
    };
    let mut out = BufWriter::new(io::stdout().lock());
    plain::script::write(seed, lines, &mut out)?;
    out.flush()?;
    Ok(ExitCode::SUCCESS)
}
