//! Prints where answers part from the plain ones: `difference SCRIPT ANSWERS`.

use std::env;
use std::fs::File;
use std::io::{self, BufReader};
use std::process::ExitCode;

use plain::difference;

fn main() -> io::Result<ExitCode> {
    let files: Vec<_> = env::args_os().skip(1).collect();
    let [script, answers] = &files[..] else {
        eprintln!("usage: difference SCRIPT ANSWERS");
        return Ok(ExitCode::FAILURE);
    };
    let open = |file| File::open(file).map(BufReader::new);
    match difference::first(open(script)?, open(answers)?)? {
        None => Ok(ExitCode::SUCCESS),
        Some(difference) => {
            println!("{difference}");
            Ok(ExitCode::FAILURE)
        }
    }
}
