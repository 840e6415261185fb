//! The console: operations on standard input, answers on standard output.

use std::io::{self, Write};

use plain::console::{Console, Lines};

/// Answers are gathered up to this many bytes before they are written.
const GATHERED: usize = 1 << 16;

fn main() -> io::Result<()> {
    let mut lines = Lines::new(io::stdin().lock());
    let mut output = io::stdout().lock();
    let mut console = Console::new();
    let mut answers = Vec::with_capacity(2 * GATHERED);
    while let Some(line) = lines.next_line()? {
        console.answer(line, &mut answers);
        if answers.len() >= GATHERED {
            output.write_all(&answers)?;
            answers.clear();
        }
    }
    output.write_all(&answers)?;
    output.flush()
}
