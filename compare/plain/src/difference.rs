//! Where another console answers a script otherwise than this one.

use std::fmt;
use std::io::{self, BufRead, Read};

use crate::console::{Console, Lines};

/// The first line of a script that is answered otherwise.
#[derive(Debug, PartialEq, Eq)]
pub struct Difference {
    /// Its number in the script's file, counted from 1 with the lines passed over
    /// and those of texts.
    pub number: u64,
    /// The line; none if the other answers go on behind the last one.
    pub line: Option<Vec<u8>>,
    /// The lines of both answers where they part, none behind an answer's end.
    pub plain: Option<Vec<u8>>,
    pub other: Option<Vec<u8>>,
    /// The line of the answer on which they part, counted from 1. Only a text
    /// makes an answer of more than one.
    pub place: usize,
}

/// Answers a script and holds the other console's answers to it.
pub fn first(script: impl BufRead, mut other: impl BufRead) -> io::Result<Option<Difference>> {
    let mut console = Console::new();
    let mut lines = Lines::new(script);
    let (mut number, mut ours, mut theirs) = (0, Vec::new(), Vec::new());
    loop {
        let here = lines.number();
        let Some(line) = lines.next_line()? else { break };
        number = here;
        ours.clear();
        console.answer(line, &mut ours);
        theirs.clear();
        other.by_ref().take(ours.len() as u64).read_to_end(&mut theirs)?;
        if ours != theirs {
            // So that the line on which they part is shown whole.
            other.read_until(b'\n', &mut theirs)?;
            return Ok(Some(parted(number, Some(line.words.to_vec()), &ours, &theirs)));
        }
    }
    theirs.clear();
    other.read_until(b'\n', &mut theirs)?;
    Ok((!theirs.is_empty()).then(|| parted(number, None, b"", &theirs)))
}

fn parted(number: u64, line: Option<Vec<u8>>, ours: &[u8], theirs: &[u8]) -> Difference {
    let mut ours = ours.split_inclusive(|&byte| byte == b'\n');
    let mut theirs = theirs.split_inclusive(|&byte| byte == b'\n');
    let mut place = 0;
    loop {
        place += 1;
        let (plain, other) = (ours.next(), theirs.next());
        if plain != other || plain.is_none() {
            let [plain, other] = [plain, other].map(|line| line.map(<[u8]>::to_vec));
            return Difference { number, line, plain, other, place };
        }
    }
}

/// How much of a line is shown.
const SHOWN: usize = 200;

impl fmt::Display for Difference {
    fn fmt(&self, f: &mut fmt::Formatter<'_>) -> fmt::Result {
        let shown = |line: &Option<Vec<u8>>| match line {
            Some(line) => line[..line.len().min(SHOWN)].escape_ascii().to_string(),
            None => "nothing".to_string(),
        };
        match &self.line {
            Some(_) => writeln!(f, "line {}: {}", self.number, shown(&self.line))?,
            None => writeln!(f, "behind the last line, {}", self.number)?,
        }
        if self.place > 1 {
            writeln!(f, "in line {} of its answer", self.place)?;
        }
        writeln!(f, "plain: {}", shown(&self.plain))?;
        write!(f, "ours:  {}", shown(&self.other))
    }
}
