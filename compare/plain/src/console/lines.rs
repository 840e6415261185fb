//! Reading lines of any length, and the texts behind them, in fixed room.

use std::io::{self, BufRead, Read};

use super::TEXT;
use super::parse::text_length;

/// The most bytes a line may have, its byte 10 not counted.
pub const MAX_LINE: usize = 4096;

/// A line, and the text that it names.
#[derive(Clone, Copy, Debug)]
pub struct Line<'a> {
    /// Without its byte 10.
    pub words: &'a [u8],
    /// What there is of the bytes that a `load` names, and else nothing.
    pub text: &'a [u8],
}

impl<'a> Line<'a> {
    /// A line that no text follows.
    pub const fn alone(words: &'a [u8]) -> Self {
        Self { words, text: &[] }
    }
}

/// Hands out the lines of an input one by one.
pub struct Lines<R> {
    input: R,
    line: Vec<u8>,
    text: Vec<u8>,
    /// How many bytes 10 were read.
    ends: u64,
}

impl<R: BufRead> Lines<R> {
    pub fn new(input: R) -> Self {
        Self { input, line: Vec::with_capacity(MAX_LINE + 1), text: Vec::new(), ends: 0 }
    }

    /// The number of the next line in a file, where texts have lines too.
    pub fn number(&self) -> u64 {
        self.ends + 1
    }

    /// The next line, or none at the end of the input. Of a line that is too long
    /// only one byte too many is kept, and of a text that is too long nothing.
    pub fn next_line(&mut self) -> io::Result<Option<Line<'_>>> {
        self.line.clear();
        self.text.clear();
        let most = MAX_LINE as u64 + 1;
        let read = self.input.by_ref().take(most).read_until(b'\n', &mut self.line)?;
        if self.line.last() == Some(&b'\n') {
            self.line.pop();
            self.ends += 1;
        } else if read > MAX_LINE {
            self.input.skip_until(b'\n')?;
            self.ends += 1;
        }
        match text_length(&self.line) {
            0 => {}
            length if length <= TEXT as u64 => {
                self.input.by_ref().take(length).read_to_end(&mut self.text)?;
                self.ends += ends(&self.text);
            }
            length => self.pass_over(length)?,
        }
        Ok((read > 0).then_some(Line { words: &self.line, text: &self.text }))
    }

    /// Passes over so many bytes, or those that there are.
    fn pass_over(&mut self, mut length: u64) -> io::Result<()> {
        while length > 0 {
            let piece = self.input.fill_buf()?;
            let count = length.min(piece.len() as u64);
            if count == 0 {
                break;
            }
            self.ends += ends(&piece[..count as usize]);
            self.input.consume(count as usize);
            length -= count;
        }
        Ok(())
    }
}

fn ends(bytes: &[u8]) -> u64 {
    bytes.iter().filter(|&&byte| byte == b'\n').count() as u64
}
