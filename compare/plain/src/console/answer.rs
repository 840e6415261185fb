//! Writing an answer.

use crate::refusal::Refusal;

/// Appends one answer line, word by word. Every word but the first, which is
/// `ok`, `no` or `bad`, comes after a space. A text may follow the line.
pub struct Answer<'a> {
    out: &'a mut Vec<u8>,
    ended: bool,
}

impl<'a> Answer<'a> {
    pub fn new(out: &'a mut Vec<u8>) -> Self {
        Self { out, ended: false }
    }

    pub fn bad(&mut self) {
        self.out.extend_from_slice(b"bad");
    }

    pub fn no(&mut self, refusal: Refusal) {
        self.out.extend_from_slice(b"no");
        self.number(u64::from(refusal.number()));
    }

    pub fn ok(&mut self) {
        self.out.extend_from_slice(b"ok");
    }

    pub fn ok_numbers(&mut self, numbers: &[u64]) {
        self.ok();
        self.numbers(numbers);
    }

    pub fn ok_yes_no(&mut self, yes: bool) {
        self.ok();
        self.word(if yes { "yes" } else { "no" });
    }

    pub fn ok_or_none<const N: usize>(&mut self, numbers: Option<[u64; N]>) {
        self.ok();
        match numbers {
            Some(numbers) => self.numbers(&numbers),
            None => self.word("none"),
        }
    }

    pub fn word(&mut self, word: &str) {
        self.out.push(b' ');
        self.out.extend_from_slice(word.as_bytes());
    }

    pub fn numbers(&mut self, numbers: &[u64]) {
        for &number in numbers {
            self.number(number);
        }
    }

    pub fn number_or_none(&mut self, number: Option<u64>) {
        match number {
            Some(number) => self.number(number),
            None => self.word("none"),
        }
    }

    pub fn number(&mut self, mut number: u64) {
        // The digits come last first; 2^64 - 1 has twenty of them.
        let mut digits = [0; 20];
        let mut start = digits.len();
        loop {
            start -= 1;
            digits[start] = b'0' + (number % 10) as u8;
            number /= 10;
            if number == 0 {
                break;
            }
        }
        self.out.push(b' ');
        self.out.extend_from_slice(&digits[start..]);
    }

    /// Ends the line and appends a text, just as it is.
    pub fn text(&mut self, text: &[u8]) {
        self.out.push(b'\n');
        self.out.extend_from_slice(text);
        self.ended = true;
    }

    pub fn end(self) {
        if !self.ended {
            self.out.push(b'\n');
        }
    }
}
