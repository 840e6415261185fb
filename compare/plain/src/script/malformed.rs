//! Lines that are bad, and lines that only look so.

use super::Script;
use super::carry::filler;
use crate::console::{MAX_LINE, text_length};

/// One good line of every form, to be spoilt.
const GOOD: [&str; 54] = [
    "open 7 0",
    "register none 9 0 40 1 0 realms 2 5 deps provs 2",
    "register 0 9 0 40 2 7 realms 2 5 9 1 deps 4 provs 3",
    "register none 1 2 3 1 0 realms deps provs",
    "begin 0",
    "ready 0",
    "fail 1",
    "unload 1",
    "finish 2",
    "replace 1 40",
    "fits 1 3",
    "admit 7 0 1 1 5",
    "call 7 0 1 0 5",
    "retire 9",
    "retire_child 7 0 1",
    "child 1",
    "remove 1",
    "offer 0 2 5 77",
    "read 0 2 5",
    "visible 2 5",
    "missing 0",
    "matches 0",
    "matches 0 2 5 3 0",
    "declares 0 2 5",
    "lookup 0 2",
    "resolve 2 1 0",
    "resolve 2 2 7 2 5 9 1",
    "edition 0",
    "edition 3",
    "plan 0",
    "plan 3 2 0 1",
    "check set order",
    "check set 1 0 order 0 1",
    "deps 0 0",
    "provs 0 10",
    "realms 0 20",
    "buffer 0 100",
    "rows",
    "count",
    "next",
    "show 0",
    "show 3",
    "slot pending 7 0 1",
    "slot assigned 7 0 1",
    "slot assign 7 0 1",
    "slot assign 0 0 3",
    "slot reject",
    "slot cancel",
    "buffer 98 200",
    "visible 0 0",
    "write 0",
    "write 900",
    "load 7 0",
    "load 18446744073709551615 0",
];

/// Words that are no numbers, or only just are.
const WORDS: [&str; 24] = [
    "00",
    "01",
    "007",
    "+1",
    "-1",
    "-0",
    "1.0",
    "1e3",
    "0x10",
    "1_000",
    "none",
    "x",
    "",
    "18446744073709551615",
    "18446744073709551616",
    "18446744073709551625",
    "28446744073709551615",
    "99999999999999999999",
    "100000000000000000000000000000000000000000",
    "yes",
    "realms",
    "set",
    "order",
    "ok",
];

/// Lines that are bad as they are, or good against expectation.
const LINES: [&[u8]; 58] = [
    b" ",
    b"   ",
    b"\t",
    b"\r",
    b"rows\r",
    b"rows\t",
    b"\trows",
    b"begin\t0",
    b"rows ",
    b"  rows",
    b" # no remark",
    b"slot",
    b"slot  ",
    b"slot pending",
    b"slot decided",
    b"register",
    b"register none 1 0 5 1 0",
    b"register none 1 0 5 1 0 realms deps",
    b"register none 1 0 5 1 0 deps realms provs",
    b"register none 1 0 5 1 0 realms deps provs provs",
    b"register none 1 0 5 1 0 realms realms deps provs",
    b"register none none 0 5 1 0 realms deps provs",
    b"register nothing 1 0 5 1 0 realms deps provs",
    b"register 1 0 5 1 0 realms deps provs",
    b"register none 1 0 5 realms deps provs",
    b"register none 1 0 5 1 realms deps provs",
    b"register none 1 0 5 1 0 0 realms deps provs",
    b"register none 1 0 5 none 0 realms deps provs",
    b"register none 1 0 5 1 none realms deps provs",
    b"resolve 2",
    b"resolve 2 1",
    b"resolve 2 none 0",
    b"edition",
    b"edition 0 0",
    b"plan",
    b"plan none",
    b"plan none 0",
    b"plan 3 none",
    b"check",
    b"check 0 order 0",
    b"check set",
    b"check set 0",
    b"check order",
    b"check order 0 set 0",
    b"check set order order",
    b"check set set order",
    b"check set 0 order 0 set",
    b"check set none order none",
    b"load",
    b"load 7",
    b"load 7 9 9",
    b"load none 9",
    b"begin none",
    b"ROWS",
    b"replay",
    b"\0",
    b"rows\0",
    b"\xef\xbb\xbfrows",
];

impl Script {
    pub(super) fn malformed(&mut self) {
        let good = self.rng.one_of(GOOD);
        let line = match self.rng.below(10) {
            0 | 1 => self.rng.one_of(LINES).to_vec(),
            2 => match good.rsplit_once(' ') {
                Some((front, _)) => front.into(),
                None => b"row".into(),
            },
            3 => {
                let more = self.rng.one_of(["0", "x", "none", "1 2", "5"]);
                format!("{good} {more}").into()
            }
            4 | 5 => self.with_strange_word(good),
            6 => {
                let mut words: Vec<&str> = good.split(' ').collect();
                self.rng.shuffle(&mut words);
                words.join(" ").into()
            }
            _ => self.with_strange_byte(good),
        };
        // Some are good after all and have a text, which may be too long to write.
        match text_length(&line) {
            0 => self.say(line),
            length @ 1..100 => self.say_with(&line, &filler(length as usize)),
            _ => self.say("load 7 0 0"),
        };
    }

    fn with_strange_word(&mut self, good: &str) -> Vec<u8> {
        let mut words: Vec<&str> = good.split(' ').collect();
        let place = self.rng.below(words.len() as u64) as usize;
        words[place] = self.rng.one_of(WORDS);
        words.join(" ").into()
    }

    /// The line with one byte put in, taken out or changed. Never byte 10, which
    /// would make two lines of it.
    fn with_strange_byte(&mut self, good: &str) -> Vec<u8> {
        let mut line = good.as_bytes().to_vec();
        let place = self.rng.below(line.len() as u64) as usize;
        let byte = match self.rng.below(3) {
            0 => self.rng.one_of(*b"\t\r\0 #09+-,;\x0b\x0c\xa0\xff"),
            1 => self.rng.one_of(*b"0123456789  "),
            _ => self.rng.between(11, 255) as u8,
        };
        match self.rng.below(3) {
            0 => line.insert(place, byte),
            1 => line[place] = byte,
            _ => {
                line.remove(place);
            }
        }
        line
    }

    /// Lines without an answer.
    pub(super) fn passed_over(&mut self) {
        let line = self.rng.one_of(["", "", "#", "# a remark", "#begin 0", "##", "#\t\0\r"]);
        self.say(line);
    }

    /// Lines about as long as a line may be, and much longer ones.
    pub(super) fn long_line(&mut self) {
        let length = MAX_LINE - 1 + self.rng.below(3) as usize;
        let id = self.any_id();
        let line = match self.rng.below(16) {
            0 => padded("rows", b" ", length),
            1 => padded(&format!("show {id}"), b" ", length),
            2 => padded("", b" ", length),
            3 => padded("#", b" remark", length),
            4 => padded("#", b"#", MAX_LINE + self.rng.below(6000) as usize),
            5 => padded("rows 1", b"0", MAX_LINE + self.rng.below(70_000) as usize),
            6 => padded(&format!("matches {id}"), b" 1", length),
            7 => padded("resolve 3 2 7", b" 2 5", length),
            8 => padded("register none 1 0 5 1 0 realms", b" 4 4", length - 12),
            9 => padded("register none 1 0 5 2 7 realms deps", b" 4", length - 6),
            10 => padded("register none 1 0 5 1 0 realms deps provs", b" 12", length),
            11 => padded("load 7 0", b" ", length),
            12 => padded(&format!("plan 3 {id}"), b" 1", length),
            13 => padded("check set", b" 1", length - 6),
            14 => padded("check set order", b" 1", length),
            _ => {
                let mut line = vec![b' '; length - 4];
                line.extend_from_slice(b"next");
                line
            }
        };
        // Three of the forms still lack their last words.
        let line = if line.starts_with(b"register none 1 0 5 1 0 realms 4") {
            [&line[..], b" deps provs"].concat()
        } else if line.starts_with(b"register none 1 0 5 2 7 realms deps 4") {
            [&line[..], b" provs"].concat()
        } else if line.starts_with(b"check set 1") {
            [&line[..], b" order"].concat()
        } else {
            line
        };
        self.say(line);
    }
}

/// The start, and then the same bytes over and over up to this length.
fn padded(start: &str, with: &[u8], length: usize) -> Vec<u8> {
    let mut line = start.as_bytes().to_vec();
    while line.len() < length {
        line.push(with[(line.len() - start.len()) % with.len()]);
    }
    line
}
