//! Reading an operation from a line.

use super::{Line, MAX_LINE, TEXT};
use crate::admission::{Invocation, Ticket};
use crate::ports::{Port, RealmList};
use crate::registration::Registration;
use crate::retirement::Child;

/// An operation with its arguments.
#[derive(Clone, Copy, Debug)]
pub enum Operation<'a> {
    Open { domain: u64, first: u64 },
    Register(Registration<'a>),
    Begin(u64),
    Ready(u64),
    Fail(u64),
    Unload(u64),
    Finish(u64),
    Replace { id: u64, payload: u64 },
    Fits { id: u64, count: u64 },
    Admit { ticket: Ticket, argument: u64 },
    Call(Invocation),
    Retire(u64),
    RetireChild(Child),
    Remove(u64),
    Child(u64),
    Offer { id: u64, port: Port, value: u64 },
    Read { id: u64, port: Port },
    Visible(Port),
    Missing(u64),
    Matches { id: u64, list: &'a [u64] },
    Declares { id: u64, port: Port },
    Lookup { id: u64, key: u64 },
    Resolve { key: u64, realms: RealmList<'a> },
    Edition(u64),
    Plan { size: u64, set: &'a [u64] },
    Check { set: &'a [u64], order: &'a [u64] },
    Deps { id: u64, place: u64 },
    Provs { id: u64, place: u64 },
    Realms { id: u64, place: u64 },
    Buffer { from: u64, to: u64 },
    Rows,
    Count,
    Next,
    Show(u64),
    Write { size: u64 },
    Load { domain: u64, text: &'a [u8] },
    SlotPending { domain: u64, parent: u64, generation: u64 },
    SlotAssigned(Child),
    SlotAssign(Child),
    SlotReject,
    SlotCancel,
}

/// Reads a line; none if it is bad. Lists are gathered in `numbers`.
pub fn parse<'a>(line: Line<'a>, numbers: &'a mut Vec<u64>) -> Option<Operation<'a>> {
    if line.words.len() > MAX_LINE {
        return None;
    }
    numbers.clear();
    let mut words = Words(line.words);
    Some(match words.next()? {
        b"open" => {
            let [domain, first] = words.exactly()?;
            Operation::Open { domain, first }
        }
        b"register" => Operation::Register(registration(&mut words, numbers)?),
        b"begin" => Operation::Begin(words.one()?),
        b"ready" => Operation::Ready(words.one()?),
        b"fail" => Operation::Fail(words.one()?),
        b"unload" => Operation::Unload(words.one()?),
        b"finish" => Operation::Finish(words.one()?),
        b"replace" => {
            let [id, payload] = words.exactly()?;
            Operation::Replace { id, payload }
        }
        b"fits" => {
            let [id, count] = words.exactly()?;
            Operation::Fits { id, count }
        }
        b"admit" => {
            let [domain, id, generation, kind, argument] = words.exactly()?;
            Operation::Admit { ticket: Ticket { domain, id, generation, kind }, argument }
        }
        b"call" => {
            let [domain, id, generation, revision, argument] = words.exactly()?;
            Operation::Call(Invocation { domain, id, generation, revision, argument })
        }
        b"retire" => Operation::Retire(words.one()?),
        b"retire_child" => Operation::RetireChild(words.child()?),
        b"remove" => Operation::Remove(words.one()?),
        b"child" => Operation::Child(words.one()?),
        b"offer" => {
            let [id, key, realm, value] = words.exactly()?;
            Operation::Offer { id, port: Port::new(key, realm), value }
        }
        b"read" => {
            let [id, key, realm] = words.exactly()?;
            Operation::Read { id, port: Port::new(key, realm) }
        }
        b"visible" => {
            let [key, realm] = words.exactly()?;
            Operation::Visible(Port::new(key, realm))
        }
        b"missing" => Operation::Missing(words.one()?),
        b"matches" => {
            let id = words.number()?;
            Operation::Matches { id, list: words.all(numbers)? }
        }
        b"declares" => {
            let [id, key, realm] = words.exactly()?;
            Operation::Declares { id, port: Port::new(key, realm) }
        }
        b"lookup" => {
            let [id, key] = words.exactly()?;
            Operation::Lookup { id, key }
        }
        b"resolve" => {
            let key = words.number()?;
            let (edition, default) = (words.number()?, words.number()?);
            let rows = words.all(numbers)?;
            Operation::Resolve { key, realms: RealmList { edition, default, rows } }
        }
        b"edition" => Operation::Edition(words.one()?),
        b"plan" => {
            let size = words.number()?;
            Operation::Plan { size, set: words.all(numbers)? }
        }
        b"check" => {
            if words.next()? != b"set" {
                return None;
            }
            words.until(b"order", numbers)?;
            let set_end = numbers.len();
            let (set, order) = words.all(numbers)?.split_at(set_end);
            Operation::Check { set, order }
        }
        b"deps" => {
            let [id, place] = words.exactly()?;
            Operation::Deps { id, place }
        }
        b"provs" => {
            let [id, place] = words.exactly()?;
            Operation::Provs { id, place }
        }
        b"realms" => {
            let [id, place] = words.exactly()?;
            Operation::Realms { id, place }
        }
        b"buffer" => {
            let [from, to] = words.exactly()?;
            Operation::Buffer { from, to }
        }
        b"rows" => words.end(Operation::Rows)?,
        b"count" => words.end(Operation::Count)?,
        b"next" => words.end(Operation::Next)?,
        b"show" => Operation::Show(words.one()?),
        b"write" => Operation::Write { size: words.one()? },
        b"load" => {
            let [domain, length] = words.exactly()?;
            if length > TEXT as u64 {
                return None;
            }
            Operation::Load { domain, text: line.text }
        }
        b"slot" => slot(&mut words)?,
        _ => return None,
    })
}

/// How many bytes of the input right behind a line are its text. Even if they are
/// too many, they are no lines.
pub fn text_length(line: &[u8]) -> u64 {
    let mut words = Words(line);
    if line.len() > MAX_LINE || words.next() != Some(b"load") {
        return 0;
    }
    words.exactly().map_or(0, |[_, length]| length)
}

fn slot(words: &mut Words<'_>) -> Option<Operation<'static>> {
    Some(match words.next()? {
        b"pending" => {
            let [domain, parent, generation] = words.exactly()?;
            Operation::SlotPending { domain, parent, generation }
        }
        b"assigned" => Operation::SlotAssigned(words.child()?),
        b"assign" => Operation::SlotAssign(words.child()?),
        b"reject" => words.end(Operation::SlotReject)?,
        b"cancel" => words.end(Operation::SlotCancel)?,
        _ => return None,
    })
}

fn registration<'a>(words: &mut Words<'_>, numbers: &'a mut Vec<u64>) -> Option<Registration<'a>> {
    let parent = match words.next()? {
        b"none" => None,
        word => Some(number(word)?),
    };
    let anchor = Port::new(words.number()?, words.number()?);
    let payload = words.number()?;
    let (edition, default) = (words.number()?, words.number()?);
    if words.next()? != b"realms" {
        return None;
    }
    words.until(b"deps", numbers)?;
    let rows_end = numbers.len();
    words.until(b"provs", numbers)?;
    let dependencies_end = numbers.len();
    let numbers = words.all(numbers)?;
    let (front, provisions) = numbers.split_at(dependencies_end);
    let (rows, dependencies) = front.split_at(rows_end);
    let realms = RealmList { edition, default, rows };
    Some(Registration { parent, anchor, payload, realms, dependencies, provisions })
}

/// The words of a line, parted by one or more spaces. No other byte parts words.
struct Words<'l>(&'l [u8]);

impl<'l> Iterator for Words<'l> {
    type Item = &'l [u8];

    fn next(&mut self) -> Option<&'l [u8]> {
        let start = self.0.iter().position(|&byte| byte != b' ')?;
        let rest = &self.0[start..];
        let end = rest.iter().position(|&byte| byte == b' ').unwrap_or(rest.len());
        let (word, rest) = rest.split_at(end);
        self.0 = rest;
        Some(word)
    }
}

impl Words<'_> {
    fn number(&mut self) -> Option<u64> {
        number(self.next()?)
    }

    /// So many numbers, and then the line's end.
    fn exactly<const N: usize>(&mut self) -> Option<[u64; N]> {
        let mut numbers = [0; N];
        for room in &mut numbers {
            *room = self.number()?;
        }
        self.end(numbers)
    }

    fn one(&mut self) -> Option<u64> {
        self.exactly().map(|[number]| number)
    }

    fn child(&mut self) -> Option<Child> {
        let [domain, parent, id] = self.exactly()?;
        Some(Child { domain, parent, id })
    }

    /// Gathers the numbers before a word, which must come.
    fn until(&mut self, stop: &[u8], numbers: &mut Vec<u64>) -> Option<()> {
        loop {
            let word = self.next()?;
            if word == stop {
                return Some(());
            }
            numbers.push(number(word)?);
        }
    }

    /// Gathers the numbers up to the line's end.
    fn all<'a>(&mut self, numbers: &'a mut Vec<u64>) -> Option<&'a [u64]> {
        for word in self {
            numbers.push(number(word)?);
        }
        Some(numbers)
    }

    /// Answers what was read, if nothing is left on the line.
    fn end<T>(&mut self, read: T) -> Option<T> {
        self.next().is_none().then_some(read)
    }
}

/// Reads a decimal number without leading zeros, at most 2^64 - 1.
fn number(word: &[u8]) -> Option<u64> {
    if word.is_empty() || (word[0] == b'0' && word.len() > 1) {
        return None;
    }
    word.iter().try_fold(0u64, |number, byte| {
        let digit = byte.wrapping_sub(b'0');
        if digit > 9 {
            return None;
        }
        number.checked_mul(10)?.checked_add(u64::from(digit))
    })
}

#[cfg(test)]
mod tests {
    use super::*;

    #[test]
    fn numbers() {
        assert_eq!(number(b"0"), Some(0));
        assert_eq!(number(b"10"), Some(10));
        assert_eq!(number(b"18446744073709551615"), Some(u64::MAX));
        for word in [
            "",
            "00",
            "01",
            "+1",
            "-1",
            "1a",
            "0x1",
            "1\t",
            "1\r",
            "18446744073709551616",
            "99999999999999999999",
            "100000000000000000000000",
            "none",
        ] {
            assert_eq!(number(word.as_bytes()), None, "{word}");
        }
    }
}
