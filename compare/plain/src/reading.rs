//! Reading a text piece by piece.

use crate::admission::Root;
use crate::ports::{Edition, Port};

/// What is left of a text. Each method takes a piece from its front, and answers
/// none if the text goes on otherwise.
pub(crate) struct Reader<'t> {
    rest: &'t [u8],
}

impl<'t> Reader<'t> {
    pub(crate) fn new(text: &'t [u8]) -> Self {
        Self { rest: text }
    }

    /// Exactly this piece.
    pub(crate) fn skip(&mut self, piece: &str) -> Option<()> {
        self.rest = self.rest.strip_prefix(piece.as_bytes())?;
        Some(())
    }

    /// A decimal number without leading zeros, at most 2^64 - 1.
    pub(crate) fn number(&mut self) -> Option<u64> {
        let (mut number, mut digits) = (0u64, 0);
        while let Some(&byte @ b'0'..=b'9') = self.rest.get(digits) {
            number = number.checked_mul(10)?.checked_add(u64::from(byte - b'0'))?;
            digits += 1;
        }
        let leading_zero = digits > 1 && self.rest[0] == b'0';
        if digits == 0 || leading_zero {
            return None;
        }
        self.rest = &self.rest[digits..];
        Some(number)
    }

    /// A number or the word none, and the line's end.
    pub(crate) fn number_or_none(&mut self) -> Option<Option<u64>> {
        if self.skip("none\n").is_some() {
            return Some(None);
        }
        let number = self.number()?;
        self.skip("\n")?;
        Some(Some(number))
    }

    /// A line with one number.
    pub(crate) fn line(&mut self, name: &str) -> Option<u64> {
        self.skip(name)?;
        let number = self.number()?;
        self.skip("\n")?;
        Some(number)
    }

    /// A line with one number that is not above this.
    pub(crate) fn at_most(&mut self, name: &str, most: usize) -> Option<usize> {
        let number = self.line(name)?;
        (number <= most as u64).then_some(number as usize)
    }

    /// Two numbers with a comma, and no end yet.
    pub(crate) fn pair(&mut self, name: &str) -> Option<(u64, u64)> {
        self.skip(name)?;
        let first = self.number()?;
        self.skip(",")?;
        Some((first, self.number()?))
    }

    /// A line with a port.
    pub(crate) fn port(&mut self, name: &str) -> Option<Port> {
        let (key, realm) = self.pair(name)?;
        self.skip("\n")?;
        Some(Port::new(key, realm))
    }

    /// The lines root and queued, which has its pair while the root is Queued.
    pub(crate) fn root(&mut self) -> Option<Root> {
        let root = match self.line("root=")? {
            0 => Root::Unissued,
            1 => {
                let (revision, argument) = self.pair("queued=")?;
                self.skip("\n")?;
                return Some(Root::Queued { revision, argument });
            }
            2 => Root::Spent,
            _ => return None,
        };
        self.skip("queued=none\n")?;
        Some(root)
    }

    /// The lines edition and default, which is 0 in edition 1.
    pub(crate) fn edition(&mut self) -> Option<Edition> {
        match (self.line("edition=")?, self.line("default=")?) {
            (1, 0) => Some(Edition::First),
            (2, default) => Some(Edition::Second { default }),
            _ => None,
        }
    }

    /// The text's end.
    pub(crate) fn end(self) -> Option<()> {
        self.rest.is_empty().then_some(())
    }
}

#[cfg(test)]
mod tests {
    use super::*;

    #[test]
    fn numbers() {
        for (text, wanted) in [
            ("0", Some(0)),
            ("7,", Some(7)),
            ("10\n", Some(10)),
            ("18446744073709551615", Some(u64::MAX)),
            ("18446744073709551616", None),
            ("18446744073709551625", None),
            ("99999999999999999999", None),
            ("100000000000000000000", None),
            ("", None),
            ("00", None),
            ("01", None),
            ("007\n", None),
            ("+1", None),
            ("-0", None),
            (" 1", None),
            ("none", None),
        ] {
            assert_eq!(Reader::new(text.as_bytes()).number(), wanted, "{text:?}");
        }
    }

    #[test]
    fn a_number_ends_where_its_digits_do() {
        let mut reader = Reader::new(b"12/:3");
        assert_eq!(reader.number(), Some(12));
        assert_eq!(reader.rest, b"/:3");
    }
}
