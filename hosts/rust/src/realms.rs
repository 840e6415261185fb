//! The realm list and its edition.

use core::fmt;

use crate::numbers::Port;

/// An edition of the realm rule: which realm a key gets that has no row in the realm list.
#[derive(Clone, Copy, Debug, PartialEq, Eq, Hash)]
pub enum Edition {
    /// Edition 1: realm 0.
    First,
    /// Edition 2: a default realm, which comes with the list.
    Second {
        /// The default realm.
        default: u64,
    },
}

impl Edition {
    /// 1 or 2.
    pub const fn number(self) -> u64 {
        match self {
            Self::First => 1,
            Self::Second { .. } => 2,
        }
    }

    /// The realm of a key that has no row.
    pub const fn default_realm(self) -> u64 {
        match self {
            Self::First => Port::DEFAULT_REALM,
            Self::Second { default } => default,
        }
    }
}

/// A realm list, with its edition and default realm. A key gets the realm of its row, and any other key the one of the edition.
///
/// It holds the numbers that a registry takes: edition, default, key, realm, key, realm. Nothing is checked here: the registry
/// refuses 26 and 4 where the list is used. Rows behind the 17th are left out, for 17 are refused as more would be.
///
/// ```
/// use vaskelbi::{Port, RealmList, Refusal, resolve};
///
/// const PIER: RealmList = RealmList::second(8, &[(2, 5), (9, 1)]);
/// assert_eq!(PIER.numbers(), [2, 8, 2, 5, 9, 1]);
/// assert_eq!(resolve(&PIER, 2), Ok(Port::new(2, 5)));
/// assert_eq!(resolve(&PIER, 3), Ok(Port::new(3, 8)));
/// let first = RealmList::first(&[(2, 5), (9, 1)]);
/// assert_eq!(resolve(&first, 3), Ok(Port::in_default_realm(3)));
/// assert_eq!(resolve(&RealmList::first(&[(9, 1), (2, 5)]), 3), Err(Refusal::BadRealms));
/// ```
#[derive(Clone, Copy, PartialEq, Eq, Hash)]
pub struct RealmList {
    /// 0 behind the length.
    numbers: [u64; Self::ROOM],
    length: usize,
}

impl RealmList {
    /// The rows that a registry takes.
    pub const ROWS: usize = 16;

    /// The numbers of one row more than a registry takes. So a list that is too long is refused by what is held of it as it would
    /// be by all of it: with 26 by its edition, else with 4 by its 17 rows.
    const ROOM: usize = 2 + 2 * (Self::ROWS + 1);

    /// A list of rows (key, realm) by an edition.
    pub const fn new(edition: Edition, rows: &[(u64, u64)]) -> Self {
        let mut list = Self::from_numbers(&[edition.number(), edition.default_realm()]);
        let mut row = 0;
        while row < rows.len() && row <= Self::ROWS {
            list = list.with(rows[row].0).with(rows[row].1);
            row += 1;
        }
        list
    }

    /// A list of edition 1, with rows (key, realm).
    pub const fn first(rows: &[(u64, u64)]) -> Self {
        Self::new(Edition::First, rows)
    }

    /// A list of edition 2, with its default realm and rows (key, realm).
    pub const fn second(default: u64, rows: &[(u64, u64)]) -> Self {
        Self::new(Edition::Second { default }, rows)
    }

    /// Any numbers as they are: edition, default, key, realm, key, realm.
    pub const fn from_numbers(numbers: &[u64]) -> Self {
        let mut list = Self { numbers: [0; Self::ROOM], length: 0 };
        while list.length < numbers.len() && list.length < Self::ROOM {
            list = list.with(numbers[list.length]);
        }
        list
    }

    /// The numbers, as a registry takes them.
    pub const fn numbers(&self) -> &[u64] {
        self.numbers.split_at(self.length).0
    }

    /// With one number more; there must be room.
    const fn with(mut self, number: u64) -> Self {
        self.numbers[self.length] = number;
        self.length += 1;
        self
    }
}

impl fmt::Debug for RealmList {
    fn fmt(&self, f: &mut fmt::Formatter<'_>) -> fmt::Result {
        f.debug_tuple("RealmList").field(&self.numbers()).finish()
    }
}
