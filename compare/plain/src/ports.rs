//! Ports and realms.

use crate::refusal::Refusal;

/// The realm that edition 1 gives to every key without a row.
pub const DEFAULT_REALM: u64 = 0;

/// The most rows a realm list may have.
pub const MAX_REALM_ROWS: usize = 16;

/// A key in a realm.
#[derive(Clone, Copy, Debug, PartialEq, Eq, PartialOrd, Ord, Hash)]
pub struct Port {
    pub key: u64,
    pub realm: u64,
}

impl Port {
    pub const fn new(key: u64, realm: u64) -> Self {
        Self { key, realm }
    }

    pub const fn in_default_realm(key: u64) -> Self {
        Self::new(key, DEFAULT_REALM)
    }
}

/// An edition of the realm rule: what it gives to a key without a row.
#[derive(Clone, Copy, Debug, PartialEq, Eq)]
pub enum Edition {
    /// Edition 1: realm 0.
    First,
    /// Edition 2: the default realm that came with the list.
    Second { default: u64 },
}

impl Edition {
    /// The edition that a registration names; none if there is no such. Edition 1
    /// ignores the default that is handed in.
    pub const fn named(number: u64, default: u64) -> Option<Self> {
        match number {
            1 => Some(Self::First),
            2 => Some(Self::Second { default }),
            _ => None,
        }
    }

    pub const fn number(self) -> u64 {
        match self {
            Self::First => 1,
            Self::Second { .. } => 2,
        }
    }

    /// The realm of every key without a row.
    pub const fn default_realm(self) -> u64 {
        match self {
            Self::First => DEFAULT_REALM,
            Self::Second { default } => default,
        }
    }
}

/// A realm list as it is handed in: not yet checked, with its edition and default.
#[derive(Clone, Copy, Debug)]
pub struct RealmList<'a> {
    pub edition: u64,
    pub default: u64,
    /// Key, realm, key, realm.
    pub rows: &'a [u64],
}

impl<'a> RealmList<'a> {
    /// A list in edition 1.
    pub const fn first(rows: &'a [u64]) -> Self {
        Self { edition: 1, default: DEFAULT_REALM, rows }
    }

    /// A list in edition 2.
    pub const fn second(default: u64, rows: &'a [u64]) -> Self {
        Self { edition: 2, default, rows }
    }

    /// A list that comes as edition, default, key, realm, key, realm. Without the
    /// first two numbers it names no edition.
    pub fn from_numbers(numbers: &'a [u64]) -> Result<Self, Refusal> {
        match *numbers {
            [edition, default, ref rows @ ..] => Ok(Self { edition, default, rows }),
            _ => Err(Refusal::BadEdition),
        }
    }

    /// Checks the edition, and then the rows.
    pub(crate) fn checked(self) -> Result<Realms<'a>, Refusal> {
        let edition = Edition::named(self.edition, self.default).ok_or(Refusal::BadEdition)?;
        Realms::new(edition, self.rows)
    }
}

/// A realm list that has been checked: whole rows, at most 16, keys rising.
#[derive(Clone, Copy, Debug)]
pub(crate) struct Realms<'a> {
    edition: Edition,
    rows: &'a [[u64; 2]],
}

impl<'a> Realms<'a> {
    /// Checks rows of key, realm, key, realm.
    pub(crate) fn new(edition: Edition, rows: &'a [u64]) -> Result<Self, Refusal> {
        let (rows, odd) = rows.as_chunks();
        let rising = || rows.is_sorted_by(|[a, _], [b, _]| a < b);
        if !odd.is_empty() || rows.len() > MAX_REALM_ROWS || !rising() {
            return Err(Refusal::BadRealms);
        }
        Ok(Self { edition, rows })
    }

    /// The port that a key resolves to.
    pub(crate) fn port(self, key: u64) -> Port {
        // The keys rise, so the first one not below decides.
        match self.rows.iter().find(|[row, _]| *row >= key) {
            Some(&[row, realm]) if row == key => Port::new(key, realm),
            _ => Port::new(key, self.edition.default_realm()),
        }
    }

    pub(crate) fn edition(self) -> Edition {
        self.edition
    }

    pub(crate) fn rows(self) -> impl Iterator<Item = Port> {
        self.rows.iter().map(|&[key, realm]| Port::new(key, realm))
    }
}

/// Looks a key up in a realm list.
pub fn resolve(key: u64, realms: RealmList<'_>) -> Result<Port, Refusal> {
    Ok(realms.checked()?.port(key))
}
