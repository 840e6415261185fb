//! The refusal numbers.

use core::error::Error;
use core::fmt;

/// Why an operation was refused. The discriminants are the numbers of documents 01 and 02.
#[derive(Clone, Copy, Debug, PartialEq, Eq, PartialOrd, Ord, Hash)]
#[repr(u8)]
pub enum Refusal {
    /// The id is not registered; in child retirement, it was never issued.
    Unknown = 1,
    /// The plugin or its parent is retired.
    Retired = 2,
    /// Foreign domain, wrong kind, parent or phase, root already issued, slot decided.
    InvalidState = 3,
    /// The realm list has odd length or over 16 rows, or its keys don't strictly rise.
    BadRealms = 4,
    /// Over 16 dependency or over 15 provision keys.
    TooManyKeys = 5,
    /// Two declared dependencies resolve alike.
    DuplicateDependency = 6,
    /// Two of the provisions with the anchor are alike.
    DuplicateProvision = 7,
    /// A registered plugin provides the anchor or one of the provisions.
    Taken = 8,
    /// The next id is 2^64 − 1.
    NoId = 9,
    /// 32 plugins are registered.
    Full = 10,
    /// The finished dependency list has over 48 ports.
    TooLong = 11,
    /// Rows in use and rows needed are over 1,024.
    NoRows = 12,
    /// The ticket or invocation is not the live one.
    Stale = 13,
    /// A dependency has no Active provider.
    Unavailable = 14,
    /// A Loading or Active plugin depends on one of its provisions or its anchor.
    InUse = 15,
    /// The revision or generation is 2^64 − 1.
    Exhausted = 16,
    /// The root is not Spent.
    NotRun = 17,
    /// A registered plugin names it as parent.
    HasChildren = 18,
    /// Wrong phase for values.
    Closed = 19,
    /// The port is not in the list concerned.
    Undeclared = 20,
    /// The value is already offered.
    Duplicate = 21,
    /// The value is absent.
    Missing = 22,
    /// The lent room is too small.
    ShortBuffer = 23,
    /// It is no text of the form, or one that breaks a condition.
    BadText = 24,
    /// It is the domain that the text has.
    SameDomain = 25,
    /// Another edition of the realm rule than 1 and 2, or a realm list without edition and default.
    BadEdition = 26,
    /// An id stands twice in a set.
    Repeated = 27,
}

impl Refusal {
    /// Every refusal, by rising number.
    pub const ALL: [Self; 27] = [
        Self::Unknown,
        Self::Retired,
        Self::InvalidState,
        Self::BadRealms,
        Self::TooManyKeys,
        Self::DuplicateDependency,
        Self::DuplicateProvision,
        Self::Taken,
        Self::NoId,
        Self::Full,
        Self::TooLong,
        Self::NoRows,
        Self::Stale,
        Self::Unavailable,
        Self::InUse,
        Self::Exhausted,
        Self::NotRun,
        Self::HasChildren,
        Self::Closed,
        Self::Undeclared,
        Self::Duplicate,
        Self::Missing,
        Self::ShortBuffer,
        Self::BadText,
        Self::SameDomain,
        Self::BadEdition,
        Self::Repeated,
    ];

    /// The number, 1 to 27: document 01's, and 24 to 27 of document 02.
    pub const fn number(self) -> u8 {
        self as u8
    }

    /// The refusal of a number.
    pub const fn from_number(number: u64) -> Option<Self> {
        match number {
            1..=27 => Some(Self::ALL[number as usize - 1]),
            _ => None,
        }
    }

    const fn given_when(self) -> &'static str {
        match self {
            Self::Unknown => "id not registered or never issued",
            Self::Retired => "plugin or parent is retired",
            Self::InvalidState => {
                "foreign domain, wrong kind, parent or phase, root already issued, or slot decided"
            }
            Self::BadRealms => {
                "realm list of odd length, over 16 rows, or keys not strictly rising"
            }
            Self::TooManyKeys => "over 16 dependency or over 15 provision keys",
            Self::DuplicateDependency => "two declared dependencies resolve alike",
            Self::DuplicateProvision => "two of the provisions with the anchor are alike",
            Self::Taken => "a registered plugin provides the anchor or a provision",
            Self::NoId => "next id is 2^64 - 1",
            Self::Full => "32 plugins registered",
            Self::TooLong => "finished dependency list over 48 ports",
            Self::NoRows => "rows in use and rows needed over 1,024",
            Self::Stale => "ticket or invocation is not the live one",
            Self::Unavailable => "a dependency has no Active provider",
            Self::InUse => "a Loading or Active plugin depends on it",
            Self::Exhausted => "revision or generation is 2^64 - 1",
            Self::NotRun => "root not Spent",
            Self::HasChildren => "a registered plugin names it as parent",
            Self::Closed => "wrong phase for values",
            Self::Undeclared => "port not in the list concerned",
            Self::Duplicate => "value already offered",
            Self::Missing => "value absent",
            Self::ShortBuffer => "lent room too small",
            Self::BadText => "no text of the form, or one that breaks a condition",
            Self::SameDomain => "the domain that the text has",
            Self::BadEdition => {
                "another edition of the realm rule than 1 and 2, or a list without one"
            }
            Self::Repeated => "an id stands twice in a set",
        }
    }
}

impl fmt::Display for Refusal {
    fn fmt(&self, f: &mut fmt::Formatter<'_>) -> fmt::Result {
        f.pad(self.given_when())
    }
}

impl Error for Refusal {}

/// A refused replacement, which hands the offered payload back.
#[derive(Clone, Copy, Debug, PartialEq, Eq, Hash)]
pub struct Refused {
    /// Why.
    pub refusal: Refusal,
    /// The offered payload.
    pub payload: u64,
}

impl fmt::Display for Refused {
    fn fmt(&self, f: &mut fmt::Formatter<'_>) -> fmt::Result {
        write!(f, "payload {} not stored: {}", self.payload, self.refusal)
    }
}

impl Error for Refused {
    fn source(&self) -> Option<&(dyn Error + 'static)> {
        Some(&self.refusal)
    }
}
