//! The refusal numbers.

/// Why an operation was refused. The discriminants are the document's numbers.
#[derive(Clone, Copy, Debug, PartialEq, Eq, PartialOrd, Ord, Hash)]
#[repr(u8)]
pub enum Refusal {
    Unknown = 1,
    Retired = 2,
    InvalidState = 3,
    BadRealms = 4,
    TooManyKeys = 5,
    DuplicateDependency = 6,
    DuplicateProvision = 7,
    Taken = 8,
    NoId = 9,
    Full = 10,
    TooLong = 11,
    NoRows = 12,
    Stale = 13,
    Unavailable = 14,
    InUse = 15,
    Exhausted = 16,
    NotRun = 17,
    HasChildren = 18,
    Closed = 19,
    Undeclared = 20,
    Duplicate = 21,
    Missing = 22,
    ShortBuffer = 23,
    BadText = 24,
    SameDomain = 25,
    BadEdition = 26,
    Repeated = 27,
}

impl Refusal {
    pub const fn number(self) -> u8 {
        self as u8
    }
}
