//! How many texts of each kind were loaded and refused.

use std::collections::BTreeMap;
use std::fmt;

/// The statuses that a load has.
const STATUSES: [u64; 3] = [0, 24, 25];

pub struct Tally {
    /// In the order in which they are shown.
    kinds: Vec<&'static str>,
    counts: BTreeMap<(&'static str, u64), u64>,
    texts: u64,
}

impl Tally {
    pub fn new(kinds: impl Iterator<Item = &'static str>) -> Self {
        Self { kinds: kinds.collect(), counts: BTreeMap::new(), texts: 0 }
    }

    pub fn add(&mut self, kind: &'static str, status: u64) {
        *self.counts.entry((kind, status)).or_default() += 1;
        self.texts += 1;
    }

    pub fn texts(&self) -> u64 {
        self.texts
    }

    fn sum(&self, is: impl Fn(&str, u64) -> bool) -> u64 {
        self.counts.iter().filter(|((kind, status), _)| is(kind, *status)).map(|(_, n)| n).sum()
    }
}

impl fmt::Display for Tally {
    fn fmt(&self, f: &mut fmt::Formatter<'_>) -> fmt::Result {
        let [all, accepted, bad, same] = ["texts", "accepted", "24", "25"];
        writeln!(f, "{:32}{all:>10}{accepted:>10}{bad:>10}{same:>10}", "")?;
        for &kind in &self.kinds {
            write!(f, "{kind:32}{:>10}", self.sum(|k, _| k == kind))?;
            for status in STATUSES {
                write!(f, "{:>10}", self.sum(|k, s| k == kind && s == status))?;
            }
            writeln!(f)?;
        }
        write!(f, "{:32}{:>10}", "all", self.texts)?;
        for status in STATUSES {
            write!(f, "{:>10}", self.sum(|_, s| s == status))?;
        }
        Ok(())
    }
}
