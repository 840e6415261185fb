//! The counts as text.

use std::collections::BTreeMap;
use std::fmt;

use super::{Coverage, EXPECTED, Tally, Texts, boundaries};

impl fmt::Display for Coverage {
    fn fmt(&self, f: &mut fmt::Formatter<'_>) -> fmt::Result {
        writeln!(f, "{} lines: {} bad, {} passed over", self.lines, self.bad, self.passed_over)?;
        let Texts { whole, cut, too_long } = self.texts;
        writeln!(f, "{whole} texts behind them, {cut} cut by the end, {too_long} too long")?;
        writeln!(f, "\nAccepted, and refused by number")?;
        let nothing = Tally::default();
        for (operation, ..) in EXPECTED {
            let tally = self.tallies.get(operation).unwrap_or(&nothing);
            write!(f, "{operation:14} {:>8}  ", tally.accepted())?;
            writeln!(f, "{}", joined(&by_number(tally)))?;
        }
        writeln!(f, "\nBy kind of answer and reason of refusal")?;
        for (operation, ..) in EXPECTED {
            let tally = self.tallies.get(operation).unwrap_or(&nothing);
            writeln!(f, "{operation:14} accepted  {}", joined(&kinds(tally)))?;
            for (check, count) in &tally.refused {
                let alone = tally.alone.get(check).unwrap_or(&0);
                writeln!(f, "{:14} {:30} {count:>8}, alone {alone:>8}", "", check.to_string())?;
            }
        }
        writeln!(f, "\nRefusals on which later checks held too: first < later numbers")?;
        for (operation, ..) in EXPECTED {
            for (first, later) in orders(self.tallies.get(operation).unwrap_or(&nothing)) {
                writeln!(f, "{operation:14} {first:>2} <  {}", joined(&later))?;
            }
        }
        writeln!(f, "\nBoundaries")?;
        for name in boundaries::all() {
            let count = self.boundaries.get(name).unwrap_or(&0);
            writeln!(f, "{name:44} {count:>8}")?;
        }
        writeln!(f, "\nGaps")?;
        writeln!(f, "{}", list_or_none(&self.gaps()))?;
        writeln!(f, "\nLines answered otherwise than the list of checks says")?;
        write!(f, "{}", list_or_none(&self.disagreements))
    }
}

fn by_number(tally: &Tally) -> BTreeMap<u8, u64> {
    let mut counts = BTreeMap::new();
    for (check, count) in &tally.refused {
        *counts.entry(check.number).or_default() += count;
    }
    counts
}

/// For each number that refused, the numbers of later checks that held.
fn orders(tally: &Tally) -> BTreeMap<u8, BTreeMap<u8, u64>> {
    let mut orders: BTreeMap<u8, BTreeMap<u8, u64>> = BTreeMap::new();
    for ((first, later), count) in &tally.order {
        if first.number != later.number {
            *orders.entry(first.number).or_default().entry(later.number).or_default() += count;
        }
    }
    orders
}

fn kinds(tally: &Tally) -> BTreeMap<&str, u64> {
    let named = |kind: &'static str| if kind.is_empty() { "plain" } else { kind };
    tally.accepted.iter().map(|(kind, count)| (named(kind), *count)).collect()
}

fn joined<K: fmt::Display>(counts: &BTreeMap<K, u64>) -> String {
    let parts: Vec<String> = counts.iter().map(|(name, count)| format!("{name}:{count}")).collect();
    parts.join("  ")
}

fn list_or_none(lines: &[String]) -> String {
    if lines.is_empty() { "none".to_string() } else { lines.join("\n") }
}
