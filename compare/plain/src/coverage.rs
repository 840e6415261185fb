//! What a script reaches: how often each operation was accepted, and how often
//! it was refused for which reason.
//!
//! The reasons come from a second writing of the rules, as plain lists of checks
//! in `checks`. The first check that holds must be the one the console answers,
//! so counting a script is also a test of both writings.

mod boundaries;
mod checks;
mod conditions;
mod expected;
mod forms;
mod orders;
mod report;
mod told;

use std::collections::BTreeMap;

use crate::console::{Console, Line, Operation, TEXT, is_passed_over, parse, text_length};
use crate::plugin::Plugin;
use crate::ports::Edition;
use crate::registry::Registry;

use boundaries::Loads;
use checks::LATER_ID;
use told::Told;

pub use checks::{Check, holding, refusals};
pub use expected::{EXPECTED, Expected, ID_ORDERS, ORDERS};

/// What became of one operation's lines.
#[derive(Default)]
pub struct Tally {
    /// Accepted lines by the kind of answer.
    pub accepted: BTreeMap<&'static str, u64>,
    /// Refused lines by the check that refused.
    pub refused: BTreeMap<Check, u64>,
    /// Those on which no other check held.
    pub alone: BTreeMap<Check, u64>,
    /// Refused lines on which a later check held as well.
    pub order: BTreeMap<(Check, Check), u64>,
}

impl Tally {
    pub fn accepted(&self) -> u64 {
        self.accepted.values().sum()
    }

    pub fn refused_by(&self, number: u8) -> u64 {
        self.refused.iter().filter(|(check, _)| check.number == number).map(|(_, n)| n).sum()
    }
}

/// What became of the texts behind lines.
#[derive(Default)]
pub struct Texts {
    /// As long as their lines say.
    pub whole: u64,
    /// Ended by the input's end.
    pub cut: u64,
    /// Passed over, as they are too long.
    pub too_long: u64,
}

/// Counts a script line by line.
pub struct Coverage {
    console: Console,
    numbers: Vec<u64>,
    answer: Vec<u8>,
    tallies: BTreeMap<&'static str, Tally>,
    boundaries: BTreeMap<&'static str, u64>,
    loads: Loads,
    lines: u64,
    bad: u64,
    passed_over: u64,
    texts: Texts,
    disagreements: Vec<String>,
}

impl Default for Coverage {
    fn default() -> Self {
        Self::new()
    }
}

impl Coverage {
    pub fn new() -> Self {
        Self {
            console: Console::new(),
            numbers: Vec::new(),
            answer: Vec::new(),
            tallies: BTreeMap::new(),
            boundaries: BTreeMap::new(),
            loads: Loads::opened(0),
            lines: 0,
            bad: 0,
            passed_over: 0,
            texts: Texts::default(),
            disagreements: Vec::new(),
        }
    }

    /// Goes on with a fresh console, as every script starts with one.
    pub fn start_script(&mut self) {
        self.console = Console::new();
        self.loads = Loads::opened(0);
    }

    /// Counts one line.
    pub fn line(&mut self, line: Line<'_>) {
        self.lines += 1;
        if is_passed_over(line.words) {
            self.passed_over += 1;
            return;
        }
        match text_length(line.words) {
            0 => {}
            length if length > TEXT as u64 => self.texts.too_long += 1,
            length if length > line.text.len() as u64 => self.texts.cut += 1,
            _ => self.texts.whole += 1,
        }
        let mut numbers = std::mem::take(&mut self.numbers);
        match parse(line, &mut numbers) {
            None => self.bad += 1,
            Some(operation) => self.operation(&operation, line),
        }
        self.numbers = numbers;
    }

    pub fn tally(&self, operation: &str) -> Option<&Tally> {
        self.tallies.get(operation)
    }

    pub fn texts(&self) -> &Texts {
        &self.texts
    }

    /// Lines on which the console and the list of checks differ; should be none.
    pub fn disagreements(&self) -> &[String] {
        &self.disagreements
    }

    /// Everything that could be reached and was not.
    pub fn gaps(&self) -> Vec<String> {
        let nothing = Tally::default();
        let mut gaps = Vec::new();
        for (operation, kinds, checks) in EXPECTED {
            let tally = self.tallies.get(operation).unwrap_or(&nothing);
            let kinds = kinds.iter().filter(|kind| !tally.accepted.contains_key(*kind));
            gaps.extend(kinds.map(|kind| format!("{operation} accepted {kind}")));
            // The conditions of a text answer one number, so only one that is broken
            // alone is seen to be asked.
            let refused = if operation == &"load" { &tally.alone } else { &tally.refused };
            let checks = checks.iter().filter(|check| !refused.contains_key(check));
            gaps.extend(checks.map(|check| format!("{operation} refused {check}")));
        }
        let orders = ORDERS.iter().map(|order| (order, false));
        let orders = orders.chain(ID_ORDERS.iter().map(|order| (order, true)));
        for ((operation, first, later), of_later_id) in orders {
            let tally = self.tallies.get(operation).unwrap_or(&nothing);
            let seen = |(a, b): &(Check, Check)| {
                let numbers = (a.number, b.number) == (*first, *later);
                numbers && of_later_id == (b.reason == LATER_ID)
            };
            if !tally.order.keys().any(seen) {
                let of = if of_later_id { " of a later id" } else { "" };
                gaps.push(format!("{operation} refused {first} before {later}{of}"));
            }
        }
        let boundaries = boundaries::all().filter(|name| !self.boundaries.contains_key(name));
        gaps.extend(boundaries.map(str::to_string));
        gaps
    }

    fn operation(&mut self, asked: &Operation<'_>, line: Line<'_>) {
        let holding = holding(&self.console, asked);
        let kind = accepted_kind(self.console.registry(), asked);
        let before = Told::of(self.console.registry(), asked);
        self.answer.clear();
        self.console.answer(line, &mut self.answer);
        let answer = first_line(&self.answer);

        let tally = self.tallies.entry(name(asked)).or_default();
        match holding.split_first() {
            None => {
                let kind = kind.unwrap_or_else(|| answered_kind(answer));
                *tally.accepted.entry(kind).or_default() += 1;
                let registry = self.console.registry();
                for name in boundaries::reached(registry, asked, &mut self.loads) {
                    *self.boundaries.entry(name).or_default() += 1;
                }
            }
            Some((&first, later)) => {
                *tally.refused.entry(first).or_default() += 1;
                if later.is_empty() {
                    *tally.alone.entry(first).or_default() += 1;
                }
                for &check in later {
                    *tally.order.entry((first, check)).or_default() += 1;
                }
            }
        }
        let wanted = holding.first().map(|check| check.number);
        let same = before.is_none_or(|told| {
            told.is_kept(asked, wanted.is_none(), &self.answer, self.console.registry())
        });
        if wanted != refused_number(answer) || !same {
            self.disagreements.push(format!(
                "line {}: {} answered {}",
                self.lines,
                String::from_utf8_lossy(line.words),
                String::from_utf8_lossy(answer),
            ));
        }
    }
}

/// A kind that has to be told before the operation is carried out.
fn accepted_kind(registry: &Registry, asked: &Operation<'_>) -> Option<&'static str> {
    match *asked {
        Operation::Register(new) => Some(match (new.parent, new.realms.edition) {
            (Some(_), 1) => "child, edition 1",
            (Some(_), _) => "child, edition 2",
            (None, 1) => "no parent, edition 1",
            (None, _) => "no parent, edition 2",
        }),
        Operation::Resolve { key, realms } => {
            let row = realms.rows.chunks(2).any(|row| row[0] == key);
            Some(match (realms.edition, row) {
                (1, true) => "edition 1, a row",
                (1, false) => "edition 1, no row",
                (_, true) => "edition 2, a row",
                (_, false) => "edition 2, no row",
            })
        }
        Operation::Edition(id) => Some(match registry.plugin(id).map(Plugin::edition) {
            Ok(Edition::Second { .. }) => "edition 2",
            _ => "edition 1",
        }),
        Operation::Plan { set: [], .. } => Some("empty set"),
        Operation::RetireChild(child) => Some(match registry.plugin(child.id) {
            Ok(_) => "registered",
            Err(_) => "removed before",
        }),
        _ => None,
    }
}

/// The kind of an accepting answer, from its first word after `ok`.
fn answered_kind(answer: &[u8]) -> &'static str {
    match answer {
        b"ok none" => "none",
        b"ok yes" => "yes",
        b"ok no" => "no",
        _ => "",
    }
}

/// An answer without its byte 10, and without the text that may follow.
fn first_line(answer: &[u8]) -> &[u8] {
    answer.split(|&byte| byte == b'\n').next().unwrap_or_default()
}

fn refused_number(answer: &[u8]) -> Option<u8> {
    let number = answer.strip_prefix(b"no ")?.split(|&byte| byte == b' ').next()?;
    str::from_utf8(number).ok()?.parse().ok()
}

/// An operation's name; the slot's operations have two words.
pub fn name(operation: &Operation<'_>) -> &'static str {
    match operation {
        Operation::Open { .. } => "open",
        Operation::Register(_) => "register",
        Operation::Begin(_) => "begin",
        Operation::Ready(_) => "ready",
        Operation::Fail(_) => "fail",
        Operation::Unload(_) => "unload",
        Operation::Finish(_) => "finish",
        Operation::Replace { .. } => "replace",
        Operation::Fits { .. } => "fits",
        Operation::Admit { .. } => "admit",
        Operation::Call(_) => "call",
        Operation::Retire(_) => "retire",
        Operation::RetireChild(_) => "retire_child",
        Operation::Remove(_) => "remove",
        Operation::Child(_) => "child",
        Operation::Offer { .. } => "offer",
        Operation::Read { .. } => "read",
        Operation::Visible(_) => "visible",
        Operation::Missing(_) => "missing",
        Operation::Matches { .. } => "matches",
        Operation::Declares { .. } => "declares",
        Operation::Lookup { .. } => "lookup",
        Operation::Resolve { .. } => "resolve",
        Operation::Edition(_) => "edition",
        Operation::Plan { .. } => "plan",
        Operation::Check { .. } => "check",
        Operation::Deps { .. } => "deps",
        Operation::Provs { .. } => "provs",
        Operation::Realms { .. } => "realms",
        Operation::Buffer { .. } => "buffer",
        Operation::Rows => "rows",
        Operation::Count => "count",
        Operation::Next => "next",
        Operation::Show(_) => "show",
        Operation::Write { .. } => "write",
        Operation::Load { .. } => "load",
        Operation::SlotPending { .. } => "slot pending",
        Operation::SlotAssigned(_) => "slot assigned",
        Operation::SlotAssign(_) => "slot assign",
        Operation::SlotReject => "slot reject",
        Operation::SlotCancel => "slot cancel",
    }
}
