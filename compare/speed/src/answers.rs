//! The same answers: random scripts carried out on all sides, every word compared.

use std::collections::{BTreeMap, BTreeSet};

use plain::console::{BUFFER, Lines, Operation, TEXT, is_passed_over, parse};
use plain::{RealmList, Registration};

use crate::sides::{Out, SIDES, Side};
use crate::slots;
use crate::worlds::World;

/// The lines of one script. Every script is opened for several aims in turn.
const LINES: u64 = 50_000;

/// What every answer is written over, to see what it leaves alone.
const BEFORE: Out = [u64::MAX - 9, 11, 12, 13, 14, 15, 16];

/// The functions that have refusals.
const REFUSING: [&str; 42] = [
    "register",
    "register_child",
    "begin",
    "ready",
    "fail",
    "unload",
    "finish",
    "replace",
    "fits",
    "admit",
    "call",
    "retire",
    "retire_child",
    "child",
    "remove",
    "offer",
    "read",
    "own",
    "missing",
    "matches",
    "declares",
    "lookup",
    "list_dependencies",
    "list_provisions",
    "list_realms",
    "write_text",
    "load",
    "plan_order",
    "check_order",
    "parent",
    "anchor",
    "edition",
    "phase",
    "retired",
    "generation",
    "revision",
    "payload",
    "root",
    "resolve",
    "slot_assign",
    "slot_reject",
    "slot_cancel",
];

/// Those that have none.
const ACCEPTING: [&str; 11] = [
    "open",
    "admits",
    "visible",
    "id_from",
    "domain",
    "first",
    "next",
    "count",
    "rows",
    "slot_pending",
    "slot_assigned",
];

/// One function's answer.
#[derive(PartialEq)]
struct Told {
    function: &'static str,
    status: u64,
    out: Out,
}

/// A registry on one side, with buffers beside it.
struct Desk {
    side: &'static Side,
    words: Vec<u64>,
    buffer: [u64; BUFFER],
    /// What is lent for a text, and the last one in it.
    text: Vec<u8>,
    told: Vec<Told>,
}

/// How often each function answered each status.
#[derive(Default)]
pub struct Tally {
    pub operations: u64,
    pub slot_operations: u64,
    statuses: BTreeMap<&'static str, BTreeMap<u64, u64>>,
}

impl Tally {
    pub fn add(&mut self, function: &'static str, status: u64) {
        *self.statuses.entry(function).or_default().entry(status).or_default() += 1;
    }

    /// All answers that were compared.
    pub fn answers(&self) -> u64 {
        self.statuses.values().flat_map(BTreeMap::values).sum()
    }

    /// Says which function was never accepted, or never refused though it can be.
    fn gaps(&self) -> Result<(), String> {
        for function in REFUSING.iter().chain(&ACCEPTING) {
            let statuses: BTreeSet<u64> =
                self.statuses.get(function).into_iter().flat_map(BTreeMap::keys).copied().collect();
            let refused = statuses.iter().any(|&status| status != 0);
            if !statuses.contains(&0) || REFUSING.contains(function) && !refused {
                return Err(format!("{function} answered nothing but {statuses:?}"));
            }
        }
        Ok(())
    }

    /// The refusals that were seen, over all functions.
    pub fn refusals(&self) -> usize {
        let all = self.statuses.iter().flat_map(|(function, statuses)| {
            statuses.keys().filter(|&&status| status != 0).map(move |status| (function, status))
        });
        all.count()
    }
}

/// Carries out so many operations of the scripts, and so many of slots, on all sides.
pub fn compare(operations: u64, slot_operations: u64) -> Result<Tally, String> {
    let mut tally = Tally::default();
    for seed in 1.. {
        if tally.operations >= operations {
            break;
        }
        script(seed, operations, &mut tally)?;
    }
    slots::compare(slot_operations, &mut tally)?;
    tally.gaps()?;
    Ok(tally)
}

fn script(seed: u64, operations: u64, tally: &mut Tally) -> Result<(), String> {
    let mut text = Vec::new();
    plain::script::write(seed, LINES, &mut text).expect("memory can be written to");
    let mut desks = SIDES.map(Desk::new);
    let mut numbers = Vec::new();
    let mut lines = Lines::new(&text[..]);
    while let Some(line) = lines.next_line().expect("memory can be read") {
        let operation = parse(line, &mut numbers).filter(|_| !is_passed_over(line.words));
        let Some(operation) = operation else { continue };
        for desk in &mut desks {
            desk.told.clear();
            desk.carry_out(&operation);
        }
        let [plain, others @ ..] = &desks;
        if plain.told.is_empty() {
            continue;
        }
        let text = matches!(operation, Operation::Write { .. } | Operation::Load { .. });
        for other in others {
            plain.compare(other, text).map_err(|why| {
                let line = String::from_utf8_lossy(line.words);
                format!("seed {seed}, {line}: {why}")
            })?;
        }
        for told in &plain.told {
            tally.add(told.function, told.status);
        }
        tally.operations += 1;
        if tally.operations == operations {
            break;
        }
    }
    Ok(())
}

impl Desk {
    fn new(side: &'static Side) -> Self {
        let mut words = World::new(side).words().to_vec();
        // The registry that is there before the first opening.
        unsafe { (side.open)(words.as_mut_ptr(), 0, 0) };
        Self { side, words, buffer: [0; BUFFER], text: vec![0; TEXT], told: Vec::new() }
    }

    /// Says where another desk's answers to the same operation differ.
    fn compare(&self, other: &Self, text: bool) -> Result<(), String> {
        let name = other.side.name;
        for (a, b) in self.told.iter().zip(&other.told) {
            if a != b {
                let (f, p, q, r, s) = (a.function, a.status, a.out, b.status, b.out);
                return Err(format!("{f} answers {p} {q:?}, and {name} {r} {s:?}"));
            }
        }
        if self.buffer != other.buffer {
            return Err(format!("the buffer of {name} differs"));
        }
        if text && self.text != other.text {
            return Err(format!("the text of {name} differs"));
        }
        Ok(())
    }

    fn ask(
        &mut self,
        function: &'static str,
        asked: impl FnOnce(&Side, *mut u64, &mut [u64; BUFFER], &mut Out) -> u64,
    ) {
        let mut out = BEFORE;
        let status = asked(self.side, self.words.as_mut_ptr(), &mut self.buffer, &mut out);
        self.told.push(Told { function, status, out });
    }

    /// Writes the text, over the same bytes on all sides, to see what it leaves alone.
    fn write(&mut self, length: usize) {
        self.text.fill(b'#');
        let text = self.text.as_mut_ptr();
        self.ask("write_text", |side, m, _, out| unsafe {
            (side.write_text)(m, text, length, out)
        });
    }

    /// A function that answers one number, and never a refusal.
    fn number(&mut self, function: &'static str, asked: unsafe extern "C" fn(*mut u64) -> u64) {
        let number = unsafe { asked(self.words.as_mut_ptr()) };
        self.told.push(Told { function, status: 0, out: [number; 7] });
    }
}

/// Asks by the function's name: `ask!(desk, begin(id))`, with the answer's words last
/// where the function has them.
macro_rules! ask {
    ($desk:ident, $function:ident($($arg:expr),*)) => {
        $desk.ask(stringify!($function), |side, m, _, _| unsafe { (side.$function)(m, $($arg),*) })
    };
    ($desk:ident, $function:ident($($arg:expr),*) -> out) => {
        $desk.ask(stringify!($function), |side, m, _, out| unsafe {
            (side.$function)(m, $($arg,)* out)
        })
    };
    ($desk:ident, $function:ident($id:expr, $place:expr) -> buffer) => {
        $desk.ask(stringify!($function), |side, m, buffer, out| unsafe {
            (side.$function)(m, $id, $place as usize, buffer.as_mut_ptr(), buffer.len(), out)
        })
    };
}

/// A realm list as the sides take it: edition, default, key, realm, key, realm.
fn numbers_of(realms: RealmList<'_>) -> Vec<u64> {
    [&[realms.edition, realms.default], realms.rows].concat()
}

impl Desk {
    fn register(&mut self, new: &Registration<'_>, realms: &[u64]) {
        let (dependencies, provisions) = (new.dependencies, new.provisions);
        match new.parent {
            None => ask!(self, register(
                new.anchor.key, new.anchor.realm, new.payload,
                realms.as_ptr(), realms.len(),
                dependencies.as_ptr(), dependencies.len(),
                provisions.as_ptr(), provisions.len()
            ) -> out),
            Some(parent) => ask!(self, register_child(
                parent, new.anchor.key, new.anchor.realm, new.payload,
                realms.as_ptr(), realms.len(),
                dependencies.as_ptr(), dependencies.len(),
                provisions.as_ptr(), provisions.len()
            ) -> out),
        }
    }

    /// Carries an operation of a script out, with questions that scripts don't have
    /// before it. The console's own words tell nothing; slots are compared by themselves.
    fn carry_out(&mut self, operation: &Operation<'_>) {
        match *operation {
            Operation::Open { domain, first } => {
                self.ask("open", |side, m, _, _| {
                    unsafe { (side.open)(m, domain, first) };
                    0
                });
            }
            Operation::Register(new) => {
                let realms = numbers_of(new.realms);
                // A list that ends before its rows, which no script has, and then the whole.
                self.register(&new, &realms[..new.payload as usize % 2]);
                self.register(&new, &realms);
                for (name, ask) in [
                    ("domain", self.side.domain),
                    ("first", self.side.first),
                    ("count", self.side.count),
                    ("rows", self.side.rows),
                ] {
                    self.number(name, ask);
                }
            }
            Operation::Begin(id) => ask!(self, begin(id) -> out),
            Operation::Ready(id) => ask!(self, ready(id)),
            Operation::Fail(id) => ask!(self, fail(id)),
            Operation::Unload(id) => ask!(self, unload(id)),
            Operation::Finish(id) => ask!(self, finish(id)),
            Operation::Replace { id, payload } => ask!(self, replace(id, payload) -> out),
            Operation::Fits { id, count } => ask!(self, fits(id, count) -> out),
            Operation::Admit { ticket: t, argument } => {
                ask!(self, admits(t.domain, t.id, t.generation, t.kind) -> out);
                ask!(self, admit(t.domain, t.id, t.generation, t.kind, argument) -> out);
            }
            Operation::Call(i) => {
                ask!(self, call(i.domain, i.id, i.generation, i.revision, i.argument) -> out);
            }
            Operation::Retire(id) => ask!(self, retire(id)),
            Operation::RetireChild(child) => {
                ask!(self, retire_child(child.domain, child.parent, child.id));
            }
            Operation::Remove(id) => {
                ask!(self, id_from(id.wrapping_add(1)) -> out);
                ask!(self, remove(id));
                ask!(self, id_from(id) -> out);
            }
            Operation::Child(id) => ask!(self, child(id) -> out),
            Operation::Offer { id, port, value } => {
                ask!(self, offer(id, port.key, port.realm, value));
                ask!(self, own(id, port.key, port.realm) -> out);
            }
            Operation::Read { id, port } => {
                ask!(self, own(id, port.key, port.realm) -> out);
                ask!(self, read(id, port.key, port.realm) -> out);
            }
            Operation::Visible(port) => ask!(self, visible(port.key, port.realm) -> out),
            Operation::Missing(id) => ask!(self, missing(id) -> out),
            Operation::Matches { id, list } => {
                ask!(self, matches(id, list.as_ptr(), list.len()) -> out);
            }
            Operation::Declares { id, port } => {
                ask!(self, declares(id, port.key, port.realm) -> out);
            }
            Operation::Lookup { id, key } => ask!(self, lookup(id, key) -> out),
            Operation::Resolve { key, realms } => {
                let realms = numbers_of(realms);
                for realms in [&[][..], &realms[..1], &realms] {
                    self.ask("resolve", |side, _, _, out| unsafe {
                        (side.resolve)(realms.as_ptr(), realms.len(), key, out)
                    });
                }
            }
            Operation::Edition(id) => ask!(self, edition(id) -> out),
            Operation::Plan { size, set } => {
                // What stands there of earlier lists shows what is left alone.
                let size = size.min(BUFFER as u64) as usize;
                self.ask("plan_order", |side, m, buffer, out| unsafe {
                    (side.plan_order)(m, set.as_ptr(), set.len(), buffer.as_mut_ptr(), size, out)
                });
            }
            Operation::Check { set, order } => {
                ask!(self, check_order(
                    set.as_ptr(), set.len(), order.as_ptr(), order.len()
                ) -> out);
            }
            Operation::Deps { id, place } => ask!(self, list_dependencies(id, place) -> buffer),
            Operation::Provs { id, place } => ask!(self, list_provisions(id, place) -> buffer),
            Operation::Realms { id, place } => ask!(self, list_realms(id, place) -> buffer),
            Operation::Write { size } => {
                self.write(size.min(TEXT as u64) as usize);
            }
            Operation::Load { domain, text } => {
                ask!(self, load(domain, text.as_ptr(), text.len()));
                // What is held now, also after a refusal.
                self.write(TEXT);
                for (name, ask) in [("count", self.side.count), ("rows", self.side.rows)] {
                    self.number(name, ask);
                }
            }
            Operation::Rows => self.number("rows", self.side.rows),
            Operation::Count => self.number("count", self.side.count),
            Operation::Next => self.number("next", self.side.next),
            Operation::Show(id) => {
                ask!(self, parent(id) -> out);
                ask!(self, anchor(id) -> out);
                ask!(self, phase(id) -> out);
                ask!(self, retired(id) -> out);
                ask!(self, generation(id) -> out);
                ask!(self, revision(id) -> out);
                ask!(self, payload(id) -> out);
                ask!(self, root(id) -> out);
            }
            Operation::Buffer { .. }
            | Operation::SlotPending { .. }
            | Operation::SlotAssigned(_)
            | Operation::SlotAssign(_)
            | Operation::SlotReject
            | Operation::SlotCancel => {}
        }
    }
}
