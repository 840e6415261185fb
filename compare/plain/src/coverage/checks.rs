//! The checks of every operation, each for itself and in the document's order.
//!
//! Slow on purpose: nothing here is shared with the registry's operations, and a
//! check is evaluated even if an earlier one holds, as far as it has a meaning.

use std::fmt;

use crate::admission::{Root, SETUP};
use crate::console::{BUFFER, Console, Operation};
use crate::phases::Phase;
use crate::plugin::Plugin;
use crate::ports::{Port, RealmList};
use crate::registration::Registration;
use crate::registry::Registry;
use crate::sheet::Sheet;
use crate::slot::Decision;

use super::conditions::{CONDITIONS, DOMAIN};
use super::{forms, orders};

/// A refusal number and, where it has several, the reason.
#[derive(Clone, Copy, Debug, PartialEq, Eq, PartialOrd, Ord)]
pub struct Check {
    pub number: u8,
    pub reason: &'static str,
}

impl fmt::Display for Check {
    fn fmt(&self, f: &mut fmt::Formatter<'_>) -> fmt::Result {
        match self.reason {
            "" => write!(f, "{}", self.number),
            reason => write!(f, "{} ({reason})", self.number),
        }
    }
}

/// The reason of a check that an id after the refused one breaks.
pub(super) const LATER_ID: &str = "a later id";

pub(super) const fn check(number: u8, reason: &'static str) -> Check {
    Check { number, reason }
}

/// The checks that hold, in the document's order.
#[derive(Default)]
struct Found(Vec<Check>);

impl Found {
    fn when(&mut self, holds: bool, number: u8, reason: &'static str) {
        if holds {
            self.0.push(check(number, reason));
        }
    }

    /// The plugin with this id; if there is none, refusal 1 holds.
    fn plugin<'r>(&mut self, registry: &'r Registry, id: u64) -> Option<&'r Plugin> {
        let plugin = registry.registered().find(|(other, _)| *other == id);
        self.when(plugin.is_none(), 1, "");
        plugin.map(|(_, plugin)| plugin)
    }
}

/// All checks that would refuse this operation now, in order.
pub fn holding(console: &Console, asked: &Operation<'_>) -> Vec<Check> {
    let mut found = Found::default();
    // None only says that a check held after which the rest has no meaning.
    let _ = look(console, asked, &mut found);
    found.0
}

fn look(console: &Console, asked: &Operation<'_>, found: &mut Found) -> Option<()> {
    let registry = console.registry();
    match *asked {
        Operation::Register(ref new) => register(registry, new, found)?,
        Operation::Begin(id) => {
            let plugin = found.plugin(registry, id)?;
            found.when(plugin.retired(), 2, "");
            found.when(plugin.phase() != Phase::Idle, 3, "");
            found.when(plugin.generation() == u64::MAX, 16, "");
            let lacking = |port: &Port| {
                !registry.registered().any(|(_, p)| p.phase() == Phase::Active && has(p, *port))
            };
            found.when(plugin.dependencies().iter().any(lacking), 14, "");
        }
        Operation::Ready(id) => {
            let plugin = found.plugin(registry, id)?;
            found.when(plugin.retired(), 2, "");
            found.when(plugin.phase() != Phase::Loading, 3, "");
            found.when(plugin.root() == Root::Unissued, 17, "unissued");
            found.when(matches!(plugin.root(), Root::Queued { .. }), 17, "queued");
            let mut provisions = plugin.provisions().iter();
            found.when(provisions.any(|port| plugin.value(*port).is_none()), 22, "");
        }
        Operation::Fail(id) => {
            let plugin = found.plugin(registry, id)?;
            found.when(plugin.phase() != Phase::Loading, 3, "");
        }
        Operation::Unload(id) => {
            let plugin = found.plugin(registry, id)?;
            found.when(plugin.phase() != Phase::Active, 3, "");
            let wanted = |port: &Port| {
                registry.registered().any(|(_, p)| {
                    matches!(p.phase(), Phase::Loading | Phase::Active)
                        && p.dependencies().contains(port)
                })
            };
            found.when(plugin.provisions().iter().any(wanted), 15, "provision");
            found.when(wanted(&plugin.anchor()), 15, "anchor");
        }
        Operation::Finish(id) => {
            let plugin = found.plugin(registry, id)?;
            found.when(plugin.phase() != Phase::Unloading, 3, "");
        }
        Operation::Replace { id, .. } => {
            let plugin = found.plugin(registry, id)?;
            found.when(plugin.record().revision == u64::MAX, 16, "");
        }
        Operation::Fits { id, .. }
        | Operation::Child(id)
        | Operation::Missing(id)
        | Operation::Matches { id, .. }
        | Operation::Declares { id, .. }
        | Operation::Lookup { id, .. }
        | Operation::Edition(id)
        | Operation::Show(id) => {
            found.plugin(registry, id)?;
        }
        Operation::Admit { ticket, .. } => {
            found.when(ticket.domain != registry.domain(), 3, "domain");
            found.when(ticket.kind != SETUP, 3, "kind");
            let plugin = found.plugin(registry, ticket.id)?;
            found.when(plugin.retired(), 2, "");
            found.when(plugin.phase() != Phase::Loading, 13, "phase");
            found.when(plugin.generation() != ticket.generation, 13, "generation");
            found.when(matches!(plugin.root(), Root::Queued { .. }), 3, "queued");
            found.when(plugin.root() == Root::Spent, 3, "spent");
        }
        Operation::Call(asked) => {
            found.when(asked.domain != registry.domain(), 3, "domain");
            let plugin = found.plugin(registry, asked.id)?;
            found.when(plugin.retired(), 2, "");
            found.when(plugin.phase() != Phase::Loading, 13, "phase");
            found.when(plugin.root() == Root::Unissued, 13, "unissued");
            found.when(plugin.root() == Root::Spent, 13, "spent");
            found.when(plugin.generation() != asked.generation, 13, "generation");
            found.when(plugin.record().revision != asked.revision, 13, "current revision");
            if let Root::Queued { revision, argument } = plugin.root() {
                found.when(revision != asked.revision, 13, "queued revision");
                found.when(argument != asked.argument, 13, "argument");
            }
        }
        Operation::Retire(id) => {
            let plugin = found.plugin(registry, id)?;
            found.when(plugin.retired(), 2, "");
        }
        Operation::RetireChild(child) => {
            found.when(child.domain != registry.domain(), 3, "domain");
            found.when(child.id < registry.first(), 1, "below first");
            found.when(child.id >= registry.next(), 1, "not below next");
            let (_, plugin) = registry.registered().find(|(id, _)| *id == child.id)?;
            match plugin.parent() {
                None => found.when(true, 3, "no parent"),
                Some(parent) => found.when(parent != child.parent, 3, "other parent"),
            }
            found.when(plugin.retired(), 2, "");
        }
        Operation::Remove(id) => {
            let plugin = found.plugin(registry, id)?;
            found.when(plugin.phase() != Phase::Idle, 3, "phase");
            found.when(!plugin.retired(), 3, "not retired");
            let children = registry.registered().any(|(_, p)| p.parent() == Some(id));
            found.when(children, 18, "");
        }
        Operation::Offer { id, port, .. } => {
            let plugin = found.plugin(registry, id)?;
            found.when(plugin.phase() != Phase::Loading, 19, "phase");
            found.when(plugin.retired(), 19, "retired");
            let declared = plugin.provisions().contains(&port);
            found.when(!declared && plugin.anchor() == port, 20, "anchor");
            found.when(!declared && plugin.anchor() != port, 20, "other");
            found.when(plugin.value(port).is_some(), 21, "");
        }
        Operation::Read { id, port } => {
            let plugin = found.plugin(registry, id)?;
            let up = matches!(plugin.phase(), Phase::Loading | Phase::Active);
            found.when(!up, 19, "");
            let declared = plugin.dependencies().contains(&port);
            let own = plugin.provisions().contains(&port);
            found.when(!declared && own, 20, "own provision");
            found.when(!declared && !own, 20, "other");
            let value = registry.registered().find_map(|(_, p)| p.value(port));
            found.when(value.is_none(), 22, "");
        }
        Operation::Resolve { realms: list, .. } => realms(list, found),
        Operation::Plan { size, set } => {
            set_of_ids(registry, set, found);
            let sound = found.0.is_empty();
            let none = sound && orders::plan(&Sheet::of(registry), set).is_none();
            let reason = if none { "no order" } else { "" };
            found.when(size < set.len() as u64, 23, reason);
        }
        Operation::Check { set, .. } => set_of_ids(registry, set, found),
        Operation::Deps { id, place } => {
            room(found.plugin(registry, id)?.dependencies(), place, found);
        }
        Operation::Provs { id, place } => {
            room(found.plugin(registry, id)?.provisions(), place, found);
        }
        Operation::Realms { id, place } => {
            room(found.plugin(registry, id)?.realms(), place, found);
        }
        Operation::Write { size } => {
            let length = Sheet::of(registry).text().len() as u64;
            found.when(size < length, 23, "");
        }
        Operation::Load { domain, text } => found.0 = refusals(domain, text),
        Operation::SlotAssign(child) => {
            let slot = console.slot();
            found.when(slot.decision != Decision::Pending, 3, "decided");
            found.when(slot.domain != child.domain, 3, "other domain");
            found.when(slot.parent != child.parent, 3, "other parent");
        }
        Operation::SlotReject | Operation::SlotCancel => {
            found.when(console.slot().decision != Decision::Pending, 3, "decided");
        }
        Operation::Open { .. }
        | Operation::Visible(_)
        | Operation::Buffer { .. }
        | Operation::Rows
        | Operation::Count
        | Operation::Next
        | Operation::SlotPending { .. }
        | Operation::SlotAssigned(_) => {}
    }
    Some(())
}

fn has(plugin: &Plugin, port: Port) -> bool {
    plugin.provisions().contains(&port) || plugin.anchor() == port
}

fn realms(list: RealmList<'_>, found: &mut Found) {
    found.when(list.edition == 0, 26, "0");
    found.when(list.edition == 3, 26, "3");
    found.when(list.edition > 3, 26, "above 3");
    found.when(list.rows.len() % 2 == 1, 4, "odd");
    found.when(list.rows.len().div_ceil(2) > 16, 4, "rows");
    let keys: Vec<u64> = list.rows.iter().copied().step_by(2).collect();
    found.when(keys.windows(2).any(|pair| pair[0] == pair[1]), 4, "equal keys");
    found.when(keys.windows(2).any(|pair| pair[0] > pair[1]), 4, "falling keys");
}

/// The checks of a set, one id after the other. From the second id that is refused on,
/// their reason says that they come too late.
fn set_of_ids(registry: &Registry, set: &[u64], found: &mut Found) {
    for (n, id) in set.iter().enumerate() {
        let before = found.0.len();
        found.when(set[..n].contains(id), 27, "");
        if let Some(plugin) = found.plugin(registry, *id) {
            found.when(plugin.retired(), 2, "");
            found.when(plugin.phase() == Phase::Loading, 3, "Loading");
            found.when(plugin.phase() == Phase::Active, 3, "Active");
            found.when(plugin.phase() == Phase::Unloading, 3, "Unloading");
            found.when(plugin.generation() == u64::MAX, 16, "");
        }
        if before > 0 {
            found.0[before..].iter_mut().for_each(|check| check.reason = LATER_ID);
        }
    }
}

fn room(ports: &[Port], place: u64, found: &mut Found) {
    let end = BUFFER as u64;
    found.when(place > end, 23, "past the end");
    found.when(place <= end && end - place < 2 * ports.len() as u64, 23, "too little room");
}

/// All checks that would refuse to load this text into this domain, in order.
pub fn refusals(domain: u64, text: &[u8]) -> Vec<Check> {
    let Some(sheet) = Sheet::read(text) else {
        return vec![forms::why(text)];
    };
    let broken = CONDITIONS.iter().filter(|(_, broken)| broken(&sheet)).map(|(check, _)| *check);
    let same = (sheet.domain == domain).then_some(DOMAIN);
    broken.chain(same).collect()
}

fn register(registry: &Registry, new: &Registration<'_>, found: &mut Found) -> Option<()> {
    realms(new.realms, found);
    let bad_realms = !found.0.is_empty();
    found.when(new.dependencies.len() > 16, 5, "dependencies");
    found.when(new.provisions.len() > 15, 5, "provisions");
    let parent = match new.parent {
        None => None,
        Some(id) => {
            let parent = found.plugin(registry, id);
            found.when(parent.is_some_and(|p| p.retired()), 2, "");
            found.when(parent.is_some_and(|p| p.phase() == Phase::Unloading), 3, "");
            parent
        }
    };
    if bad_realms {
        // No key can be resolved, but these two do not need it.
        found.when(registry.next() == u64::MAX, 9, "");
        found.when(registry.count() == 32, 10, "");
        return None;
    }

    let declared = resolved(new.realms, new.dependencies);
    let provisions = resolved(new.realms, new.provisions);
    found.when(repeats(&declared), 6, "");
    found.when(repeats(&provisions), 7, "keys");
    found.when(provisions.contains(&new.anchor), 7, "anchor");
    let by_provision =
        |port: &Port| registry.registered().any(|(_, p)| p.provisions().contains(port));
    let by_anchor = |port: &Port| registry.registered().any(|(_, p)| p.anchor() == *port);
    found.when(provisions.iter().any(by_provision), 8, "provision by provision");
    found.when(provisions.iter().any(by_anchor), 8, "provision by anchor");
    found.when(by_provision(&new.anchor), 8, "anchor by provision");
    found.when(by_anchor(&new.anchor), 8, "anchor by anchor");
    found.when(registry.next() == u64::MAX, 9, "");
    found.when(registry.count() == 32, 10, "");

    let list = finished(new, parent.map_or(&[], |p| p.dependencies()));
    found.when(list.len() > 48, 11, "");
    let in_use: usize =
        registry.registered().map(|(_, p)| p.dependencies().len() + p.provisions().len() + 1).sum();
    found.when(in_use + list.len() + provisions.len() + 1 > 1024, 12, "");
    Some(())
}

/// The port that a key resolves to in a list that keeps 26 and 4.
pub(super) fn resolved_key(list: RealmList<'_>, key: u64) -> Port {
    let default = if list.edition == 2 { list.default } else { 0 };
    let row = list.rows.chunks(2).find(|row| row[0] == key);
    Port { key, realm: row.map_or(default, |row| row[1]) }
}

pub(super) fn resolved(list: RealmList<'_>, keys: &[u64]) -> Vec<Port> {
    keys.iter().map(|&key| resolved_key(list, key)).collect()
}

/// The dependency list of a registration that keeps 26 and 4, with its parent's list.
pub(super) fn finished(new: &Registration<'_>, inherited: &[Port]) -> Vec<Port> {
    let provisions = resolved(new.realms, new.provisions);
    let mut list = resolved(new.realms, new.dependencies);
    for &port in inherited {
        for port in [port, resolved_key(new.realms, port.key)] {
            let own = provisions.contains(&port) || port == new.anchor;
            if !own && !list.contains(&port) {
                list.push(port);
            }
        }
    }
    list
}

fn repeats(ports: &[Port]) -> bool {
    (1..ports.len()).any(|n| ports[..n].contains(&ports[n]))
}
