//! Realm rows, dependencies and provisions.

use super::records::{any_edition, append, fresh};
use super::some;
use crate::phases::Phase;
use crate::ports::{Edition, Port};
use crate::rng::Rng;
use crate::sheet::{Leaf, Rule, Sheet};

impl Leaf {
    /// Lets a key resolve to this port by one more row, even beside one of that key.
    pub(super) fn aim(&mut self, port: Port) {
        if self.resolve(port.key) != port {
            let place = self.realms.partition_point(|row| row.key < port.key);
            self.realms.insert(place, port);
        }
    }

    /// One more provision, with a value where it must have one.
    pub(super) fn provide(&mut self, port: Port, rng: &mut Rng) {
        self.aim(port);
        let value = (self.phase == Phase::Active).then(|| rng.number());
        self.provisions.push((port, value));
    }

    /// One that nobody has.
    pub(super) fn provide_more(&mut self, rng: &mut Rng) {
        let port = self.resolve(fresh(rng).key);
        self.provide(port, rng);
    }
}

/// Any place of a list that has one.
fn place<T>(list: &[T], rng: &mut Rng) -> Option<usize> {
    (!list.is_empty()).then(|| rng.below(list.len() as u64) as usize)
}

/// Two places, mostly beside each other.
fn places<T>(list: &[T], rng: &mut Rng) -> Option<(usize, usize)> {
    let first = place(list, rng)?;
    let second = if rng.one_in(3) { place(list, rng)? } else { first + 1 };
    (first != second && second < list.len()).then_some((first, second))
}

/// A port near this one.
fn near(port: Port, rng: &mut Rng) -> Port {
    match rng.below(3) {
        0 => Port::new(rng.nudge(port.key), port.realm),
        _ => Port::new(port.key, rng.nudge(port.realm)),
    }
}

pub(super) fn realm_rows(sheet: &mut Sheet, rng: &mut Rng) -> Option<()> {
    let n = some(sheet, rng, |_| true)?;
    let count = rng.one_of([16, 17]);
    while sheet.plugins[n].realms.len() < count {
        let Port { key, realm } = fresh(rng);
        // The default realm would need no row.
        sheet.plugins[n].aim(Port::new(key, realm + 1));
    }
    Some(())
}

pub(super) fn realm_row(sheet: &mut Sheet, rng: &mut Rng) -> Option<()> {
    let n = some(sheet, rng, |p| !p.realms.is_empty())?;
    let realms = &mut sheet.plugins[n].realms;
    let place = place(realms, rng)?;
    match rng.below(3) {
        0 => {
            realms.remove(place);
        }
        _ => realms[place] = near(realms[place], rng),
    }
    Some(())
}

/// Two rows swapped, or one twice.
pub(super) fn two_realm_rows(sheet: &mut Sheet, rng: &mut Rng) -> Option<()> {
    let n = some(sheet, rng, |p| !p.realms.is_empty())?;
    let realms = &mut sheet.plugins[n].realms;
    if rng.one_in(2) {
        let (first, second) = places(realms, rng)?;
        realms.swap(first, second);
    } else {
        let place = place(realms, rng)?;
        let realm = rng.nudge(realms[place].realm);
        realms.insert(place, Port { realm, ..realms[place] });
    }
    Some(())
}

pub(super) fn provisions(sheet: &mut Sheet, rng: &mut Rng) -> Option<()> {
    let n = some(sheet, rng, |_| true)?;
    let count = rng.one_of([15, 16]);
    while sheet.plugins[n].provisions.len() < count {
        sheet.plugins[n].provide_more(rng);
    }
    Some(())
}

/// One changed, twice, gone or elsewhere.
pub(super) fn provision(sheet: &mut Sheet, rng: &mut Rng) -> Option<()> {
    let n = some(sheet, rng, |p| !p.provisions.is_empty())?;
    let provisions = &mut sheet.plugins[n].provisions;
    let place = place(provisions, rng)?;
    match rng.below(5) {
        0 => {
            provisions.remove(place);
        }
        1 => provisions.push(provisions[place]),
        2 => {
            let last = provisions.len() - 1;
            provisions.swap(place, last);
        }
        _ => provisions[place].0 = near(provisions[place].0, rng),
    }
    Some(())
}

/// A new plugin with so many dependencies, all declared.
pub(super) fn declared(sheet: &mut Sheet, rng: &mut Rng) -> Option<()> {
    let count = rng.one_of([16, 17]);
    let plugin = append(sheet, rng)?;
    while plugin.dependencies.len() < count {
        let port = fresh(rng);
        if plugin.realms.len() < 16 {
            plugin.aim(port);
        }
        plugin.dependencies.push(plugin.resolve(port.key));
    }
    Some(())
}

/// New plugins, each the next one's parent: 16 keys in three realms, by rows or by
/// default, and one more.
pub(super) fn dependencies(sheet: &mut Sheet, rng: &mut Rng) -> Option<()> {
    let start = rng.one_of([1, 1, 50, u64::MAX - 15]);
    let keys: Vec<u64> = (0..16).map(|n| start + n).collect();
    let mut inherited: Vec<Port> = Vec::new();
    let mut parent = None;
    for (n, realm) in [0, 1, 2, 0].into_iter().enumerate() {
        let more = n == 3 && rng.one_in(2);
        let by_default = rng.one_in(2);
        let plugin = append(sheet, rng)?;
        plugin.parent = parent;
        if by_default {
            plugin.edition = Edition::Second { default: realm };
        } else {
            plugin.edition = Edition::First;
            let rows = if realm == 0 { &[] } else { &keys[..] };
            plugin.realms = rows.iter().map(|&key| Port::new(key, realm)).collect();
        }
        let declared: Vec<Port> = match n {
            0 => keys.iter().map(|&key| plugin.resolve(key)).collect(),
            3 if more => vec![plugin.resolve(fresh(rng).key)],
            _ => Vec::new(),
        };
        plugin.dependencies = plugin.finished(&declared, &inherited, plugin.rule());
        inherited.clone_from(&plugin.dependencies);
        parent = Some(plugin.id);
    }
    Some(())
}

/// One changed, twice, gone or new.
pub(super) fn dependency(sheet: &mut Sheet, rng: &mut Rng) -> Option<()> {
    let n = some(sheet, rng, |p| !p.dependencies.is_empty())?;
    let plugin = &mut sheet.plugins[n];
    let new = plugin.resolve(fresh(rng).key);
    let list = &mut plugin.dependencies;
    let place = place(list, rng)?;
    match rng.below(6) {
        0 => {
            list.remove(place);
        }
        1 => list.push(list[place]),
        2 => list.insert(place, list[place]),
        3 => list.insert(rng.one_of([0, 0, place]), new),
        _ => list[place] = near(list[place], rng),
    }
    Some(())
}

pub(super) fn two_dependencies(sheet: &mut Sheet, rng: &mut Rng) -> Option<()> {
    let n = some(sheet, rng, |p| p.dependencies.len() > 1)?;
    let list = &mut sheet.plugins[n].dependencies;
    let (first, second) = places(list, rng)?;
    list.swap(first, second);
    Some(())
}

/// One more dependency, mostly declared: another's port, one of its own, or nobody's.
pub(super) fn dependency_on_another(sheet: &mut Sheet, rng: &mut Rng) -> Option<()> {
    let up = rng.one_in(2);
    let n = some(sheet, rng, |p| p.is_up() || !up)?;
    let other = some(sheet, rng, |p| p.phase == Phase::Active || !up)?;
    let provider = &sheet.plugins[other];
    let provision = rng.pick(&provider.provisions).filter(|_| !rng.one_in(4));
    let port = provision.map_or(provider.anchor, |(port, _)| port);
    let port = if rng.one_in(4) { fresh(rng) } else { port };
    let plugin = &mut sheet.plugins[n];
    if plugin.dependencies.contains(&port) {
        return None;
    }
    if !rng.one_in(6) {
        plugin.aim(port);
    }
    plugin.dependencies.insert(0, port);
    Some(())
}

/// A child whose anchor its parent depends on: with that in its list, or without.
pub(super) fn anchor_inherited(sheet: &mut Sheet, rng: &mut Rng) -> Option<()> {
    let skipped = rng.one_in(2);
    let lists = |p: &Leaf| p.parent.is_some() && !p.dependencies.is_empty();
    if let Some(n) = some(sheet, rng, lists).filter(|_| rng.one_in(2)) {
        let plugin = &mut sheet.plugins[n];
        plugin.anchor = rng.pick(&plugin.dependencies)?;
        let anchor = plugin.anchor;
        plugin.dependencies.retain(|&port| port != anchor || !skipped);
        return Some(());
    }
    let Port { key, realm } = fresh(rng);
    let anchor = Port::new(key, realm + 1);
    let parent = append(sheet, rng)?;
    parent.aim(anchor);
    parent.dependencies.push(anchor);
    let (parent, inherited) = (parent.id, parent.dependencies.clone());
    let child = append(sheet, rng)?;
    child.parent = Some(parent);
    child.anchor = anchor;
    let rule = Rule { skips_anchor: skipped, ..child.rule() };
    child.dependencies = child.finished(&[], &inherited, rule);
    Some(())
}

/// A parent, and a child of another edition or default: with a list by its own, or by its
/// parent's.
pub(super) fn child_of_another_edition(sheet: &mut Sheet, rng: &mut Rng) -> Option<()> {
    let own = rng.one_in(2);
    let keys: Vec<u64> = (0..rng.between(1, 3)).map(|_| fresh(rng).key).collect();
    let rows: Vec<Port> = keys.iter().map(|&key| Port::new(key, rng.below(4))).collect();
    let (of_parent, of_child) = (any_edition(rng), any_edition(rng));
    let parent = append(sheet, rng)?;
    parent.edition = of_parent;
    if rng.one_in(2) {
        parent.aim(rows[0]);
    }
    parent.dependencies = keys.iter().map(|&key| parent.resolve(key)).collect();
    let (parent, inherited) = (parent.id, parent.dependencies.clone());
    let child = append(sheet, rng)?;
    child.parent = Some(parent);
    child.edition = of_child;
    if rng.one_in(3) {
        child.aim(rows[rows.len() - 1]);
    }
    let rule = Rule { again: if own { of_child } else { of_parent }, ..child.rule() };
    child.dependencies = child.finished(&[], &inherited, rule);
    Some(())
}
