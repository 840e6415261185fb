//! Records, but for their lists.

use super::some;
use crate::admission::Root;
use crate::phases::Phase;
use crate::ports::{Edition, Port};
use crate::rng::Rng;
use crate::sheet::{Leaf, Sheet};

/// A port that nobody has heard of.
pub(super) fn fresh(rng: &mut Rng) -> Port {
    Port::new(rng.between(100_000, 1_000_000_000), rng.below(3))
}

/// Either edition, mostly with a small default.
pub(super) fn any_edition(rng: &mut Rng) -> Edition {
    let default = rng.number();
    let default = rng.one_of([0, 1, 2, default]);
    rng.one_of([Edition::First, Edition::Second { default }])
}

/// Appends an Idle plugin with nothing but an anchor; none if there is no id for it.
pub(super) fn append<'s>(sheet: &'s mut Sheet, rng: &mut Rng) -> Option<&'s mut Leaf> {
    let id = match sheet.plugins.last() {
        Some(last) => last.id.checked_add(1)?,
        None => sheet.first,
    };
    sheet.next = sheet.next.max(id.checked_add(1)?);
    sheet.plugins.push(Leaf {
        id,
        parent: None,
        phase: Phase::Idle,
        retired: false,
        generation: 0,
        revision: 0,
        payload: rng.number(),
        root: Root::Unissued,
        anchor: fresh(rng),
        edition: any_edition(rng),
        realms: Vec::new(),
        dependencies: Vec::new(),
        provisions: Vec::new(),
    });
    sheet.plugins.last_mut()
}

pub(super) fn first(sheet: &mut Sheet, rng: &mut Rng) -> Option<()> {
    let lowest = sheet.plugins.first().map_or(sheet.next, |p| p.id);
    let any = rng.number();
    let (next, less) = (sheet.next, sheet.first.wrapping_sub(1));
    let above = |number: u64| number.saturating_add(1);
    sheet.first = rng.one_of([lowest, above(lowest), above(lowest), next, above(next), less, any]);
    Some(())
}

pub(super) fn next(sheet: &mut Sheet, rng: &mut Rng) -> Option<()> {
    let highest = sheet.plugins.last().map_or(sheet.first.wrapping_sub(1), |p| p.id);
    let any = rng.number();
    sheet.next = rng.one_of([highest, highest, highest.saturating_add(1), u64::MAX, any]);
    Some(())
}

pub(super) fn no_plugins(sheet: &mut Sheet, rng: &mut Rng) -> Option<()> {
    sheet.plugins.clear();
    match rng.below(4) {
        0 => sheet.next = sheet.first,
        1 | 2 => sheet.next = sheet.first.checked_sub(1)?,
        _ => {}
    }
    Some(())
}

pub(super) fn id(sheet: &mut Sheet, rng: &mut Rng) -> Option<()> {
    let n = some(sheet, rng, |_| true)?;
    let other = some(sheet, rng, |_| true)?;
    let (old, above) = (sheet.plugins[n].id, sheet.plugins[n.saturating_sub(1)].id);
    let new = match rng.below(4) {
        0 => above,
        1 => sheet.plugins[other].id,
        _ => rng.nudge(old),
    };
    sheet.plugins[n].id = new;
    if rng.one_in(2) {
        for plugin in sheet.plugins.iter_mut().filter(|p| p.parent == Some(old)) {
            plugin.parent = Some(new);
        }
    }
    Some(())
}

pub(super) fn blocks_swapped(sheet: &mut Sheet, rng: &mut Rng) -> Option<()> {
    let n = some(sheet, rng, |_| true)?;
    let other = if rng.one_in(2) { n + 1 } else { some(sheet, rng, |_| true)? };
    if other == n || other >= sheet.plugins.len() {
        return None;
    }
    sheet.plugins.swap(n, other);
    Some(())
}

pub(super) fn parent(sheet: &mut Sheet, rng: &mut Rng) -> Option<()> {
    let n = some(sheet, rng, |_| true)?;
    let id = sheet.plugins[n].id;
    let other = some(sheet, rng, |_| true)?;
    sheet.plugins[n].parent = match rng.below(6) {
        0 => None,
        1 => Some(id),
        2 => Some(id.checked_sub(1)?),
        3 => Some(rng.number()),
        _ => Some(sheet.plugins[other].id),
    };
    Some(())
}

fn any_phase(rng: &mut Rng) -> Phase {
    rng.one_of([Phase::Idle, Phase::Loading, Phase::Active, Phase::Unloading])
}

/// A root that fits a plugin which is Loading or Unloading.
fn any_root(plugin: &Leaf, rng: &mut Rng) -> Root {
    let revision = rng.one_of([plugin.revision, plugin.revision, plugin.revision / 2]);
    let queued = Root::Queued { revision, argument: rng.number() };
    rng.one_of([Root::Unissued, queued, queued, Root::Spent])
}

pub(super) fn phase(sheet: &mut Sheet, rng: &mut Rng) -> Option<()> {
    let n = some(sheet, rng, |_| true)?;
    sheet.plugins[n].phase = any_phase(rng);
    Some(())
}

pub(super) fn phase_and_state(sheet: &mut Sheet, rng: &mut Rng) -> Option<()> {
    let n = some(sheet, rng, |_| true)?;
    let phase = any_phase(rng);
    settle(&mut sheet.plugins[n], phase, rng);
    Some(())
}

/// Puts a plugin into a phase, with what it needs there.
fn settle(plugin: &mut Leaf, phase: Phase, rng: &mut Rng) {
    plugin.phase = phase;
    let values = plugin.provisions.iter_mut().map(|(_, value)| value);
    if phase != Phase::Idle {
        plugin.generation = plugin.generation.max(1);
    }
    match phase {
        Phase::Idle => {
            values.for_each(|value| *value = None);
            plugin.root = Root::Unissued;
        }
        Phase::Active => {
            values.for_each(|value| *value = value.or(Some(rng.number())));
            plugin.root = Root::Spent;
        }
        Phase::Loading | Phase::Unloading => plugin.root = any_root(plugin, rng),
    }
}

pub(super) fn retired(sheet: &mut Sheet, rng: &mut Rng) -> Option<()> {
    // One that others lean on or come from is more telling.
    let n = some(sheet, rng, |_| true)?;
    let id = sheet.plugins[n].parent.filter(|_| rng.one_in(2));
    let n = some(sheet, rng, |p| Some(p.id) == id).unwrap_or(n);
    let plugin = &mut sheet.plugins[n];
    plugin.retired = !plugin.retired;
    plugin.payload = rng.number();
    Some(())
}

pub(super) fn generation(sheet: &mut Sheet, rng: &mut Rng) -> Option<()> {
    let n = some(sheet, rng, |_| true)?;
    let near = rng.nudge(sheet.plugins[n].generation);
    sheet.plugins[n].generation = rng.one_of([0, 0, 1, u64::MAX, u64::MAX, near]);
    Some(())
}

pub(super) fn revision(sheet: &mut Sheet, rng: &mut Rng) -> Option<()> {
    let n = some(sheet, rng, |_| true)?;
    let near = rng.nudge(sheet.plugins[n].revision);
    sheet.plugins[n].revision = rng.one_of([0, 1, u64::MAX, u64::MAX, near]);
    Some(())
}

pub(super) fn root(sheet: &mut Sheet, rng: &mut Rng) -> Option<()> {
    let active = rng.one_in(2);
    let n = some(sheet, rng, |p| p.phase == Phase::Active || !active)?;
    sheet.plugins[n].root = any_root(&sheet.plugins[n], rng);
    Some(())
}

pub(super) fn queued(sheet: &mut Sheet, rng: &mut Rng) -> Option<()> {
    let n = some(sheet, rng, |p| matches!(p.phase, Phase::Loading | Phase::Unloading))?;
    let plugin = &mut sheet.plugins[n];
    let revision = plugin.revision;
    let more = revision.saturating_add(1);
    let revision = rng.one_of([revision, more, more, revision.saturating_sub(1), u64::MAX]);
    plugin.root = Root::Queued { revision, argument: rng.number() };
    Some(())
}

pub(super) fn value(sheet: &mut Sheet, rng: &mut Rng) -> Option<()> {
    let active = rng.one_in(2);
    let is = |p: &Leaf| !p.provisions.is_empty() && (p.phase == Phase::Active || !active);
    let n = some(sheet, rng, is)?;
    let provisions = &mut sheet.plugins[n].provisions;
    let place = rng.below(provisions.len() as u64) as usize;
    let value = &mut provisions[place].1;
    *value = if value.is_some() && !rng.one_in(3) { None } else { Some(rng.number()) };
    Some(())
}

pub(super) fn anchor(sheet: &mut Sheet, rng: &mut Rng) -> Option<()> {
    let n = some(sheet, rng, |_| true)?;
    let anchor = &mut sheet.plugins[n].anchor;
    match rng.below(3) {
        0 => *anchor = fresh(rng),
        1 => anchor.key = rng.nudge(anchor.key),
        _ => anchor.realm = rng.nudge(anchor.realm),
    }
    Some(())
}

/// Another edition, or another default. Edition 2 with default 0 says what edition 1 does.
pub(super) fn edition(sheet: &mut Sheet, rng: &mut Rng) -> Option<()> {
    let listed = rng.one_in(2);
    let lists = |p: &Leaf| !p.dependencies.is_empty() || !p.provisions.is_empty();
    let n = some(sheet, rng, |p| lists(p) || !listed)?;
    let plugin = &mut sheet.plugins[n];
    let row = rng.pick(&plugin.realms).map_or(0, |row| row.realm);
    let near = match plugin.edition {
        Edition::First => 1,
        Edition::Second { default } => rng.nudge(default),
    };
    plugin.edition = match rng.below(5) {
        0 => Edition::First,
        1 => Edition::Second { default: 0 },
        2 => Edition::Second { default: row },
        3 => Edition::Second { default: near },
        _ => any_edition(rng),
    };
    Some(())
}

/// A port that has another provider already, or the same twice.
pub(super) fn clash(sheet: &mut Sheet, rng: &mut Rng) -> Option<()> {
    let n = some(sheet, rng, |_| true)?;
    let other = if rng.one_in(4) { n } else { some(sheet, rng, |_| true)? };
    let (anchor, given) = (sheet.plugins[other].anchor, sheet.plugins[other].provisions.clone());
    let provision = rng.pick(&given).map(|(port, _)| port);
    let plugin = &mut sheet.plugins[n];
    match rng.below(6) {
        0 => plugin.anchor = anchor,
        1 => plugin.anchor = provision?,
        2 => plugin.provide(anchor, rng),
        _ => plugin.provide(provision?, rng),
    }
    Some(())
}

pub(super) fn plugins(sheet: &mut Sheet, rng: &mut Rng) -> Option<()> {
    let count = rng.one_of([32, 33]);
    while sheet.plugins.len() < count {
        append(sheet, rng)?;
    }
    Some(())
}

/// One more provision after the other, if only a few are missing.
pub(super) fn rows(sheet: &mut Sheet, rng: &mut Rng) -> Option<()> {
    let count = rng.one_of([1024, 1025]);
    if !(count - 200..=count).contains(&sheet.rows()) {
        return None;
    }
    while sheet.rows() < count {
        match some(sheet, rng, |p| p.provisions.len() < 15) {
            Some(n) => sheet.plugins[n].provide_more(rng),
            None => {
                append(sheet, rng)?;
            }
        }
    }
    Some(())
}

/// A new plugin that depends on itself.
pub(super) fn own_provider(sheet: &mut Sheet, rng: &mut Rng) -> Option<()> {
    append_ring(sheet, 1, rng)
}

/// New plugins, each the next one's provider and the last the first's.
pub(super) fn ring(sheet: &mut Sheet, rng: &mut Rng) -> Option<()> {
    let count = rng.one_of([2, 2, 3]);
    append_ring(sheet, count, rng)
}

fn append_ring(sheet: &mut Sheet, count: usize, rng: &mut Rng) -> Option<()> {
    let ports: Vec<Port> = (0..count).map(|_| Port::new(fresh(rng).key, 0)).collect();
    let common = rng.one_of([Phase::Active, Phase::Idle, Phase::Unloading]);
    for n in 0..count {
        let phase = if rng.one_in(8) { any_phase(rng) } else { common };
        let plugin = append(sheet, rng)?;
        if rng.one_in(3) {
            plugin.anchor = ports[n];
        } else {
            plugin.aim(ports[n]);
            plugin.provisions.push((ports[n], None));
        }
        let needed = ports[(n + 1) % count];
        plugin.aim(needed);
        plugin.dependencies.push(needed);
        settle(plugin, phase, rng);
    }
    Some(())
}
