//! Start orders, planned and checked a second time and slowly, and what they reach.

use std::collections::BTreeSet;

use crate::phases::Phase;
use crate::ports::Port;
use crate::registry::MAX_PLUGINS;
use crate::sheet::{Leaf, Sheet};

const EXACT: &str = "planned into just enough room";
const PLANNED_32: &str = "planned for 32 ids";
const INSIDE: &str = "planned, a dependency inside the set";
const BY_ANCHOR: &str = "planned on the anchor of one of the set";
const CHOICE: &str = "planned, other orders pass too";
const TURNED: &str = "planned, ids that don't rise";
const ON_ACTIVE: &str = "planned on an Active provider";
const ON_RETIRED: &str = "planned on a retired Active provider";
const ONCE_MORE: &str = "planned, a generation of 2^64 - 2";

const RING: &str = "no order: a ring";
const OWN: &str = "no order: its own provider";
const NOBODY: &str = "no order: no provider";
const IDLE: &str = "no order: an Idle provider not in the set";
const LOADING: &str = "no order: a Loading provider";
const UNLOADING: &str = "no order: an Unloading provider";

const YES_EMPTY: &str = "checked, yes: nothing";
const YES_32: &str = "checked, yes: 32 ids";
const YES_INSIDE: &str = "checked, yes: a dependency inside the set";
const YES_OTHER: &str = "checked, yes: not the planned order";
const NO_PROVIDER_YET: &str = "checked, no: a provider comes later";
const NO_ORDER: &str = "checked, no: no order passes";
const NO_LEFT_OUT: &str = "checked, no: one left out";
const NO_TWICE: &str = "checked, no: one twice";
const NO_TWICE_FOR: &str = "checked, no: one twice, for another";
const NO_FOREIGN: &str = "checked, no: one of another set";
const NO_FOREIGN_FOR: &str = "checked, no: one of another set, for another";
const NO_UNKNOWN: &str = "checked, no: one that is not registered";

pub(super) const BOUNDARIES: [&str; 27] = [
    EXACT,
    PLANNED_32,
    INSIDE,
    BY_ANCHOR,
    CHOICE,
    TURNED,
    ON_ACTIVE,
    ON_RETIRED,
    ONCE_MORE,
    RING,
    OWN,
    NOBODY,
    IDLE,
    LOADING,
    UNLOADING,
    YES_EMPTY,
    YES_32,
    YES_INSIDE,
    YES_OTHER,
    NO_PROVIDER_YET,
    NO_ORDER,
    NO_LEFT_OUT,
    NO_TWICE,
    NO_TWICE_FOR,
    NO_FOREIGN,
    NO_FOREIGN_FOR,
    NO_UNKNOWN,
];

/// Plugins that have become Active one after the other, and the ports that there are then.
#[derive(Clone)]
struct Start<'s> {
    sheet: &'s Sheet,
    begun: Vec<u64>,
    ports: BTreeSet<Port>,
}

impl<'s> Start<'s> {
    /// Before the first.
    fn of(sheet: &'s Sheet) -> Self {
        let active = sheet.plugins.iter().filter(|p| p.phase == Phase::Active);
        Self { sheet, begun: Vec::new(), ports: active.flat_map(ports).collect() }
    }

    /// Lets a plugin begin and become Active; answers whether it can.
    fn begin(&mut self, id: u64) -> bool {
        let Some(plugin) = leaf(self.sheet, id) else { return false };
        let can = plugin.dependencies.iter().all(|port| self.ports.contains(port));
        if can {
            self.begun.push(id);
            self.ports.extend(ports(plugin));
        }
        can
    }

    /// Lets all of the set begin that can, in whatever order; answers those that can't.
    fn begin_all(&mut self, set: &[u64]) -> Vec<u64> {
        let mut left: Vec<u64> =
            set.iter().copied().filter(|id| !self.begun.contains(id)).collect();
        loop {
            let count = left.len();
            left.retain(|&id| !self.begin(id));
            if left.len() == count {
                return left;
            }
        }
    }
}

fn leaf(sheet: &Sheet, id: u64) -> Option<&Leaf> {
    sheet.plugins.iter().find(|p| p.id == id)
}

/// All ports that a plugin provides.
fn ports(plugin: &Leaf) -> impl Iterator<Item = Port> {
    plugin.provisions.iter().map(|(port, _)| *port).chain([plugin.anchor])
}

/// Whether these can begin one after the other.
fn starts(sheet: &Sheet, order: &[u64]) -> bool {
    let mut start = Start::of(sheet);
    order.iter().all(|&id| start.begin(id))
}

/// Whether an order passes: sorted it is the set, and its ids can begin one after the
/// other.
pub(super) fn passes(sheet: &Sheet, set: &[u64], order: &[u64]) -> bool {
    sorted(set) == sorted(order) && starts(sheet, order)
}

/// The passing order that has the lowest id at the first place where two differ: at each
/// place the lowest with which some order still comes to its end.
pub(super) fn plan(sheet: &Sheet, set: &[u64]) -> Option<Vec<u64>> {
    let mut start = Start::of(sheet);
    let lowest = sorted(set);
    for _ in set {
        let mut left = lowest.iter().filter(|id| !start.begun.contains(id));
        let ends = |id: u64| {
            let mut start = start.clone();
            start.begin(id) && start.begin_all(set).is_empty()
        };
        let next = *left.find(|&&id| ends(id))?;
        start.begin(next);
    }
    Some(start.begun)
}

/// What a plan that was accepted has reached.
pub(super) fn planned(
    sheet: &Sheet,
    size: u64,
    set: &[u64],
    mut reached: impl FnMut(bool, &'static str),
) {
    let Some(order) = plan(sheet, set) else {
        return why_none(sheet, set).into_iter().for_each(|why| reached(true, why));
    };
    reached(!set.is_empty() && size == set.len() as u64, EXACT);
    reached(set.len() == MAX_PLUGINS, PLANNED_32);
    reached(is_inside(sheet, set), INSIDE);
    let wanted = |port: Port| wants(sheet, set).any(|(_, other)| other == port);
    let of_set = |p: &Leaf| set.contains(&p.id);
    let active = |p: &Leaf| p.phase == Phase::Active && ports(p).any(wanted);
    let any = |is: &dyn Fn(&Leaf) -> bool| sheet.plugins.iter().any(is);
    reached(any(&|p| of_set(p) && wanted(p.anchor)), BY_ANCHOR);
    let turned = |n: usize| {
        let mut other = order.clone();
        other.swap(n - 1, n);
        starts(sheet, &other)
    };
    reached((1..order.len()).any(turned), CHOICE);
    reached(!order.is_sorted(), TURNED);
    reached(any(&active), ON_ACTIVE);
    reached(any(&|p| p.retired && active(p)), ON_RETIRED);
    reached(any(&|p| of_set(p) && p.generation == u64::MAX - 1), ONCE_MORE);
}

/// Why no order passes, if it is for one reason alone.
fn why_none(sheet: &Sheet, set: &[u64]) -> Option<&'static str> {
    let mut start = Start::of(sheet);
    let stuck = start.begin_all(set);
    let lacking = wants(sheet, &stuck).filter(|(_, port)| !start.ports.contains(port));
    let reasons: BTreeSet<&str> = lacking
        .filter_map(|(id, port)| match sheet.plugins.iter().find(|p| p.has(port)) {
            None => Some(NOBODY),
            Some(p) if p.id == id => Some(OWN),
            // Another one of the set that can't begin either.
            Some(p) if set.contains(&p.id) => None,
            Some(p) => match p.phase {
                Phase::Idle => Some(IDLE),
                Phase::Loading => Some(LOADING),
                Phase::Unloading => Some(UNLOADING),
                Phase::Active => unreachable!("an Active provider's ports are there"),
            },
        })
        .collect();
    if reasons.len() > 1 { None } else { Some(reasons.first().copied().unwrap_or(RING)) }
}

/// What a check that was accepted has reached.
pub(super) fn checked(
    sheet: &Sheet,
    set: &[u64],
    order: &[u64],
    mut reached: impl FnMut(bool, &'static str),
) {
    if passes(sheet, set, order) {
        reached(set.is_empty(), YES_EMPTY);
        reached(set.len() == MAX_PLUGINS, YES_32);
        reached(is_inside(sheet, set), YES_INSIDE);
        return reached(plan(sheet, set).is_none_or(|plan| plan != order), YES_OTHER);
    }
    let first = |n: &usize| !order[..*n].contains(&order[*n]);
    let once: Vec<u64> = (0..order.len()).filter(first).map(|n| order[n]).collect();
    let own: Vec<u64> = once.iter().copied().filter(|id| set.contains(id)).collect();
    if !starts(sheet, &own) {
        let whole = own.len() == set.len() && own == order;
        let none = plan(sheet, set).is_none();
        reached(whole && !none, NO_PROVIDER_YET);
        return reached(whole && none, NO_ORDER);
    }
    // Nothing is wrong but which ids are named.
    let (twice, foreign) = (once.len() < order.len(), own.len() < once.len());
    let (left_out, same) = (own.len() < set.len(), order.len() == set.len());
    reached(left_out && !twice && !foreign, NO_LEFT_OUT);
    reached(twice && !left_out && !foreign, NO_TWICE);
    reached(twice && left_out && !foreign && same, NO_TWICE_FOR);
    reached(foreign && !left_out && !twice, NO_FOREIGN);
    reached(foreign && left_out && !twice && same, NO_FOREIGN_FOR);
    let unknown = once.iter().any(|&id| leaf(sheet, id).is_none());
    reached(unknown && !left_out && !twice, NO_UNKNOWN);
}

/// What the plugins of a set depend on, each with its id.
fn wants(sheet: &Sheet, set: &[u64]) -> impl Iterator<Item = (u64, Port)> {
    let plugins = set.iter().filter_map(|&id| leaf(sheet, id));
    plugins.flat_map(|p| p.dependencies.iter().map(|port| (p.id, *port)))
}

/// Whether one of a set depends on another.
fn is_inside(sheet: &Sheet, set: &[u64]) -> bool {
    let gives = |port: Port| set.iter().any(|&id| leaf(sheet, id).is_some_and(|p| p.has(port)));
    wants(sheet, set).any(|(_, port)| gives(port))
}

fn sorted(ids: &[u64]) -> Vec<u64> {
    let mut sorted = ids.to_vec();
    sorted.sort_unstable();
    sorted
}
