//! What a text must meet to be loaded, each condition by itself and slowly.
//!
//! In document 02's order, and nothing shared with the registry's own reading. A
//! condition is asked even if an earlier one is broken, as far as it has a meaning.

use crate::admission::Root;
use crate::phases::Phase;
use crate::ports::Port;
use crate::sheet::{Leaf, Rule, Sheet};

use super::checks::Check;

pub(super) const fn bad(reason: &'static str) -> Check {
    Check { number: 24, reason }
}

/// Refused since the text has not the form, be it for more than an edition's lines.
pub(super) const FORM: Check = bad("form");

/// Refused since the text has the domain that is asked for.
pub(super) const DOMAIN: Check = Check { number: 25, reason: "" };

/// Whether a condition is broken.
type Broken = fn(&Sheet) -> bool;

/// Every condition, by what breaks it.
pub(super) const CONDITIONS: [(Check, Broken); 33] = [
    (bad("ids that don't rise"), |sheet| !sheet.plugins.is_sorted_by(|a, b| a.id < b.id)),
    (bad("id below first"), |sheet| any(sheet, |p| p.id < sheet.first)),
    (bad("id not below next"), |sheet| any(sheet, |p| p.id >= sheet.next)),
    (bad("first above next"), |sheet| sheet.first > sheet.next),
    (bad("parent not lower"), |sheet| any(sheet, |p| p.parent.is_some_and(|id| id >= p.id))),
    (bad("parent not there"), |sheet| {
        any(sheet, |p| p.parent.is_some_and(|id| !any(sheet, |other| other.id == id)))
    }),
    (bad("33 plugins"), |sheet| sheet.plugins.len() > 32),
    (bad("1,025 rows"), |sheet| sheet.rows() > 1024),
    (bad("17 realm rows"), |sheet| any(sheet, |p| p.realms.len() > 16)),
    (bad("49 dependencies"), |sheet| any(sheet, |p| p.dependencies.len() > 48)),
    (bad("16 provisions"), |sheet| any(sheet, |p| p.provisions.len() > 15)),
    (bad("equal realm keys"), |sheet| any(sheet, |p| rows(p, |a, b| a == b))),
    (bad("falling realm keys"), |sheet| any(sheet, |p| rows(p, |a, b| a > b))),
    (bad("provision twice"), |sheet| {
        any(sheet, |p| repeats(&p.provisions.iter().map(|(port, _)| *port).collect::<Vec<_>>()))
    }),
    (bad("anchor by own provision"), |sheet| any(sheet, |p| p.provides(p.anchor))),
    (bad("provision by provision"), |sheet| {
        two(sheet, |a, b| a.provisions.iter().any(|(port, _)| b.provides(*port)))
    }),
    (bad("anchor by provision"), |sheet| {
        two(sheet, |a, b| a.provides(b.anchor) || b.provides(a.anchor))
    }),
    (bad("anchor by anchor"), |sheet| two(sheet, |a, b| a.anchor == b.anchor)),
    (bad("provision's realm"), |sheet| {
        any(sheet, |p| {
            resolves(p) && p.provisions.iter().any(|(port, _)| p.resolve(port.key) != *port)
        })
    }),
    (bad("list not given"), |sheet| {
        any(sheet, |p| not_given(sheet, p) && !slips(sheet, p).any(|slip| given(sheet, p, slip)))
    }),
    (bad("anchor inherited"), |sheet| {
        any(sheet, |p| not_given(sheet, p) && given(sheet, p, with_anchor(p)))
    }),
    (bad("by the parent's edition"), |sheet| {
        let slipped = |p: &Leaf| by_parent(sheet, p).is_some_and(|slip| given(sheet, p, slip));
        any(sheet, |p| not_given(sheet, p) && slipped(p))
    }),
    (bad("17 declared keys"), |sheet| {
        let many = |counts: Vec<usize>| counts.iter().min().is_some_and(|&least| least > 16);
        any(sheet, |p| has_rule(sheet, p) && many(declared(sheet, p, p.rule())))
    }),
    (bad("generation 0"), |sheet| any(sheet, |p| p.phase != Phase::Idle && p.generation == 0)),
    (bad("Idle with a root"), |sheet| {
        any(sheet, |p| p.phase == Phase::Idle && p.root != Root::Unissued)
    }),
    (bad("Idle with a value"), |sheet| {
        any(sheet, |p| p.phase == Phase::Idle && p.provisions.iter().any(|(_, v)| v.is_some()))
    }),
    (bad("Active, not Spent"), |sheet| {
        any(sheet, |p| p.phase == Phase::Active && p.root != Root::Spent)
    }),
    (bad("Active without a value"), |sheet| {
        any(sheet, |p| p.phase == Phase::Active && p.provisions.iter().any(|(_, v)| v.is_none()))
    }),
    (bad("queued revision"), |sheet| {
        any(sheet, |p| matches!(p.root, Root::Queued { revision, .. } if revision > p.revision))
    }),
    (bad("no provider"), |sheet| lacks(sheet, |port| !any(sheet, |p| p.has(port)))),
    (bad("no Active provider"), |sheet| {
        lacks(sheet, |port| {
            let provider = |p: &Leaf| p.has(port);
            any(sheet, provider) && !any(sheet, |p| p.phase == Phase::Active && provider(p))
        })
    }),
    (bad("own provider"), |sheet| any(sheet, |p| p.is_up() && leans(p, p))),
    (bad("ring of providers"), |sheet| any(sheet, |p| p.is_up() && in_ring(sheet, p))),
];

fn any(sheet: &Sheet, is: impl Fn(&Leaf) -> bool) -> bool {
    sheet.plugins.iter().any(is)
}

/// Whether this is true of two plugins, the first of them above the second.
fn two(sheet: &Sheet, are: impl Fn(&Leaf, &Leaf) -> bool) -> bool {
    let plugins = &sheet.plugins;
    (1..plugins.len()).any(|n| plugins[..n].iter().any(|above| are(above, &plugins[n])))
}

/// Whether this is true of the keys of two realm rows that follow each other.
fn rows(plugin: &Leaf, are: impl Fn(u64, u64) -> bool) -> bool {
    plugin.realms.windows(2).any(|rows| are(rows[0].key, rows[1].key))
}

fn repeats(ports: &[Port]) -> bool {
    (1..ports.len()).any(|n| ports[..n].contains(&ports[n]))
}

/// Whether its keys can be resolved at all.
fn resolves(plugin: &Leaf) -> bool {
    !rows(plugin, |a, b| a >= b)
}

/// Whether there is what the rule for its dependency list needs.
fn has_rule(sheet: &Sheet, plugin: &Leaf) -> bool {
    let parent = |id| id < plugin.id && any(sheet, |other| other.id == id);
    resolves(plugin) && plugin.parent.is_none_or(parent)
}

fn parent<'s>(sheet: &'s Sheet, plugin: &Leaf) -> Option<&'s Leaf> {
    sheet.plugins.iter().find(|other| Some(other.id) == plugin.parent)
}

/// How many of its first dependencies can be those that it declared, by a rule for what
/// it inherits.
fn declared(sheet: &Sheet, plugin: &Leaf, rule: Rule) -> Vec<usize> {
    let list = &plugin.dependencies;
    let inherited = parent(sheet, plugin).map_or(&[][..], |parent| &parent.dependencies);
    let fits = |count: &usize| {
        let declared = &list[..*count];
        let resolved = declared.iter().all(|port| plugin.resolve(port.key) == *port);
        let different = !repeats(declared);
        resolved && different && plugin.finished(declared, inherited, rule) == *list
    };
    (0..=list.len()).filter(fits).collect()
}

fn given(sheet: &Sheet, plugin: &Leaf, rule: Rule) -> bool {
    !declared(sheet, plugin, rule).is_empty()
}

/// Whether the rule does not give its list, though there is what it needs.
fn not_given(sheet: &Sheet, plugin: &Leaf) -> bool {
    has_rule(sheet, plugin) && !given(sheet, plugin, plugin.rule())
}

/// The rule by which an anchor is inherited.
fn with_anchor(plugin: &Leaf) -> Rule {
    Rule { skips_anchor: false, ..plugin.rule() }
}

/// The rule by which inherited keys are resolved again by the parent's edition.
fn by_parent(sheet: &Sheet, plugin: &Leaf) -> Option<Rule> {
    parent(sheet, plugin).map(|parent| Rule { again: parent.edition, ..plugin.rule() })
}

/// Rules that are none, and are told apart.
fn slips(sheet: &Sheet, plugin: &Leaf) -> impl Iterator<Item = Rule> {
    [with_anchor(plugin)].into_iter().chain(by_parent(sheet, plugin))
}

/// Whether a Loading or Active plugin has a dependency of which this is true.
fn lacks(sheet: &Sheet, is: impl Fn(Port) -> bool) -> bool {
    any(sheet, |p| p.is_up() && p.dependencies.iter().any(|port| is(*port)))
}

/// Whether one plugin depends on a port of the other.
fn leans(plugin: &Leaf, on: &Leaf) -> bool {
    plugin.dependencies.iter().any(|port| on.has(*port))
}

/// Whether a plugin depends on itself through one other or more, all Loading or Active.
fn in_ring(sheet: &Sheet, plugin: &Leaf) -> bool {
    let mut reached = vec![plugin];
    let mut n = 0;
    while n < reached.len() {
        for other in sheet.plugins.iter().filter(|other| other.is_up()) {
            let leans = !std::ptr::eq(reached[n], other) && leans(reached[n], other);
            if leans && std::ptr::eq(other, plugin) {
                return true;
            }
            if leans && !reached.iter().any(|p| std::ptr::eq(*p, other)) {
                reached.push(other);
            }
        }
        n += 1;
    }
    false
}
