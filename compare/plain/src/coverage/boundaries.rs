//! The boundaries that accepted operations reach.

use std::collections::BTreeMap;

use crate::admission::{Root, Ticket};
use crate::console::Operation;
use crate::phases::Phase;
use crate::plugin::Plugin;
use crate::ports::{Edition, MAX_REALM_ROWS, Port, resolve};
use crate::registration::{
    MAX_DEPENDENCIES, MAX_DEPENDENCY_KEYS, MAX_PROVISION_KEYS, MAX_ROWS, Registration,
};
use crate::registry::{MAX_PLUGINS, Registry};
use crate::sheet::{Leaf, Sheet};

use super::orders;

const KEYS_16: &str = "registered with 16 dependency keys";
const KEYS_15: &str = "registered with 15 provision keys";
const REALMS_16: &str = "registered with 16 realm rows";
const LIST_48: &str = "registered with 48 dependencies";
const ROWS_1024: &str = "registered to 1,024 rows in use";
const PLUGINS_32: &str = "registered as the 32nd plugin";
const LAST_ID: &str = "registered with id 2^64 - 2";
const OWN_PORT: &str = "registered depending on its own port";
const ANCHOR_DECLARED: &str = "registered depending on its own anchor";
const ANCHOR_INHERITED: &str = "registered, its anchor in its parent's list";
const ANCHOR_AGAIN: &str = "registered, its anchor a key resolved again";

const IGNORED: &str = "registered in edition 1, a default ignored";
const DEFAULT_0: &str = "registered in edition 2, default 0";
const DEFAULT_LAST: &str = "registered in edition 2, default 2^64 - 1";
const DEFAULT_OF_ROW: &str = "registered in edition 2, a row's realm";
const GIVES_DEFAULT: &str = "registered, a provision by default";
const NEEDS_DEFAULT: &str = "registered, a declared key by default";
const FIRST_OF_SECOND: &str = "registered in edition 1, its parent in 2";
const SECOND_OF_FIRST: &str = "registered in edition 2, its parent in 1";
const SAME_DEFAULT: &str = "registered with its parent's default";
const OTHER_DEFAULT: &str = "registered, its parent's default another";
const AGAIN_BY_DEFAULT: &str = "registered, a key again by default";
const AGAIN_IN_ZERO: &str = "registered in edition 1, again from default";
const ANCHOR_DEFAULT: &str = "registered, its anchor a key by default";

const BEGIN_48: &str = "begun with 48 dependencies";
const BEGIN_AGAIN: &str = "begun again";
const BEGIN_BY_ANCHOR: &str = "begun on another's anchor";
const BEGIN_ANCHOR_INHERITED: &str = "begun, its anchor in its parent's list";
const BEGIN_DEFAULT: &str = "begun on a port by default";
const LIST_AT_END: &str = "nothing listed at the buffer's end";

const WRITE_EXACT: &str = "written into just enough room";
const WRITE_ROWS: &str = "written with 1,024 rows in use";
const WRITE_PLUGINS: &str = "written with 32 plugins";
const WRITE_UNSORTED: &str = "written with places not by rising id";
const WRITE_QUEUED: &str = "written with a Queued root";
const WRITE_UNLOADING: &str = "written while Unloading and Queued";
const WRITE_VALUES: &str = "written with some of a plugin's values";
const WRITE_EDITIONS: &str = "written with both editions";

const LOAD_EMPTY: &str = "loaded without plugins";
const LOAD_PLUGINS: &str = "loaded with 32 plugins";
const LOAD_ROWS: &str = "loaded with 1,024 rows in use";
const LOAD_REALMS_16: &str = "loaded with 16 realm rows";
const LOAD_LIST_48: &str = "loaded with 48 dependencies";
const LOAD_KEYS_15: &str = "loaded with 15 provisions";
const LOAD_NO_IDS: &str = "loaded with next 2^64 - 1";
const LOAD_QUEUED: &str = "loaded with a Queued root";
const LOAD_QUEUED_UNLOADING: &str = "loaded with a Queued root, Unloading";
const LOAD_OVERTAKEN: &str = "loaded, replaced since it was Queued";
const LOAD_SPENT: &str = "loaded Loading and Spent";
const LOAD_ACTIVE: &str = "loaded Active with dependencies";
const LOAD_RETIRED_PARENT: &str = "loaded with a retired parent";
const LOAD_UNLOADING_PARENT: &str = "loaded with an Unloading parent";
const LOAD_RETIRED_PROVIDER: &str = "loaded on a retired Active provider";
const LOAD_BY_ANCHOR: &str = "loaded on another's anchor";
const LOAD_IDLE_OWN: &str = "loaded Idle and its own provider";
const LOAD_UNLOADING_OWN: &str = "loaded Unloading and its own provider";
const LOAD_IDLE_RING: &str = "loaded with a ring of Idle providers";
const LOAD_ANCHOR_INHERITED: &str = "loaded, its anchor in its parent's list";
const LOAD_EDITIONS: &str = "loaded with both editions";
const LOAD_DEFAULT_0: &str = "loaded in edition 2, default 0";
const LOAD_DEFAULT_LAST: &str = "loaded in edition 2, default 2^64 - 1";
const LOAD_GIVES_DEFAULT: &str = "loaded, a provision by default";
const LOAD_FIRST_OF_SECOND: &str = "loaded in edition 1, its parent in 2";
const LOAD_SECOND_OF_FIRST: &str = "loaded in edition 2, its parent in 1";
const LOAD_AGAIN: &str = "loaded, a key again by default";
const LOAD_BACK: &str = "loaded back into the domain of before";
const TICKET_AGAIN: &str = "admitted by a ticket of before a load";

const BOUNDARIES: [&str; 67] = [
    KEYS_16,
    KEYS_15,
    REALMS_16,
    LIST_48,
    ROWS_1024,
    PLUGINS_32,
    LAST_ID,
    OWN_PORT,
    ANCHOR_DECLARED,
    ANCHOR_INHERITED,
    ANCHOR_AGAIN,
    IGNORED,
    DEFAULT_0,
    DEFAULT_LAST,
    DEFAULT_OF_ROW,
    GIVES_DEFAULT,
    NEEDS_DEFAULT,
    FIRST_OF_SECOND,
    SECOND_OF_FIRST,
    SAME_DEFAULT,
    OTHER_DEFAULT,
    AGAIN_BY_DEFAULT,
    AGAIN_IN_ZERO,
    ANCHOR_DEFAULT,
    BEGIN_48,
    BEGIN_AGAIN,
    BEGIN_BY_ANCHOR,
    BEGIN_ANCHOR_INHERITED,
    BEGIN_DEFAULT,
    LIST_AT_END,
    WRITE_EXACT,
    WRITE_ROWS,
    WRITE_PLUGINS,
    WRITE_UNSORTED,
    WRITE_QUEUED,
    WRITE_UNLOADING,
    WRITE_VALUES,
    WRITE_EDITIONS,
    LOAD_EMPTY,
    LOAD_PLUGINS,
    LOAD_ROWS,
    LOAD_REALMS_16,
    LOAD_LIST_48,
    LOAD_KEYS_15,
    LOAD_NO_IDS,
    LOAD_QUEUED,
    LOAD_QUEUED_UNLOADING,
    LOAD_OVERTAKEN,
    LOAD_SPENT,
    LOAD_ACTIVE,
    LOAD_RETIRED_PARENT,
    LOAD_UNLOADING_PARENT,
    LOAD_RETIRED_PROVIDER,
    LOAD_BY_ANCHOR,
    LOAD_IDLE_OWN,
    LOAD_UNLOADING_OWN,
    LOAD_IDLE_RING,
    LOAD_ANCHOR_INHERITED,
    LOAD_EDITIONS,
    LOAD_DEFAULT_0,
    LOAD_DEFAULT_LAST,
    LOAD_GIVES_DEFAULT,
    LOAD_FIRST_OF_SECOND,
    LOAD_SECOND_OF_FIRST,
    LOAD_AGAIN,
    LOAD_BACK,
    TICKET_AGAIN,
];

/// All of them.
pub(super) fn all() -> impl Iterator<Item = &'static str> {
    BOUNDARIES.into_iter().chain(orders::BOUNDARIES)
}

/// The loads since an opening, as far as later lines depend on them.
pub(super) struct Loads {
    /// The domain of the opening and of each load.
    domains: Vec<u64>,
    /// How many domains there were when a ticket was given: domain, id, generation.
    tickets: BTreeMap<[u64; 3], usize>,
}

impl Loads {
    pub(super) fn opened(domain: u64) -> Self {
        Self { domains: vec![domain], tickets: BTreeMap::new() }
    }

    /// Whether this was the domain before the last load.
    fn is_back(&self, domain: u64) -> bool {
        self.domains.iter().nth_back(1) == Some(&domain)
    }

    fn began(&mut self, ticket: [u64; 3]) {
        self.tickets.insert(ticket, self.domains.len());
    }

    /// Whether a ticket was given before the last load.
    fn is_before(&self, ticket: [u64; 3]) -> bool {
        self.tickets.get(&ticket).is_some_and(|&domains| domains < self.domains.len())
    }
}

/// The boundaries that an accepted operation has just reached.
pub(super) fn reached(
    registry: &Registry,
    asked: &Operation<'_>,
    loads: &mut Loads,
) -> Vec<&'static str> {
    let mut names = Vec::new();
    let mut reached = |holds: bool, name: &'static str| {
        if holds {
            names.push(name);
        }
    };
    match *asked {
        Operation::Register(ref new) => {
            let id = registry.next() - 1;
            let plugin = registry.plugin(id).expect("it was registered");
            reached(new.dependencies.len() == MAX_DEPENDENCY_KEYS, KEYS_16);
            reached(new.provisions.len() == MAX_PROVISION_KEYS, KEYS_15);
            reached(new.realms.rows.len() == 2 * MAX_REALM_ROWS, REALMS_16);
            reached(plugin.dependencies().len() == MAX_DEPENDENCIES, LIST_48);
            reached(registry.rows() == MAX_ROWS, ROWS_1024);
            reached(registry.count() == MAX_PLUGINS as u64, PLUGINS_32);
            reached(id == u64::MAX - 1, LAST_ID);
            let own = |port: &Port| plugin.provides(*port);
            reached(plugin.dependencies().iter().any(own), OWN_PORT);
            let anchor = new.anchor;
            reached(plugin.dependencies().contains(&anchor), ANCHOR_DECLARED);
            let inherited = inherited(registry, plugin);
            reached(inherited.contains(&anchor), ANCHOR_INHERITED);
            let again = |port: &Port| port.key == anchor.key && *port != anchor;
            let again = inherited.iter().any(again);
            reached(again && resolve(anchor.key, new.realms) == Ok(anchor), ANCHOR_AGAIN);
            editions(registry, new, plugin, reached);
        }
        Operation::Begin(id) => {
            let plugin = registry.plugin(id).expect("it has begun");
            reached(plugin.dependencies().len() == MAX_DEPENDENCIES, BEGIN_48);
            reached(plugin.generation() > 1, BEGIN_AGAIN);
            let by_anchor =
                |port: &Port| registry.provider(*port).is_some_and(|(_, p)| p.anchor() == *port);
            reached(plugin.dependencies().iter().any(by_anchor), BEGIN_BY_ANCHOR);
            let wanted = inherited(registry, plugin).contains(&plugin.anchor());
            reached(wanted, BEGIN_ANCHOR_INHERITED);
            let by_default = |port: &Port| is_by_default(plugin, *port);
            reached(plugin.dependencies().iter().any(by_default), BEGIN_DEFAULT);
            loads.began([registry.domain(), id, plugin.generation()]);
        }
        Operation::Deps { id, place } => {
            let plugin = registry.plugin(id).expect("it was listed");
            reached(plugin.dependencies().is_empty() && place == 100, LIST_AT_END);
        }
        Operation::Write { size } => {
            let plugins = || registry.registered();
            reached(size == registry.text_length() as u64, WRITE_EXACT);
            reached(registry.rows() == MAX_ROWS, WRITE_ROWS);
            reached(registry.count() == MAX_PLUGINS as u64, WRITE_PLUGINS);
            reached(!plugins().is_sorted_by_key(|(id, _)| id), WRITE_UNSORTED);
            let queued = |p: &Plugin| matches!(p.root(), Root::Queued { .. });
            reached(plugins().any(|(_, p)| queued(p)), WRITE_QUEUED);
            let stale = |p: &Plugin| queued(p) && p.phase() == Phase::Unloading;
            reached(plugins().any(|(_, p)| stale(p)), WRITE_UNLOADING);
            let valued = |p: &Plugin| p.provisions().iter().any(|&port| p.value(port).is_some());
            let lacks = |p: &Plugin| p.provisions().iter().any(|&port| p.value(port).is_none());
            reached(plugins().any(|(_, p)| valued(p) && lacks(p)), WRITE_VALUES);
            let first = |(_, p): (u64, &Plugin)| p.edition() == Edition::First;
            reached(plugins().any(first) && !plugins().all(first), WRITE_EDITIONS);
        }
        Operation::Open { domain, .. } => *loads = Loads::opened(domain),
        Operation::Admit { ticket: Ticket { domain, id, generation, .. }, .. } => {
            reached(loads.is_before([domain, id, generation]), TICKET_AGAIN);
        }
        Operation::Load { domain, text } => {
            reached(loads.is_back(domain), LOAD_BACK);
            loads.domains.push(domain);
            load(&Sheet::read(text).expect("it was loaded"), reached);
        }
        Operation::Plan { size, set } => {
            orders::planned(&Sheet::of(registry), size, set, reached);
        }
        Operation::Check { set, order } => {
            orders::checked(&Sheet::of(registry), set, order, reached);
        }
        _ => {}
    }
    names
}

/// Whether a port has its realm from a default that is not 0, and not from a row.
fn is_by_default(plugin: &Plugin, port: Port) -> bool {
    port.realm != 0
        && plugin.edition() == Edition::Second { default: port.realm }
        && !plugin.realms().iter().any(|row| row.key == port.key)
}

/// Those of editions that a registration has just reached.
fn editions(
    registry: &Registry,
    new: &Registration<'_>,
    plugin: &Plugin,
    mut reached: impl FnMut(bool, &'static str),
) {
    let (edition, default) = (new.realms.edition, new.realms.default);
    let (first, second) = (edition == 1, edition == 2);
    let by_default = |port: &Port| is_by_default(plugin, *port);
    reached(first && default != 0, IGNORED);
    reached(second && default == 0, DEFAULT_0);
    reached(second && default == u64::MAX, DEFAULT_LAST);
    reached(second && plugin.realms().iter().any(|row| row.realm == default), DEFAULT_OF_ROW);
    reached(plugin.provisions().iter().any(by_default), GIVES_DEFAULT);
    let declared = &plugin.dependencies()[..new.dependencies.len()];
    reached(declared.iter().any(by_default), NEEDS_DEFAULT);
    reached(by_default(&plugin.anchor()), ANCHOR_DEFAULT);

    let Some(parent) = plugin.parent().and_then(|id| registry.plugin(id).ok()) else { return };
    match parent.edition() {
        Edition::First => reached(second, SECOND_OF_FIRST),
        Edition::Second { default: of_parent } => {
            reached(first, FIRST_OF_SECOND);
            reached(second && default == of_parent, SAME_DEFAULT);
            reached(second && default != of_parent, OTHER_DEFAULT);
        }
    }
    // What is new in the list, and neither declared nor in the parent's.
    let inherited = &plugin.dependencies()[new.dependencies.len()..];
    let again = |port: &&Port| !parent.dependencies().contains(port);
    reached(inherited.iter().filter(again).any(by_default), AGAIN_BY_DEFAULT);
    let from_default = |port: &Port| {
        let former = |other: &Port| other.key == port.key && is_by_default(parent, *other);
        port.realm == 0 && parent.dependencies().iter().any(former)
    };
    reached(first && inherited.iter().filter(again).any(from_default), AGAIN_IN_ZERO);
}

/// Those that a loaded text has.
fn load(sheet: &Sheet, mut reached: impl FnMut(bool, &'static str)) {
    let any = |is: &dyn Fn(&Leaf) -> bool| sheet.plugins.iter().any(is);
    reached(sheet.plugins.is_empty(), LOAD_EMPTY);
    reached(sheet.plugins.len() == MAX_PLUGINS, LOAD_PLUGINS);
    reached(sheet.rows() as u64 == MAX_ROWS, LOAD_ROWS);
    reached(any(&|p| p.realms.len() == MAX_REALM_ROWS), LOAD_REALMS_16);
    reached(any(&|p| p.dependencies.len() == MAX_DEPENDENCIES), LOAD_LIST_48);
    reached(any(&|p| p.provisions.len() == MAX_PROVISION_KEYS), LOAD_KEYS_15);
    reached(sheet.next == u64::MAX, LOAD_NO_IDS);

    let queued = |p: &Leaf| matches!(p.root, Root::Queued { .. });
    reached(any(&queued), LOAD_QUEUED);
    reached(any(&|p| queued(p) && p.phase == Phase::Unloading), LOAD_QUEUED_UNLOADING);
    let overtaken =
        |p: &Leaf| matches!(p.root, Root::Queued { revision, .. } if revision < p.revision);
    reached(any(&overtaken), LOAD_OVERTAKEN);
    reached(any(&|p| p.phase == Phase::Loading && p.root == Root::Spent), LOAD_SPENT);

    let parent = |p: &Leaf| sheet.plugins.iter().find(|other| Some(other.id) == p.parent);
    let unloading = |p: &Leaf| p.phase == Phase::Unloading;
    reached(any(&|p| parent(p).is_some_and(|parent| parent.retired)), LOAD_RETIRED_PARENT);
    reached(any(&|p| parent(p).is_some_and(unloading)), LOAD_UNLOADING_PARENT);
    let anchor_inherited =
        |p: &Leaf| parent(p).is_some_and(|parent| parent.dependencies.contains(&p.anchor));
    reached(any(&anchor_inherited), LOAD_ANCHOR_INHERITED);

    let first = |p: &Leaf| p.edition == Edition::First;
    let default = |p: &Leaf, default| p.edition == Edition::Second { default };
    reached(any(&first) && any(&|p| !first(p)), LOAD_EDITIONS);
    reached(any(&|p| default(p, 0)), LOAD_DEFAULT_0);
    reached(any(&|p| default(p, u64::MAX)), LOAD_DEFAULT_LAST);
    let by_default = |p: &Leaf, port: Port| {
        port.realm != 0 && default(p, port.realm) && !p.realms.contains(&port)
    };
    let gives = |p: &Leaf| p.provisions.iter().any(|(port, _)| by_default(p, *port));
    reached(any(&gives), LOAD_GIVES_DEFAULT);
    let heir = |p: &Leaf| parent(p).filter(|parent| !parent.dependencies.is_empty());
    let of_second = |p: &Leaf| heir(p).is_some_and(|parent| !first(parent));
    reached(any(&|p| first(p) && of_second(p)), LOAD_FIRST_OF_SECOND);
    let of_first = |p: &Leaf| heir(p).is_some_and(first);
    reached(any(&|p| !first(p) && of_first(p)), LOAD_SECOND_OF_FIRST);
    // Right behind the parent's port with that key.
    let again = |p: &Leaf| {
        let list = parent(p).map_or(&[][..], |parent| &parent.dependencies);
        p.dependencies.windows(2).any(|ports| {
            let new = by_default(p, ports[1]) && !list.contains(&ports[1]);
            list.contains(&ports[0]) && ports[0].key == ports[1].key && new
        })
    };
    reached(any(&again), LOAD_AGAIN);

    let active = |p: &Leaf| p.phase == Phase::Active && !p.dependencies.is_empty();
    reached(any(&active), LOAD_ACTIVE);
    let needed = |port: Port| any(&|p| p.is_up() && p.dependencies.contains(&port));
    let retired = |p: &Leaf| {
        p.retired && (needed(p.anchor) || p.provisions.iter().any(|(port, _)| needed(*port)))
    };
    reached(any(&retired), LOAD_RETIRED_PROVIDER);
    reached(any(&|p| needed(p.anchor)), LOAD_BY_ANCHOR);
    let leans = |p: &Leaf, on: &Leaf| p.dependencies.iter().any(|port| on.has(*port));
    let own = |p: &Leaf, phase| p.phase == phase && leans(p, p);
    reached(any(&|p| own(p, Phase::Idle)), LOAD_IDLE_OWN);
    reached(any(&|p| own(p, Phase::Unloading)), LOAD_UNLOADING_OWN);
    let ring = |a: &Leaf, b: &Leaf| a.id != b.id && leans(a, b) && leans(b, a);
    let idle = |p: &Leaf| p.phase == Phase::Idle;
    reached(any(&|a| idle(a) && any(&|b| idle(b) && ring(a, b))), LOAD_IDLE_RING);
}

/// The list of a plugin's parent; none without a parent.
fn inherited<'r>(registry: &'r Registry, plugin: &Plugin) -> &'r [Port] {
    let parent = plugin.parent().and_then(|id| registry.plugin(id).ok());
    parent.map_or(&[], |parent| parent.dependencies())
}
