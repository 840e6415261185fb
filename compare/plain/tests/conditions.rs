//! What a text must meet to be loaded: each condition broken alone, and just held.

mod common;

use common::loads::{
    Break, HERE, THERE, family, fill, heirs_of_48, kept, load, load_into, ports, spare,
};
use common::{anchor, bare};
use plain::coverage::refusals;
use plain::sheet::{Leaf, Sheet};
use plain::{Edition, Phase, Port, Refusal, Root};

const SEVEN: Edition = Edition::Second { default: 7 };

/// The fourth is in edition 2 and depends on (60,7); the fifth becomes its child.
fn child_of_seven(plugins: &mut [Leaf]) {
    (plugins[3].edition, plugins[3].realms) = (SEVEN, ports(30..32));
    plugins[3].dependencies = vec![Port::new(60, 7)];
    plugins[4].parent = Some(3);
}

#[test]
fn each_condition_broken_alone() {
    let whole = family();
    kept(&whole);
    let breaks: [(&str, Break); 50] = [
        ("ids that don't rise", |p| p[4].id = 3),
        ("ids that don't rise", |p| p.swap(3, 4)),
        ("parent not lower", |p| p[4].parent = Some(4)),
        ("parent not lower", |p| p[3].parent = Some(4)),
        ("parent not there", |p| {
            p.remove(3);
            p[3].parent = Some(3);
        }),
        ("33 plugins", |p| p.extend((5..33).map(spare))),
        ("1,025 rows", |p| fill(p, 1025)),
        ("17 realm rows", |p| p[4].realms = (100..117).map(|key| Port::new(key, 1)).collect()),
        ("49 dependencies", |p| {
            heirs_of_48(p);
            let (parent, id) = (p[p.len() - 1].clone(), p.len() as u64);
            let mut dependencies = vec![Port::new(999, 0)];
            dependencies.extend(&parent.dependencies);
            p.push(Leaf { parent: Some(parent.id), dependencies, ..spare(id) });
        }),
        ("16 provisions", |p| {
            p[4].provisions = ports(200..216).iter().map(|&port| (port, None)).collect();
        }),
        ("equal realm keys", |p| p[4].realms = vec![Port::new(77, 1), Port::new(77, 2)]),
        ("falling realm keys", |p| p[4].realms = vec![Port::new(78, 1), Port::new(77, 2)]),
        ("provision twice", |p| p[4].provisions = vec![(Port::new(40, 0), None); 2]),
        ("anchor by own provision", |p| p[4].anchor = Port::new(40, 0)),
        ("provision by provision", |p| p[4].provisions[0].0 = Port::new(30, 0)),
        ("anchor by provision", |p| p[4].anchor = Port::new(30, 0)),
        ("anchor by provision", |p| p[4].provisions[0].0 = Port::new(53, 0)),
        ("anchor by anchor", |p| p[4].anchor = Port::new(53, 0)),
        ("provision's realm", |p| p[4].provisions[0].0.realm = 1),
        ("provision's realm", |p| p[4].realms = vec![Port::new(40, 1)]),
        // A key without a row has the default of the plugin's own edition.
        ("provision's realm", |p| p[4].edition = SEVEN),
        ("provision's realm", |p| p[4].provisions[0].0.realm = 7),
        ("provision's realm", |p| p[0].edition = Edition::Second { default: 4 }),
        // Declared ports have the realm that their keys resolve to, each key once.
        ("list not given", |p| p[4].dependencies = vec![Port::new(60, 1)]),
        ("list not given", |p| p[4].dependencies = vec![Port::new(60, 0); 2]),
        // What is inherited comes behind, all of it, in its order, and once.
        ("list not given", |p| p[2].dependencies.retain(|port| port.key != 2)),
        ("list not given", |p| p[2].dependencies.push(Port::new(1, 4))),
        ("list not given", |p| {
            p[3].dependencies = vec![Port::new(60, 0)];
            p[4].parent = Some(3);
            p[4].dependencies = vec![Port::new(60, 0), Port::new(61, 7)];
        }),
        ("anchor inherited", |p| {
            p[3].realms = vec![Port::new(60, 8)];
            p[3].dependencies = vec![Port::new(60, 8)];
            p[4].parent = Some(3);
            p[4].anchor = Port::new(60, 8);
            p[4].dependencies = vec![Port::new(60, 8), Port::new(60, 0)];
        }),
        ("list not given", |p| {
            (p[4].edition, p[4].realms) = (SEVEN, vec![Port::new(40, 0)]);
            p[4].dependencies = vec![Port::new(60, 0)];
        }),
        ("by the parent's edition", |p| {
            child_of_seven(p);
            p[4].dependencies = vec![Port::new(60, 7)];
        }),
        ("by the parent's edition", |p| {
            p[3].dependencies = vec![Port::new(60, 0)];
            p[4].parent = Some(3);
            (p[4].edition, p[4].realms) = (SEVEN, vec![Port::new(40, 0)]);
            p[4].dependencies = vec![Port::new(60, 0)];
        }),
        ("17 declared keys", |p| p[4].dependencies = ports(60..77)),
        ("generation 0", |p| p[1].generation = 0),
        ("generation 0", |p| p[2].generation = 0),
        ("generation 0", |p| p[3].generation = 0),
        ("Idle with a root", |p| p[4].root = Root::Spent),
        ("Idle with a root", |p| p[4].root = Root::Queued { revision: 0, argument: 0 }),
        ("Idle with a value", |p| p[4].provisions[0].1 = Some(0)),
        ("Active, not Spent", |p| p[1].root = Root::Unissued),
        ("Active, not Spent", |p| p[1].root = Root::Queued { revision: 0, argument: 0 }),
        ("Active without a value", |p| p[0].provisions[2].1 = None),
        ("queued revision", |p| p[2].root = Root::Queued { revision: 2, argument: 5 }),
        ("queued revision", |p| p[3].root = Root::Queued { revision: 1, argument: 5 }),
        ("no provider", |p| p[0].provisions.truncate(1)),
        ("no Active provider", |p| p[0].phase = Phase::Loading),
        ("no Active provider", |p| p[0].phase = Phase::Unloading),
        ("own provider", |p| p[0].dependencies = vec![Port::new(6, 0)]),
        ("own provider", |p| p[0].dependencies = vec![Port::new(50, 0)]),
        ("ring of providers", |p| p[0].dependencies = vec![Port::new(20, 0)]),
    ];
    for (name, damage) in breaks {
        let mut sheet = whole.clone();
        sheet.next = 60;
        damage(&mut sheet.plugins);
        let broken: Vec<&str> =
            refusals(THERE, sheet.text().as_bytes()).iter().map(|check| check.reason).collect();
        assert_eq!(broken, [name]);
        assert_eq!(load(sheet.text()).err(), Some(Refusal::BadText), "{name}");
        // 24 comes before 25.
        assert_eq!(load_into(HERE, sheet.text()).err(), Some(Refusal::BadText), "{name}");
    }
    for (name, first, next) in
        [("id below first", 1, 5), ("id not below next", 0, 4), ("id below first", 5, 5)]
    {
        let sheet = Sheet { first, next, ..whole.clone() };
        let broken = refusals(THERE, sheet.text().as_bytes());
        assert_eq!((broken.len(), broken[0].reason), (1, name));
        assert_eq!(load(sheet.text()).err(), Some(Refusal::BadText), "{name}");
    }
}

/// Just as much as is allowed.
#[test]
fn limits_that_hold() {
    let allowed: [(&str, Break); 6] = [
        ("32 plugins", |p| p.extend((5..32).map(spare))),
        ("1,024 rows", |p| fill(p, 1024)),
        ("16 realm rows", |p| p[4].realms = (100..116).map(|key| Port::new(key, 1)).collect()),
        ("48 dependencies", heirs_of_48),
        ("15 provisions", |p| {
            p[4].provisions = ports(200..215).iter().map(|&port| (port, None)).collect();
        }),
        ("16 declared keys", |p| p[4].dependencies = ports(60..76)),
    ];
    for (name, change) in allowed {
        let mut sheet = family();
        change(&mut sheet.plugins);
        sheet.next = sheet.plugins.last().unwrap().id + 1;
        let registry = kept(&sheet);
        assert_eq!(registry.count(), sheet.plugins.len() as u64, "{name}");
        assert_eq!(registry.rows(), sheet.rows() as u64, "{name}");
    }
    let mut sheet = family();
    sheet.plugins.extend((5..32).map(spare));
    sheet.next = 32;
    let mut registry = kept(&sheet);
    assert_eq!(registry.register(&bare(anchor(0))), Err(Refusal::Full));
    let mut sheet = family();
    fill(&mut sheet.plugins, 1024);
    sheet.next = 99;
    let mut registry = kept(&sheet);
    assert_eq!(registry.register(&bare(anchor(9))), Err(Refusal::NoRows));
}

/// Cycles are forbidden among Loading and Active plugins only.
#[test]
fn a_ring_that_does_not_run() {
    for phase in [Phase::Idle, Phase::Unloading] {
        let mut sheet = family();
        let mut own = spare(5);
        own.phase = phase;
        own.generation = 1;
        own.dependencies = vec![own.anchor];
        let (mut one, mut two) = (Leaf { id: 6, ..own.clone() }, Leaf { id: 7, ..own.clone() });
        one.anchor = Port::new(70, 0);
        two.anchor = Port::new(71, 0);
        one.dependencies = vec![two.anchor];
        two.dependencies = vec![one.anchor];
        sheet.plugins.extend([own, one, two]);
        sheet.next = 8;
        let mut registry = kept(&sheet);
        for id in 5..8 {
            if phase == Phase::Unloading {
                registry.finish(id).unwrap();
            }
            assert_eq!(registry.begin(id), Err(Refusal::Unavailable));
        }
        // Where only one of a ring runs, its provider does not.
        for phase in [Phase::Loading, Phase::Active] {
            for n in 5..8 {
                let mut sheet = sheet.clone();
                let plugin = &mut sheet.plugins[n];
                (plugin.phase, plugin.root) = (phase, Root::Spent);
                assert_eq!(load(sheet.text()).err(), Some(Refusal::BadText));
            }
        }
    }
}

/// What histories build although it may look strange, and more that is allowed.
#[test]
fn states_that_are_allowed() {
    let queued = Root::Queued { revision: 0, argument: u64::MAX };
    let changes: [Break; 22] = [
        |p| p[1].retired = true,
        |p| p[0].retired = true,
        |p| p.iter_mut().for_each(|p| p.retired = true),
        // An Unloading parent, whose child goes on.
        |p| {
            p[1].phase = Phase::Unloading;
            p[1].root = Root::Unissued;
        },
        |p| p[2].root = Root::Spent,
        |p| p[2].root = Root::Unissued,
        |p| p[2].provisions[0].1 = Some(3),
        |p| p[3].root = Root::Spent,
        |p| p[3].root = Root::Queued { revision: 0, argument: u64::MAX },
        |p| p[3].provisions[1].1 = Some(u64::MAX),
        |p| p[3].provisions[0].1 = None,
        |p| p[4].generation = u64::MAX,
        |p| p[4].revision = 9,
        // Dependencies of a plugin that does not run need no provider.
        |p| p[4].dependencies = ports(60..63),
        |p| p[3].dependencies = vec![Port::new(60, 0), Port::new(40, 0)],
        // Edition 2 with default 0 says what edition 1 does.
        |p| p.iter_mut().for_each(|p| p.edition = Edition::Second { default: 0 }),
        |p| {
            p[4].edition = SEVEN;
            p[4].provisions[0].0.realm = 7;
            p[4].dependencies = vec![Port::new(60, 7), Port::new(61, 7)];
        },
        // Only provisions and dependencies are resolved, and not the anchor.
        |p| p[4].anchor.realm = 7,
        |p| {
            child_of_seven(p);
            p[4].dependencies = vec![Port::new(60, 7), Port::new(60, 0)];
        },
        |p| {
            child_of_seven(p);
            (p[4].edition, p[4].provisions[0].0.realm) = (SEVEN, 7);
            p[4].dependencies = vec![Port::new(60, 7)];
        },
        |p| {
            p[4].parent = Some(1);
            (p[4].edition, p[4].provisions[0].0.realm) = (SEVEN, 7);
            let ports = [(2, 0), (2, 7), (50, 0), (50, 7)];
            p[4].dependencies = ports.map(|(key, realm)| Port::new(key, realm)).to_vec();
        },
        // A child without what its parent depends on, for it provides that.
        |p| {
            p[4].parent = Some(3);
            p[3].dependencies = vec![Port::new(40, 0)];
        },
    ];
    for change in changes {
        let mut sheet = family();
        change(&mut sheet.plugins);
        kept(&sheet);
    }
    // Loading and replaced since it was queued.
    let mut sheet = family();
    (sheet.plugins[2].revision, sheet.plugins[2].root) = (u64::MAX, queued);
    kept(&sheet);
    // Ids with gaps, from any first to any next.
    let mut sheet = family();
    sheet.first = 0;
    sheet.next = u64::MAX;
    sheet.plugins[4].id = u64::MAX - 1;
    assert_eq!(kept(&sheet).register(&bare(anchor(0))), Err(Refusal::NoId));
}

/// Where several numbers of declared keys give the list, any of them will do.
#[test]
fn lists_that_several_declarations_give() {
    let base = || {
        let mut sheet = family();
        sheet.plugins[3].dependencies = ports(60..63);
        sheet.plugins[4].parent = Some(3);
        sheet
    };
    let whole: &[u64] = &[60, 61, 62];
    for (list, given) in [
        (whole, true),
        // A key that is inherited may have been declared, which puts it first.
        (&[62, 60, 61], true),
        (&[61, 62, 60], true),
        (&[62, 61, 60], true),
        (&[80, 60, 61, 62], true),
        (&[60, 80, 61, 62], true),
        (&[60, 61, 62, 80], true),
        (&[60, 61], false),
        (&[], false),
    ] {
        let mut sheet = base();
        sheet.plugins[4].dependencies = list.iter().map(|&key| Port::new(key, 0)).collect();
        assert_eq!(load(sheet.text()).is_ok(), given, "{list:?}");
    }
    // With 60 in another realm the parent's port can't have been declared.
    for (list, given) in [
        (vec![(60, 0), (60, 9), (61, 0), (62, 0)], true),
        (vec![(60, 9), (60, 0), (61, 0), (62, 0)], true),
        (vec![(61, 0), (60, 0), (60, 9), (62, 0)], true),
        (vec![(61, 0), (62, 0), (60, 0), (60, 9)], true),
        (vec![(60, 0), (61, 0), (62, 0), (60, 9)], false),
        (vec![(61, 0), (60, 0), (62, 0), (60, 9)], false),
        (vec![(60, 0), (61, 0), (60, 9), (62, 0)], false),
        (vec![(60, 0), (61, 0), (62, 0)], false),
    ] {
        let mut sheet = base();
        sheet.plugins[4].realms = vec![Port::new(60, 9)];
        let ports = list.iter().map(|&(key, realm)| Port::new(key, realm));
        sheet.plugins[4].dependencies = ports.collect();
        assert_eq!(load(sheet.text()).is_ok(), given, "{list:?}");
    }
}

/// Only 16 of a longer list can have been declared.
#[test]
fn more_than_16_ports_that_look_declared() {
    let mut sheet = family();
    sheet.plugins[3].dependencies = ports(60..64);
    sheet.plugins[4].parent = Some(3);
    let list = |declared: &[u64], inherited: &[u64]| {
        declared.iter().chain(inherited).map(|&key| Port::new(key, 0)).collect::<Vec<_>>()
    };
    let keys: Vec<u64> = (100..116).collect();
    for (dependencies, given) in [
        (list(&keys, &[60, 61, 62, 63]), true),
        (list(&keys[..14], &[62, 63, 60, 61]), true),
        (list(&keys[..14], &[60, 62, 61, 63]), true),
        // The first out of order is the 15th, so 17 would have to be declared.
        (list(&keys[..14], &[63, 62, 61, 60]), false),
        (list(&keys[..13], &[63, 62, 61, 60]), true),
        (list(&keys, &[61, 60, 62, 63]), false),
    ] {
        sheet.plugins[4].dependencies.clone_from(&dependencies);
        assert_eq!(load(sheet.text()).is_ok(), given, "{dependencies:?}");
    }
}

/// The anchor is skipped among what is inherited, and stays where it is declared.
#[test]
fn a_private_anchor() {
    let mut sheet = family();
    sheet.plugins[3].realms = vec![Port::new(60, 6)];
    sheet.plugins[3].dependencies = vec![Port::new(60, 6), Port::new(61, 0)];
    sheet.plugins[4].parent = Some(3);
    for (anchor, realm, list, given) in [
        // E4: what the parent depends on is the child's anchor.
        ((61, 0), 6, vec![(60, 6)], true),
        // It may have been declared, as its key resolves to it.
        ((61, 0), 6, vec![(61, 0), (60, 6)], true),
        ((61, 0), 6, vec![(60, 6), (61, 0)], true),
        // Here its key resolves otherwise, so it can't.
        ((60, 6), 7, vec![(60, 7), (61, 0)], true),
        ((60, 6), 7, vec![(60, 6), (60, 7), (61, 0)], false),
        // The parent's key resolved again is the anchor.
        ((60, 7), 7, vec![(60, 6), (61, 0)], true),
        ((60, 7), 7, vec![(60, 7), (60, 6), (61, 0)], true),
        ((60, 7), 7, vec![(60, 6), (60, 7), (61, 0)], false),
    ] {
        let plugin = &mut sheet.plugins[4];
        plugin.anchor = Port::new(anchor.0, anchor.1);
        plugin.realms = vec![Port::new(60, realm)];
        plugin.dependencies = list.iter().map(|&(key, realm)| Port::new(key, realm)).collect();
        assert_eq!(load(sheet.text()).is_ok(), given, "{anchor:?} {list:?}");
    }
}
