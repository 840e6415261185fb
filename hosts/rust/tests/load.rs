//! Texts read back: what a registry says is loaded under another domain, and anything else is refused and changes nothing.

mod common;

use common::{activate, admitted, bare, heirs, refused};
use vaskelbi::{
    Definition, Edition, Identity, Port, RealmList, Refusal, Registry, Root, TEXT_ROOM,
};

fn text(registry: &Registry) -> String {
    registry.text(&mut vec![0; TEXT_ROOM]).unwrap().to_string()
}

/// The text but for its domain and its Queued roots.
fn carried(text: &str, domain: u64) -> String {
    let mut lines = Vec::new();
    for line in text.lines() {
        lines.push(match line {
            "root=1" => "root=0".to_string(),
            line if line.starts_with("queued=") => "queued=none".to_string(),
            line if line.starts_with("domain=") => format!("domain={domain}"),
            line => line.to_string(),
        });
    }
    lines.join("\n") + "\n"
}

/// Loads what a registry says, under another domain and back, and holds the texts to it.
fn carry(registry: &Registry) -> Box<Registry> {
    let old = text(registry);
    let away = registry.domain().wrapping_add(1);
    let mut loaded = Box::new(Registry::load(away, old.as_bytes()).unwrap());
    assert_eq!(text(&loaded), carried(&old, away));
    let same = refused(&mut loaded, |r| r.reload(registry.domain(), old.as_bytes()));
    assert_eq!(same, Refusal::SameDomain);
    let home = Registry::load(registry.domain(), text(&loaded).as_bytes()).unwrap();
    assert_eq!(text(&home), carried(&old, registry.domain()));
    loaded
}

/// A parent (1), Active with a value, its child (2), Loading with a Queued root, and a third (3) that is Unloading. The child is of
/// edition 2.
fn night() -> Box<Registry> {
    let mut registry = Box::new(Registry::open(7, 1));
    let r = &mut registry;
    let parent = Definition { provisions: &[2], ..Definition::new(Port::in_default_realm(3), 40) };
    r.register(&parent).unwrap();
    let realms = RealmList::second(8, &[(2, 5), (3, 0), (9, u64::MAX)]);
    r.register(&Definition { parent: Some(1), realms, dependencies: &[3], ..bare(0) }).unwrap();
    r.register(&Definition { dependencies: &[3], ..bare(1) }).unwrap();
    activate(r, 1);
    activate(r, 3);
    r.unload(3).unwrap();
    admitted(r, 2, u64::MAX);
    registry
}

#[test]
fn a_night_is_carried_home() {
    let registry = night();
    let mut home = carry(&registry);
    let r = &mut home;
    assert_eq!((r.domain(), r.first_id(), r.next_id(), r.count()), (8, 1, 4, 3));
    assert_eq!(r.root(2), Ok(Root::Unissued));
    assert_eq!(r.root(3), Ok(Root::Spent));
    assert_eq!(r.child(2), Ok(Some(Identity { domain: 8, parent: 1, id: 2 })));
    assert_eq!(r.edition(1), Ok(Edition::First));
    assert_eq!(r.edition(2), Ok(Edition::Second { default: 8 }));
    // Nothing that was queued survives; a new admission is called.
    let ticket = vaskelbi::Ticket { domain: 8, id: 2, generation: 1, kind: 1 };
    let invocation = r.admit(ticket, 6).unwrap();
    assert_eq!(r.call(invocation).unwrap().payload, 300);
    assert_eq!(r.unload(1), Err(Refusal::InUse));
    r.finish(3).unwrap();
    r.retire(3).unwrap();
    r.remove(3).unwrap();
    carry(r);
}

#[test]
fn what_operations_build_is_loaded() {
    carry(&Registry::open(0, 0));
    carry(&Registry::open(5, u64::MAX));
    let mut registry = Box::new(Registry::open(9, u64::MAX - 3));
    heirs(&mut registry);
    assert_eq!(registry.register(&bare(9)), Err(Refusal::NoId));
    carry(&registry);
    let mut full = Box::new(Registry::open(u64::MAX, 0));
    let parent = heirs(&mut full);
    while full.rows() + 49 <= 1024 {
        full.register(&Definition { parent: Some(parent), ..bare(full.next_id()) }).unwrap();
    }
    while full.register(&bare(full.next_id())).is_ok() {}
    let mut again = carry(&full);
    for id in [0, 5] {
        assert_eq!(again.retire(id), Ok(()));
    }
    assert_eq!(again.remove(5), Ok(()));
    carry(&again);
}

/// The night's text with one piece of it replaced.
fn changed(old: &str, new: &str) -> String {
    let lines = text(&night());
    assert!(lines.contains(old), "no {old}");
    lines.replacen(old, new, 1)
}

#[test]
fn other_texts_are_refused() {
    let mut registry = night();
    let whole = text(&registry);
    for (old, new) in [
        ("domain=7", "domain=07"),                   // a leading zero
        ("domain=7", "domain=18446744073709551616"), // 2^64
        ("first=1", "first=2"),                      // an id below the first
        ("next=4", "next=3"),                        // an id that was not issued
        ("plugins=3", "plugins=4"),
        ("plugins=3", "plugins=2"),
        ("id=2\n", "id=1\n"), // ids that do not rise
        ("parent=1", "parent=3"),
        ("phase=1", "phase=4"),
        ("retired=0", "retired=2"),
        ("generation=1", "generation=0"),
        ("queued=0,", "queued=1,"),          // above the revision
        ("root=1\n", "root=0\n"),            // with a queued pair
        ("root=2", "root=0"),                // Active
        ("anchor=1000001,77", "anchor=3,0"), // a port twice
        ("edition=1\ndefault=0\n", ""),      // without the lines
        ("edition=2\ndefault=8\n", ""),
        ("edition=1\n", ""), // without one of them
        ("default=0\n", ""),
        ("edition=1\ndefault=0\n", "default=0\nedition=1\n"),
        ("anchor=3,0\nedition=1\ndefault=0\n", "edition=1\ndefault=0\nanchor=3,0\n"),
        ("edition=1", "edition=0"),
        ("edition=2", "edition=3"),
        ("edition=2", "edition=02"),
        ("default=0", "default=5"), // in edition 1
        ("edition=2", "edition=1"), // with default 8
        ("default=8", "default=none"),
        ("default=8", "default=08"),
        ("default=8", "default=18446744073709551616"),
        // The provision (2,0) and the dependency (3,0) are not what their keys resolve to.
        ("anchor=3,0\nedition=1\ndefault=0", "anchor=3,0\nedition=2\ndefault=5"),
        ("anchor=1000001,77\nedition=1\ndefault=0", "anchor=1000001,77\nedition=2\ndefault=5"),
        ("realm=9,", "realm=3,"),
        ("dep=3,0", "dep=4,0"),     // no Active provider
        ("prov=2,0,", "prov=2,1,"), // not what its key resolves to
        ("prov=2,0,100", "prov=2,0,none"),
        ("deps=1", "deps=2"),
        ("\nparent", " parent"),
        ("\nparent", "\r\nparent"),
        ("\nparent", "\n\nparent"),
    ] {
        let text = changed(old, new);
        assert_eq!(
            refused(&mut registry, |r| r.reload(8, text.as_bytes())),
            Refusal::BadText,
            "{new}"
        );
    }
    for end in 0..whole.len() {
        let cut = &whole.as_bytes()[..end];
        assert_eq!(refused(&mut registry, |r| r.reload(8, cut)), Refusal::BadText, "{end} bytes");
    }
    let longer = whole.clone() + "\n";
    assert_eq!(refused(&mut registry, |r| r.reload(8, longer.as_bytes())), Refusal::BadText);
    let older: String = whole
        .lines()
        .filter(|line| !line.starts_with("edition=") && !line.starts_with("default="))
        .flat_map(|line| [line, "\n"])
        .collect();
    assert_eq!(refused(&mut registry, |r| r.reload(8, older.as_bytes())), Refusal::BadText);
    assert_eq!(registry.reload(8, whole.as_bytes()), Ok(()));
}

/// Where an edition gives the same ports, either is loaded, and kept.
#[test]
fn another_edition_that_gives_the_same_is_loaded() {
    for (old, new, id, edition) in [
        ("edition=1\ndefault=0", "edition=2\ndefault=0", 1, Edition::Second { default: 0 }),
        ("edition=2\ndefault=8", "edition=1\ndefault=0", 2, Edition::First),
        ("default=8", "default=18446744073709551615", 2, Edition::Second { default: u64::MAX }),
    ] {
        let text = changed(old, new);
        let loaded = Box::new(Registry::load(8, text.as_bytes()).unwrap());
        assert_eq!(loaded.edition(id), Ok(edition));
        carry(&loaded);
    }
}
