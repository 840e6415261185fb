//! Reading the text back: document 02's example, the form, and what becomes of it.

mod common;

use common::loads::{HERE, THERE, family, kept, load, load_into, text_of};
use common::{activate, anchor, bare};
use plain::coverage::refusals;
use plain::sheet::Sheet;
use plain::{Child, Edition, Invocation, Port, Refusal, Registration, Registry, Root, Ticket};

const EXAMPLE: &str = "domain=7\nfirst=0\nnext=1\nplugins=1\nid=0\nparent=none\nphase=0\nretired=0\ngeneration=0\nrevision=0\npayload=40\nroot=0\nqueued=none\nanchor=9,0\nedition=1\ndefault=0\nrealms=1\nrealm=2,5\ndeps=0\nprovs=1\nprov=2,5,none\n";

#[test]
fn the_example() {
    let mut registry = load(EXAMPLE).unwrap();
    assert_eq!(text_of(&registry), EXAMPLE.replace("domain=7", "domain=8"));
    assert_eq!((registry.domain(), registry.first(), registry.next()), (8, 0, 1));
    assert_eq!((registry.count(), registry.rows()), (1, 2));
    assert_eq!(load_into(HERE, EXAMPLE).err(), Some(Refusal::SameDomain));
    // It goes on from there.
    let ticket = registry.begin(0).unwrap();
    assert_eq!(ticket, Ticket { domain: 8, id: 0, generation: 1, kind: 1 });
    assert_eq!(registry.register(&bare((9, 0))), Err(Refusal::Taken));
    assert_eq!(registry.register(&bare((9, 1))), Ok(1));
}

#[test]
fn an_empty_registry() {
    let last = u64::MAX;
    for (first, next) in [(0, 0), (0, last), (5, 9), (last, last)] {
        let text = |domain| format!("domain={domain}\nfirst={first}\nnext={next}\nplugins=0\n");
        let mut registry = load(text(HERE)).unwrap();
        assert_eq!(text_of(&registry), text(THERE));
        let registered = registry.register(&bare(anchor(0)));
        assert_eq!(registered, if next == last { Err(Refusal::NoId) } else { Ok(next) });
        assert_eq!(load_into(HERE, text(HERE)).err(), Some(Refusal::SameDomain));
    }
    let above = "domain=7\nfirst=1\nnext=0\nplugins=0\n";
    assert_eq!(load(above).err(), Some(Refusal::BadText));
    // 24 comes before 25.
    assert_eq!(load_into(HERE, above).err(), Some(Refusal::BadText));
}

/// Every byte of the form counts.
#[test]
fn texts_that_are_not_of_the_form() {
    let broken = |text: &str| {
        assert_eq!(load(text).err(), Some(Refusal::BadText), "{text:?}");
        assert_eq!(Sheet::read(text.as_bytes()), None, "{text:?}");
    };
    for text in ["", "\n", "domain=7", "domain=7\n", "domain=7\nfirst=0\nnext=0\n"] {
        broken(text);
    }
    // Every front of it, so a missing last byte 10 too, and more behind it.
    for length in 0..EXAMPLE.len() {
        broken(&EXAMPLE[..length]);
    }
    for end in ["\n", " ", "\0", "\r", "prov=4,0,none\n", "id=1\n"] {
        broken(&format!("{EXAMPLE}{end}"));
    }
    for (from, to) in [
        ("domain=7", " domain=7"),
        ("domain=7", "Domain=7"),
        ("domain=7", "domain=07"),
        ("domain=7", "domain=+7"),
        ("domain=7", "domain="),
        ("domain=7", "domain=7 "),
        ("domain=7", "domain=18446744073709551616"),
        ("domain=7\n", "domain=7\r\n"),
        ("domain=7\n", "domain=7\n\n"),
        ("domain=7\n", ""),
        ("domain=7\nfirst=0\n", "first=0\ndomain=7\n"),
        ("plugins=1", "plugins=0"),
        ("plugins=1", "plugins=2"),
        ("parent=none", "parent=None"),
        ("parent=none", "parent=none "),
        ("parent=none", "parent="),
        ("phase=0", "phase=4"),
        ("phase=0", "phase=00"),
        ("retired=0", "retired=2"),
        ("root=0", "root=3"),
        ("root=0\nqueued=none", "root=1\nqueued=none"),
        ("root=0\nqueued=none", "root=1\nqueued=0"),
        ("root=0\nqueued=none", "root=1\nqueued=0,none"),
        ("root=0\nqueued=none", "root=0\nqueued=0,0"),
        ("root=0\nqueued=none", "root=2\nqueued=0,0"),
        ("anchor=9,0", "anchor=9"),
        ("anchor=9,0", "anchor=9,0,0"),
        ("anchor=9,0", "anchor=9, 0"),
        ("anchor=9,0", "anchor=9;0"),
        ("edition=1\n", ""),
        ("default=0\n", ""),
        ("edition=1\ndefault=0\n", ""),
        ("edition=1\ndefault=0\n", "default=0\nedition=1\n"),
        ("anchor=9,0\nedition=1\ndefault=0\n", "edition=1\ndefault=0\nanchor=9,0\n"),
        ("default=0\nrealms=1\n", "realms=1\ndefault=0\n"),
        ("edition=1", "edition=0"),
        ("edition=1", "edition=3"),
        ("edition=1", "edition=01"),
        ("edition=1", "edition=12"),
        ("edition=1", "edition=18446744073709551615"),
        ("edition=1", "edition=none"),
        ("edition=1", "edition="),
        ("edition=1", "Edition=1"),
        ("edition=1", "edition=1,0"),
        ("default=0", "default=1"),
        ("default=0", "default=5"),
        ("default=0", "default=18446744073709551615"),
        ("default=0", "default=00"),
        ("default=0", "default=none"),
        ("default=0", "default="),
        ("default=0", "default=0,0"),
        ("edition=1\ndefault=0", "edition=2\ndefault=00"),
        ("edition=1\ndefault=0", "edition=2\ndefault=none"),
        ("edition=1\ndefault=0", "edition=2\ndefault=18446744073709551616"),
        ("edition=1\ndefault=0", "edition=2\ndefault=0\ndefault=0"),
        ("edition=1\ndefault=0", "edition=3\ndefault=0"),
        ("realms=1", "realms=0"),
        ("realms=1", "realms=2"),
        ("realms=1", "realms=18446744073709551615"),
        ("realm=2,5", "realm=2,05"),
        ("deps=0", "deps=1"),
        ("deps=0", "deps=0\ndep=2,5"),
        ("provs=1", "provs=0"),
        ("provs=1", "provs=2"),
        ("prov=2,5,none", "prov=2,5"),
        ("prov=2,5,none", "prov=2,5,"),
        ("prov=2,5,none", "prov=2,5,none,none"),
        ("prov=2,5,none", "prov=2,5,-1"),
        ("prov=2,5,none", "prov=2,none,none"),
    ] {
        assert!(EXAMPLE.contains(from));
        broken(&EXAMPLE.replacen(from, to, 1));
    }
    assert_eq!(load(b"domain=7\nfirst=0\nnext=0\nplugins=0\xff\n").err(), Some(Refusal::BadText));
}

/// Where the lines of an edition are all that is wrong, coverage says which way.
#[test]
fn editions_that_are_not_of_the_form() {
    for (from, to, reason) in [
        ("edition=1", "edition=3", "another edition"),
        ("edition=1", "edition=0", "another edition"),
        ("default=0", "default=5", "default in edition 1"),
        ("edition=1\n", "", "no edition line"),
        ("default=0\n", "", "no default line"),
        ("edition=1\ndefault=0\n", "", "neither of the lines"),
        ("edition=1\ndefault=0\n", "default=0\nedition=1\n", "default before edition"),
        ("edition=1", "edition=01", "form"),
        ("default=0", "default=05", "form"),
        ("edition=1\ndefault=0\n", "edition=3\n", "form"),
        ("edition=1\ndefault=0\n", "edition=3\ndefault=01\n", "form"),
    ] {
        let text = EXAMPLE.replacen(from, to, 1);
        assert_eq!(refusals(THERE, text.as_bytes())[0].reason, reason, "{text:?}");
        assert_eq!(load(&text).err(), Some(Refusal::BadText), "{text:?}");
        // 24 comes before 25.
        assert_eq!(load_into(HERE, &text).err(), Some(Refusal::BadText), "{text:?}");
    }
    // These have the form, and the realm rule with them.
    for (from, to) in [
        ("edition=1\ndefault=0", "edition=2\ndefault=0"),
        ("edition=1\ndefault=0", "edition=2\ndefault=18446744073709551615"),
    ] {
        let text = EXAMPLE.replacen(from, to, 1);
        let registry = load(&text).unwrap();
        assert_eq!(text_of(&registry), text.replace("domain=7", "domain=8"));
    }
}

/// Numbers as large as they get, and what is refused at that end.
#[test]
fn the_ends_of_numbers() {
    let last = u64::MAX;
    let mut sheet = family();
    sheet.domain = last;
    let idle = &mut sheet.plugins[4];
    (idle.generation, idle.revision, idle.payload) = (last, last, last);
    idle.edition = Edition::Second { default: last };
    idle.realms = vec![Port::new(last - 1, last), Port::new(last, last - 1)];
    idle.dependencies = vec![Port::new(last, last - 1)];
    idle.provisions = vec![(Port::new(last - 1, last), None)];
    idle.anchor = Port::new(last, last);
    let unloading = &mut sheet.plugins[3];
    (unloading.generation, unloading.revision) = (last, last);
    unloading.root = Root::Queued { revision: last, argument: last };
    unloading.provisions[0].1 = Some(last);
    let mut registry = kept(&sheet);
    assert_eq!(registry.begin(4), Err(Refusal::Exhausted));
    assert_eq!(registry.replace(4, 0).unwrap_err().refusal, Refusal::Exhausted);
    assert_eq!((registry.fits(4, 0), registry.fits(4, 1)), (Ok(true), Ok(false)));
    // The domain's last number is a domain like others.
    assert_eq!(load_into(last, sheet.text()).err(), Some(Refusal::SameDomain));
    assert_eq!(load_into(last, family().text()).unwrap().domain(), last);
    assert!(load_into(0, family().text()).is_ok());
    // The next number breaks the form, wherever it stands.
    let text = sheet.text();
    for (place, _) in text.match_indices("18446744073709551615") {
        let (front, rest) = text.split_at(place);
        let more = format!("{front}18446744073709551616{}", &rest[20..]);
        assert_eq!(Sheet::read(more.as_bytes()), None);
        assert_eq!(load(more).err(), Some(Refusal::BadText));
    }
}

#[test]
fn a_queued_root_loads_as_unissued() {
    let mut sheet = family();
    sheet.plugins[3].root = Root::Queued { revision: 0, argument: 6 };
    let text = sheet.text();
    assert!(text.contains("root=1\nqueued=1,5\n") && text.contains("root=1\nqueued=0,6\n"));
    let mut registry = load(&text).unwrap();
    let wanted = text
        .replace("domain=7\n", "domain=8\n")
        .replace("root=1\nqueued=1,5\n", "root=0\nqueued=none\n")
        .replace("root=1\nqueued=0,6\n", "root=0\nqueued=none\n");
    assert_eq!(text_of(&registry), wanted);
    // What was queued is not to be called, and can be admitted anew.
    let asked = Invocation { domain: THERE, id: 2, generation: 1, revision: 1, argument: 5 };
    assert_eq!(registry.call(asked), Err(Refusal::Stale));
    let ticket = Ticket { domain: THERE, id: 2, generation: 1, kind: 1 };
    assert_eq!(registry.admit(ticket, 5), Ok(asked));
    assert!(registry.call(asked).is_ok());
}

/// Only the text's own domain is refused, so a registry may come back.
#[test]
fn there_and_back() {
    let mut registry = Registry::open(HERE, 0);
    let id = registry.register(&bare(anchor(0))).unwrap();
    let ticket = registry.begin(id).unwrap();
    let admitted = registry.admit(ticket, 5).unwrap();
    let text = text_of(&registry);
    assert_eq!(registry.load(HERE, text.as_bytes()), Err(Refusal::SameDomain));
    assert_eq!(text_of(&registry), text);

    registry.load(THERE, text.as_bytes()).unwrap();
    assert_eq!(registry.admit(ticket, 5), Err(Refusal::InvalidState));
    assert_eq!(registry.call(admitted), Err(Refusal::InvalidState));
    let there = text_of(&registry);
    assert_eq!(registry.load(THERE, there.as_bytes()), Err(Refusal::SameDomain));

    registry.load(HERE, there.as_bytes()).unwrap();
    assert_eq!(registry.call(admitted), Err(Refusal::Stale));
    assert_eq!(registry.admit(ticket, 5), Ok(admitted));
    assert!(registry.call(admitted).is_ok());
    assert_eq!(registry.call(admitted), Err(Refusal::Stale));
}

/// Removed plugins' places are filled, and what was removed stays issued.
#[test]
fn places_by_rising_id() {
    let mut registry = Registry::open(HERE, 10);
    for n in 0..4 {
        registry.register(&bare(anchor(n))).unwrap();
    }
    for id in [10, 12] {
        registry.retire(id).unwrap();
        registry.remove(id).unwrap();
    }
    registry.register(&bare(anchor(4))).unwrap();
    assert_eq!(registry.registered().map(|(id, _)| id).collect::<Vec<_>>(), [14, 11, 13]);
    let mut registry = load(text_of(&registry)).unwrap();
    assert_eq!(registry.registered().map(|(id, _)| id).collect::<Vec<_>>(), [11, 13, 14]);
    let child = |id| Child { domain: THERE, parent: 0, id };
    assert_eq!(registry.retire_child(child(12)), Ok(()));
    assert_eq!(registry.retire_child(child(9)), Err(Refusal::Unknown));
    assert_eq!(registry.retire_child(child(15)), Err(Refusal::Unknown));
    assert_eq!(registry.register(&bare(anchor(5))), Ok(15));
    // What lay in the places before is gone.
    let mut registry = Registry::open(3, 0);
    for n in 0..32 {
        registry.register(&Registration { provisions: &[n], ..bare(anchor(n)) }).unwrap();
        activate(&mut registry, n);
    }
    registry.load(THERE, EXAMPLE.as_bytes()).unwrap();
    assert_eq!(text_of(&registry), EXAMPLE.replace("domain=7", "domain=8"));
    assert_eq!(registry.show(1), Err(Refusal::Unknown));
    assert_eq!(registry.visible(Port::new(3, 0)), None);
    assert_eq!(registry.register(&Registration { provisions: &[3], ..bare(anchor(3)) }), Ok(1));
    assert_eq!(registry.missing(1), Ok(Some(Port::new(3, 0))));
}
