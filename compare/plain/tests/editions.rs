//! Both editions of the realm rule: examples worked out by hand.

mod common;

use common::loads::{kept, load, text_of};
use common::{activate, anchor, bare, dependencies, refused};
use plain::sheet::Sheet;
use plain::{Edition, Port, RealmList, Refusal, Registration, Registry, resolve};

const SEVEN: Edition = Edition::Second { default: 7 };

/// Edition 2 with default 7, and key 2 in realm 5.
const ROWS: RealmList<'_> = RealmList::second(7, &[2, 5]);

/// A parent that declares keys 2 and 3 by those, and its id.
fn parent() -> (Registry, u64) {
    let mut registry = Registry::open(7, 0);
    let new = Registration { realms: ROWS, dependencies: &[2, 3], ..bare((90, 0)) };
    let id = registry.register(&new).unwrap();
    assert_eq!(dependencies(&registry, id), [(2, 5), (3, 7)]);
    (registry, id)
}

#[test]
fn a_key_without_a_row_gets_the_default() {
    let port = |key, edition, default| resolve(key, RealmList { edition, default, rows: &[2, 5] });
    assert_eq!(port(2, 2, 7), Ok(Port::new(2, 5)));
    assert_eq!(port(3, 2, 7), Ok(Port::new(3, 7)));
    assert_eq!(port(1, 2, u64::MAX), Ok(Port::new(1, u64::MAX)));
    assert_eq!(port(3, 2, 0), Ok(Port::new(3, 0)));
    // Edition 1 ignores it.
    assert_eq!(port(2, 1, 7), Ok(Port::new(2, 5)));
    assert_eq!(port(3, 1, 7), Ok(Port::new(3, 0)));
    assert_eq!(resolve(u64::MAX, RealmList::second(9, &[])), Ok(Port::new(u64::MAX, 9)));
}

#[test]
fn another_edition_is_refused_first_of_all() {
    let mut registry = Registry::open(7, 0);
    let keys: Vec<u64> = (0..17).collect();
    for rows in [&[][..], &[2], &[2, 5, 2, 5], &[9, 1, 2, 5], &keys[..]] {
        for edition in [0, 3, 4, u64::MAX] {
            let realms = RealmList { edition, default: 7, rows };
            assert_eq!(resolve(2, realms), Err(Refusal::BadEdition));
            let new = Registration { realms, ..bare((9, 0)) };
            assert_eq!(refused(&mut registry, &new), Refusal::BadEdition);
            let new = Registration { parent: Some(5), dependencies: &keys, ..new };
            assert_eq!(refused(&mut registry, &new), Refusal::BadEdition);
        }
        if rows.is_empty() {
            continue;
        }
        for edition in [1, 2] {
            let realms = RealmList { edition, default: 7, rows };
            assert_eq!(resolve(2, realms).unwrap_err(), Refusal::BadRealms);
            let new = Registration { realms, dependencies: &keys, ..bare((9, 0)) };
            assert_eq!(refused(&mut registry, &new), Refusal::BadRealms);
        }
    }
}

#[test]
fn a_list_comes_as_numbers_too() {
    for numbers in [&[][..], &[1], &[2], &[3]] {
        assert_eq!(RealmList::from_numbers(numbers).err(), Some(Refusal::BadEdition));
    }
    let port = |key, numbers| resolve(key, RealmList::from_numbers(numbers)?);
    assert_eq!(port(3, &[2, 7]), Ok(Port::new(3, 7)));
    assert_eq!(port(3, &[2, 7, 2, 5]), Ok(Port::new(3, 7)));
    assert_eq!(port(2, &[2, 7, 2, 5]), Ok(Port::new(2, 5)));
    assert_eq!(port(2, &[2, 7, 2]), Err(Refusal::BadRealms));
    assert_eq!(port(2, &[3, 7, 2]), Err(Refusal::BadEdition));
    assert_eq!(port(3, &[1, 7, 2, 5]), Ok(Port::new(3, 0)));
}

#[test]
fn a_plugin_keeps_its_edition_and_default() {
    let mut registry = Registry::open(7, 0);
    let lists = [
        (RealmList { edition: 1, default: 7, rows: &[2, 5] }, Edition::First),
        (RealmList::first(&[]), Edition::First),
        (ROWS, SEVEN),
        (RealmList::second(0, &[]), Edition::Second { default: 0 }),
        (RealmList::second(u64::MAX, &[]), Edition::Second { default: u64::MAX }),
    ];
    for (id, (realms, edition)) in (0..).zip(lists) {
        let new = Registration { realms, ..bare(anchor(id)) };
        assert_eq!(registry.register(&new), Ok(id));
        assert_eq!(registry.edition(id), Ok(edition));
    }
    assert_eq!(registry.edition(5), Err(Refusal::Unknown));
    // Only rows are listed.
    let mut buffer = [9; 6];
    assert_eq!(registry.realms(2, &mut buffer, 1), Ok(1));
    assert_eq!(buffer, [9, 2, 5, 9, 9, 9]);
    assert_eq!(registry.realms(4, &mut buffer, 6), Ok(0));
    // A place that is used again keeps nothing of them.
    registry.retire(2).unwrap();
    registry.remove(2).unwrap();
    assert_eq!(registry.edition(2), Err(Refusal::Unknown));
    assert_eq!(registry.register(&bare(anchor(9))), Ok(5));
    assert_eq!(registry.edition(5), Ok(Edition::First));
}

/// What is inherited is resolved again by the child's own edition and rows.
#[test]
fn children_of_either_edition() {
    let of_child = |realms, declared: &[u64], provided: &[u64], anchor| {
        let (mut registry, id) = parent();
        let new = Registration { parent: Some(id), realms, ..bare(anchor) };
        let new = Registration { dependencies: declared, provisions: provided, ..new };
        let id = registry.register(&new).unwrap();
        // The rule is the same where the text is read back.
        kept(&Sheet::of(&registry));
        dependencies(&registry, id)
    };
    let second = RealmList::second;
    let far = (91, 0);
    let none = RealmList { edition: 1, default: 7, rows: &[] };
    assert_eq!(of_child(none, &[], &[], far), [(2, 5), (2, 0), (3, 7), (3, 0)]);
    assert_eq!(of_child(second(7, &[]), &[], &[], far), [(2, 5), (2, 7), (3, 7)]);
    assert_eq!(of_child(ROWS, &[], &[], far), [(2, 5), (3, 7)]);
    assert_eq!(of_child(second(5, &[]), &[], &[], far), [(2, 5), (3, 7), (3, 5)]);
    assert_eq!(of_child(second(0, &[3, 7]), &[], &[], far), [(2, 5), (2, 0), (3, 7)]);
    // Key 8 is declared, and (2,9) provided.
    let list = of_child(second(9, &[3, 4]), &[8], &[2], far);
    assert_eq!(list, [(8, 9), (2, 5), (3, 7), (3, 4)]);
    // A declared key comes first, and is not repeated.
    assert_eq!(of_child(second(7, &[]), &[3], &[], far), [(3, 7), (2, 5), (2, 7)]);
    // The anchor is the parent's port, or the key again by default.
    assert_eq!(of_child(second(9, &[]), &[], &[], (3, 7)), [(2, 5), (2, 9), (3, 9)]);
    assert_eq!(of_child(second(9, &[]), &[], &[], (3, 9)), [(2, 5), (2, 9), (3, 7)]);
    assert_eq!(of_child(second(9, &[]), &[3], &[], (3, 9)), [(3, 9), (2, 5), (2, 9), (3, 7)]);
}

/// E4 and E5 with a default in the row's place.
#[test]
fn a_child_in_edition_2_of_parents_in_edition_1() {
    let mut registry = Registry::open(7, 0);
    registry.register(&Registration { dependencies: &[4], ..bare((90, 0)) }).unwrap();
    let child = Registration { parent: Some(0), realms: RealmList::second(6, &[]), ..bare((4, 6)) };
    let child = registry.register(&child).unwrap();
    assert_eq!(dependencies(&registry, child), [(4, 0)]);

    let mut registry = Registry::open(7, 0);
    registry.register(&Registration { dependencies: &[2], ..bare((90, 0)) }).unwrap();
    for (id, default, list) in [
        (0, 7, &[(2, 0), (2, 7)][..]),
        (1, 5, &[(2, 0), (2, 5), (2, 7)]),
        (2, 7, &[(2, 0), (2, 7), (2, 5)]),
    ] {
        let realms = RealmList::second(default, &[]);
        let child = Registration { parent: Some(id), realms, ..bare(anchor(id)) };
        let child = registry.register(&child).unwrap();
        assert_eq!(dependencies(&registry, child), list);
    }
}

/// Provisions and what clashes with them.
#[test]
fn ports_by_default() {
    let mut registry = Registry::open(7, 0);
    let new = Registration { realms: ROWS, provisions: &[2, 3], ..bare((3, 7)) };
    assert_eq!(refused(&mut registry, &new), Refusal::DuplicateProvision);
    let provider = Registration { anchor: Port::new(3, 0), ..new };
    assert_eq!(registry.register(&provider), Ok(0));
    let mut buffer = [0; 4];
    assert_eq!(registry.provs(0, &mut buffer, 0), Ok(2));
    assert_eq!(buffer, [2, 5, 3, 7]);
    // The same port by a row, and as an anchor.
    let new = Registration { provisions: &[3], ..bare(anchor(1)) };
    let by_row = Registration { realms: RealmList::first(&[3, 7]), ..new };
    assert_eq!(refused(&mut registry, &by_row), Refusal::Taken);
    assert_eq!(refused(&mut registry, &bare((3, 7))), Refusal::Taken);
    // (3,0) is the provider's anchor.
    assert_eq!(refused(&mut registry, &new), Refusal::Taken);
    let elsewhere = Registration { realms: RealmList::second(8, &[]), ..new };
    assert_eq!(registry.register(&elsewhere), Ok(1));
    // A reader in edition 1 finds it by a row, and one in edition 2 by default.
    let reader = Registration { dependencies: &[3], ..bare(anchor(2)) };
    let by_row = Registration { realms: RealmList::first(&[3, 7]), ..reader };
    assert_eq!(registry.register(&by_row), Ok(2));
    let by_default =
        Registration { realms: RealmList::second(7, &[]), anchor: Port::new(8, 8), ..reader };
    assert_eq!(registry.register(&by_default), Ok(3));
    assert_eq!(registry.begin(3), Err(Refusal::Unavailable));
    activate(&mut registry, 0);
    for reader in [2, 3] {
        registry.begin(reader).unwrap();
        assert_eq!(registry.read(reader, Port::new(3, 7)), Ok((101, 0)));
        assert_eq!(registry.read(reader, Port::new(3, 0)), Err(Refusal::Undeclared));
        assert_eq!(registry.lookup(reader, 3), Ok(Some(Port::new(3, 7))));
    }
    assert_eq!(registry.visible(Port::new(3, 7)), Some(101));
    assert_eq!(registry.unload(0), Err(Refusal::InUse));
}

/// The lines behind the anchor, and a child of another edition read back.
#[test]
fn the_text() {
    let (mut registry, id) = parent();
    let realms = RealmList { edition: 1, default: 7, rows: &[3, 1] };
    let child = Registration { parent: Some(id), realms, provisions: &[3], ..bare((9, 0)) };
    registry.register(&child).unwrap();
    let block = |id, parent, rest| {
        format!(
            "id={id} parent={parent} phase=0 retired=0 generation=0 revision=0 payload=0 root=0 queued=none {rest} "
        )
    };
    let wanted = [
        "domain=7 first=0 next=2 plugins=2 ".to_string(),
        block(
            0,
            "none",
            "anchor=90,0 edition=2 default=7 realms=1 realm=2,5 deps=2 dep=2,5 dep=3,7 provs=0",
        ),
        block(
            1,
            "0",
            "anchor=9,0 edition=1 default=0 realms=1 realm=3,1 deps=3 dep=2,5 dep=2,0 dep=3,7 provs=1 prov=3,1,none",
        ),
    ];
    let wanted = wanted.concat().replace(' ', "\n");
    assert_eq!(text_of(&registry), wanted);
    let loaded = load(&wanted).unwrap();
    assert_eq!(text_of(&loaded), wanted.replace("domain=7", "domain=8"));
    assert_eq!((loaded.edition(0), loaded.edition(1)), (Ok(SEVEN), Ok(Edition::First)));
    // (2,7) would be by the parent's edition, and (2,0) is what it needs.
    for (from, to) in [
        ("dep=2,5\ndep=2,0\n", "dep=2,5\ndep=2,7\n"),
        ("deps=3\ndep=2,5\ndep=2,0\n", "deps=2\ndep=2,5\n"),
        ("edition=1\ndefault=0\n", "edition=2\ndefault=7\n"),
        ("edition=2\ndefault=7\n", "edition=1\ndefault=0\n"),
        ("edition=2\ndefault=7\n", "edition=2\ndefault=8\n"),
    ] {
        assert!(wanted.contains(from));
        assert_eq!(load(wanted.replace(from, to)).err(), Some(Refusal::BadText), "{to:?}");
    }
    // Edition 2 with default 0 says the same as edition 1, and is told as it is.
    let same = wanted.replace("edition=1\ndefault=0\n", "edition=2\ndefault=0\n");
    let loaded = load(&same).unwrap();
    assert_eq!(loaded.edition(1), Ok(Edition::Second { default: 0 }));
    assert_eq!(text_of(&loaded), same.replace("domain=7", "domain=8"));
}
