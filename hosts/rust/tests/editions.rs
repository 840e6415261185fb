//! The two editions of the realm rule: a key without a row gets realm 0 in edition 1, and in edition 2 the list's default realm.

mod common;

use common::{activate, bare, dependencies, refused};
use vaskelbi::{Definition, Edition, Port, Reading, RealmList, Refusal, Registry, resolve};

const SECOND: RealmList = RealmList::second(8, &[(2, 5)]);

/// Edition 1 with a default, which is ignored.
const FIRST_WITH_8: [u64; 4] = [1, 8, 2, 5];

fn provisions(registry: &Registry, id: u64) -> Vec<(u64, u64)> {
    let mut buffer = [0; 96];
    let count = registry.list_provisions(id, 0, &mut buffer).unwrap();
    Port::pairs(&buffer[..2 * count]).map(|port| (port.key, port.realm)).collect()
}

#[test]
fn a_realm_list_is_its_numbers() {
    assert_eq!(SECOND.numbers(), [2, 8, 2, 5]);
    assert_eq!(RealmList::first(&[(2, 5), (9, 1)]).numbers(), [1, 0, 2, 5, 9, 1]);
    assert_eq!(RealmList::first(&[]).numbers(), [1, 0]);
    assert_eq!(RealmList::from_numbers(&[2, 8, 2, 5]), SECOND);
    assert_eq!(RealmList::new(Edition::Second { default: 8 }, &[(2, 5)]), SECOND);
    assert_ne!(RealmList::second(8, &[]), RealmList::second(8, &[(0, 0)]));
    assert_eq!(RealmList::from_numbers(&[]).numbers(), []);
    assert_eq!(RealmList::from_numbers(&FIRST_WITH_8).numbers(), FIRST_WITH_8);
    assert_eq!(format!("{SECOND:?}"), "RealmList([2, 8, 2, 5])");
    let editions = [Edition::First, Edition::Second { default: 8 }];
    assert_eq!(editions.map(Edition::number), [1, 2]);
    assert_eq!(editions.map(Edition::default_realm), [0, 8]);
}

#[test]
fn a_key_without_a_row_gets_the_realm_of_the_edition() {
    for (realms, other) in [
        (RealmList::first(&[(2, 5)]), 0),
        (RealmList::from_numbers(&FIRST_WITH_8), 0),
        (SECOND, 8),
        (RealmList::second(0, &[(2, 5)]), 0),
        (RealmList::second(u64::MAX, &[(2, 5)]), u64::MAX),
    ] {
        assert_eq!(resolve(&realms, 2), Ok(Port::new(2, 5)), "{realms:?}");
        for key in [0, 1, 3, 8, u64::MAX] {
            assert_eq!(resolve(&realms, key), Ok(Port::new(key, other)), "{realms:?}");
        }
    }
    let rows: Vec<(u64, u64)> = (0..16).map(|n| (2 * n, 100 + n)).collect();
    let longest = RealmList::second(8, &rows);
    for (key, realm) in rows {
        assert_eq!(resolve(&longest, key), Ok(Port::new(key, realm)));
        assert_eq!(resolve(&longest, key + 1), Ok(Port::new(key + 1, 8)));
    }
}

/// A list of before, key, realm, key, realm, is read as edition, default, key, realm.
#[test]
fn numbers_without_an_edition_mean_another_list() {
    let realms = RealmList::from_numbers(&[2, 5, 9, 1]);
    assert_eq!(realms, RealmList::second(5, &[(9, 1)]));
    assert_eq!(resolve(&realms, 3), Ok(Port::new(3, 5)));
}

/// What resolving refuses a list with, and a registration of which all else is wrong too.
fn refusal(realms: RealmList) -> Refusal {
    let mut registry = Box::new(Registry::open(7, 0));
    let refusal = resolve(&realms, 2).unwrap_err();
    for parent in [None, Some(3)] {
        let new =
            Definition { parent, realms, dependencies: &[8; 17], provisions: &[8, 8], ..bare(0) };
        assert_eq!(refused(&mut registry, |r| r.register(&new)), refusal, "{realms:?}");
    }
    refusal
}

#[test]
fn another_edition_is_refused_before_bad_rows() {
    for numbers in [
        &[][..],
        &[1],
        &[2],
        &[3],
        &[0, 0],
        &[3, 8],
        &[u64::MAX, 0],
        &[1 << 32 | 1, 0],
        &[3, 0, 9],
        &[0, 0, 9, 1, 2, 5],
        &[9, 1, 2, 5],
    ] {
        assert_eq!(refusal(RealmList::from_numbers(numbers)), Refusal::BadEdition, "{numbers:?}");
    }
    for numbers in [
        &[1, 0, 2][..],
        &[2, 8, 2],
        &[1, 0, 2, 5, 9],
        &[1, 0, 2, 5, 2, 1],
        &[2, 8, 2, 5, 2, 1],
        &[1, 0, 9, 1, 2, 5],
        &[2, 8, 9, 1, 2, 5],
    ] {
        assert_eq!(refusal(RealmList::from_numbers(numbers)), Refusal::BadRealms, "{numbers:?}");
    }
}

#[test]
fn a_list_that_is_too_long_is_refused_as_it_would_be_whole() {
    for rows in [17, 18, 40] {
        let rows: Vec<(u64, u64)> = (0..rows).map(|n| (n, n)).collect();
        assert_eq!(refusal(RealmList::first(&rows)), Refusal::BadRealms);
        assert_eq!(refusal(RealmList::second(8, &rows)), Refusal::BadRealms);
    }
    for length in [35, 36, 37, 38, 100] {
        for (edition, expected) in [
            (0, Refusal::BadEdition),
            (1, Refusal::BadRealms),
            (2, Refusal::BadRealms),
            (3, Refusal::BadEdition),
        ] {
            let numbers: Vec<u64> = [edition].into_iter().chain(1..length).collect();
            assert_eq!(refusal(RealmList::from_numbers(&numbers)), expected, "{length} numbers");
        }
    }
}

#[test]
fn dependencies_and_provisions_get_the_realm_of_the_edition() {
    for (realms, edition, other) in [
        (SECOND, Edition::Second { default: 8 }, 8),
        (RealmList::second(0, &[(2, 5)]), Edition::Second { default: 0 }, 0),
        (RealmList::first(&[(2, 5)]), Edition::First, 0),
        (RealmList::from_numbers(&FIRST_WITH_8), Edition::First, 0),
    ] {
        let mut registry = Box::new(Registry::open(7, 0));
        let new = Definition { realms, dependencies: &[4, 2], provisions: &[6, 2, 7], ..bare(0) };
        let id = registry.register(&new).unwrap();
        assert_eq!(registry.edition(id), Ok(edition));
        assert_eq!(dependencies(&registry, id), [(4, other), (2, 5)]);
        assert_eq!(provisions(&registry, id), [(6, other), (2, 5), (7, other)]);
        assert_eq!(registry.matches(id, &[6, other, 2, 5, 7, other]), Ok(true));
        assert_eq!(registry.lookup(id, 4), Ok(Some(Port::new(4, other))));
        // The rows alone are listed.
        let mut buffer = [9; 4];
        assert_eq!(registry.list_realms(id, 1, &mut buffer), Ok(1));
        assert_eq!(buffer, [9, 2, 5, 9]);
    }
}

/// Each port of the parent's is inherited as it is, and then its key is resolved by the child's own list.
#[test]
fn a_child_resolves_again_by_its_own_edition() {
    let mut registry = Box::new(Registry::open(7, 0));
    let r = &mut registry;
    let parent =
        r.register(&Definition { realms: SECOND, dependencies: &[2, 4], ..bare(0) }).unwrap();
    assert_eq!(dependencies(r, parent), [(2, 5), (4, 8)]);
    let parent = Some(parent);

    // Key 4 resolves to (4,0), its own provision. By the parent's edition it would be (4,8).
    let realms = RealmList::first(&[(2, 3)]);
    let first = r.register(&Definition { parent, realms, provisions: &[4], ..bare(1) }).unwrap();
    assert_eq!(dependencies(r, first), [(2, 5), (2, 3), (4, 8)]);
    assert_eq!(provisions(r, first), [(4, 0)]);

    let first = r.register(&Definition { parent, ..bare(2) }).unwrap();
    assert_eq!(dependencies(r, first), [(2, 5), (2, 0), (4, 8), (4, 0)]);

    let realms = RealmList::second(1, &[]);
    let new = Definition { parent, realms, dependencies: &[7], provisions: &[4], ..bare(3) };
    let second = r.register(&new).unwrap();
    assert_eq!(dependencies(r, second), [(7, 1), (2, 5), (2, 1), (4, 8)]);
    assert_eq!(provisions(r, second), [(4, 1)]);

    let same = r.register(&Definition { parent, realms: SECOND, ..bare(4) }).unwrap();
    assert_eq!(dependencies(r, same), [(2, 5), (4, 8)]);

    // Its anchor is (4,8), an inherited port.
    let own = Definition { parent, realms: SECOND, ..Definition::new(Port::new(4, 8), 0) };
    let own = r.register(&own).unwrap();
    assert_eq!(dependencies(r, own), [(2, 5)]);

    let parent = r.register(&Definition { dependencies: &[2, 4], ..bare(5) }).unwrap();
    let realms = RealmList::second(8, &[(4, 0)]);
    let second = r.register(&Definition { parent: Some(parent), realms, ..bare(6) }).unwrap();
    assert_eq!(dependencies(r, second), [(2, 0), (2, 8), (4, 0)]);
    assert_eq!(r.edition(second), Ok(Edition::Second { default: 8 }));
    assert_eq!(r.edition(parent), Ok(Edition::First));
}

/// 7 and 8 look at ports, whichever edition gave them.
#[test]
fn ports_clash_across_editions() {
    let mut registry = Box::new(Registry::open(7, 0));
    let r = &mut registry;
    r.register(&Definition { realms: SECOND, provisions: &[6], ..bare(0) }).unwrap();
    let six = Definition { provisions: &[6], ..bare(1) };
    let taken = Definition { realms: RealmList::second(8, &[]), ..six };
    assert_eq!(refused(r, |r| r.register(&taken)), Refusal::Taken);
    let taken = Definition { realms: RealmList::first(&[(6, 8)]), ..six };
    assert_eq!(refused(r, |r| r.register(&taken)), Refusal::Taken);
    assert_eq!(r.register(&Definition { realms: RealmList::second(9, &[]), ..six }), Ok(1));
    assert_eq!(r.register(&Definition { provisions: &[6], ..bare(2) }), Ok(2));

    let anchored = Definition { provisions: &[11], ..Definition::new(Port::new(11, 8), 0) };
    let twice = Definition { realms: SECOND, ..anchored };
    assert_eq!(refused(r, |r| r.register(&twice)), Refusal::DuplicateProvision);
    assert_eq!(r.register(&anchored), Ok(3));
}

#[test]
fn a_value_is_read_in_the_default_realm() {
    let mut registry = Box::new(Registry::open(7, 0));
    let r = &mut registry;
    let provider = r.register(&Definition { realms: SECOND, provisions: &[6], ..bare(0) }).unwrap();
    let new = Definition { dependencies: &[6], ..bare(1) };
    let reader = r.register(&Definition { realms: RealmList::second(8, &[]), ..new }).unwrap();
    let stranger = r.register(&Definition { dependencies: &[6], ..bare(2) }).unwrap();
    activate(r, provider);
    activate(r, reader);
    let port = Port::new(6, 8);
    assert_eq!(r.read(reader, port), Ok(Reading { value: 100, provider }));
    assert_eq!((r.visible(port), r.visible(Port::in_default_realm(6))), (Some(100), None));
    assert_eq!(refused(r, |r| r.begin(stranger)), Refusal::Unavailable);
}

/// A plugin keeps its edition and default, and one that takes its place has its own.
#[test]
fn an_edition_is_the_plugin_s_own() {
    let mut registry = Box::new(Registry::open(7, 0));
    let r = &mut registry;
    let other = r.register(&Definition { realms: RealmList::second(4, &[]), ..bare(0) }).unwrap();
    for (realms, edition) in [
        (SECOND, Edition::Second { default: 8 }),
        (RealmList::from_numbers(&FIRST_WITH_8), Edition::First),
        (RealmList::second(u64::MAX, &[]), Edition::Second { default: u64::MAX }),
        (RealmList::first(&[]), Edition::First),
        (RealmList::second(0, &[]), Edition::Second { default: 0 }),
    ] {
        let id = r.register(&Definition { realms, provisions: &[3], ..bare(1) }).unwrap();
        assert_eq!(r.edition(id), Ok(edition));
        activate(r, id);
        r.replace(id, 9).unwrap();
        r.unload(id).unwrap();
        r.finish(id).unwrap();
        r.retire(id).unwrap();
        assert_eq!(r.edition(id), Ok(edition));
        assert_eq!(provisions(r, id), [(3, edition.default_realm())]);
        r.remove(id).unwrap();
        assert_eq!(r.edition(id), Err(Refusal::Unknown));
        assert_eq!(r.edition(other), Ok(Edition::Second { default: 4 }));
    }
}
