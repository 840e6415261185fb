//! The boundaries that the document names, on both sides.

mod common;

use common::{activate, anchor, bare, dependencies, heirs, refused};
use plain::{
    Child, ChildSlot, Decision, Port, RealmList, Refusal, Registration, Registry, resolve,
};

#[test]
fn keys_16_and_17() {
    let mut registry = Registry::open(0, 0);
    let keys: Vec<u64> = (0..17).collect();
    let new = Registration { dependencies: &keys, ..bare(anchor(0)) };
    assert_eq!(refused(&mut registry, &new), Refusal::TooManyKeys);
    let new = Registration { dependencies: &keys[..16], ..bare(anchor(0)) };
    assert_eq!(registry.register(&new), Ok(0));
}

#[test]
fn provisions_15_and_16() {
    let mut registry = Registry::open(0, 0);
    let keys: Vec<u64> = (0..16).collect();
    let new = Registration { provisions: &keys, ..bare(anchor(0)) };
    assert_eq!(refused(&mut registry, &new), Refusal::TooManyKeys);
    let new = Registration { provisions: &keys[..15], ..bare(anchor(0)) };
    let id = registry.register(&new).unwrap();
    activate(&mut registry, id);
    assert_eq!(registry.visible(Port::new(14, 0)), Some(114));
    assert_eq!(registry.rows(), 16);
}

#[test]
fn realm_rows_16_and_17() {
    let realms: Vec<u64> = (0..17).flat_map(|key| [key, key + 1]).collect();
    for edition in [1, 2] {
        let list = |rows| RealmList { edition, default: 3, rows };
        assert_eq!(resolve(15, list(&realms[..32])), Ok(Port::new(15, 16)));
        assert_eq!(resolve(15, list(&realms)), Err(Refusal::BadRealms));
    }
}

#[test]
fn dependencies_48_and_49() {
    let mut registry = Registry::open(0, 0);
    let parent = heirs(&mut registry);
    let list = dependencies(&registry, parent);
    assert_eq!(list.len(), 48);
    // Each inherited port is followed by its key in the newest realm.
    assert_eq!(list[..6], [(1, 0), (1, 2), (1, 1), (2, 0), (2, 2), (2, 1)]);
    let new = Registration { parent: Some(parent), ..bare(anchor(3)) };
    let longer = Registration { dependencies: &[99], ..new };
    assert_eq!(refused(&mut registry, &longer), Refusal::TooLong);
    assert_eq!(registry.register(&new), Ok(3));
    // What the plugin provides is not inherited, so one more has room.
    let provider = Registration { dependencies: &[99], provisions: &[1], ..bare(anchor(4)) };
    let provider = Registration { parent: Some(parent), ..provider };
    let id = registry.register(&provider).unwrap();
    assert_eq!(dependencies(&registry, id).len(), 48);
}

#[test]
fn the_last_id() {
    let mut registry = Registry::open(0, u64::MAX - 1);
    assert_eq!(registry.register(&bare(anchor(0))), Ok(u64::MAX - 1));
    assert_eq!(refused(&mut registry, &bare(anchor(1))), Refusal::NoId);
    // A taken port is told first.
    assert_eq!(refused(&mut registry, &bare(anchor(0))), Refusal::Taken);
    let never = Child { domain: 0, parent: 0, id: u64::MAX };
    assert_eq!(registry.retire_child(never), Err(Refusal::Unknown));
}

#[test]
fn no_id_at_all() {
    let mut registry = Registry::open(0, u64::MAX);
    assert_eq!(refused(&mut registry, &bare(anchor(0))), Refusal::NoId);
    assert_eq!(registry.next(), u64::MAX);
}

#[test]
fn rows_1024_and_1025() {
    let mut registry = Registry::open(0, 0);
    let parent = heirs(&mut registry);
    let heir = |n| Registration { parent: Some(parent), ..bare(anchor(n)) };
    while registry.rows() + 49 <= 1024 {
        let n = registry.next();
        registry.register(&heir(n)).unwrap();
    }
    let n = registry.next();
    assert_eq!(refused(&mut registry, &heir(n)), Refusal::NoRows);
    // 17 + 33 + 19 * 49 = 981 rows are in use; 32 and then 11 fill the rest.
    assert_eq!(registry.rows(), 981);
    let keys: Vec<u64> = (0..16).collect();
    let provisions: Vec<u64> = (200..215).collect();
    let new = Registration { dependencies: &keys, provisions: &provisions, ..bare(anchor(100)) };
    registry.register(&new).unwrap();
    let one_too_many = Registration { dependencies: &keys[..11], ..bare(anchor(101)) };
    assert_eq!(refused(&mut registry, &one_too_many), Refusal::NoRows);
    let exact = Registration { dependencies: &keys[..10], ..bare(anchor(101)) };
    let last = registry.register(&exact).unwrap();
    assert_eq!(registry.rows(), 1024);
    assert_eq!(refused(&mut registry, &bare(anchor(102))), Refusal::NoRows);
    registry.retire(last).unwrap();
    registry.remove(last).unwrap();
    assert_eq!(registry.rows(), 1013);
    assert_eq!(registry.register(&exact), Ok(last + 1));
}

#[test]
fn plugins_32_and_33() {
    let mut registry = Registry::open(0, 0);
    for n in 0..32 {
        assert_eq!(registry.register(&bare(anchor(n))), Ok(n));
    }
    assert_eq!(refused(&mut registry, &bare(anchor(32))), Refusal::Full);
    assert_eq!(refused(&mut registry, &bare(anchor(5))), Refusal::Taken);
    registry.retire(5).unwrap();
    registry.remove(5).unwrap();
    assert_eq!(registry.register(&bare(anchor(5))), Ok(32));
    assert_eq!(registry.count(), 32);
    assert_eq!(registry.show(5), Err(Refusal::Unknown));
}

#[test]
fn a_removed_child_retires_with_no_change() {
    let mut registry = Registry::open(4, 10);
    let parent = registry.register(&bare(anchor(0))).unwrap();
    let new = Registration { parent: Some(parent), ..bare(anchor(1)) };
    let id = registry.register(&new).unwrap();
    let child = registry.child(id).unwrap().unwrap();
    assert_eq!(child, Child { domain: 4, parent, id });
    assert_eq!(registry.child(parent), Ok(None));
    assert_eq!(registry.retire_child(Child { parent: id, ..child }), Err(Refusal::InvalidState));
    registry.retire_child(child).unwrap();
    assert_eq!(registry.retire_child(child), Err(Refusal::Retired));
    registry.retire(parent).unwrap();
    assert_eq!(registry.remove(parent), Err(Refusal::HasChildren));
    registry.remove(id).unwrap();
    for parent in [parent, 0, 99] {
        assert_eq!(registry.retire_child(Child { parent, ..child }), Ok(()));
    }
    assert_eq!((registry.count(), registry.next(), registry.rows()), (1, 12, 1));
    let domain = Child { domain: 5, ..child };
    assert_eq!(registry.retire_child(domain), Err(Refusal::InvalidState));
    for id in [9, 12] {
        assert_eq!(registry.retire_child(Child { id, ..child }), Err(Refusal::Unknown));
    }
}

#[test]
fn lists_at_the_buffer_s_end() {
    let mut registry = Registry::open(0, 0);
    let empty = registry.register(&bare(anchor(0))).unwrap();
    let new =
        Registration { realms: RealmList::first(&[2, 5]), provisions: &[2], ..bare(anchor(1)) };
    let one = registry.register(&new).unwrap();
    let mut buffer = [7; 4];
    assert_eq!(registry.deps(empty, &mut buffer, 4), Ok(0));
    assert_eq!(registry.deps(empty, &mut buffer, 5), Err(Refusal::ShortBuffer));
    assert_eq!(registry.provs(one, &mut buffer, 3), Err(Refusal::ShortBuffer));
    assert_eq!(registry.provs(one, &mut buffer, u64::MAX), Err(Refusal::ShortBuffer));
    assert_eq!(registry.provs(99, &mut buffer, 5), Err(Refusal::Unknown));
    assert_eq!(buffer, [7; 4]);
    assert_eq!(registry.provs(one, &mut buffer, 1), Ok(1));
    assert_eq!(buffer, [7, 2, 5, 7]);
    assert_eq!(registry.realms(one, &mut buffer, 2), Ok(1));
    assert_eq!(buffer, [7, 2, 2, 5]);
}

#[test]
fn a_slot_is_decided_once() {
    let child = Child { domain: 1, parent: 2, id: 3 };
    let pending = ChildSlot::pending(1, 2, 9);
    assert_eq!(pending.assign(Child { domain: 0, ..child }), Err(Refusal::InvalidState));
    assert_eq!(pending.assign(Child { parent: 0, ..child }), Err(Refusal::InvalidState));
    let assigned = pending.assign(child).unwrap();
    assert_eq!(assigned.generation, Some(9));
    assert_eq!(assigned.decision, Decision::Assigned(child));
    for decided in [assigned, pending.reject().unwrap(), pending.cancel().unwrap()] {
        assert_eq!(decided.assign(child), Err(Refusal::InvalidState));
        assert_eq!(decided.reject(), Err(Refusal::InvalidState));
        assert_eq!(decided.cancel(), Err(Refusal::InvalidState));
    }
    let made = ChildSlot::assigned(child);
    assert_eq!((made.domain, made.parent, made.generation), (1, 2, None));
}
