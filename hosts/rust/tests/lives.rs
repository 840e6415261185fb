//! What operations answer and leave, where they are accepted.

mod common;

use common::{activate, bare, refused};
use vaskelbi::{
    Definition, Edition, Identity, Invocation, Phase, Port, Reading, RealmList, Refusal, Registry,
    Root, Ticket,
};

#[test]
fn a_fresh_registry() {
    let mut registry = Box::new(Registry::open(7, 40));
    assert_eq!((registry.domain(), registry.first_id(), registry.next_id()), (7, 40, 40));
    assert_eq!((registry.count(), registry.rows()), (0, 0));
    assert_eq!(registry.ids().next(), None);
    assert_eq!(
        format!("{registry:?}"),
        "Registry { domain: 7, first_id: 40, next_id: 40, count: 0, rows: 0, .. }"
    );
    registry.register(&bare(0)).unwrap();
    registry.reopen(8, 50);
    assert_eq!((registry.domain(), registry.first_id(), registry.next_id()), (8, 50, 50));
    assert_eq!((registry.count(), registry.rows()), (0, 0));
}

#[test]
fn a_life() {
    let mut registry = Box::new(Registry::open(7, 40));
    let r = &mut registry;
    let new = Definition {
        realms: RealmList::first(&[(2, 5)]),
        provisions: &[2, 3],
        ..Definition::new(Port::new(90, 6), 501)
    };
    let id = r.register(&new).unwrap();
    assert_eq!((id, r.next_id(), r.count(), r.rows()), (40, 41, 1, 3));
    assert_eq!((r.parent(id), r.anchor(id)), (Ok(None), Ok(Port::new(90, 6))));
    assert_eq!(r.edition(id), Ok(Edition::First));
    assert_eq!((r.phase(id), r.retired(id)), (Ok(Phase::Idle), Ok(false)));
    assert_eq!((r.generation(id), r.revision(id), r.payload(id)), (Ok(0), Ok(0), Ok(501)));
    assert_eq!(r.root(id), Ok(Root::Unissued));
    assert_eq!(r.fits(id, u64::MAX), Ok(true));

    let ticket = r.begin(id).unwrap();
    assert_eq!(ticket, Ticket { domain: 7, id, generation: 1, kind: Ticket::SETUP });
    assert_eq!((r.phase(id), r.generation(id), r.revision(id)), (Ok(Phase::Loading), Ok(1), Ok(0)));
    assert!(r.admits(ticket));
    assert!(!r.admits(Ticket { kind: 2, ..ticket }));
    assert_eq!(r.replace(id, 502), Ok(501));
    let invocation = r.admit(ticket, 600).unwrap();
    let expected = Invocation { domain: 7, id, generation: 1, revision: 1, argument: 600 };
    assert_eq!(invocation, expected);
    assert!(!r.admits(ticket));
    assert_eq!(r.root(id), Ok(Root::Queued { revision: 1, argument: 600 }));
    let stale = Invocation { argument: 601, ..invocation };
    assert_eq!(refused(r, |r| r.call(stale)), Refusal::Stale);
    assert_eq!(r.call(invocation).unwrap().payload, 502);
    assert_eq!(r.root(id), Ok(Root::Spent));

    let (first, second) = (Port::new(2, 5), Port::new(3, 0));
    assert_eq!(r.missing(id), Ok(Some(first)));
    r.offer(id, first, 700).unwrap();
    assert_eq!(r.missing(id), Ok(Some(second)));
    assert_eq!((r.own(id, first), r.own(id, second)), (Ok(Some(700)), Ok(None)));
    assert_eq!(refused(r, |r| r.ready(id)), Refusal::Missing);
    r.offer(id, second, 701).unwrap();
    assert_eq!(r.missing(id), Ok(None));
    assert_eq!(r.visible(first), None);
    r.ready(id).unwrap();
    assert_eq!(r.phase(id), Ok(Phase::Active));
    assert_eq!((r.visible(first), r.visible(second)), (Some(700), Some(701)));
    assert_eq!(r.matches(id, &[2, 5, 3, 0]), Ok(true));
    assert_eq!(r.matches(id, &[3, 0, 2, 5]), Ok(false));
    assert_eq!(r.matches(id, &[2, 5, 3]), Ok(false));
    assert_eq!(r.declares(id, first), Ok(true));
    assert_eq!(r.declares(id, Port::new(90, 6)), Ok(false));

    r.unload(id).unwrap();
    assert_eq!(r.phase(id), Ok(Phase::Unloading));
    assert_eq!((r.visible(first), r.own(id, first)), (None, Ok(Some(700))));
    r.finish(id).unwrap();
    assert_eq!((r.phase(id), r.own(id, first)), (Ok(Phase::Idle), Ok(None)));
    assert_eq!(r.root(id), Ok(Root::Unissued));
    r.retire(id).unwrap();
    assert_eq!(r.retired(id), Ok(true));
    r.remove(id).unwrap();
    assert_eq!((r.count(), r.rows(), r.next_id()), (0, 0, 41));
}

#[test]
fn a_read_sees_the_live_provider() {
    let mut registry = Box::new(Registry::open(7, 0));
    let provider = registry.register(&Definition { provisions: &[2], ..bare(0) }).unwrap();
    let reader = registry.register(&Definition { dependencies: &[2], ..bare(1) }).unwrap();
    let port = Port::in_default_realm(2);
    assert_eq!(refused(&mut registry, |r| r.begin(reader)), Refusal::Unavailable);
    activate(&mut registry, provider);
    assert_eq!(registry.declares(reader, port), Ok(false));
    activate(&mut registry, reader);
    assert_eq!(registry.read(reader, port), Ok(Reading { value: 100, provider }));
    assert_eq!(registry.declares(reader, port), Ok(true));
    assert_eq!(refused(&mut registry, |r| r.unload(provider)), Refusal::InUse);
    registry.unload(reader).unwrap();
    registry.unload(provider).unwrap();
}

#[test]
fn a_removed_child_retires_with_no_change() {
    let mut registry = Box::new(Registry::open(4, 10));
    let parent = registry.register(&bare(0)).unwrap();
    let id = registry.register(&Definition { parent: Some(parent), ..bare(1) }).unwrap();
    let child = Identity { domain: 4, parent, id };
    assert_eq!((registry.child(id), registry.child(parent)), (Ok(Some(child)), Ok(None)));
    assert_eq!(registry.parent(id), Ok(Some(parent)));
    registry.retire_child(child).unwrap();
    assert_eq!(refused(&mut registry, |r| r.retire_child(child)), Refusal::Retired);
    registry.remove(id).unwrap();
    let before = *registry.words();
    for parent in [parent, 0, 99] {
        assert_eq!(registry.retire_child(Identity { parent, ..child }), Ok(()));
    }
    assert!(*registry.words() == before);
}

#[test]
fn ids_rise() {
    let mut registry = Box::new(Registry::open(0, 0));
    for n in 0..32 {
        assert_eq!(registry.register(&bare(n)), Ok(n));
    }
    assert!(registry.ids().eq(0..32));
    for id in [0, 7, 31] {
        registry.retire(id).unwrap();
        registry.remove(id).unwrap();
    }
    assert!(registry.ids().eq((1..31).filter(|&id| id != 7)));
    // The next plugin takes the lowest free place, and is still the last by its id.
    assert_eq!(registry.register(&bare(32)), Ok(32));
    assert_eq!(registry.ids().last(), Some(32));
    assert_eq!(registry.id_from(0), Some(1));
    assert_eq!(registry.id_from(30), Some(30));
    assert_eq!(registry.id_from(31), Some(32));
    assert_eq!(registry.id_from(33), None);

    registry.reopen(0, u64::MAX - 2);
    assert_eq!(registry.register(&bare(0)), Ok(u64::MAX - 2));
    assert_eq!(registry.register(&bare(1)), Ok(u64::MAX - 1));
    assert_eq!(refused(&mut registry, |r| r.register(&bare(2))), Refusal::NoId);
    assert!(registry.ids().eq([u64::MAX - 2, u64::MAX - 1]));
    assert_eq!(registry.id_from(u64::MAX - 1), Some(u64::MAX - 1));
    assert_eq!(registry.id_from(u64::MAX), None);
}
