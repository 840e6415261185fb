//! All 27 refusals are reached, and leave every word as it was.

mod common;

use std::error::Error;

use common::{activate, admitted, bare, changed, heirs, refused, write};
use vaskelbi::{
    Definition, Identity, Invocation, Port, RealmList, Refusal, Refused, Registry, Slot, Ticket,
    resolve,
};

/// A registry of domain 7 with a parent 1, Active, that provides (2,0) at anchor (3,0), and its child 2, Idle, that depends on
/// both.
fn family() -> Box<Registry> {
    let mut registry = Box::new(Registry::open(7, 1));
    let parent = Definition { provisions: &[2], ..Definition::new(Port::in_default_realm(3), 40) };
    assert_eq!(registry.register(&parent), Ok(1));
    let child = Definition { parent: Some(1), dependencies: &[2, 3], ..bare(0) };
    assert_eq!(registry.register(&child), Ok(2));
    activate(&mut registry, 1);
    registry
}

const CHILD: Identity = Identity { domain: 7, parent: 1, id: 2 };
const PROVIDED: Port = Port::in_default_realm(2);
const ANCHOR: Port = Port::in_default_realm(3);

fn registering(registry: &mut Registry, new: Definition<'_>) -> Refusal {
    refused(registry, |r| r.register(&new))
}

/// One way to each refusal, in the order of the numbers.
const WAYS: [fn() -> Refusal; 27] = [
    || refused(&mut family(), |r| r.begin(3)),
    || {
        let mut registry = family();
        registry.retire(2).unwrap();
        refused(&mut registry, |r| r.begin(2))
    },
    || refused(&mut family(), |r| r.begin(1)),
    || {
        let realms = RealmList::first(&[(9, 1), (2, 5)]);
        registering(&mut family(), Definition { realms, ..bare(1) })
    },
    || registering(&mut family(), Definition { dependencies: &[0; 17], ..bare(1) }),
    || registering(&mut family(), Definition { dependencies: &[8, 8], ..bare(1) }),
    || registering(&mut family(), Definition { provisions: &[8, 8], ..bare(1) }),
    || registering(&mut family(), bare(0)),
    || registering(&mut Registry::open(7, u64::MAX), bare(0)),
    || {
        let mut registry = Registry::open(7, 0);
        for n in 0..32 {
            assert_eq!(registry.register(&bare(n)), Ok(n));
        }
        registering(&mut registry, bare(32))
    },
    || {
        let mut registry = Registry::open(7, 0);
        let parent = Some(heirs(&mut registry));
        registering(&mut registry, Definition { parent, dependencies: &[99], ..bare(3) })
    },
    || {
        let mut registry = Registry::open(7, 0);
        let parent = Some(heirs(&mut registry));
        let heir = |n| Definition { parent, ..bare(n) };
        while registry.rows() + 49 <= 1024 {
            registry.register(&heir(registry.next_id())).unwrap();
        }
        registering(&mut registry, heir(99))
    },
    || {
        let mut registry = family();
        let invocation = admitted(&mut registry, 2, 5);
        registry.replace(2, 41).unwrap();
        refused(&mut registry, |r| r.call(invocation))
    },
    || {
        let mut registry = family();
        registry.unload(1).unwrap();
        refused(&mut registry, |r| r.begin(2))
    },
    || {
        let mut registry = family();
        registry.begin(2).unwrap();
        refused(&mut registry, |r| r.unload(1))
    },
    || {
        let mut registry = family();
        let revision = changed(&mut registry, |r| assert_eq!(r.replace(1, 40), Ok(40)));
        write(&mut registry, revision, u64::MAX);
        let Refused { refusal, payload } = refused(&mut registry, |r| r.replace(1, 41));
        assert_eq!((payload, registry.payload(1)), (41, Ok(40)));
        refusal
    },
    || {
        let mut registry = family();
        registry.begin(2).unwrap();
        refused(&mut registry, |r| r.ready(2))
    },
    || {
        let mut registry = family();
        registry.retire(1).unwrap();
        registry.unload(1).unwrap();
        registry.finish(1).unwrap();
        refused(&mut registry, |r| r.remove(1))
    },
    || refused(&mut family(), |r| r.offer(1, PROVIDED, 9)),
    || {
        let mut registry = family();
        registry.begin(2).unwrap();
        refused(&mut registry, |r| r.offer(2, PROVIDED, 9))
    },
    || {
        let mut registry = family();
        let new = Definition { provisions: &[8], ..bare(1) };
        let id = registry.register(&new).unwrap();
        registry.begin(id).unwrap();
        registry.offer(id, Port::in_default_realm(8), 9).unwrap();
        refused(&mut registry, |r| r.offer(id, Port::in_default_realm(8), 9))
    },
    || {
        let mut registry = family();
        registry.begin(2).unwrap();
        refused(&mut registry, |r| r.read(2, ANCHOR))
    },
    || refused(&mut family(), |r| r.list_provisions(1, 0, &mut [0])),
    || refused(&mut family(), |r| r.reload(8, b"domain=7\nfirst=1\nnext=0\nplugins=0\n")),
    || refused(&mut family(), |r| r.reload(7, b"domain=7\nfirst=0\nnext=0\nplugins=0\n")),
    || {
        let realms = RealmList::from_numbers(&[3, 0]);
        registering(&mut family(), Definition { realms, ..bare(1) })
    },
    || refused(&mut family(), |r| r.plan_order(&[2, 2], &mut [0; 2])),
];

#[test]
fn every_number_is_reached() {
    for (refusal, way) in Refusal::ALL.into_iter().zip(WAYS) {
        assert_eq!(way(), refusal);
    }
}

#[test]
fn names_and_numbers() {
    for (n, refusal) in (1..).zip(Refusal::ALL) {
        assert_eq!(refusal.number(), n);
        assert_eq!(Refusal::from_number(n.into()), Some(refusal));
        assert!(!refusal.to_string().is_empty());
    }
    assert_eq!(Refusal::from_number(0), None);
    assert_eq!(Refusal::from_number(28), None);
    assert_eq!(Refusal::from_number(u64::MAX), None);
    assert_eq!(Refusal::Stale.to_string(), "ticket or invocation is not the live one");
    let refused = Refused { refusal: Refusal::Unknown, payload: 9 };
    assert_eq!(refused.to_string(), "payload 9 not stored: id not registered or never issued");
    assert_eq!(refused.source().unwrap().to_string(), Refusal::Unknown.to_string());
}

/// Each operation on an id that is not registered.
#[test]
fn nobody_is_known_by_another_id() {
    let mut registry = family();
    let r = &mut registry;
    let unknown = Err(Refusal::Unknown);
    let mut buffer = [9; 4];
    assert_eq!(r.register(&Definition { parent: Some(3), ..bare(1) }), unknown);
    assert_eq!(r.begin(3).map(drop), unknown.map(drop));
    assert_eq!(r.ready(3), unknown.map(drop));
    assert_eq!(r.fail(3), unknown.map(drop));
    assert_eq!(r.unload(3), unknown.map(drop));
    assert_eq!(r.finish(3), unknown.map(drop));
    assert_eq!(r.replace(3, 9), Err(Refused { refusal: Refusal::Unknown, payload: 9 }));
    assert_eq!(r.fits(3, 0), Err(Refusal::Unknown));
    let ticket = Ticket { domain: 7, id: 3, generation: 1, kind: Ticket::SETUP };
    assert_eq!(r.admit(ticket, 5), Err(Refusal::Unknown));
    assert!(!r.admits(ticket));
    let invocation = Invocation { domain: 7, id: 3, generation: 1, revision: 0, argument: 5 };
    assert_eq!(r.call(invocation), Err(Refusal::Unknown));
    assert_eq!(r.retire(3), unknown.map(drop));
    assert_eq!(r.retire_child(Identity { id: 3, ..CHILD }), unknown.map(drop));
    assert_eq!(r.child(3), Err(Refusal::Unknown));
    assert_eq!(r.remove(3), unknown.map(drop));
    assert_eq!(r.offer(3, PROVIDED, 9), unknown.map(drop));
    assert_eq!(r.read(3, PROVIDED), Err(Refusal::Unknown));
    assert_eq!(r.own(3, PROVIDED), Err(Refusal::Unknown));
    assert_eq!(r.missing(3), Err(Refusal::Unknown));
    assert_eq!(r.matches(3, &[]), Err(Refusal::Unknown));
    assert_eq!(r.declares(3, PROVIDED), Err(Refusal::Unknown));
    assert_eq!(r.lookup(3, 2), Err(Refusal::Unknown));
    assert_eq!(r.list_dependencies(3, 0, &mut buffer), Err(Refusal::Unknown));
    assert_eq!(r.list_provisions(3, 0, &mut buffer), Err(Refusal::Unknown));
    assert_eq!(r.list_realms(3, 0, &mut buffer), Err(Refusal::Unknown));
    assert_eq!(r.plan_order(&[3], &mut buffer), Err(Refusal::Unknown));
    assert_eq!(r.check_order(&[3], &[3]), Err(Refusal::Unknown));
    assert_eq!(buffer, [9; 4]);
    assert_eq!(r.parent(3), Err(Refusal::Unknown));
    assert_eq!(r.anchor(3), Err(Refusal::Unknown));
    assert_eq!(r.edition(3), Err(Refusal::Unknown));
    assert_eq!(r.phase(3), Err(Refusal::Unknown));
    assert_eq!(r.retired(3), Err(Refusal::Unknown));
    assert_eq!(r.generation(3), unknown);
    assert_eq!(r.revision(3), unknown);
    assert_eq!(r.payload(3), unknown);
    assert_eq!(r.root(3), Err(Refusal::Unknown));
    assert!(*r.words() == *family().words());
}

/// The checks in their order: where two hold, the earlier answers.
#[test]
fn the_earlier_check_answers() {
    let mut registry = family();
    let r = &mut registry;
    let foreign = Ticket { domain: 8, id: 3, generation: 1, kind: Ticket::SETUP };
    assert_eq!(refused(r, |r| r.admit(foreign, 5)), Refusal::InvalidState);
    let stranger = Identity { domain: 8, parent: 1, id: 3 };
    assert_eq!(refused(r, |r| r.retire_child(stranger)), Refusal::InvalidState);
    let all_wrong = Definition {
        parent: Some(3),
        realms: RealmList::from_numbers(&[3, 0, 2]),
        dependencies: &[0; 17],
        provisions: &[8, 8],
        ..bare(0)
    };
    assert_eq!(registering(r, all_wrong), Refusal::BadEdition);
    let fewer = Definition { realms: RealmList::from_numbers(&[1, 0, 2]), ..all_wrong };
    assert_eq!(registering(r, fewer), Refusal::BadRealms);
    let fewer = Definition { realms: RealmList::first(&[]), ..fewer };
    assert_eq!(registering(r, fewer), Refusal::TooManyKeys);
    let fewer = Definition { dependencies: &[8, 8], ..fewer };
    assert_eq!(registering(r, fewer), Refusal::Unknown);
    let fewer = Definition { parent: Some(1), ..fewer };
    assert_eq!(registering(r, fewer), Refusal::DuplicateDependency);
    let fewer = Definition { dependencies: &[8], ..fewer };
    assert_eq!(registering(r, fewer), Refusal::DuplicateProvision);
    let fewer = Definition { provisions: &[8], ..fewer };
    assert_eq!(registering(r, fewer), Refusal::Taken);
    assert_eq!(r.register(&Definition { anchor: Port::new(4, 4), ..fewer }), Ok(3));
}

#[test]
fn exhausted_generations() {
    let mut registry = family();
    let id = registry.register(&bare(1)).unwrap();
    registry.begin(id).unwrap();
    let generation = changed(&mut registry, |r| {
        r.fail(id).unwrap();
        r.finish(id).unwrap();
        assert_eq!(r.begin(id).unwrap().generation, 2);
    });
    registry.fail(id).unwrap();
    registry.finish(id).unwrap();
    write(&mut registry, generation, u64::MAX - 1);
    assert_eq!(registry.begin(id).unwrap().generation, u64::MAX);
    registry.fail(id).unwrap();
    registry.finish(id).unwrap();
    assert_eq!(refused(&mut registry, |r| r.begin(id)), Refusal::Exhausted);
}

#[test]
fn what_needs_no_registry() {
    assert_eq!(resolve(&RealmList::from_numbers(&[1, 0, 9]), 2), Err(Refusal::BadRealms));
    assert_eq!(Slot::assigned(CHILD).reject(), Err(Refusal::InvalidState));
}
