//! The numbered examples E1 to E10, E4 as document 02 amends it.

mod common;

use common::{activate, admitted, bare, dependencies};
use plain::{Port, RealmList, Record, Refusal, Registration, Registry, resolve};

const E1_REALMS: RealmList<'_> = RealmList::first(&[2, 5, 9, 1]);

/// A parent with these keys in realm 0, and its id.
fn parent(keys: &[u64]) -> (Registry, u64) {
    let mut registry = Registry::open(7, 0);
    let new = Registration { dependencies: keys, ..bare((90, 0)) };
    let id = registry.register(&new).unwrap();
    (registry, id)
}

#[test]
fn e1_a_key_gets_its_realm_or_realm_0() {
    assert_eq!(resolve(2, E1_REALMS), Ok(Port::new(2, 5)));
    assert_eq!(resolve(3, E1_REALMS), Ok(Port::new(3, 0)));
    assert_eq!(resolve(9, E1_REALMS), Ok(Port::new(9, 1)));
    assert_eq!(resolve(10, E1_REALMS), Ok(Port::new(10, 0)));
}

#[test]
fn e2_declared_ports_come_first_and_provisions_are_left_out() {
    let (mut registry, id) = parent(&[2, 3]);
    let child = Registration {
        parent: Some(id),
        realms: E1_REALMS,
        dependencies: &[9],
        provisions: &[3],
        ..bare((91, 0))
    };
    let child = registry.register(&child).unwrap();
    assert_eq!(dependencies(&registry, child), [(9, 1), (2, 0), (2, 5)]);
}

#[test]
fn e3_an_inherited_port_already_declared_is_not_repeated() {
    let mut registry = Registry::open(7, 0);
    let new =
        Registration { realms: RealmList::first(&[2, 5]), dependencies: &[2], ..bare((90, 0)) };
    let id = registry.register(&new).unwrap();
    assert_eq!(dependencies(&registry, id), [(2, 5)]);
    let child =
        Registration { parent: Some(id), realms: E1_REALMS, dependencies: &[2], ..bare((91, 0)) };
    let child = registry.register(&child).unwrap();
    assert_eq!(dependencies(&registry, child), [(2, 5)]);
}

#[test]
fn e4_a_private_anchor_is_not_inherited() {
    let (mut registry, id) = parent(&[4]);
    let child = registry.register(&Registration { parent: Some(id), ..bare((4, 0)) }).unwrap();
    assert_eq!(dependencies(&registry, child), []);
    assert!(registry.begin(child).is_ok());
}

#[test]
fn e4_an_anchor_that_a_key_resolves_to_again_is_not_inherited() {
    let (mut registry, id) = parent(&[4]);
    let child =
        Registration { parent: Some(id), realms: RealmList::first(&[4, 6]), ..bare((4, 6)) };
    let child = registry.register(&child).unwrap();
    assert_eq!(dependencies(&registry, child), [(4, 0)]);
}

#[test]
fn e4_a_declared_anchor_stays_and_is_handed_down() {
    let (mut registry, id) = parent(&[4]);
    let child = Registration { parent: Some(id), dependencies: &[4], ..bare((4, 0)) };
    let child = registry.register(&child).unwrap();
    assert_eq!(dependencies(&registry, child), [(4, 0)]);
    assert_eq!(registry.begin(child), Err(Refusal::Unavailable));
    let grandchild = Registration { parent: Some(child), ..bare((91, 0)) };
    let grandchild = registry.register(&grandchild).unwrap();
    assert_eq!(dependencies(&registry, grandchild), [(4, 0)]);
}

#[test]
fn e5_a_port_resolved_again_is_looked_for_in_the_growing_list() {
    let (mut registry, grandparent) = parent(&[2]);
    let new = Registration {
        parent: Some(grandparent),
        realms: RealmList::first(&[2, 7]),
        ..bare((91, 0))
    };
    let id = registry.register(&new).unwrap();
    assert_eq!(dependencies(&registry, id), [(2, 0), (2, 7)]);
    let child =
        Registration { parent: Some(id), realms: RealmList::first(&[2, 5]), ..bare((92, 0)) };
    let child = registry.register(&child).unwrap();
    assert_eq!(dependencies(&registry, child), [(2, 0), (2, 5), (2, 7)]);
    assert_eq!(registry.lookup(child, 2), Ok(Some(Port::new(2, 0))));
    assert_eq!(registry.lookup(child, 3), Ok(None));
    assert_eq!(registry.lookup(99, 2), Err(Refusal::Unknown));
}

#[test]
fn e6_replacements_fit_up_to_the_last_revision() {
    // No registry built by operations gets there, so the record is asked.
    let record = Record { revision: u64::MAX - 3, payload: 0 };
    assert!(record.fits(3));
    assert!(!record.fits(4));
    assert!(!record.fits(u64::MAX));
    let mut last = Record { revision: u64::MAX, payload: 8 };
    assert!(last.fits(0) && !last.fits(1));
    assert_eq!(last.replace(9), Err(Refusal::Exhausted));
    assert_eq!(last, Record { revision: u64::MAX, payload: 8 });
}

#[test]
fn e7_a_bare_plugin_takes_one_row() {
    let mut registry = Registry::open(7, 0);
    let id = registry.register(&bare((9, 0))).unwrap();
    assert_eq!(dependencies(&registry, id), []);
    assert_eq!(registry.rows(), 1);
}

#[test]
fn e8_realm_keys_rise_strictly() {
    let mut registry = Registry::open(7, 0);
    for realms in [[2, 5, 2, 1], [9, 1, 2, 5]] {
        assert_eq!(resolve(2, RealmList::first(&realms)), Err(Refusal::BadRealms));
        let new = Registration { realms: RealmList::first(&realms), ..bare((9, 0)) };
        assert_eq!(registry.register(&new), Err(Refusal::BadRealms));
    }
    assert_eq!(resolve(2, RealmList::first(&[2, 5, 9])), Err(Refusal::BadRealms));
}

#[test]
fn e9_a_call_after_a_replacement_by_the_same_payload_is_stale() {
    let mut registry = Registry::open(7, 0);
    let id = registry.register(&Registration { payload: 40, ..bare((9, 0)) }).unwrap();
    let invocation = admitted(&mut registry, id, 5);
    assert_eq!(registry.replace(id, 40), Ok(40));
    assert_eq!(registry.call(invocation), Err(Refusal::Stale));
}

#[test]
fn e10_a_call_is_accepted_once() {
    let mut registry = Registry::open(7, 0);
    let id = registry.register(&Registration { payload: 40, ..bare((9, 0)) }).unwrap();
    let invocation = admitted(&mut registry, id, 5);
    let receipt = registry.call(invocation).unwrap();
    assert_eq!((receipt.domain, receipt.id, receipt.generation), (7, id, 1));
    assert_eq!((receipt.request, receipt.payload, receipt.argument), (0, 40, 5));
    assert_eq!(registry.call(invocation), Err(Refusal::Stale));
}

#[test]
fn a_read_sees_the_live_provider_and_an_anchor_has_no_value() {
    let mut registry = Registry::open(7, 0);
    let provider = registry.register(&Registration { provisions: &[2], ..bare((3, 0)) }).unwrap();
    let reader = registry.register(&Registration { dependencies: &[2, 3], ..bare((9, 0)) });
    let reader = reader.unwrap();
    assert_eq!(registry.begin(reader), Err(Refusal::Unavailable));
    activate(&mut registry, provider);
    registry.begin(reader).unwrap();
    assert_eq!(registry.read(reader, Port::new(2, 0)), Ok((100, provider)));
    assert_eq!(registry.read(reader, Port::new(3, 0)), Err(Refusal::Missing));
    assert_eq!(registry.visible(Port::new(2, 0)), Some(100));
    assert_eq!(registry.visible(Port::new(3, 0)), None);
    assert_eq!(registry.unload(provider), Err(Refusal::InUse));
    registry.fail(reader).unwrap();
    assert_eq!(registry.unload(provider), Ok(()));
    assert_eq!(registry.visible(Port::new(2, 0)), None);
}
