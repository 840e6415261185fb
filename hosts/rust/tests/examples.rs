//! The numbered examples E1 to E10, E4 as document 02 amends it.

mod common;

use common::{admitted, bare, changed, dependencies, refused, write};
use vaskelbi::{Definition, Port, RealmList, Receipt, Refusal, Registry, resolve};

const E1_REALMS: RealmList = RealmList::first(&[(2, 5), (9, 1)]);

/// A registry with a parent that depends on these keys in realm 0.
fn parent(keys: &[u64]) -> (Box<Registry>, u64) {
    let mut registry = Box::new(Registry::open(7, 0));
    let id = registry.register(&Definition { dependencies: keys, ..bare(0) }).unwrap();
    (registry, id)
}

#[test]
fn e1_a_key_gets_its_realm_or_realm_0() {
    assert_eq!(resolve(&E1_REALMS, 2), Ok(Port::new(2, 5)));
    assert_eq!(resolve(&E1_REALMS, 3), Ok(Port::new(3, 0)));
    assert_eq!(resolve(&RealmList::first(&[]), 3), Ok(Port::in_default_realm(3)));
}

#[test]
fn e2_declared_ports_come_first_and_provisions_are_left_out() {
    let (mut registry, id) = parent(&[2, 3]);
    let child = Definition {
        parent: Some(id),
        realms: E1_REALMS,
        dependencies: &[9],
        provisions: &[3],
        ..bare(1)
    };
    let child = registry.register(&child).unwrap();
    assert_eq!(dependencies(&registry, child), [(9, 1), (2, 0), (2, 5)]);
}

#[test]
fn e3_an_inherited_port_already_declared_is_not_repeated() {
    let mut registry = Box::new(Registry::open(7, 0));
    let new = Definition { realms: RealmList::first(&[(2, 5)]), dependencies: &[2], ..bare(0) };
    let id = registry.register(&new).unwrap();
    let new = Definition { realms: E1_REALMS, dependencies: &[2], ..bare(1) };
    let child = registry.register(&Definition { parent: Some(id), ..new }).unwrap();
    assert_eq!(dependencies(&registry, child), [(2, 5)]);
}

#[test]
fn e4_a_private_anchor_is_not_inherited() {
    let (mut registry, id) = parent(&[4]);
    let new = Definition { parent: Some(id), ..Definition::new(Port::new(4, 0), 0) };
    let child = registry.register(&new).unwrap();
    assert_eq!(dependencies(&registry, child), []);
    assert!(registry.begin(child).is_ok());
}

#[test]
fn e4_a_declared_anchor_stays_and_is_handed_down() {
    let (mut registry, id) = parent(&[4]);
    let new = Definition { dependencies: &[4], ..Definition::new(Port::new(4, 0), 0) };
    let child = registry.register(&Definition { parent: Some(id), ..new }).unwrap();
    assert_eq!(dependencies(&registry, child), [(4, 0)]);
    assert_eq!(refused(&mut registry, |r| r.begin(child)), Refusal::Unavailable);
    let grandchild = registry.register(&Definition { parent: Some(child), ..bare(1) }).unwrap();
    assert_eq!(dependencies(&registry, grandchild), [(4, 0)]);
}

#[test]
fn e5_a_port_resolved_again_is_looked_for_in_the_growing_list() {
    let (mut registry, grandparent) = parent(&[2]);
    let realms = RealmList::first(&[(2, 7)]);
    let new = Definition { parent: Some(grandparent), realms, ..bare(1) };
    let id = registry.register(&new).unwrap();
    assert_eq!(dependencies(&registry, id), [(2, 0), (2, 7)]);
    let new = Definition { parent: Some(id), realms: RealmList::first(&[(2, 5)]), ..bare(2) };
    let child = registry.register(&new).unwrap();
    assert_eq!(dependencies(&registry, child), [(2, 0), (2, 5), (2, 7)]);
    assert_eq!(registry.lookup(child, 2), Ok(Some(Port::new(2, 0))));
    assert_eq!(registry.lookup(child, 3), Ok(None));
}

#[test]
fn e6_replacements_fit_up_to_the_last_revision() {
    let mut registry = Box::new(Registry::open(7, 0));
    let id = registry.register(&bare(0)).unwrap();
    let revision = changed(&mut registry, |r| assert_eq!(r.replace(id, 300), Ok(300)));
    assert_eq!(registry.fits(id, u64::MAX - 1), Ok(true));
    assert_eq!(registry.fits(id, u64::MAX), Ok(false));
    write(&mut registry, revision, u64::MAX - 3);
    assert_eq!(registry.fits(id, 3), Ok(true));
    assert_eq!(registry.fits(id, 4), Ok(false));
}

#[test]
fn e7_a_bare_plugin_takes_one_row() {
    let mut registry = Box::new(Registry::open(7, 0));
    let id = registry.register(&bare(0)).unwrap();
    assert_eq!(dependencies(&registry, id), []);
    assert_eq!(registry.rows(), 1);
}

#[test]
fn e8_realm_keys_rise_strictly() {
    let mut registry = Box::new(Registry::open(7, 0));
    for rows in [[(2, 5), (2, 1)], [(9, 1), (2, 5)]] {
        let realms = RealmList::first(&rows);
        assert_eq!(resolve(&realms, 2), Err(Refusal::BadRealms));
        let new = Definition { realms, ..bare(0) };
        assert_eq!(refused(&mut registry, |r| r.register(&new)), Refusal::BadRealms);
    }
}

#[test]
fn e9_a_call_after_a_replacement_by_the_same_payload_is_stale() {
    let mut registry = Box::new(Registry::open(7, 0));
    let id = registry.register(&bare(0)).unwrap();
    let invocation = admitted(&mut registry, id, 5);
    assert_eq!(registry.replace(id, 300), Ok(300));
    assert_eq!(refused(&mut registry, |r| r.call(invocation)), Refusal::Stale);
}

#[test]
fn e10_a_call_is_accepted_once() {
    let mut registry = Box::new(Registry::open(7, 0));
    let id = registry.register(&bare(0)).unwrap();
    let invocation = admitted(&mut registry, id, 5);
    let receipt = Receipt { domain: 7, id, generation: 1, request: 0, payload: 300, argument: 5 };
    assert_eq!(registry.call(invocation), Ok(receipt));
    assert_eq!(refused(&mut registry, |r| r.call(invocation)), Refusal::Stale);
}
