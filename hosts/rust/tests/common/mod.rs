//! What several tests need.
#![allow(dead_code)]

use std::fmt::Debug;

use vaskelbi::{Definition, Invocation, Port, RealmList, Registry, WORDS};

/// A plugin with nothing but an anchor that no other number leads to.
pub fn bare(n: u64) -> Definition<'static> {
    Definition::new(Port::new(1_000_000 + n, 77), 300 + n)
}

pub fn dependencies(registry: &Registry, id: u64) -> Vec<(u64, u64)> {
    let mut buffer = [0; 96];
    let count = registry.list_dependencies(id, 0, &mut buffer).unwrap();
    Port::pairs(&buffer[..2 * count]).map(|port| (port.key, port.realm)).collect()
}

/// Begins a plugin and admits its setup.
pub fn admitted(registry: &mut Registry, id: u64, argument: u64) -> Invocation {
    let ticket = registry.begin(id).unwrap();
    registry.admit(ticket, argument).unwrap()
}

/// Takes an Idle plugin to Active, with value 100 + n at its provision n.
pub fn activate(registry: &mut Registry, id: u64) {
    let invocation = admitted(registry, id, 5);
    registry.call(invocation).unwrap();
    let mut value = 100;
    while let Some(port) = registry.missing(id).unwrap() {
        registry.offer(id, port, value).unwrap();
        value += 1;
    }
    registry.ready(id).unwrap();
}

/// Three plugins of edition 1, the last with 48 dependencies: keys 1 to 16 in three realms.
pub fn heirs(registry: &mut Registry) -> u64 {
    let keys: Vec<u64> = (1..=16).collect();
    let mut parent = None;
    for realm in 0..3 {
        let rows: Vec<(u64, u64)> = keys.iter().map(|&key| (key, realm)).collect();
        let realms = RealmList::first(&rows);
        let declared = if realm == 0 { &keys[..] } else { &[] };
        let new = Definition { parent, realms, dependencies: declared, ..bare(realm) };
        parent = Some(registry.register(&new).unwrap());
    }
    parent.unwrap()
}

/// Expects a refusal that leaves every word as it was.
pub fn refused<T: Debug, E>(
    registry: &mut Registry,
    operation: impl FnOnce(&mut Registry) -> Result<T, E>,
) -> E {
    let before = Box::new(*registry.words());
    let refusal = operation(registry).expect_err("it was accepted");
    assert!(*registry.words() == *before, "a refusal changed the registry");
    refusal
}

/// The place of the one word that an operation changes.
pub fn changed(registry: &mut Registry, operation: impl FnOnce(&mut Registry)) -> usize {
    let before = Box::new(*registry.words());
    operation(registry);
    let mut places = (0..WORDS).filter(|&place| registry.words()[place] != before[place]);
    let place = places.next().expect("a word changes");
    assert_eq!(places.next(), None);
    place
}

/// Writes a number that no lifetime is long enough to count to.
pub fn write(registry: &mut Registry, place: usize, number: u64) {
    // SAFETY: a registry is these words and nothing else, and every operation is safe on any words.
    let words = unsafe { &mut *std::ptr::from_mut(registry).cast::<[u64; WORDS]>() };
    words[place] = number;
}
