//! What several tests need.
#![allow(dead_code)]

pub mod loads;

use plain::{Invocation, Port, RealmList, Refusal, Registration, Registry};

/// A registration with nothing but an anchor, in edition 1.
pub fn bare(anchor: (u64, u64)) -> Registration<'static> {
    Registration {
        parent: None,
        anchor: Port::new(anchor.0, anchor.1),
        payload: 0,
        realms: RealmList::first(&[]),
        dependencies: &[],
        provisions: &[],
    }
}

/// An anchor that no other number leads to.
pub fn anchor(n: u64) -> (u64, u64) {
    (1_000_000 + n, 77)
}

pub fn dependencies(registry: &Registry, id: u64) -> Vec<(u64, u64)> {
    let mut buffer = [0; 96];
    let count = registry.deps(id, &mut buffer, 0).unwrap() as usize;
    buffer[..2 * count].chunks(2).map(|pair| (pair[0], pair[1])).collect()
}

/// Begins a plugin and admits its setup.
pub fn admitted(registry: &mut Registry, id: u64, argument: u64) -> Invocation {
    let ticket = registry.begin(id).unwrap();
    registry.admit(ticket, argument).unwrap()
}

/// Takes an Idle plugin to Active, with value 100 + n at its provision n.
pub fn activate(registry: &mut Registry, id: u64) {
    let invocation = admitted(registry, id, 5);
    registry.call(invocation).unwrap();
    let mut value = 100;
    while let Some(port) = registry.missing(id).unwrap() {
        registry.offer(id, port, value).unwrap();
        value += 1;
    }
    registry.ready(id).unwrap();
}

/// Three plugins, the last with 48 dependencies: keys 1 to 16 in three realms.
pub fn heirs(registry: &mut Registry) -> u64 {
    let keys: Vec<u64> = (1..=16).collect();
    let mut parent = None;
    for realm in 0..3 {
        let realms: Vec<u64> = keys.iter().flat_map(|&key| [key, realm]).collect();
        let declared = if realm == 0 { &keys[..] } else { &[] };
        let new = Registration {
            parent,
            realms: RealmList::first(&realms),
            dependencies: declared,
            ..bare(anchor(realm))
        };
        parent = Some(registry.register(&new).unwrap());
    }
    parent.unwrap()
}

/// Registers and expects a refusal that changes nothing to be seen.
pub fn refused(registry: &mut Registry, new: &Registration<'_>) -> Refusal {
    let before = (registry.rows(), registry.count(), registry.next());
    let refusal = registry.register(new).unwrap_err();
    assert_eq!(before, (registry.rows(), registry.count(), registry.next()));
    refusal
}
