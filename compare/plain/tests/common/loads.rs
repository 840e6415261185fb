//! Loading, and a family of plugins to be loaded.

use plain::coverage::refusals;
use plain::sheet::{Leaf, Sheet};
use plain::{Port, RealmList, Refusal, Registration, Registry};

use super::{activate, admitted, bare, dependencies, heirs};

/// The domain that texts are written in and the one that they are loaded into.
pub const HERE: u64 = 7;
pub const THERE: u64 = 8;

pub fn text_of(registry: &Registry) -> String {
    let mut room = vec![0; registry.text_length()];
    registry.write(&mut room).unwrap();
    String::from_utf8(room).unwrap()
}

/// Loads a text into a registry that holds something, which a refusal must leave.
pub fn load_into(domain: u64, text: impl AsRef<[u8]>) -> Result<Registry, Refusal> {
    let mut registry = Registry::open(3, 40);
    registry.register(&Registration { dependencies: &[1], ..bare((5, 5)) }).unwrap();
    let before = text_of(&registry);
    let loaded = registry.load(domain, text.as_ref());
    // The slow reading must say the same.
    let refused = refusals(domain, text.as_ref()).first().map(|check| check.number);
    assert_eq!(loaded.map_err(Refusal::number).err(), refused);
    match loaded {
        Ok(()) => Ok(registry),
        Err(refusal) => {
            assert_eq!(text_of(&registry), before);
            Err(refusal)
        }
    }
}

pub fn load(text: impl AsRef<[u8]>) -> Result<Registry, Refusal> {
    load_into(THERE, text)
}

/// A text is loaded, and all is as it tells but for the domain and Queued roots.
pub fn kept(sheet: &Sheet) -> Registry {
    let registry = load(sheet.text()).unwrap();
    assert_eq!(Sheet::of(&registry), sheet.clone().loaded(THERE));
    registry
}

/// Five plugins: 0 is Active, and 1 that depends on it too; 2 is 1's child and Loading
/// with a Queued root; 3 is Unloading with some values; 4 is Idle.
pub fn family() -> Sheet {
    let mut registry = Registry::open(HERE, 0);
    let provider =
        Registration { provisions: &[1, 2, 6], realms: RealmList::first(&[1, 4]), ..bare((50, 0)) };
    assert_eq!(registry.register(&provider), Ok(0));
    activate(&mut registry, 0);
    let reader = Registration { dependencies: &[2, 50], provisions: &[20], ..bare((51, 3)) };
    assert_eq!(registry.register(&reader), Ok(1));
    activate(&mut registry, 1);
    let child = Registration {
        parent: Some(1),
        realms: RealmList::first(&[1, 4, 21, 9]),
        dependencies: &[1],
        provisions: &[21],
        ..bare((52, 0))
    };
    assert_eq!(registry.register(&child), Ok(2));
    assert_eq!(dependencies(&registry, 2), [(1, 4), (2, 0), (50, 0)]);
    registry.replace(2, 0).unwrap();
    admitted(&mut registry, 2, 5);
    assert_eq!(registry.register(&Registration { provisions: &[30, 31], ..bare((53, 0)) }), Ok(3));
    registry.begin(3).unwrap();
    registry.offer(3, Port::new(30, 0), 9).unwrap();
    registry.fail(3).unwrap();
    assert_eq!(registry.register(&Registration { provisions: &[40], ..bare((54, 0)) }), Ok(4));
    Sheet::of(&registry)
}

/// A way to break a condition.
pub type Break = fn(&mut Vec<Leaf>);

pub fn spare(id: u64) -> Leaf {
    let idle = family().plugins.swap_remove(4);
    let anchor = Port::new(1000 + id, 0);
    Leaf { id, anchor, provisions: Vec::new(), ..idle }
}

pub fn ports(keys: std::ops::Range<u64>) -> Vec<Port> {
    keys.map(Port::in_default_realm).collect()
}

/// Three plugins more, the last with 48 dependencies.
pub fn heirs_of_48(plugins: &mut Vec<Leaf>) {
    let mut registry = Registry::open(0, plugins.last().unwrap().id + 1);
    heirs(&mut registry);
    plugins.extend(Sheet::of(&registry).plugins);
}

/// As many plugins more as take so many rows together.
pub fn fill(plugins: &mut Vec<Leaf>, rows: usize) {
    heirs_of_48(plugins);
    let heir = plugins.last().unwrap().clone();
    let used = |plugins: &[Leaf]| -> usize {
        plugins.iter().map(|p| p.dependencies.len() + p.provisions.len() + 1).sum()
    };
    while used(plugins) < rows {
        let need = rows - used(plugins);
        let mut plugin = spare(plugins.last().unwrap().id + 1);
        if need > 48 {
            plugin.parent = Some(heir.id);
            plugin.dependencies.clone_from(&heir.dependencies);
        } else {
            plugin.dependencies = ports(0..(need as u64 - 1).min(16));
        }
        plugins.push(plugin);
    }
}
