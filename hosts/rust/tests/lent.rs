//! What is lent: lists at a buffer's edges, and words beside the registry and the buffer that nothing may write.

mod common;

use common::{activate, bare, dependencies, heirs, refused};
use vaskelbi::{Definition, Phase, Port, RealmList, Refusal, Registry};

#[test]
fn lists_at_a_buffer_s_edges() {
    let mut registry = Box::new(Registry::open(0, 0));
    let empty = registry.register(&bare(0)).unwrap();
    let realms = RealmList::first(&[(2, 5)]);
    let new = Definition { realms, dependencies: &[9], provisions: &[3], ..bare(1) };
    let one = registry.register(&new).unwrap();
    let r = &mut registry;
    let mut buffer = [7; 4];
    assert_eq!(r.list_dependencies(empty, 4, &mut buffer), Ok(0));
    assert_eq!(r.list_dependencies(empty, 0, &mut []), Ok(0));
    assert_eq!(refused(r, |r| r.list_dependencies(empty, 5, &mut buffer)), Refusal::ShortBuffer);
    assert_eq!(refused(r, |r| r.list_dependencies(one, 0, &mut [])), Refusal::ShortBuffer);
    for place in [3, 4, 5, usize::MAX] {
        let refusal = refused(r, |r| r.list_provisions(one, place, &mut buffer));
        assert_eq!(refusal, Refusal::ShortBuffer);
    }
    assert_eq!(refused(r, |r| r.list_provisions(99, 5, &mut buffer)), Refusal::Unknown);
    assert_eq!(buffer, [7; 4]);
    assert_eq!(r.list_provisions(one, 1, &mut buffer), Ok(1));
    assert_eq!(buffer, [7, 3, 0, 7]);
    assert_eq!(r.list_dependencies(one, 2, &mut buffer), Ok(1));
    assert_eq!(buffer, [7, 3, 9, 0]);
    assert_eq!(r.list_realms(one, 0, &mut buffer), Ok(1));
    assert_eq!(buffer, [2, 5, 9, 0]);
}

#[test]
fn the_longest_list() {
    let mut registry = Box::new(Registry::open(0, 0));
    let id = heirs(&mut registry);
    let mut buffer = [7; 98];
    assert_eq!(registry.list_dependencies(id, 3, &mut buffer), Err(Refusal::ShortBuffer));
    assert_eq!(buffer, [7; 98]);
    assert_eq!(registry.list_dependencies(id, 1, &mut buffer), Ok(48));
    assert_eq!((buffer[0], buffer[97]), (7, 7));
    // Each inherited port is followed by its key in the newest realm.
    let expected = (1..=16).flat_map(|key| [0, 2, 1].map(|realm| Port::new(key, realm)));
    assert!(Port::pairs(&buffer[1..97]).eq(expected));
}

const CANARY: u64 = 0xC0FF_EE11_DEAD_BEEF;

/// Everything that calls are given, with words between that are none of theirs.
#[repr(C)]
struct Guarded {
    before: [u64; 64],
    registry: Registry,
    between: [u64; 64],
    buffer: [u64; 96],
    after: [u64; 64],
}

impl Guarded {
    fn new() -> Box<Self> {
        let registry = Registry::open(7, 0);
        let (before, between, after) = ([CANARY; 64], [CANARY; 64], [CANARY; 64]);
        Box::new(Self { before, registry, between, buffer: [CANARY; 96], after })
    }

    fn check(&self) {
        for words in [&self.before, &self.between, &self.after] {
            // Read as they lie in memory: nothing here writes them, so the compiler may know what they were.
            let words = std::hint::black_box(words);
            assert!(words.iter().all(|&word| word == CANARY), "a word beside was written");
        }
    }
}

/// Plans all that needs nothing and all that is Idle, which has no order, into parts of the buffer, whose rest stays.
fn orders(registry: &Registry, buffer: &mut [u64; 96]) {
    let mut idle: Vec<u64> = registry.ids().collect();
    idle.retain(|&id| registry.phase(id) == Ok(Phase::Idle));
    let mut free = idle.clone();
    free.retain(|&id| dependencies(registry, id).is_empty());
    assert!(!free.is_empty() && free.len() < idle.len());
    for set in [&free, &idle] {
        let count = set.len();
        for (from, to) in [(0, count), (0, 96), (96 - count, 96), (17, 17 + count), (33, 70)] {
            buffer.fill(CANARY);
            let mut expected = *buffer;
            let planned = registry.plan_order(set, &mut buffer[from..to]);
            if *set == free {
                expected[from..from + count].copy_from_slice(&free);
                assert_eq!(planned, Ok(Some(count)));
            } else {
                assert_eq!(planned, Ok(None));
            }
            assert_eq!(*buffer, expected);
            assert_eq!(registry.check_order(set, &buffer[from..from + count]), Ok(*set == free));
            assert_eq!(*buffer, expected);
        }
        buffer.fill(CANARY);
        let short = registry.plan_order(set, &mut buffer[17..16 + count]);
        assert_eq!((short, *buffer), (Err(Refusal::ShortBuffer), [CANARY; 96]));
    }
}

/// Fills every place and every row, lets all live and go, lists what there is and plans it, three times over.
#[test]
fn nothing_beside_is_written() {
    let mut all = Guarded::new();
    for _ in 0..3 {
        let parent = heirs(&mut all.registry);
        all.check();
        let (mut n, mut refusal) = (all.registry.next_id(), None);
        while refusal.is_none() {
            let new = Definition { parent: Some(parent), ..bare(n) };
            refusal = all.registry.register(&new).err();
            n += 1;
            all.check();
        }
        assert_eq!(refusal, Some(Refusal::NoRows));
        let keys: Vec<u64> = (200..215).collect();
        let new = Definition { provisions: &keys, ..bare(n) };
        let provider = all.registry.register(&new).unwrap();
        activate(&mut all.registry, provider);
        all.check();
        while all.registry.rows() < 1024 && all.registry.count() < 32 {
            n += 1;
            all.registry.register(&bare(n)).unwrap();
            all.check();
        }
        let Guarded { registry, buffer, .. } = &mut *all;
        for id in registry.ids() {
            registry.list_dependencies(id, 0, buffer).unwrap();
            let count = registry.list_provisions(id, 0, buffer).unwrap();
            assert_eq!(registry.list_provisions(id, 96 - 2 * count, buffer), Ok(count));
            registry.list_realms(id, 64, buffer).unwrap();
        }
        all.check();
        let Guarded { registry, buffer, .. } = &mut *all;
        orders(registry, buffer);
        all.check();
        let registry = &mut all.registry;
        registry.unload(provider).unwrap();
        registry.finish(provider).unwrap();
        let mut ids: Vec<u64> = registry.ids().collect();
        // Children first.
        ids.reverse();
        for id in ids {
            registry.replace(id, n).unwrap();
            registry.retire(id).unwrap();
            registry.remove(id).unwrap();
        }
        assert_eq!((registry.count(), registry.rows()), (0, 0));
        all.check();
        all.registry.reopen(7, 0);
        all.check();
    }
}
