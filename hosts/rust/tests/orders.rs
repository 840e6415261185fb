//! Start orders: planned, checked, refused, and carried out.

mod common;

use common::{activate, bare, changed, dependencies, refused, write};
use vaskelbi::{Definition, Phase, Port, Refusal, Registry, TEXT_ROOM};

/// A pier of domain 7. Pointing (50) needs both axes and the clock; each drive (51, 52) needs its encoder (53, 54); the clock (55)
/// is Active; the dome (56) needs pointing, by its anchor. Nobody provides what 57 needs, 58 and 59 need each other, and 60 needs
/// itself.
fn pier() -> Box<Registry> {
    let mut registry = Box::new(Registry::open(7, 50));
    for (n, (dependencies, provisions)) in (50..).zip([
        (&[31, 32, 10][..], &[40][..]),
        (&[21], &[31]),
        (&[22], &[32]),
        (&[], &[21]),
        (&[], &[22]),
        (&[], &[10]),
        (&[150], &[]),
        (&[99], &[]),
        (&[61], &[62]),
        (&[62], &[61]),
        (&[63], &[63]),
    ]) {
        let anchor = Port::in_default_realm(100 + n);
        let new = Definition { dependencies, provisions, ..Definition::new(anchor, n) };
        assert_eq!(registry.register(&new), Ok(n));
    }
    activate(&mut registry, 55);
    registry
}

const SET: [u64; 6] = [50, 51, 52, 53, 54, 56];
const ORDER: [u64; 6] = [53, 51, 54, 52, 50, 56];

/// A plan into just enough room, which leaves every word of the registry.
fn plan(registry: &Registry, set: &[u64]) -> Option<Vec<u64>> {
    let before = Box::new(*registry.words());
    let mut buffer = vec![0; set.len()];
    let order = registry.start_order(set, &mut buffer).unwrap().map(<[u64]>::to_vec);
    assert!(*registry.words() == *before, "a plan changed the registry");
    order
}

fn passes(registry: &Registry, set: &[u64], order: &[u64]) -> bool {
    let before = Box::new(*registry.words());
    let passes = registry.check_order(set, order).unwrap();
    assert!(*registry.words() == *before, "a check changed the registry");
    passes
}

/// What planner and checker both refuse a set with, whatever the room and the order.
fn refusal(registry: &mut Registry, set: &[u64]) -> Refusal {
    let mut buffer = [9; 40];
    let refusal = refused(registry, |r| r.plan_order(set, &mut buffer));
    assert_eq!(buffer, [9; 40]);
    assert_eq!(refused(registry, |r| r.plan_order(set, &mut [])), refusal);
    for order in [set, &[], &SET, &ORDER] {
        assert_eq!(refused(registry, |r| r.check_order(set, order)), refusal, "{order:?}");
    }
    refusal
}

#[test]
fn the_lowest_order_that_passes_is_planned() {
    let registry = pier();
    assert_eq!(plan(&registry, &SET).unwrap(), ORDER);
    // However the set is listed.
    assert_eq!(plan(&registry, &ORDER).unwrap(), ORDER);
    assert_eq!(plan(&registry, &[56, 54, 53, 52, 51, 50]).unwrap(), ORDER);
    assert_eq!(plan(&registry, &[51, 53]).unwrap(), [53, 51]);
    assert_eq!(plan(&registry, &[54, 53]).unwrap(), [53, 54]);
    assert_eq!(plan(&registry, &[54]).unwrap(), [54]);
}

#[test]
fn the_front_of_the_buffer_is_written() {
    let registry = pier();
    let mut buffer = [9; 8];
    assert_eq!(registry.plan_order(&SET, &mut buffer), Ok(Some(6)));
    assert_eq!(buffer, [53, 51, 54, 52, 50, 56, 9, 9]);
    assert_eq!(registry.plan_order(&[51, 53], &mut buffer[3..7]), Ok(Some(2)));
    assert_eq!(buffer, [53, 51, 54, 53, 51, 56, 9, 9]);
}

#[test]
fn the_empty_set_has_the_empty_order() {
    let registry = pier();
    let mut buffer = [9; 2];
    assert_eq!(registry.plan_order(&[], &mut []), Ok(Some(0)));
    assert_eq!(registry.plan_order(&[], &mut buffer), Ok(Some(0)));
    assert_eq!(registry.start_order(&[], &mut buffer), Ok(Some(&[][..])));
    assert_eq!(buffer, [9; 2]);
    assert!(passes(&registry, &[], &[]));
    assert!(!passes(&registry, &[], &[53]));
}

#[test]
fn none_writes_nothing() {
    let registry = pier();
    for set in [
        &[57][..],         // nobody provides it
        &[53, 57, 54],     // the others could begin
        &[51, 54],         // 51's encoder is not in the set
        &[50, 51, 53],     // nor 52
        &[58, 59],         // each needs the other
        &[58],             // and alone the other is Idle
        &[60],             // its own provision
        &[56, 52, 51, 54], // pointing by its anchor
        &[53, 54, 51, 52, 60],
    ] {
        let mut buffer = [9; 40];
        assert_eq!(registry.plan_order(set, &mut buffer), Ok(None), "{set:?}");
        assert_eq!(registry.start_order(set, &mut buffer), Ok(None));
        assert_eq!(buffer, [9; 40]);
        assert!(!passes(&registry, set, set));
    }
}

#[test]
fn a_provider_counts_while_it_is_active() {
    let mut registry = pier();
    let r = &mut registry;
    let (set, order) = ([50, 51, 52, 53, 54], [53, 51, 54, 52, 50]);
    r.retire(55).unwrap();
    assert_eq!(plan(r, &set).unwrap(), order);
    assert!(passes(r, &set, &order));
    r.unload(55).unwrap();
    assert_eq!(plan(r, &set), None);
    assert!(!passes(r, &set, &order));
    r.begin(53).unwrap();
    assert_eq!(plan(r, &[51]), None);
    assert!(!passes(r, &[51], &[51]));
    r.fail(53).unwrap();
    assert_eq!(plan(r, &[51]), None);
    r.finish(53).unwrap();
    activate(r, 53);
    assert_eq!(plan(r, &[51]).unwrap(), [51]);
    assert!(passes(r, &[51], &[51]));
}

#[test]
fn room_comes_after_the_ids_and_before_none() {
    let mut registry = pier();
    let r = &mut registry;
    for (set, room) in [(&SET[..], 5), (&SET, 0), (&[54], 0), (&[57], 0), (&[58, 59], 1)] {
        let mut buffer = vec![9; room];
        let refusal = refused(r, |r| r.plan_order(set, &mut buffer));
        assert_eq!(refusal, Refusal::ShortBuffer, "{set:?}");
        assert_eq!(buffer, vec![9; room]);
    }
    // The checker has no room to ask for.
    assert!(!passes(r, &SET, &[]));
    assert_eq!(refused(r, |r| r.plan_order(&[53, 99], &mut [])), Refusal::Unknown);
    assert_eq!(refused(r, |r| r.plan_order(&[53, 53], &mut [])), Refusal::Repeated);
    assert_eq!(refused(r, |r| r.plan_order(&[53, 55], &mut [])), Refusal::InvalidState);
}

/// The ids one by one, in list order, each by 27, 1, 2, 3, 16.
#[test]
fn the_first_id_that_is_wrong_refuses() {
    let mut registry = pier();
    let r = &mut registry;
    assert_eq!(refusal(r, &[53, 54, 53]), Refusal::Repeated);
    assert_eq!(refusal(r, &[53, 53, 99]), Refusal::Repeated);
    assert_eq!(refusal(r, &[53, 53, 55]), Refusal::Repeated);
    assert_eq!(refusal(r, &[53, 99, 53]), Refusal::Unknown);
    assert_eq!(refusal(r, &[99, 99]), Refusal::Unknown); // the first is not repeated
    assert_eq!(refusal(r, &[u64::MAX]), Refusal::Unknown);
    assert_eq!(refusal(r, &[49]), Refusal::Unknown);
    assert_eq!(refusal(r, &[55]), Refusal::InvalidState); // Active
    assert_eq!(refusal(r, &[55, 55]), Refusal::InvalidState);
    assert_eq!(refusal(r, &[55, 99]), Refusal::InvalidState);
    assert_eq!(refusal(r, &[99, 55]), Refusal::Unknown);

    r.begin(54).unwrap();
    assert_eq!(refusal(r, &[53, 54]), Refusal::InvalidState); // Loading
    r.retire(54).unwrap();
    assert_eq!(refusal(r, &[53, 54]), Refusal::Retired); // before 3
    r.fail(54).unwrap();
    assert_eq!(refusal(r, &[54]), Refusal::Retired);
    r.finish(54).unwrap();
    assert_eq!(refusal(r, &[54, 54]), Refusal::Retired); // Idle
    assert_eq!(refusal(r, &[53, 54, 55]), Refusal::Retired);
    assert_eq!(refusal(r, &[53, 55, 54]), Refusal::InvalidState);

    r.begin(53).unwrap();
    r.fail(53).unwrap();
    assert_eq!(refusal(r, &[53]), Refusal::InvalidState); // Unloading
    r.finish(53).unwrap();
    assert_eq!(plan(r, &[53]).unwrap(), [53]);
    r.retire(53).unwrap();
    r.remove(53).unwrap();
    assert_eq!(refusal(r, &[53]), Refusal::Unknown);
}

#[test]
fn the_last_generation_is_refused() {
    let mut registry = pier();
    let r = &mut registry;
    r.begin(53).unwrap();
    let generation = changed(r, |r| {
        r.fail(53).unwrap();
        r.finish(53).unwrap();
        r.begin(53).unwrap();
    });
    r.fail(53).unwrap();
    write(r, generation, u64::MAX);
    assert_eq!(refusal(r, &[53]), Refusal::InvalidState); // Unloading, before 16
    r.finish(53).unwrap();
    assert_eq!(refusal(r, &[51, 53]), Refusal::Exhausted);
    assert_eq!(refusal(r, &[53, 53]), Refusal::Exhausted);
    assert_eq!(refusal(r, &[53, 99]), Refusal::Exhausted);
    assert_eq!(refusal(r, &[51, 51, 53]), Refusal::Repeated);
    write(r, generation, u64::MAX - 1);
    assert_eq!(plan(r, &[51, 53]).unwrap(), [53, 51]);
    r.retire(53).unwrap();
    write(r, generation, u64::MAX);
    assert_eq!(refusal(r, &[53]), Refusal::Retired); // before 16
}

/// Whatever stands in an order, it is a yes or a no.
#[test]
fn an_order_names_the_ids_of_the_set_each_once() {
    let registry = pier();
    let passes = |order: &[u64]| passes(&registry, &SET, order);
    assert!(passes(&ORDER));
    assert!(passes(&[54, 53, 52, 51, 50, 56])); // not the lowest
    for order in [
        &[51, 53, 54, 52, 50, 56][..], // a provider later
        &[53, 51, 54, 52, 56, 50],
        &[53, 51, 54, 50, 52, 56],
        &SET,
        &[53, 51, 54, 52, 50], // one left out
        &[51, 54, 52, 50, 56],
        &[],
        &[53, 51, 54, 52, 50, 50], // one repeated
        &[53, 53, 51, 54, 52, 50],
        &[53, 51, 54, 52, 50, 56, 56],
        &[53, 51, 54, 52, 50, 55], // one of no set, Active
        &[53, 51, 54, 52, 50, 56, 55],
        &[55, 53, 51, 54, 52, 50, 56],
        &[53, 51, 54, 52, 50, 57], // Idle
        &[53, 51, 54, 52, 50, 99], // unknown
        &[53, 51, 54, 52, 50, 56, u64::MAX],
        &[0; 6],
        &[53; 40],
    ] {
        assert!(!passes(order), "{order:?}");
    }
}

/// The pier is begun as planned, and every step is accepted. Each other id would be too early, or is planned for later.
#[test]
fn a_plan_is_carried_out() {
    let mut registry = pier();
    let r = &mut registry;
    assert!(passes(r, &SET, &ORDER));
    for (n, &id) in ORDER.iter().enumerate() {
        assert_eq!(plan(r, &ORDER[n..]).unwrap(), ORDER[n..]);
        activate(r, id);
        assert_eq!(refusal(r, &ORDER[n..]), Refusal::InvalidState);
    }
    assert!(SET.iter().all(|&id| r.phase(id) == Ok(Phase::Active)));
}

/// All orders of a set that rises, the lower first.
fn orders(set: &[u64]) -> Vec<Vec<u64>> {
    if set.is_empty() {
        return vec![vec![]];
    }
    let mut all = Vec::new();
    for (n, &first) in set.iter().enumerate() {
        let rest = [&set[..n], &set[n + 1..]].concat();
        all.extend(orders(&rest).iter().map(|order| [&[first], &order[..]].concat()));
    }
    all
}

/// Whether each can begin once those before it are Active, tried on a registry of its own.
fn is_carried_out(text: &[u8], order: &[u64]) -> bool {
    let mut registry = Box::new(Registry::load(8, text).unwrap());
    order.iter().all(|&id| {
        let begins = registry.begin(id).is_ok();
        if begins {
            registry.fail(id).unwrap();
            registry.finish(id).unwrap();
            activate(&mut registry, id);
        }
        begins
    })
}

/// Every set of up to four of the pier's, in every order: one passes exactly if it can be carried out, and the plan is the first.
#[test]
fn the_plan_is_the_first_of_all_orders_that_pass() {
    let registry = pier();
    let mut buffer = vec![0; TEXT_ROOM];
    let text = registry.text(&mut buffer).unwrap().as_bytes();
    let (mut planned, mut none) = (0, 0);
    for bits in 0..1 << 11u32 {
        let set: Vec<u64> = (50..61).filter(|id| bits >> (id - 50) & 1 == 1 && *id != 55).collect();
        if set.len() as u32 != u32::count_ones(bits) || set.len() > 4 {
            continue;
        }
        let mut first = None;
        for order in orders(&set) {
            let passes = passes(&registry, &set, &order);
            assert_eq!(passes, is_carried_out(text, &order), "{order:?}");
            if passes && first.is_none() {
                first = Some(order);
            }
        }
        *(if first.is_some() { &mut planned } else { &mut none }) += 1;
        assert_eq!(plan(&registry, &set), first);
    }
    assert_eq!(planned + none, 1 + 10 + 45 + 120 + 210);
    assert!(planned > 8 && none > 8);
}

/// Each plugin needs the next one: the last id begins first.
#[test]
fn the_longest_order() {
    let mut registry = Box::new(Registry::open(7, 0));
    for n in 0..32 {
        let needed = [1001 + n];
        let dependencies = if n < 31 { &needed[..] } else { &[] };
        let new = Definition { dependencies, provisions: &[1000 + n], ..bare(n) };
        assert_eq!(registry.register(&new), Ok(n));
    }
    let set: Vec<u64> = (0..32).collect();
    let falling: Vec<u64> = (0..32).rev().collect();
    assert_eq!(plan(&registry, &set).as_ref(), Some(&falling));
    assert_eq!(plan(&registry, &falling).as_ref(), Some(&falling));
    assert_eq!(plan(&registry, &set[..31]), None);
    assert_eq!(plan(&registry, &set[1..]).unwrap(), falling[..31]);
    assert!(passes(&registry, &set, &falling));
    assert!(!passes(&registry, &set, &set));
    let mut more = falling.clone();
    more.push(32);
    assert_eq!(refusal(&mut registry, &more), Refusal::Unknown);
    more[32] = 0;
    assert_eq!(refusal(&mut registry, &more), Refusal::Repeated);
    for id in falling {
        activate(&mut registry, id);
    }
}

/// The pier of twelve plugins in examples/pier.txt: what runs there, and the order of the others.
#[test]
fn the_pier_of_the_examples() {
    let text = include_bytes!("../../../examples/pier.txt");
    let mut registry = Box::new(Registry::load(0, text).unwrap());
    let r = &mut registry;
    let is = |phase| r.ids().filter(|&id| r.phase(id) == Ok(phase)).collect::<Vec<u64>>();
    assert_eq!(r.count(), 12);
    assert_eq!(is(Phase::Active), [108, 109]); // clock and weather
    let set = is(Phase::Idle);
    let order = plan(r, &set).unwrap();
    assert_eq!(order, [102, 110, 106, 104, 111, 107, 105, 100, 101, 103]);
    assert!(passes(r, &set, &order));
    // The rotator (103) stands on the focuser (102), and inherits its need of the weather.
    assert_eq!(r.parent(103), Ok(Some(102)));
    assert_eq!(dependencies(r, 103), [(50, 3), (60, 3), (90, 0)]);
    for id in order {
        activate(r, id);
    }
}
