//! Start orders: examples worked out by hand, and all orders of random small piers.

mod common;

use common::loads::{THERE, load, text_of};
use common::{activate, anchor, bare};
use plain::rng::Rng;
use plain::sheet::Sheet;
use plain::{Phase, Port, RealmList, Refusal, Registration, Registry};

/// What lies in a buffer before it is lent.
const BEFORE: u64 = 77;

/// Plugin n provides key n, and depends on the keys that stand at its place.
fn pier(needs: &[&[u64]]) -> Registry {
    let mut registry = Registry::open(7, 0);
    for (n, dependencies) in (0..).zip(needs) {
        add(&mut registry, dependencies, &[n]);
    }
    registry
}

/// Registers one more with an anchor of its own.
fn add(registry: &mut Registry, dependencies: &[u64], provisions: &[u64]) -> u64 {
    let anchor = anchor(registry.next());
    registry.register(&Registration { dependencies, provisions, ..bare(anchor) }).unwrap()
}

/// A plan in a buffer of so many numbers. Nothing but the order is written.
fn plan_in(registry: &Registry, set: &[u64], size: usize) -> Result<Option<Vec<u64>>, Refusal> {
    let before = text_of(registry);
    let mut buffer = vec![BEFORE; size];
    let count = registry.plan_order(set, &mut buffer);
    let order = buffer[..count.unwrap_or(None).unwrap_or(0)].to_vec();
    assert!(buffer[order.len()..].iter().all(|&number| number == BEFORE));
    assert_eq!(text_of(registry), before);
    Ok(count?.map(|_| order))
}

/// A plan with room to spare. Just enough room gives the same, and less is refused.
fn plan(registry: &Registry, set: &[u64]) -> Result<Option<Vec<u64>>, Refusal> {
    let planned = plan_in(registry, set, set.len() + 5);
    assert_eq!(plan_in(registry, set, set.len()), planned);
    if planned.is_ok() && !set.is_empty() {
        assert_eq!(plan_in(registry, set, set.len() - 1), Err(Refusal::ShortBuffer));
        assert_eq!(plan_in(registry, set, 0), Err(Refusal::ShortBuffer));
    }
    if let Ok(Some(order)) = &planned {
        assert!(check(registry, set, order));
    }
    planned
}

fn check(registry: &Registry, set: &[u64], order: &[u64]) -> bool {
    registry.check_order(set, order).unwrap()
}

/// Both refuse a set, whatever the room and the order.
fn refused(registry: &Registry, set: &[u64]) -> Refusal {
    let refusal = plan(registry, set).unwrap_err();
    assert_eq!(plan_in(registry, set, 0), Err(refusal));
    for order in [&[], set] {
        assert_eq!(registry.check_order(set, order), Err(refusal));
    }
    refusal
}

fn planned(registry: &Registry, set: &[u64]) -> Vec<u64> {
    plan(registry, set).unwrap().unwrap()
}

/// The same registry with the generations of these plugins the last.
fn worn(registry: &Registry, ids: &[u64]) -> Registry {
    with_generation(registry, ids, u64::MAX)
}

fn with_generation(registry: &Registry, ids: &[u64], generation: u64) -> Registry {
    let mut sheet = Sheet::of(registry);
    for plugin in sheet.plugins.iter_mut().filter(|p| ids.contains(&p.id)) {
        plugin.generation = generation;
    }
    load(sheet.text()).unwrap()
}

#[test]
fn a_pier() {
    // 0 is the dome, 1 the hour angle, 2 the drive, 3 the encoder, 4 the focuser.
    let registry = pier(&[&[1], &[2, 3], &[3], &[], &[]]);
    assert_eq!(planned(&registry, &[0, 1, 2, 3, 4]), [3, 2, 1, 0, 4]);
    assert_eq!(planned(&registry, &[4, 2, 0, 3, 1]), [3, 2, 1, 0, 4]);
    assert_eq!(planned(&registry, &[4, 3]), [3, 4]);
    assert_eq!(planned(&registry, &[4, 3, 2]), [3, 2, 4]);
    assert_eq!(plan(&registry, &[0, 1, 2, 4]), Ok(None));
    // The focuser may begin at any place.
    let set = [0, 1, 2, 3, 4];
    for order in [[4, 3, 2, 1, 0], [3, 4, 2, 1, 0], [3, 2, 4, 1, 0], [3, 2, 1, 4, 0]] {
        assert!(check(&registry, &set, &order), "{order:?}");
    }
    for order in [[2, 3, 1, 0, 4], [3, 1, 2, 0, 4], [3, 2, 0, 1, 4], [0, 1, 2, 3, 4]] {
        assert!(!check(&registry, &set, &order), "{order:?}");
    }
}

#[test]
fn the_empty_set_has_the_empty_order() {
    for registry in [pier(&[]), pier(&[&[0], &[]])] {
        assert_eq!(plan_in(&registry, &[], 0), Ok(Some(vec![])));
        assert_eq!(plan_in(&registry, &[], 3), Ok(Some(vec![])));
        assert!(check(&registry, &[], &[]));
        for order in [&[0][..], &[1], &[9], &[1, 1]] {
            assert!(!check(&registry, &[], order));
        }
    }
}

#[test]
fn every_refusal_of_a_set() {
    let mut registry = pier(&[&[], &[], &[], &[], &[], &[]]);
    assert_eq!(refused(&registry, &[0, 1, 0]), Refusal::Repeated);
    assert_eq!(refused(&registry, &[0, 0]), Refusal::Repeated);
    assert_eq!(refused(&registry, &[0, 6]), Refusal::Unknown);
    assert_eq!(refused(&registry, &[u64::MAX]), Refusal::Unknown);
    registry.retire(1).unwrap();
    assert_eq!(refused(&registry, &[0, 1]), Refusal::Retired);
    registry.begin(2).unwrap();
    activate(&mut registry, 3);
    registry.begin(4).unwrap();
    registry.fail(4).unwrap();
    for running in [2, 3, 4] {
        assert_eq!(refused(&registry, &[5, running, 0]), Refusal::InvalidState);
    }
    registry.finish(4).unwrap();
    assert_eq!(planned(&registry, &[5, 4, 0]), [0, 4, 5]);
    registry.remove(1).unwrap();
    assert_eq!(refused(&registry, &[0, 1]), Refusal::Unknown);
    let registry = worn(&registry, &[5]);
    assert_eq!(refused(&registry, &[0, 5]), Refusal::Exhausted);
    assert_eq!(planned(&registry, &[4, 0]), [0, 4]);
}

#[test]
fn a_plugin_can_begin_once_more() {
    let mut registry = with_generation(&pier(&[&[], &[]]), &[1], u64::MAX - 1);
    assert_eq!(planned(&registry, &[1, 0]), [0, 1]);
    registry.begin(1).unwrap();
    assert_eq!(refused(&registry, &[1, 0]), Refusal::InvalidState);
    registry.fail(1).unwrap();
    registry.finish(1).unwrap();
    assert_eq!(refused(&registry, &[1, 0]), Refusal::Exhausted);
}

/// An id is repeated if an earlier one of the list is equal, and a later id comes later.
#[test]
fn ids_are_checked_one_by_one() {
    let mut registry = pier(&[&[], &[], &[], &[], &[], &[]]);
    registry.retire(1).unwrap();
    registry.begin(2).unwrap();
    activate(&mut registry, 3);
    registry.retire(3).unwrap();
    registry.begin(4).unwrap();
    let registry = worn(&registry, &[3, 4, 5]);
    for (set, refusal) in [
        // Not registered is told of the first one, before the second is looked at.
        (&[9, 9][..], Refusal::Unknown),
        (&[0, 99, 0], Refusal::Unknown),
        (&[0, 0, 99], Refusal::Repeated),
        (&[1, 1], Refusal::Retired),
        (&[2, 2], Refusal::InvalidState),
        (&[5, 5], Refusal::Exhausted),
        (&[0, 1, 0], Refusal::Retired),
        (&[0, 2, 0], Refusal::InvalidState),
        (&[0, 5, 0], Refusal::Exhausted),
        // A later id's check, be it an earlier one of the list, waits.
        (&[1, 9], Refusal::Retired),
        (&[2, 1], Refusal::InvalidState),
        (&[5, 2], Refusal::Exhausted),
        (&[5, 9], Refusal::Exhausted),
        (&[9, 1], Refusal::Unknown),
        // On one id: retired, then its phase, then its generation.
        (&[3], Refusal::Retired),
        (&[4], Refusal::InvalidState),
    ] {
        assert_eq!(refused(&registry, set), refusal, "{set:?}");
    }
}

#[test]
fn room_comes_after_the_ids_and_before_the_order() {
    let registry = pier(&[&[], &[1], &[0]]);
    // 1 needs its own port, so there is no order with it.
    assert_eq!(plan(&registry, &[1]), Ok(None));
    assert_eq!(plan_in(&registry, &[1], 0), Err(Refusal::ShortBuffer));
    assert_eq!(plan_in(&registry, &[2, 1, 0], 2), Err(Refusal::ShortBuffer));
    assert_eq!(plan_in(&registry, &[2, 1, 0], 3), Ok(None));
    assert_eq!(plan_in(&registry, &[2, 0], 1), Err(Refusal::ShortBuffer));
    assert_eq!(plan_in(&registry, &[2, 2], 0), Err(Refusal::Repeated));
    assert_eq!(plan_in(&registry, &[2, 3], 1), Err(Refusal::Unknown));
}

#[test]
fn the_front_is_written_and_the_rest_stays() {
    let registry = pier(&[&[1], &[], &[]]);
    let mut buffer = [1, 2, 3, 4, 5];
    assert_eq!(registry.plan_order(&[2, 0, 1], &mut buffer), Ok(Some(3)));
    assert_eq!(buffer, [1, 0, 2, 4, 5]);
    assert_eq!(registry.plan_order(&[0, 2], &mut buffer), Ok(None));
    assert_eq!(registry.plan_order(&[0, 0], &mut buffer), Err(Refusal::Repeated));
    assert_eq!(registry.plan_order(&[2, 0, 1], &mut buffer[..2]), Err(Refusal::ShortBuffer));
    assert_eq!(registry.plan_order(&[], &mut buffer), Ok(Some(0)));
    assert_eq!(buffer, [1, 0, 2, 4, 5]);
}

#[test]
fn rings_and_own_ports() {
    // 0 and 1 need each other, 2 to 4 go round, 5 hangs on the ring, 6 is free.
    let registry = pier(&[&[1], &[0], &[3], &[4], &[2], &[2], &[]]);
    for set in [&[0, 1][..], &[2, 3, 4], &[5, 4, 3, 2], &[6, 1, 0], &[0, 1, 2, 3, 4, 5, 6]] {
        assert_eq!(plan(&registry, set), Ok(None), "{set:?}");
        assert!(!check(&registry, set, set));
    }
    assert_eq!(planned(&registry, &[6]), [6]);
    // Its own provision, and its own anchor.
    let mut registry = pier(&[&[0], &[]]);
    let own = Registration { dependencies: &[5], ..bare((5, 0)) };
    assert_eq!(registry.register(&own), Ok(2));
    for id in [0, 2] {
        assert_eq!(plan(&registry, &[id]), Ok(None));
        assert_eq!(plan(&registry, &[1, id]), Ok(None));
        assert!(!check(&registry, &[id], &[id]));
    }
}

/// Where a provider outside the set must be, and where it must not.
#[test]
fn providers_outside_the_set() {
    let mut registry = pier(&[&[], &[0], &[1], &[9]]);
    // Idle.
    assert_eq!(plan(&registry, &[1]), Ok(None));
    assert_eq!(plan(&registry, &[2, 1]), Ok(None));
    assert_eq!(planned(&registry, &[2, 1, 0]), [0, 1, 2]);
    // Loading.
    let invocation = common::admitted(&mut registry, 0, 5);
    assert_eq!(registry.plugin(0).unwrap().phase(), Phase::Loading);
    assert_eq!(plan(&registry, &[1]), Ok(None));
    registry.call(invocation).unwrap();
    registry.offer(0, registry.missing(0).unwrap().unwrap(), 1).unwrap();
    assert_eq!(plan(&registry, &[1]), Ok(None));
    assert!(!check(&registry, &[1], &[1]));
    // Active, and then retired.
    registry.ready(0).unwrap();
    assert_eq!(planned(&registry, &[1]), [1]);
    assert_eq!(planned(&registry, &[2, 1]), [1, 2]);
    registry.retire(0).unwrap();
    assert_eq!(planned(&registry, &[2, 1]), [1, 2]);
    assert!(check(&registry, &[2, 1], &[1, 2]));
    assert!(!check(&registry, &[2, 1], &[2, 1]));
    assert_eq!(plan(&registry, &[2]), Ok(None));
    // Unloading.
    registry.unload(0).unwrap();
    assert_eq!(plan(&registry, &[1]), Ok(None));
    // Nobody provides key 9.
    assert_eq!(plan(&registry, &[3]), Ok(None));
    assert!(!check(&registry, &[3], &[3]));
}

#[test]
fn an_anchor_provides_too() {
    let mut registry = Registry::open(7, 0);
    let by_row = RealmList::first(&[4, 6]);
    let reader = Registration { dependencies: &[4], ..bare((1, 0)) };
    assert_eq!(registry.register(&Registration { realms: by_row, ..reader }), Ok(0));
    assert_eq!(registry.register(&bare((4, 6))), Ok(1));
    assert_eq!(registry.register(&Registration { anchor: Port::new(2, 0), ..reader }), Ok(2));
    assert_eq!(planned(&registry, &[0, 1]), [1, 0]);
    assert!(!check(&registry, &[0, 1], &[0, 1]));
    // 2 needs (4,0), which is another port.
    assert_eq!(plan(&registry, &[2, 1]), Ok(None));
    activate(&mut registry, 1);
    assert_eq!(planned(&registry, &[0]), [0]);
    assert_eq!(plan(&registry, &[2]), Ok(None));
}

/// What is wrong with an order is no refusal.
#[test]
fn an_order_of_anything() {
    let mut registry = pier(&[&[], &[0], &[1], &[], &[]]);
    activate(&mut registry, 4);
    let set = [2, 0, 1];
    assert!(check(&registry, &set, &[0, 1, 2]));
    for order in [
        // Left out, also all of them.
        &[][..],
        &[0],
        &[0, 1],
        &[1, 2],
        // Twice.
        &[0, 1, 2, 2],
        &[0, 0, 1, 2],
        &[0, 1, 1],
        &[0, 0, 0],
        // Of another set, running, not registered.
        &[0, 1, 2, 3],
        &[3, 0, 1, 2],
        &[0, 1, 3],
        &[4, 0, 1, 2],
        &[0, 1, 4],
        &[0, 1, 2, 9],
        &[9, 1, 2],
        &[u64::MAX; 3],
        // The provider later.
        &[1, 0, 2],
        &[0, 2, 1],
        &[2, 1, 0],
    ] {
        assert!(!check(&registry, &set, order), "{order:?}");
    }
    assert!(!check(&registry, &set, &[0; 1000]));
    assert!(!check(&registry, &set, &(0..1000).collect::<Vec<_>>()));
}

#[test]
fn plugins_32_and_33() {
    // Each needs the one before it, then the one after it, then none.
    let chain: Vec<Vec<u64>> =
        (0..32).map(|n: u64| n.checked_sub(1).into_iter().collect()).collect();
    let back: Vec<Vec<u64>> =
        (0..32).map(|n| Some(n + 1).filter(|&n| n < 32).into_iter().collect()).collect();
    let ring: Vec<Vec<u64>> = (0..32).map(|n| vec![(n + 1) % 32]).collect();
    let none = vec![vec![]; 32];
    let rising: Vec<u64> = (0..32).collect();
    let falling: Vec<u64> = (0..32).rev().collect();
    let lists = |needs: &[Vec<u64>]| pier(&needs.iter().map(Vec::as_slice).collect::<Vec<_>>());
    for set in [&rising, &falling] {
        assert_eq!(planned(&lists(&chain), set), rising);
        assert_eq!(planned(&lists(&back), set), falling);
        assert_eq!(planned(&lists(&none), set), rising);
        assert_eq!(plan(&lists(&ring), set), Ok(None));
        assert!(check(&lists(&none), set, &falling));
        assert!(!check(&lists(&chain), set, &falling));
    }
    // A 33rd id is one of the others or not registered.
    let registry = lists(&none);
    for (id, refusal) in [(0, Refusal::Repeated), (31, Refusal::Repeated), (32, Refusal::Unknown)] {
        let set = [&rising[..], &[id]].concat();
        assert_eq!(refused(&registry, &set), refusal);
    }
}

/// All orders of sorted ids, sorted themselves.
fn orders(ids: &[u64]) -> Vec<Vec<u64>> {
    if ids.is_empty() {
        return vec![Vec::new()];
    }
    let behind = |first: &u64| {
        let rest: Vec<u64> = ids.iter().copied().filter(|id| id != first).collect();
        orders(&rest).into_iter().map(|rest| [&[*first][..], &rest].concat()).collect::<Vec<_>>()
    };
    ids.iter().flat_map(behind).collect()
}

/// Up to six plugins that need each other, themselves or nobody, in any phase.
fn random_pier(rng: &mut Rng) -> Registry {
    let count = rng.between(2, 6);
    let mut ranks: Vec<u64> = (0..count).collect();
    rng.shuffle(&mut ranks);
    let mut registry = Registry::open(7, 0);
    for n in 0..count {
        let rank = |key: u64| ranks[key as usize];
        let mut needs: Vec<u64> = (0..count).collect();
        // Rarely its own port, or one that goes round.
        needs.retain(|&key| rng.one_in(if rank(key) < rank(n) { 3 } else { 40 }));
        if rng.one_in(30) {
            needs.push(99);
        }
        if rng.one_in(3) {
            let new = Registration { dependencies: &needs, ..bare((n, 0)) };
            registry.register(&new).unwrap();
        } else {
            add(&mut registry, &needs, &[n]);
        }
    }
    for id in 0..count {
        let phase = rng.below(14);
        if phase < 2 && begins(&registry, &[id]) {
            activate(&mut registry, id);
        } else if phase < 4 && begins(&registry, &[id]) {
            registry.begin(id).unwrap();
            if rng.one_in(2) {
                registry.fail(id).unwrap();
            }
        }
        if rng.one_in(12) {
            registry.retire(id).unwrap();
        }
    }
    registry
}

/// Whether plugins do begin one after the other, each once the one before is Active.
fn begins(registry: &Registry, order: &[u64]) -> bool {
    let mut copy = Registry::open(0, 0);
    copy.load(THERE, text_of(registry).as_bytes()).unwrap();
    for &id in order {
        let Ok(ticket) = copy.begin(id) else { return false };
        let invocation = copy.admit(ticket, 5).unwrap();
        copy.call(invocation).unwrap();
        while let Some(port) = copy.missing(id).unwrap() {
            copy.offer(id, port, 1).unwrap();
        }
        copy.ready(id).unwrap();
    }
    true
}

/// The first of all orders that passes is the plan, and what passes can be carried out.
/// With more plugins that need nothing, it is the same by the way that tries no orders.
#[test]
fn all_orders_of_random_piers() {
    let mut rng = Rng::new(6);
    let (mut found, mut several, mut turned, mut none) = (0, 0, 0, 0);
    for _ in 0..1500 {
        let mut registry = random_pier(&mut rng);
        let startable = |registry: &Registry, id: &u64| {
            let plugin = registry.plugin(*id).unwrap();
            plugin.phase() == Phase::Idle && !plugin.retired()
        };
        let mut set: Vec<u64> =
            (0..registry.next()).filter(|id| startable(&registry, id)).collect();
        set.retain(|_| !rng.one_in(12));
        let all = orders(&set);
        rng.shuffle(&mut set);
        let passing: Vec<&Vec<u64>> =
            all.iter().filter(|order| check(&registry, &set, order)).collect();
        for order in &all {
            if rng.one_in(4) {
                assert_eq!(passing.contains(&order), begins(&registry, order), "{order:?}");
            }
        }
        let wanted = passing.first().copied();
        let order = plan(&registry, &set).unwrap();
        assert_eq!(order.as_ref(), wanted);
        match &order {
            None => none += 1,
            Some(order) => {
                assert!(begins(&registry, order));
                found += 1;
                several += u64::from(passing.len() > 1);
                turned += u64::from(!order.is_sorted());
            }
        }
        let free: Vec<u64> = (0..8).map(|n| add(&mut registry, &[], &[50 + n])).collect();
        let mut more = [&set[..], &free].concat();
        rng.shuffle(&mut more);
        let behind = order.map(|order| [&order[..], &free].concat());
        assert_eq!(plan(&registry, &more), Ok(behind));
    }
    let counts = [found, several, turned, none];
    assert!(counts.iter().all(|&count| count > 200), "{counts:?}");
}
