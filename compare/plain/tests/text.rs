//! The registry as text: document 02's example, and what it leaves to think of.

mod common;

use common::{admitted, anchor, bare, heirs};
use plain::{Port, RealmList, Refusal, Registration, Registry};

fn text(registry: &Registry) -> String {
    let mut room = vec![0; 131_072];
    let length = registry.write(&mut room).unwrap();
    assert_eq!(length, registry.text_length());
    assert!(room[length..].iter().all(|&byte| byte == 0));
    room.truncate(length);
    String::from_utf8(room).unwrap()
}

/// The lines of a text, parted by spaces.
fn spaced(registry: &Registry) -> String {
    let text = text(registry);
    assert!(text.ends_with('\n') && !text.contains(' '));
    text.trim_end_matches('\n').replace('\n', " ")
}

/// The lines that start with this.
fn lines<'t>(text: &'t str, start: &str) -> Vec<&'t str> {
    text.lines().filter(|line| line.starts_with(start)).collect()
}

fn example() -> Registry {
    let mut registry = Registry::open(7, 0);
    let new = Registration {
        realms: RealmList::first(&[2, 5]),
        provisions: &[2],
        payload: 40,
        ..bare((9, 0))
    };
    assert_eq!(registry.register(&new), Ok(0));
    registry
}

const EXAMPLE: &str = "domain=7 first=0 next=1 plugins=1 id=0 parent=none phase=0 retired=0 generation=0 revision=0 payload=40 root=0 queued=none anchor=9,0 edition=1 default=0 realms=1 realm=2,5 deps=0 provs=1 prov=2,5,none";

#[test]
fn the_example() {
    assert_eq!(spaced(&example()), EXAMPLE);
}

#[test]
fn an_empty_registry() {
    assert_eq!(text(&Registry::open(0, 0)), "domain=0\nfirst=0\nnext=0\nplugins=0\n");
    let last = u64::MAX;
    assert_eq!(
        spaced(&Registry::open(last, last)),
        format!("domain={last} first={last} next={last} plugins=0")
    );
}

#[test]
fn room_at_its_edges() {
    let registry = example();
    let wanted = text(&registry);
    for room in [0, 1, 19, wanted.len() - 1] {
        let mut buffer = vec![b'x'; wanted.len() + 9];
        assert_eq!(registry.write(&mut buffer[..room]), Err(Refusal::ShortBuffer));
        assert!(buffer.iter().all(|&byte| byte == b'x'), "{room}");
    }
    for room in [wanted.len(), wanted.len() + 1, wanted.len() + 9] {
        let mut buffer = vec![b'x'; wanted.len() + 9];
        assert_eq!(registry.write(&mut buffer[..room]), Ok(wanted.len()));
        assert_eq!(&buffer[..wanted.len()], wanted.as_bytes());
        assert!(buffer[wanted.len()..].iter().all(|&byte| byte == b'x'), "{room}");
    }
}

/// Every line of a life: Queued and Spent, some values and all, retired.
#[test]
fn a_life() {
    let mut registry = example();
    let second = Registration { provisions: &[4, 6], payload: 8, ..bare((3, 1)) };
    let id = registry.register(&Registration { parent: Some(0), ..second }).unwrap();
    assert_eq!(registry.replace(id, 9), Ok(8));
    let invocation = admitted(&mut registry, id, u64::MAX);
    let block = |state: &str, values: [&str; 2]| {
        let [four, six] = values;
        format!(
            "id=1 parent=0 {state} anchor=3,1 edition=1 default=0 realms=0 deps=0 provs=2 prov=4,0,{four} prov=6,0,{six}"
        )
    };
    let told =
        |registry: &Registry| spaced(registry).split_off(spaced(registry).find("id=1").unwrap());
    let queued =
        format!("phase=1 retired=0 generation=1 revision=1 payload=9 root=1 queued=1,{}", u64::MAX);
    assert_eq!(told(&registry), block(&queued, ["none", "none"]));
    // The revision that was queued stays while the plugin's own goes on.
    assert_eq!(registry.replace(id, 9), Ok(9));
    let queued = queued.replace("revision=1", "revision=2");
    assert_eq!(told(&registry), block(&queued, ["none", "none"]));
    assert_eq!(registry.call(invocation), Err(Refusal::Stale));
    registry.fail(id).unwrap();
    let queued = queued.replace("phase=1", "phase=3");
    assert_eq!(told(&registry), block(&queued, ["none", "none"]));
    registry.finish(id).unwrap();
    let idle = "phase=0 retired=0 generation=1 revision=2 payload=9 root=0 queued=none";
    assert_eq!(told(&registry), block(idle, ["none", "none"]));

    let invocation = admitted(&mut registry, id, 5);
    registry.call(invocation).unwrap();
    registry.offer(id, Port::new(6, 0), 0).unwrap();
    let spent = "phase=1 retired=0 generation=2 revision=2 payload=9 root=2 queued=none";
    assert_eq!(told(&registry), block(spent, ["none", "0"]));
    registry.offer(id, Port::new(4, 0), u64::MAX).unwrap();
    registry.ready(id).unwrap();
    registry.retire(id).unwrap();
    let active = "phase=2 retired=1 generation=2 revision=2 payload=9 root=2 queued=none";
    assert_eq!(told(&registry), block(active, ["18446744073709551615", "0"]));
    registry.unload(id).unwrap();
    let unloading = active.replace("phase=2", "phase=3");
    assert_eq!(told(&registry), block(&unloading, ["18446744073709551615", "0"]));
    registry.finish(id).unwrap();
    let idle = "phase=0 retired=1 generation=2 revision=2 payload=9 root=0 queued=none";
    assert_eq!(told(&registry), block(idle, ["none", "none"]));
    registry.remove(id).unwrap();
    assert_eq!(spaced(&registry), EXAMPLE.replace("next=1", "next=2"));
}

#[test]
fn plugins_by_rising_id_and_not_by_place() {
    let mut registry = Registry::open(7, 10);
    for n in 0..4 {
        registry.register(&bare(anchor(n))).unwrap();
    }
    for id in [10, 12] {
        registry.retire(id).unwrap();
        registry.remove(id).unwrap();
    }
    // The free places are the first and the third.
    let new = Registration { parent: Some(13), ..bare(anchor(4)) };
    assert_eq!(registry.register(&new), Ok(14));
    assert_eq!(registry.register(&bare(anchor(5))), Ok(15));
    assert_eq!(registry.registered().map(|(id, _)| id).collect::<Vec<_>>(), [14, 11, 15, 13]);
    let text = text(&registry);
    assert_eq!(lines(&text, "id="), ["id=11", "id=13", "id=14", "id=15"]);
    let parents = ["parent=none", "parent=none", "parent=13", "parent=none"];
    assert_eq!(lines(&text, "parent="), parents);
    let anchors = [1, 3, 4, 5].map(|n| format!("anchor={},77", 1_000_000 + n));
    assert_eq!(lines(&text, "anchor="), anchors);
}

#[test]
fn lists_in_their_order() {
    let mut registry = Registry::open(7, 0);
    let id = heirs(&mut registry);
    let text = text(&registry);
    let (_, block) = text.split_once(&format!("id={id}\n")).unwrap();
    let realms: Vec<String> = (1..=16).map(|key| format!("realm={key},2")).collect();
    assert_eq!(lines(block, "realm="), realms);
    let of = |key| [0, 2, 1].map(|realm| format!("dep={key},{realm}"));
    let deps: Vec<String> = (1..=16).flat_map(of).collect();
    assert_eq!(lines(block, "dep="), deps);
    assert_eq!(lines(block, "realms="), ["realms=16"]);
    assert_eq!(lines(block, "deps="), ["deps=48"]);
    assert_eq!(lines(block, "provs="), ["provs=0"]);
}

#[test]
fn a_full_registry() {
    let mut registry = Registry::open(7, 0);
    let keys: Vec<u64> = (1..=16).collect();
    for n in 0..32 {
        let provisions: Vec<u64> = (100 * n + 101..100 * n + 116).collect();
        let new = Registration { dependencies: &keys, provisions: &provisions, ..bare(anchor(n)) };
        registry.register(&new).unwrap();
    }
    assert_eq!(registry.rows(), 1024);
    let text = text(&registry);
    assert_eq!(lines(&text, "id=").len(), 32);
    assert_eq!(lines(&text, "dep=").len(), 512);
    assert_eq!(lines(&text, "prov=").len(), 480);
    let mut buffer = vec![b'x'; text.len()];
    assert_eq!(registry.write(&mut buffer[1..]), Err(Refusal::ShortBuffer));
    assert!(buffer.iter().all(|&byte| byte == b'x'));
    assert_eq!(registry.write(&mut buffer), Ok(text.len()));
}
