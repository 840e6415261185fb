//! The registry as text: document 02's example, the lent bytes' edges, and what the other operations say of the same registry.

mod common;

use std::fmt::Write;

use common::{activate, admitted, bare, heirs, refused};
use vaskelbi::{Definition, Edition, Port, RealmList, Refusal, Registry, Root, TEXT_ROOM};

/// A plugin by a realm list, with these provisions.
fn one(realms: RealmList, provisions: &[u64]) -> Box<Registry> {
    let mut registry = Box::new(Registry::open(7, 0));
    let anchor = Port::in_default_realm(9);
    let new = Definition { realms, provisions, ..Definition::new(anchor, 40) };
    assert_eq!(registry.register(&new), Ok(0));
    registry
}

fn example() -> Box<Registry> {
    one(RealmList::first(&[(2, 5)]), &[2])
}

const EXAMPLE: &str = "domain=7 first=0 next=1 plugins=1 id=0 parent=none phase=0 retired=0 generation=0 revision=0 payload=40 \
    root=0 queued=none anchor=9,0 edition=1 default=0 realms=1 realm=2,5 deps=0 provs=1 prov=2,5,none";

const SECOND: &str = "domain=7 first=0 next=1 plugins=1 id=0 parent=none phase=0 retired=0 generation=0 revision=0 payload=40 \
    root=0 queued=none anchor=9,0 edition=2 default=8 realms=1 realm=2,5 deps=0 provs=2 prov=2,5,none prov=3,8,none";

fn lines(words: &str) -> String {
    words.replace(' ', "\n") + "\n"
}

fn or_none(number: Option<u64>) -> String {
    number.map_or("none".to_string(), |number| number.to_string())
}

/// A list's lines: its count, then its ports.
fn listed(
    name: &str,
    list: impl Fn(&mut [u64]) -> Result<usize, Refusal>,
    end: impl Fn(Port) -> String,
) -> String {
    let mut buffer = [0; 96];
    let count = list(&mut buffer).unwrap();
    let mut lines = format!("{name}s={count}\n");
    for port in Port::pairs(&buffer[..2 * count]) {
        writeln!(lines, "{name}={},{}{}", port.key, port.realm, end(port)).unwrap();
    }
    lines
}

/// The text by what the other operations answer.
fn told(r: &Registry) -> String {
    let mut text = format!(
        "domain={}\nfirst={}\nnext={}\nplugins={}\n",
        r.domain(),
        r.first_id(),
        r.next_id(),
        r.count()
    );
    for id in r.ids() {
        let (root, queued) = match r.root(id).unwrap() {
            Root::Unissued => (0, "none".to_string()),
            Root::Queued { revision, argument } => (1, format!("{revision},{argument}")),
            Root::Spent => (2, "none".to_string()),
        };
        let anchor = r.anchor(id).unwrap();
        let (edition, default) = match r.edition(id).unwrap() {
            Edition::First => (1, 0),
            Edition::Second { default } => (2, default),
        };
        for (name, value) in [
            ("id", id.to_string()),
            ("parent", or_none(r.parent(id).unwrap())),
            ("phase", (r.phase(id).unwrap() as u64).to_string()),
            ("retired", u64::from(r.retired(id).unwrap()).to_string()),
            ("generation", r.generation(id).unwrap().to_string()),
            ("revision", r.revision(id).unwrap().to_string()),
            ("payload", r.payload(id).unwrap().to_string()),
            ("root", root.to_string()),
            ("queued", queued),
            ("anchor", format!("{},{}", anchor.key, anchor.realm)),
            ("edition", edition.to_string()),
            ("default", default.to_string()),
        ] {
            writeln!(text, "{name}={value}").unwrap();
        }
        text += &listed("realm", |buffer| r.list_realms(id, 0, buffer), |_| String::new());
        text += &listed("dep", |buffer| r.list_dependencies(id, 0, buffer), |_| String::new());
        text += &listed(
            "prov",
            |buffer| r.list_provisions(id, 0, buffer),
            |port| format!(",{}", or_none(r.own(id, port).unwrap())),
        );
    }
    text
}

const CANARY: u8 = 0xA5;

/// Holds the text to what the other operations say, and all bytes around it to what they were.
fn check(registry: &mut Registry) {
    let wanted = told(registry);
    let mut room = vec![CANARY; wanted.len() + 64];
    for short in [0, 1, wanted.len() / 2, wanted.len() - 1] {
        let refusal = refused(registry, |r| r.write_text(&mut room[17..17 + short]));
        assert_eq!(refusal, Refusal::ShortBuffer);
        assert!(room.iter().all(|&byte| byte == CANARY), "{short} bytes");
    }
    for spare in [0, 1, 40] {
        room.fill(CANARY);
        let lent = &mut room[17..17 + wanted.len() + spare];
        assert_eq!(registry.write_text(lent), Ok(wanted.len()));
        assert_eq!(room[17..17 + wanted.len()], *wanted.as_bytes());
        let beside = room[..17].iter().chain(&room[17 + wanted.len()..]);
        assert!(beside.copied().all(|byte| byte == CANARY), "{spare} bytes to spare");
    }
    assert_eq!(registry.text(&mut vec![0; TEXT_ROOM]), Ok(&*wanted));
}

#[test]
fn the_example() {
    let registry = example();
    let mut buffer = [0; 202];
    assert_eq!(registry.text(&mut buffer[..201]), Err(Refusal::ShortBuffer));
    assert_eq!(buffer, [0; 202]);
    assert_eq!(registry.text(&mut buffer), Ok(&*lines(EXAMPLE)));
}

/// Edition 1 has the line `default=0` whatever default was handed in, and edition 2 the default that came with the list.
#[test]
fn both_editions() {
    let handed_in = RealmList::from_numbers(&[1, 8, 2, 5]);
    let mut registry = one(handed_in, &[2]);
    check(&mut registry);
    assert_eq!(registry.text(&mut [0; 202]), Ok(&*lines(EXAMPLE)));
    let mut registry = one(RealmList::second(8, &[(2, 5)]), &[2, 3]);
    check(&mut registry);
    assert_eq!(registry.text(&mut [0; 256]), Ok(&*lines(SECOND)));
    for default in [0, 10, u64::MAX] {
        let mut registry = one(RealmList::second(default, &[]), &[2]);
        check(&mut registry);
        let mut buffer = [0; 256];
        let text = registry.text(&mut buffer).unwrap();
        let expected = format!("\nanchor=9,0\nedition=2\ndefault={default}\nrealms=0\n");
        assert!(text.contains(&expected), "{text}");
    }
}

#[test]
fn a_life() {
    let mut registry = example();
    let r = &mut registry;
    check(r);
    let invocation = admitted(r, 0, u64::MAX);
    check(r);
    r.replace(0, u64::MAX).unwrap();
    check(r);
    assert_eq!(r.call(invocation), Err(Refusal::Stale));
    r.fail(0).unwrap();
    check(r);
    r.finish(0).unwrap();
    activate(r, 0);
    check(r);
    r.retire(0).unwrap();
    r.unload(0).unwrap();
    check(r);
    r.finish(0).unwrap();
    r.remove(0).unwrap();
    check(r);
}

#[test]
fn by_rising_id_and_not_by_place() {
    let mut registry = Box::new(Registry::open(0, u64::MAX - 40));
    let r = &mut registry;
    for n in 0..32 {
        r.register(&bare(n)).unwrap();
    }
    check(r);
    for n in [0, 7, 31] {
        r.retire(u64::MAX - 40 + n).unwrap();
        r.remove(u64::MAX - 40 + n).unwrap();
        check(r);
    }
    // It takes the first place, and is the last by its id.
    let parent = Some(u64::MAX - 39);
    let id = r.register(&Definition { parent, ..bare(40) }).unwrap();
    check(r);
    let mut buffer = vec![0; TEXT_ROOM];
    let text = r.text(&mut buffer).unwrap();
    let last = text.lines().rfind(|line| line.starts_with("id="));
    assert_eq!(last, Some(&*format!("id={id}")));
}

#[test]
fn all_rows_in_use() {
    let mut registry = Box::new(Registry::open(u64::MAX, 0));
    let parent = heirs(&mut registry);
    for n in 3.. {
        let new = Definition { parent: Some(parent), provisions: &[1000 + n], ..bare(n) };
        if registry.register(&new).is_err() {
            break;
        }
    }
    for n in 100.. {
        if registry.register(&bare(n)).is_err() {
            break;
        }
    }
    assert!(registry.rows() == 1024 || registry.count() == 32);
    check(&mut registry);
}
