//! Which texts two registries load, and what they hold then: `fuzz COUNT SEED`.

mod bases;
mod compare;
mod tally;

#[cfg_attr(feature = "alone", path = "slow.rs")]
#[cfg_attr(not(feature = "alone"), path = "proved.rs")]
mod second;

use std::env;
use std::ops::ControlFlow;
use std::process::ExitCode;

use plain::damage::{BYTES, EDITIONS, RECORDS};
use plain::rng::Rng;

use compare::{Compare, Difference};
use tally::Tally;

/// How many texts are made of a whole one, itself not counted.
const DAMAGED: usize = 12;

/// The name of texts that are left whole, and of those damaged twice.
const WHOLE: &str = "whole";
const TWICE: &str = "damaged twice";

fn main() -> ExitCode {
    let numbers: Option<Vec<u64>> = env::args().skip(1).map(|word| word.parse().ok()).collect();
    let Some(&[count, seed]) = numbers.as_deref() else {
        eprintln!("usage: fuzz COUNT SEED");
        return ExitCode::FAILURE;
    };
    let kinds = [BYTES, EDITIONS, RECORDS].into_iter().flatten();
    let mut tally =
        Tally::new([WHOLE].into_iter().chain(kinds.map(|kind| kind.name)).chain([TWICE]));
    let found = run(count, seed, &mut tally);
    println!("{tally}");
    match found {
        None => {
            println!("{} texts, both registries alike on each", tally.texts());
            ExitCode::SUCCESS
        }
        Some(difference) => {
            println!("{difference}");
            ExitCode::FAILURE
        }
    }
}

/// Loads so many texts on both sides; answers the first difference.
fn run(count: u64, seed: u64, tally: &mut Tally) -> Option<Difference> {
    let mut rng = Rng::new(seed);
    let mut compare = Compare::new();
    let mut found = None;
    bases::each(&mut Rng::new(seed ^ 1 << 63), |base| {
        for n in 0..=DAMAGED {
            if tally.texts() == count {
                return ControlFlow::Break(());
            }
            let mut text = base.to_vec();
            let kind = if n == 0 { WHOLE } else { damage(&mut text, &mut rng) };
            let domain = domain_for(&text, &mut rng);
            match compare.load(domain, &text) {
                Ok(status) => tally.add(kind, status),
                Err(difference) => {
                    found = Some(difference.of(kind));
                    return ControlFlow::Break(());
                }
            }
        }
        ControlFlow::Continue(())
    });
    found
}

/// Damages a text once or twice; answers the kind's name.
fn damage(text: &mut Vec<u8>, rng: &mut Rng) -> &'static str {
    let name = damage_once(text, rng);
    if rng.one_in(10) {
        damage_once(text, rng);
        return TWICE;
    }
    name
}

/// By a kind that the text has something of.
fn damage_once(text: &mut Vec<u8>, rng: &mut Rng) -> &'static str {
    loop {
        let kinds = rng.one_of([BYTES, BYTES, BYTES, EDITIONS, RECORDS, RECORDS, RECORDS]);
        let kind = &kinds[rng.below(kinds.len() as u64) as usize];
        let mut damaged = text.clone();
        if kind.damage(&mut damaged, rng).is_some() {
            *text = damaged;
            return kind.name;
        }
    }
}

/// Mostly another domain than the text's.
fn domain_for(text: &[u8], rng: &mut Rng) -> u64 {
    let line = text.split(|&byte| byte == b'\n').next().unwrap_or_default();
    let told = line.strip_prefix(b"domain=").and_then(|word| str::from_utf8(word).ok());
    match told.and_then(|word| word.parse().ok()) {
        Some(told) if rng.one_in(8) => told,
        Some(told) => rng.nudge(told),
        None => rng.number(),
    }
}
