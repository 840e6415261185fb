//! Times: the sides take turns on worlds that are copied anew between the rounds.

use std::fs;
use std::hint::black_box;
use std::time::Instant;

use plain::console::TEXT;

use crate::cases::{Case, Room};
use crate::sides::{EMPTY, Measured, PLAIN, SIDES, SLOT, Side, WORLD};
use crate::slots;
use crate::worlds::World;

/// Worlds in one round. They should stay in a core's second cache.
pub const WORLDS: usize = 16;

const ROUNDS: usize = 1001;

/// The words of the world that a case starts from.
pub fn prepared(side: &'static Side, case: &Case) -> Vec<u64> {
    if side.name == EMPTY.name {
        return vec![0; WORLD];
    }
    let mut world = World::new(side);
    (case.prepare)(&mut world);
    world.words().to_vec()
}

pub fn copies(of: &[u64], count: usize) -> Vec<u64> {
    of.repeat(count)
}

/// Room for a text, its pages touched. If the case reads a text, that stands at the
/// front, the same for all sides: the plain one tells it.
pub fn text(case: &Case) -> Vec<u8> {
    let mut room = vec![b'#'; TEXT];
    for (prepare, behind) in case.reads {
        let mut world = World::new(&PLAIN);
        prepare(&mut world);
        let length = world.write(&mut room);
        room[length..][..behind.len()].copy_from_slice(behind.as_bytes());
        assert_eq!(case.bytes, (length + behind.len()) as u64, "{}", case.name);
    }
    room
}

/// What a world tells in the end, if the case is about that.
fn told(side: &'static Side, case: &Case, world: &mut [u64]) -> Vec<u8> {
    let (mut room, mut out) = (vec![b'#'; TEXT], [0; 7]);
    if !case.reads.is_empty() {
        unsafe { (side.write_text)(world.as_mut_ptr(), room.as_mut_ptr(), TEXT, &mut out) };
    }
    room
}

/// Runs a case on so many of the worlds.
#[inline(never)]
pub fn run(
    side: &'static Side,
    case: &Case,
    worlds: &mut [u64],
    count: usize,
    text: &mut [u8],
) -> u64 {
    let (side, mut room) = (black_box(side), Room::new(text));
    let mut sum = 0u64;
    for world in worlds.chunks_exact_mut(WORLD).take(count) {
        sum = sum.wrapping_add(unsafe { (case.run)(side, world.as_mut_ptr(), &mut room) });
    }
    black_box(&mut room);
    sum
}

/// Says if a case doesn't do what its name says, or the sides don't do the same.
pub fn check(case: &Case) -> Result<(), String> {
    let [plain, others @ ..] = SIDES.map(|side| {
        let (mut world, mut text) = (prepared(side, case), text(case));
        let mut room = Room::new(&mut text);
        let mut slots = vec![[0; SLOT]; case.slots];
        slots::tell(side, &world, &mut slots);
        let sum = unsafe { (case.run)(side, world.as_mut_ptr(), &mut room) };
        slots::tell(side, &world, &mut slots);
        let (out, buffer) = (room.out, room.buffer);
        let told = told(side, case, &mut world);
        (side.name, sum, (out, buffer, text), slots, told)
    });
    for (name, sum, ..) in others.iter().chain([&plain]) {
        if *sum != case.operations * case.returns {
            return Err(format!("{}: the {name} side returns {sum} in all", case.name));
        }
    }
    if case.bytes > 0 && case.reads.is_empty() && plain.2.0[..2] != [1, case.bytes] {
        return Err(format!("{}: {:?} for {} bytes", case.name, plain.2.0, case.bytes));
    }
    for other in &others {
        let (case, name) = (case.name, other.0);
        if plain.2 != other.2 {
            return Err(format!("{case}: {:?}, and {name} {:?}", plain.2.0, other.2.0));
        }
        if plain.3 != other.3 {
            return Err(format!("{case}: the slots of {name} differ"));
        }
        if plain.4 != other.4 {
            return Err(format!("{case}: the registry of {name} differs"));
        }
    }
    Ok(())
}

fn median(mut times: Vec<f64>) -> f64 {
    times.sort_by(f64::total_cmp);
    times[times.len() / 2]
}

/// Nanoseconds for one operation, without the driver's.
pub fn time(case: &Case) -> Measured {
    let [plain, summary, ours] = SIDES;
    let sides = [plain, summary, ours, &EMPTY];
    let ready = sides.map(|side| prepared(side, case));
    let mut times = sides.map(|_| Vec::new());
    let (mut worlds, mut text) = (vec![0; WORLDS * WORLD], text(case));
    for round in 0..ROUNDS {
        for turn in 0..sides.len() {
            let n = (round + turn) % sides.len();
            for world in worlds.chunks_exact_mut(WORLD) {
                world.copy_from_slice(&ready[n]);
            }
            let start = Instant::now();
            black_box(run(sides[n], case, &mut worlds, WORLDS, &mut text));
            times[n].push(start.elapsed().as_nanos() as f64);
        }
    }
    let operations = case.operations as f64 * WORLDS as f64;
    let [times @ .., empty] = times.map(median);
    times.map(|time| (time - empty).max(0.0) / operations)
}

/// The machine's load over the last minute, if it tells.
pub fn load() -> Option<f64> {
    let told = fs::read_to_string("/proc/loadavg").ok()?;
    told.split(' ').next()?.parse().ok()
}
