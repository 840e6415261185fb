//! An answer as a status and the numbers behind their count.

use plain::{Child, ChildSlot, Decision, Edition, Plugin, Port, Refusal};

/// A count and up to six numbers.
pub(crate) type Out = [u64; 7];

/// The words of a slot in the archive.
pub(crate) const SLOT: usize = 8;

/// Domain, parent, whether there is a generation, generation, decision, the child's three.
pub(crate) type Slot = [u64; SLOT];

fn refused(refusal: Refusal) -> u64 {
    u64::from(refusal.number())
}

pub(crate) fn done(answer: Result<(), Refusal>) -> u64 {
    answer.map_or_else(refused, |()| 0)
}

pub(crate) fn accepted<const N: usize>(numbers: [u64; N], out: &mut Out) -> u64 {
    out[0] = N as u64;
    out[1..=N].copy_from_slice(&numbers);
    0
}

pub(crate) fn numbers<const N: usize>(answer: Result<[u64; N], Refusal>, out: &mut Out) -> u64 {
    answer.map_or_else(refused, |numbers| accepted(numbers, out))
}

pub(crate) fn number(answer: Result<u64, Refusal>, out: &mut Out) -> u64 {
    numbers(answer.map(|number| [number]), out)
}

pub(crate) fn whether(answer: Result<bool, Refusal>, out: &mut Out) -> u64 {
    number(answer.map(u64::from), out)
}

/// The numbers, or a count of none.
pub(crate) fn perhaps<const N: usize>(
    answer: Result<Option<[u64; N]>, Refusal>,
    out: &mut Out,
) -> u64 {
    match answer {
        Ok(Some(numbers)) => accepted(numbers, out),
        Ok(None) => accepted([], out),
        Err(refusal) => refused(refusal),
    }
}

/// A refused replacement answers the offered payload.
pub(crate) fn handed_back(refusal: Refusal, payload: u64, out: &mut Out) -> u64 {
    accepted([payload], out);
    refused(refusal)
}

/// One number of a plugin.
pub(crate) fn of(
    plugin: Result<&Plugin, Refusal>,
    get: impl Fn(&Plugin) -> u64,
    out: &mut Out,
) -> u64 {
    number(plugin.map(get), out)
}

pub(crate) fn of_port(port: Port) -> [u64; 2] {
    [port.key, port.realm]
}

pub(crate) fn of_edition(edition: Edition) -> [u64; 2] {
    [edition.number(), edition.default_realm()]
}

pub(crate) fn of_child(child: Child) -> [u64; 3] {
    [child.domain, child.parent, child.id]
}

/// The decided slot takes the former one's place; a refusal leaves that.
pub(crate) fn kept(decided: Result<ChildSlot, Refusal>, slot: &mut ChildSlot) -> u64 {
    done(decided.map(|decided| *slot = decided))
}

/// What a slot has, over the words that told it before. What it lacks has no word, as in the
/// archive.
pub(crate) fn tell_slot(slot: ChildSlot, words: &mut Slot) {
    words[..2].copy_from_slice(&[slot.domain, slot.parent]);
    words[2] = u64::from(slot.generation.is_some());
    if let Some(generation) = slot.generation {
        words[3] = generation;
    }
    words[4] = match slot.decision {
        Decision::Pending => 0,
        Decision::Assigned(_) => 1,
        Decision::Failed => 2,
        Decision::Cancelled => 3,
    };
    if let Decision::Assigned(child) = slot.decision {
        words[5..].copy_from_slice(&of_child(child));
    }
}
