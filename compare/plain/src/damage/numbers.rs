//! Numbers and counts, as the text has them.

use std::ops::Range;

use crate::rng::Rng;

/// Where any of the text's numbers stands.
fn some(text: &[u8], rng: &mut Rng) -> Option<Range<usize>> {
    let starts =
        (1..text.len()).filter(|&n| matches!(text[n - 1], b'=' | b',') && text[n].is_ascii_digit());
    let start = rng.pick(&starts.collect::<Vec<_>>())?;
    Some(digits_from(text, start))
}

/// The digits that stand from this place on.
fn digits_from(text: &[u8], start: usize) -> Range<usize> {
    let length = text[start..].iter().take_while(|byte| byte.is_ascii_digit()).count();
    start..start + length
}

fn put(text: &mut Vec<u8>, place: Range<usize>, number: impl ToString) {
    text.splice(place, number.to_string().into_bytes());
}

/// The number that stands there, if it is one.
fn number(text: &[u8], place: Range<usize>) -> Option<u64> {
    str::from_utf8(&text[place]).ok()?.parse().ok()
}

/// A count that no longer is that of the lines behind it.
pub(super) fn count_off(text: &mut Vec<u8>, rng: &mut Rng) -> Option<()> {
    let names: [&[u8]; 4] = [b"plugins=", b"realms=", b"deps=", b"provs="];
    let mut counts = Vec::new();
    let mut start = 0;
    for line in text.split_inclusive(|&byte| byte == b'\n') {
        if let Some(name) = names.iter().find(|name| line.starts_with(name)) {
            counts.push(start + name.len());
        }
        start += line.len();
    }
    let place = digits_from(text, rng.pick(&counts)?);
    let count = number(text, place.clone())?;
    let off = if rng.one_in(2) { count.checked_add(1)? } else { count.checked_sub(1)? };
    put(text, place, off);
    Some(())
}

pub(super) fn at_its_ends(text: &mut Vec<u8>, rng: &mut Rng) -> Option<()> {
    let place = some(text, rng)?;
    let last = u128::from(u64::MAX);
    put(
        text,
        place,
        rng.one_of([0, 0, 1, 1, last - 1, last, last, last + 1, last + 11, 10 * last]),
    );
    Some(())
}

pub(super) fn near(text: &mut Vec<u8>, rng: &mut Rng) -> Option<()> {
    let place = some(text, rng)?;
    let near = rng.nudge(number(text, place.clone())?);
    put(text, place, near);
    Some(())
}

pub(super) fn leading_zero(text: &mut Vec<u8>, rng: &mut Rng) -> Option<()> {
    let start = some(text, rng)?.start;
    let zeros = rng.one_of([1, 1, 2, 19, 20]);
    text.splice(start..start, std::iter::repeat_n(b'0', zeros));
    Some(())
}

pub(super) fn another_digit(text: &mut Vec<u8>, rng: &mut Rng) -> Option<()> {
    let place = some(text, rng)?;
    let digit = place.start + rng.below(place.len() as u64) as usize;
    text[digit] = rng.one_of(*b"0123456789");
    Some(())
}

/// The word none where a number stands, or a number in its place.
pub(super) fn none(text: &mut Vec<u8>, rng: &mut Rng) -> Option<()> {
    let nones: Vec<usize> = (0..text.len()).filter(|&n| text[n..].starts_with(b"none")).collect();
    match rng.pick(&nones) {
        Some(start) if rng.one_in(2) => {
            let number = rng.number();
            put(text, start..start + 4, number);
        }
        _ => {
            let place = some(text, rng)?;
            put(text, place, rng.one_of(["none", "non", "", "None", "nonenone"]));
        }
    }
    Some(())
}
