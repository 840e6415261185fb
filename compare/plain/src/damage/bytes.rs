//! Bytes and lines, whatever they mean.

use crate::rng::Rng;

/// Any place of a text that has one.
fn place(text: &[u8], rng: &mut Rng) -> Option<usize> {
    (!text.is_empty()).then(|| rng.below(text.len() as u64) as usize)
}

/// A byte that a text may have, or one that only looks like it.
fn byte(rng: &mut Rng) -> u8 {
    match rng.below(4) {
        0 => rng.one_of(*b"0123456789"),
        1 => rng.one_of(*b"\n\n,=n"),
        2 => rng.one_of(*b"\r \t\0+-./:;N\x0b\xff"),
        _ => rng.below(256) as u8,
    }
}

pub(super) fn changed(text: &mut Vec<u8>, rng: &mut Rng) -> Option<()> {
    let place = place(text, rng)?;
    text[place] = byte(rng);
    Some(())
}

pub(super) fn dropped(text: &mut Vec<u8>, rng: &mut Rng) -> Option<()> {
    text.remove(place(text, rng)?);
    Some(())
}

pub(super) fn doubled(text: &mut Vec<u8>, rng: &mut Rng) -> Option<()> {
    let place = place(text, rng)?;
    text.insert(place, text[place]);
    Some(())
}

pub(super) fn put_in(text: &mut Vec<u8>, rng: &mut Rng) -> Option<()> {
    let place = rng.below(text.len() as u64 + 1) as usize;
    // A byte 13 mostly comes before a byte 10.
    let end = text[place..].iter().position(|&byte| byte == b'\n');
    match end {
        Some(end) if rng.one_in(3) => text.insert(place + end, rng.one_of(*b"\r\r ,0")),
        _ => text.insert(place, byte(rng)),
    }
    Some(())
}

pub(super) fn swapped(text: &mut Vec<u8>, rng: &mut Rng) -> Option<()> {
    let place = place(text, rng)?;
    if place + 1 == text.len() {
        return None;
    }
    text.swap(place, place + 1);
    Some(())
}

/// The lines with their ends.
fn lines(text: &[u8]) -> Vec<&[u8]> {
    text.split_inclusive(|&byte| byte == b'\n').collect()
}

/// Any line's number.
fn line(lines: &[&[u8]], rng: &mut Rng) -> Option<usize> {
    (!lines.is_empty()).then(|| rng.below(lines.len() as u64) as usize)
}

/// Changes the lines and puts them together again.
fn relined(text: &mut Vec<u8>, change: impl FnOnce(&mut Vec<&[u8]>) -> Option<()>) -> Option<()> {
    let mut lines = lines(text);
    change(&mut lines)?;
    *text = lines.concat();
    Some(())
}

pub(super) fn lines_swapped(text: &mut Vec<u8>, rng: &mut Rng) -> Option<()> {
    relined(text, |lines| {
        let first = line(lines, rng)?;
        // Those beside each other are more alike.
        let second = if rng.one_in(2) { first + 1 } else { line(lines, rng)? };
        if second >= lines.len() {
            return None;
        }
        lines.swap(first, second);
        Some(())
    })
}

pub(super) fn line_dropped(text: &mut Vec<u8>, rng: &mut Rng) -> Option<()> {
    relined(text, |lines| {
        lines.remove(line(lines, rng)?);
        Some(())
    })
}

pub(super) fn line_doubled(text: &mut Vec<u8>, rng: &mut Rng) -> Option<()> {
    relined(text, |lines| {
        let line = line(lines, rng)?;
        lines.insert(line, lines[line]);
        Some(())
    })
}

pub(super) fn line_moved(text: &mut Vec<u8>, rng: &mut Rng) -> Option<()> {
    relined(text, |lines| {
        let moved = lines.remove(line(lines, rng)?);
        let to = rng.below(lines.len() as u64 + 1) as usize;
        lines.insert(to, moved);
        Some(())
    })
}

/// Any part of the text's front, also none.
pub(super) fn cut(text: &mut Vec<u8>, rng: &mut Rng) -> Option<()> {
    text.truncate(place(text, rng)?);
    Some(())
}

/// The last byte 10 is gone, is another byte, or has something behind it.
pub(super) fn torn_end(text: &mut Vec<u8>, rng: &mut Rng) -> Option<()> {
    let last = text.pop()?;
    let end: &[u8] = match rng.below(7) {
        0 => b"",
        1 => b"\r\n",
        2 => b"\n\n",
        3 => b"\n ",
        4 => b"\n\0",
        5 => b"\nprov=1,0,none\n",
        _ => &[last.wrapping_add(3)],
    };
    text.extend_from_slice(end);
    Some(())
}
