//! The lines edition and default, which belong together.

use crate::rng::Rng;

/// A line with its end.
type Line = Vec<u8>;

/// Changes the two lines of some plugin, of which the first is `edition`'s.
fn changed(
    text: &mut Vec<u8>,
    rng: &mut Rng,
    change: impl FnOnce(&mut Vec<Line>, usize, &mut Rng),
) -> Option<()> {
    let mut lines: Vec<Line> =
        text.split_inclusive(|&byte| byte == b'\n').map(<[u8]>::to_vec).collect();
    let is_first = |n: &usize| {
        let two = lines.get(*n..*n + 2);
        two.is_some_and(|two| two[0].starts_with(b"edition=") && two[1].starts_with(b"default="))
    };
    let firsts: Vec<usize> = (0..lines.len()).filter(is_first).collect();
    let place = rng.pick(&firsts)?;
    change(&mut lines, place, rng);
    *text = lines.concat();
    Some(())
}

/// Another edition, or none.
pub(super) fn number(text: &mut Vec<u8>, rng: &mut Rng) -> Option<()> {
    changed(text, rng, |lines, place, rng| {
        let last = "18446744073709551615";
        let other = rng.one_of(["0", "0", "0", "3", "3", "3", "3", "4", last, "12", "02", "none"]);
        lines[place] = format!("edition={other}\n").into_bytes();
    })
}

/// Edition 1 with another default than 0.
pub(super) fn default_in_first(text: &mut Vec<u8>, rng: &mut Rng) -> Option<()> {
    changed(text, rng, |lines, place, rng| {
        let default = rng.one_of(["1", "5", "5", "18446744073709551615", "none", ""]);
        lines[place] = b"edition=1\n".to_vec();
        lines[place + 1] = format!("default={default}\n").into_bytes();
    })
}

/// Edition 2 with a default that is no number, or is just one.
pub(super) fn default_in_second(text: &mut Vec<u8>, rng: &mut Rng) -> Option<()> {
    changed(text, rng, |lines, place, rng| {
        let default = rng.one_of(["0", "18446744073709551615", "18446744073709551616", "none", ""]);
        lines[place] = b"edition=2\n".to_vec();
        lines[place + 1] = format!("default={default}\n").into_bytes();
    })
}

/// One of the lines is gone, or both.
pub(super) fn gone(text: &mut Vec<u8>, rng: &mut Rng) -> Option<()> {
    changed(text, rng, |lines, place, rng| {
        let (start, end) = rng.one_of([(0, 1), (1, 2), (0, 2)]);
        lines.drain(place + start..place + end);
    })
}

/// They have changed places.
pub(super) fn swapped(text: &mut Vec<u8>, rng: &mut Rng) -> Option<()> {
    changed(text, rng, |lines, place, _| lines.swap(place, place + 1))
}

/// They stand before the anchor, behind the count of realms, or twice.
pub(super) fn moved(text: &mut Vec<u8>, rng: &mut Rng) -> Option<()> {
    changed(text, rng, |lines, place, rng| {
        let two: Vec<Line> = lines.drain(place..place + 2).collect();
        let to = match rng.below(3) {
            0 => place.saturating_sub(1),
            1 => lines.len().min(place + 1),
            _ => {
                lines.splice(place..place, two.clone());
                place
            }
        };
        lines.splice(to..to, two);
    })
}

/// No plugin has them: a text of before they came.
pub(super) fn none(text: &mut Vec<u8>, _: &mut Rng) -> Option<()> {
    let is_kept = |line: &&[u8]| !line.starts_with(b"edition=") && !line.starts_with(b"default=");
    let kept: Vec<&[u8]> = text.split_inclusive(|&byte| byte == b'\n').filter(is_kept).collect();
    let kept = kept.concat();
    if kept.len() == text.len() {
        return None;
    }
    *text = kept;
    Some(())
}
