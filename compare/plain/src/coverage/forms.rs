//! Why a text has not the form, where the lines of editions are all that is wrong.

use crate::sheet::Sheet;

use super::checks::Check;
use super::conditions::{FORM, bad};

/// What to put in a line's place, by the lines before and behind it.
type Mend = fn([&str; 3]) -> Vec<String>;

/// What can be wrong, and what mends it in all plugins at once.
pub(super) const EDITIONS: [(Check, Mend); 6] = [
    (bad("another edition"), |[_, line, _]| match number(line, "edition=") {
        None | Some(1 | 2) => kept(line),
        Some(_) => kept("edition=2"),
    }),
    (bad("default in edition 1"), |[before, line, _]| match number(line, "default=") {
        Some(_) if before == "edition=1" => kept("default=0"),
        _ => kept(line),
    }),
    (bad("no edition line"), |[before, line, _]| {
        let missing = before.starts_with("anchor=") && line.starts_with("default=");
        if missing { both("edition=2", line) } else { kept(line) }
    }),
    (bad("no default line"), |[before, line, _]| {
        let missing = before.starts_with("edition=") && !line.starts_with("default=");
        if missing { both("default=0", line) } else { kept(line) }
    }),
    (bad("neither of the lines"), |[before, line, _]| {
        let missing = before.starts_with("anchor=") && line.starts_with("realms=");
        if missing { both("edition=1\ndefault=0", line) } else { kept(line) }
    }),
    (bad("default before edition"), |[before, line, behind]| {
        if line.starts_with("default=") && behind.starts_with("edition=") {
            Vec::new()
        } else if before.starts_with("default=") && line.starts_with("edition=") {
            both(line, before)
        } else {
            kept(line)
        }
    }),
];

/// Why a text that has not the form has it not.
pub(super) fn why(text: &[u8]) -> Check {
    let Ok(text) = str::from_utf8(text) else { return FORM };
    let mends = |mend: &Mend| {
        let mended = mended(text, mend);
        mended != text && Sheet::read(mended.as_bytes()).is_some()
    };
    EDITIONS.iter().find(|(_, mend)| mends(mend)).map_or(FORM, |(check, _)| *check)
}

fn mended(text: &str, mend: &Mend) -> String {
    let mut lines = vec![""];
    lines.extend(text.split('\n'));
    lines.push("");
    let new: Vec<String> =
        lines.windows(3).flat_map(|three| mend([three[0], three[1], three[2]])).collect();
    new.join("\n")
}

/// The number that stands alone behind a name.
fn number(line: &str, name: &str) -> Option<u64> {
    let value = line.strip_prefix(name)?;
    let number: u64 = value.parse().ok()?;
    (number.to_string() == value).then_some(number)
}

fn kept(line: &str) -> Vec<String> {
    vec![line.to_string()]
}

fn both(first: &str, second: &str) -> Vec<String> {
    vec![first.to_string(), second.to_string()]
}
