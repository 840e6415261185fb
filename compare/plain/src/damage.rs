//! Texts damaged on purpose, for readers to tell from whole ones.
//!
//! Some kinds change bytes, whatever they mean. Others change a record, and the form
//! stays whole: what they make may break one condition, several or none.

// All kinds have one signature, also those that a slice would do for.
#[allow(clippy::ptr_arg)]
mod bytes;
mod editions;
mod lists;
#[allow(clippy::ptr_arg)]
mod numbers;
mod records;

use crate::rng::Rng;
use crate::sheet::{Leaf, Sheet};

/// A kind of damage.
#[derive(Clone, Copy)]
pub struct Kind {
    pub name: &'static str,
    damage: Way,
}

#[derive(Clone, Copy)]
enum Way {
    Bytes(fn(&mut Vec<u8>, &mut Rng) -> Option<()>),
    Record(fn(&mut Sheet, &mut Rng) -> Option<()>),
}

const fn bytes(name: &'static str, damage: fn(&mut Vec<u8>, &mut Rng) -> Option<()>) -> Kind {
    Kind { name, damage: Way::Bytes(damage) }
}

const fn record(name: &'static str, damage: fn(&mut Sheet, &mut Rng) -> Option<()>) -> Kind {
    Kind { name, damage: Way::Record(damage) }
}

impl Kind {
    /// Damages a whole text; none if it has nothing of the kind.
    pub fn damage(&self, text: &mut Vec<u8>, rng: &mut Rng) -> Option<()> {
        match self.damage {
            Way::Bytes(damage) => damage(text, rng),
            Way::Record(damage) => {
                let mut sheet = Sheet::read(text)?;
                damage(&mut sheet, rng)?;
                *text = sheet.text().into_bytes();
                Some(())
            }
        }
    }
}

/// Kinds that change bytes or whole lines.
pub const BYTES: &[Kind] = &[
    bytes("a byte changed", bytes::changed),
    bytes("a byte dropped", bytes::dropped),
    bytes("a byte doubled", bytes::doubled),
    bytes("a byte put in", bytes::put_in),
    bytes("two bytes swapped", bytes::swapped),
    bytes("two lines swapped", bytes::lines_swapped),
    bytes("a line dropped", bytes::line_dropped),
    bytes("a line doubled", bytes::line_doubled),
    bytes("a line moved", bytes::line_moved),
    bytes("the end cut off", bytes::cut),
    bytes("the end torn", bytes::torn_end),
    bytes("a count off by one", numbers::count_off),
    bytes("a number at its ends", numbers::at_its_ends),
    bytes("a number near", numbers::near),
    bytes("a leading zero", numbers::leading_zero),
    bytes("another digit", numbers::another_digit),
    bytes("none and numbers", numbers::none),
];

/// Kinds that change the lines of editions.
pub const EDITIONS: &[Kind] = &[
    bytes("an edition's number", editions::number),
    bytes("a default in edition 1", editions::default_in_first),
    bytes("a default in edition 2", editions::default_in_second),
    bytes("an edition's line gone", editions::gone),
    bytes("edition and default swapped", editions::swapped),
    bytes("edition and default moved", editions::moved),
    bytes("no editions at all", editions::none),
];

/// Fills the rows of a text that has nearly as many.
pub const ROWS: Kind = record("1,024 or 1,025 rows", records::rows);

/// Kinds that change a record.
pub const RECORDS: &[Kind] = &[
    record("first", records::first),
    record("next", records::next),
    record("no plugins", records::no_plugins),
    record("an id", records::id),
    record("two blocks swapped", records::blocks_swapped),
    record("a parent", records::parent),
    record("a phase", records::phase),
    record("a phase with its state", records::phase_and_state),
    record("retired", records::retired),
    record("a generation", records::generation),
    record("a revision", records::revision),
    record("a root", records::root),
    record("a queued revision", records::queued),
    record("a value", records::value),
    record("an anchor", records::anchor),
    record("an edition", records::edition),
    record("a port of two", records::clash),
    record("32 or 33 plugins", records::plugins),
    ROWS,
    record("its own provider", records::own_provider),
    record("a ring", records::ring),
    record("16 or 17 realm rows", lists::realm_rows),
    record("a realm row", lists::realm_row),
    record("two realm rows", lists::two_realm_rows),
    record("15 or 16 provisions", lists::provisions),
    record("a provision", lists::provision),
    record("16 or 17 declared keys", lists::declared),
    record("48 or 49 dependencies", lists::dependencies),
    record("a dependency", lists::dependency),
    record("two dependencies", lists::two_dependencies),
    record("a dependency on another", lists::dependency_on_another),
    record("an anchor in the parent's list", lists::anchor_inherited),
    record("a child of another edition", lists::child_of_another_edition),
];

/// The place of any plugin of which this is true.
fn some(sheet: &Sheet, rng: &mut Rng, is: impl Fn(&Leaf) -> bool) -> Option<usize> {
    let places: Vec<usize> = (0..sheet.plugins.len()).filter(|&n| is(&sheet.plugins[n])).collect();
    rng.pick(&places)
}
