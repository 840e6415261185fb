//! Whole answers, and the registry after them, held to a second writing of the rules.

use crate::admission::Root;
use crate::console::Operation;
use crate::phases::Phase;
use crate::ports::{Edition, Port};
use crate::registration::Registration;
use crate::registry::Registry;
use crate::sheet::{Leaf, Sheet};

use super::checks::{finished, resolved, resolved_key};
use super::{first_line, orders};

/// What the registry told before a line whose whole answer is held to the rules: a text
/// written or loaded, a plugin registered, a key resolved, an edition asked for, an order
/// planned or checked.
pub(super) struct Told(Sheet);

impl Told {
    pub(super) fn of(registry: &Registry, asked: &Operation<'_>) -> Option<Self> {
        let held = matches!(
            asked,
            Operation::Write { .. }
                | Operation::Load { .. }
                | Operation::Register(_)
                | Operation::Resolve { .. }
                | Operation::Edition(_)
                | Operation::Plan { .. }
                | Operation::Check { .. }
        );
        held.then(|| Self(Sheet::of(registry)))
    }

    /// Whether the whole answer and the registry after it are what they must be.
    pub(super) fn is_kept(
        &self,
        asked: &Operation<'_>,
        accepted: bool,
        answer: &[u8],
        registry: &Registry,
    ) -> bool {
        let after = Sheet::of(registry);
        match *asked {
            Operation::Write { .. } if accepted => {
                let text = self.0.text();
                answer == format!("ok {}\n{text}", text.len()).as_bytes() && after == self.0
            }
            Operation::Load { domain, text } if accepted => {
                let wanted = Sheet::read(text).map(|sheet| sheet.loaded(domain));
                // Places from the lowest by rising id.
                let ids = registry.registered().map(|(id, _)| id);
                let places = u64::from(registry.occupancy.trailing_ones()) == registry.count();
                let rows = registry.rows() == after.rows() as u64;
                answer == b"ok\n" && Some(after) == wanted && ids.is_sorted() && places && rows
            }
            Operation::Register(ref new) if accepted => {
                let mut wanted = self.0.clone();
                wanted.plugins.push(self.registered(new));
                wanted.next += 1;
                let id = self.0.next;
                answer == format!("ok {id}\n").as_bytes() && after == wanted
            }
            Operation::Resolve { key, realms } if accepted => {
                let Port { key, realm } = resolved_key(realms, key);
                answer == format!("ok {key} {realm}\n").as_bytes() && after == self.0
            }
            Operation::Edition(id) if accepted => {
                let plugin = self.0.plugins.iter().find(|p| p.id == id);
                let (edition, default) = match plugin.map(|p| p.edition) {
                    Some(Edition::Second { default }) => (2, default),
                    _ => (1, 0),
                };
                answer == format!("ok {edition} {default}\n").as_bytes() && after == self.0
            }
            Operation::Plan { set, .. } if accepted => {
                let order = orders::plan(&self.0, set).map_or(" none".to_string(), |order| {
                    order.iter().map(|id| format!(" {id}")).collect()
                });
                answer == format!("ok{order}\n").as_bytes() && after == self.0
            }
            Operation::Check { set, order } if accepted => {
                let yes = if orders::passes(&self.0, set, order) { "yes" } else { "no" };
                answer == format!("ok {yes}\n").as_bytes() && after == self.0
            }
            _ => answer.len() == first_line(answer).len() + 1 && after == self.0,
        }
    }

    /// What a registration that is accepted makes.
    fn registered(&self, new: &Registration<'_>) -> Leaf {
        let parent = self.0.plugins.iter().find(|p| Some(p.id) == new.parent);
        let inherited = parent.map_or(&[][..], |p| &p.dependencies);
        let rows = new.realms.rows.chunks(2).map(|row| Port { key: row[0], realm: row[1] });
        let unoffered = |port: &Port| (*port, None);
        Leaf {
            id: self.0.next,
            parent: new.parent,
            phase: Phase::Idle,
            retired: false,
            generation: 0,
            revision: 0,
            payload: new.payload,
            root: Root::Unissued,
            anchor: new.anchor,
            edition: match new.realms.edition {
                1 => Edition::First,
                _ => Edition::Second { default: new.realms.default },
            },
            realms: rows.collect(),
            dependencies: finished(new, inherited),
            provisions: resolved(new.realms, new.provisions).iter().map(unoffered).collect(),
        }
    }
}
