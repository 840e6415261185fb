//! The child slot.

use core::fmt;

use crate::engine::{self, SLOT};
use crate::numbers::Identity;
use crate::refusal::Refusal;
use crate::registry::done;

/// A child slot: an origin, and a decision that is taken once and never changes.
///
/// It cannot be cloned, so no second decision can be taken on a copy.
///
/// ```
/// use vaskelbi::{Decision, Identity, Refusal, Slot};
///
/// let child = Identity { domain: 7, parent: 1, id: 2 };
/// let mut slot = Slot::pending(7, 1, 9);
/// slot.assign(child)?;
/// assert_eq!(slot.decision(), Decision::Assigned(child));
/// assert_eq!(slot.cancel(), Err(Refusal::InvalidState));
/// # Ok::<(), Refusal>(())
/// ```
pub struct Slot {
    words: [u64; SLOT],
}

/// Where a slot comes from.
#[derive(Clone, Copy, Debug, PartialEq, Eq, Hash)]
pub struct Origin {
    /// A registry's domain.
    pub domain: u64,
    /// The parent's id.
    pub parent: u64,
    /// The parent's generation; none if the slot was made Assigned.
    pub generation: Option<u64>,
}

/// What became of a slot.
#[derive(Clone, Copy, Debug, PartialEq, Eq, Hash)]
pub enum Decision {
    /// Nothing yet.
    Pending,
    /// The child has this identity.
    Assigned(Identity),
    /// It was rejected.
    Failed,
    /// It was cancelled.
    Cancelled,
}

impl Slot {
    /// A Pending slot.
    pub fn pending(domain: u64, parent: u64, generation: u64) -> Self {
        let mut words = [0; SLOT];
        engine::vaskelbi_slot_pending(&mut words, domain, parent, generation);
        Self { words }
    }

    /// An Assigned slot, with the identity's domain and parent and no generation.
    pub fn assigned(child: Identity) -> Self {
        let mut words = [0; SLOT];
        engine::vaskelbi_slot_assigned(&mut words, child.domain, child.parent, child.id);
        Self { words }
    }

    /// Pending to Assigned. Refuses 3 unless Pending and domain and parent agree.
    pub fn assign(&mut self, child: Identity) -> Result<(), Refusal> {
        let Identity { domain, parent, id } = child;
        done(engine::vaskelbi_slot_assign(&mut self.words, domain, parent, id))
    }

    /// Pending to Failed. Refuses 3 unless Pending.
    pub fn reject(&mut self) -> Result<(), Refusal> {
        done(engine::vaskelbi_slot_reject(&mut self.words))
    }

    /// Pending to Cancelled. Refuses 3 unless Pending.
    pub fn cancel(&mut self) -> Result<(), Refusal> {
        done(engine::vaskelbi_slot_cancel(&mut self.words))
    }

    /// Where it comes from.
    pub fn origin(&self) -> Origin {
        let [domain, parent, has_generation, generation, ..] = self.words;
        Origin { domain, parent, generation: (has_generation != 0).then_some(generation) }
    }

    /// What became of it.
    pub fn decision(&self) -> Decision {
        let [_, _, _, _, decision, domain, parent, id] = self.words;
        match decision {
            0 => Decision::Pending,
            1 => Decision::Assigned(Identity { domain, parent, id }),
            2 => Decision::Failed,
            3 => Decision::Cancelled,
            _ => unreachable!("a slot has no decision {decision}"),
        }
    }
}

impl fmt::Debug for Slot {
    fn fmt(&self, f: &mut fmt::Formatter<'_>) -> fmt::Result {
        f.debug_struct("Slot")
            .field("origin", &self.origin())
            .field("decision", &self.decision())
            .finish()
    }
}

impl PartialEq for Slot {
    fn eq(&self, other: &Self) -> bool {
        (self.origin(), self.decision()) == (other.origin(), other.decision())
    }
}

impl Eq for Slot {}
