//! Child slot.

use crate::refusal::Refusal;
use crate::retirement::Child;

/// Where the decision on a child stands.
#[derive(Clone, Copy, Debug, PartialEq, Eq)]
pub enum Decision {
    Pending,
    Assigned(Child),
    Failed,
    Cancelled,
}

/// A plain value: the origin and the decision, which never changes once made.
#[derive(Clone, Copy, Debug, PartialEq, Eq)]
pub struct ChildSlot {
    pub domain: u64,
    pub parent: u64,
    /// None if the slot was made Assigned.
    pub generation: Option<u64>,
    pub decision: Decision,
}

impl ChildSlot {
    pub const fn pending(domain: u64, parent: u64, generation: u64) -> Self {
        Self { domain, parent, generation: Some(generation), decision: Decision::Pending }
    }

    pub const fn assigned(child: Child) -> Self {
        Self {
            domain: child.domain,
            parent: child.parent,
            generation: None,
            decision: Decision::Assigned(child),
        }
    }

    /// The slot with the child assigned; refused if it has another origin.
    pub fn assign(self, child: Child) -> Result<Self, Refusal> {
        if (child.domain, child.parent) != (self.domain, self.parent) {
            return Err(Refusal::InvalidState);
        }
        self.decide(Decision::Assigned(child))
    }

    pub fn reject(self) -> Result<Self, Refusal> {
        self.decide(Decision::Failed)
    }

    pub fn cancel(self) -> Result<Self, Refusal> {
        self.decide(Decision::Cancelled)
    }

    fn decide(self, decision: Decision) -> Result<Self, Refusal> {
        match self.decision {
            Decision::Pending => Ok(Self { decision, ..self }),
            _ => Err(Refusal::InvalidState),
        }
    }
}
