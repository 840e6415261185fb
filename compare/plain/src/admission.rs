//! Admission and call.

use crate::phases::Phase;
use crate::refusal::Refusal;
use crate::registry::Registry;

/// The kind of a ticket for a setup, the only kind there is.
pub const SETUP: u64 = 1;

/// The request of every receipt.
const ROOT_REQUEST: u64 = 0;

/// How far the root of the present generation has come.
#[derive(Clone, Copy, Debug, PartialEq, Eq)]
pub enum Root {
    Unissued,
    Queued { revision: u64, argument: u64 },
    Spent,
}

#[derive(Clone, Copy, Debug, PartialEq, Eq)]
pub struct Ticket {
    pub domain: u64,
    pub id: u64,
    pub generation: u64,
    pub kind: u64,
}

#[derive(Clone, Copy, Debug, PartialEq, Eq)]
pub struct Invocation {
    pub domain: u64,
    pub id: u64,
    pub generation: u64,
    pub revision: u64,
    pub argument: u64,
}

#[derive(Clone, Copy, Debug, PartialEq, Eq)]
pub struct Receipt {
    pub domain: u64,
    pub id: u64,
    pub generation: u64,
    pub request: u64,
    pub payload: u64,
    pub argument: u64,
}

impl Registry {
    /// Turns a live ticket into an invocation, once.
    pub fn admit(&mut self, ticket: Ticket, argument: u64) -> Result<Invocation, Refusal> {
        if ticket.domain != self.domain || ticket.kind != SETUP {
            return Err(Refusal::InvalidState);
        }
        let plugin = self.plugin_mut(ticket.id)?;
        if plugin.retired {
            return Err(Refusal::Retired);
        }
        if plugin.phase != Phase::Loading || plugin.generation != ticket.generation {
            return Err(Refusal::Stale);
        }
        if plugin.root != Root::Unissued {
            return Err(Refusal::InvalidState);
        }
        let revision = plugin.record.revision;
        plugin.root = Root::Queued { revision, argument };
        Ok(Invocation {
            domain: ticket.domain,
            id: ticket.id,
            generation: ticket.generation,
            revision,
            argument,
        })
    }

    /// Spends the queued invocation and answers its receipt.
    pub fn call(&mut self, asked: Invocation) -> Result<Receipt, Refusal> {
        if asked.domain != self.domain {
            return Err(Refusal::InvalidState);
        }
        let plugin = self.plugin_mut(asked.id)?;
        if plugin.retired {
            return Err(Refusal::Retired);
        }
        // Revisions and not payloads are compared: an equal payload may have
        // taken the place of the admitted one.
        let queued = Root::Queued { revision: asked.revision, argument: asked.argument };
        let live = plugin.phase == Phase::Loading
            && plugin.generation == asked.generation
            && plugin.record.revision == asked.revision
            && plugin.root == queued;
        if !live {
            return Err(Refusal::Stale);
        }
        plugin.root = Root::Spent;
        Ok(Receipt {
            domain: asked.domain,
            id: asked.id,
            generation: asked.generation,
            request: ROOT_REQUEST,
            payload: plugin.record.payload,
            argument: asked.argument,
        })
    }
}
