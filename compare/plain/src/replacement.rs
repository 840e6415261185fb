//! Replacement.

use crate::refusal::Refusal;
use crate::registry::Registry;

/// A payload and how often it has been replaced.
#[derive(Clone, Copy, Debug, PartialEq, Eq)]
pub struct Record {
    pub revision: u64,
    pub payload: u64,
}

/// A refused replacement hands the offered payload back.
#[derive(Clone, Copy, Debug, PartialEq, Eq)]
pub struct RefusedPayload {
    pub refusal: Refusal,
    pub payload: u64,
}

impl Record {
    /// A payload never replaced yet.
    pub const fn new(payload: u64) -> Self {
        Self { revision: 0, payload }
    }

    /// Stores a payload and answers the former one.
    pub fn replace(&mut self, payload: u64) -> Result<u64, Refusal> {
        self.revision = self.revision.checked_add(1).ok_or(Refusal::Exhausted)?;
        Ok(std::mem::replace(&mut self.payload, payload))
    }

    /// Whether this many replacements can follow.
    pub const fn fits(self, count: u64) -> bool {
        count <= u64::MAX - self.revision
    }
}

impl Registry {
    /// Replaces a payload in any phase and answers the former one.
    pub fn replace(&mut self, id: u64, payload: u64) -> Result<u64, RefusedPayload> {
        self.plugin_mut(id)
            .and_then(|plugin| plugin.record.replace(payload))
            .map_err(|refusal| RefusedPayload { refusal, payload })
    }

    pub fn fits(&self, id: u64, count: u64) -> Result<bool, Refusal> {
        Ok(self.plugin(id)?.record.fits(count))
    }
}
