//! Retirement and removal.

use crate::phases::Phase;
use crate::plugin::Plugin;
use crate::refusal::Refusal;
use crate::registry::Registry;

/// A child's identity.
#[derive(Clone, Copy, Debug, PartialEq, Eq)]
pub struct Child {
    pub domain: u64,
    pub parent: u64,
    pub id: u64,
}

impl Plugin {
    fn retire(&mut self) -> Result<(), Refusal> {
        if self.retired {
            return Err(Refusal::Retired);
        }
        self.retired = true;
        Ok(())
    }
}

impl Registry {
    pub fn retire(&mut self, id: u64) -> Result<(), Refusal> {
        self.plugin_mut(id)?.retire()
    }

    /// Retires by child identity; a child removed before is left in peace.
    pub fn retire_child(&mut self, child: Child) -> Result<(), Refusal> {
        if child.domain != self.domain {
            return Err(Refusal::InvalidState);
        }
        if child.id < self.first || child.id >= self.next {
            return Err(Refusal::Unknown);
        }
        let Ok(plugin) = self.plugin_mut(child.id) else {
            return Ok(());
        };
        if plugin.parent != Some(child.parent) {
            return Err(Refusal::InvalidState);
        }
        plugin.retire()
    }

    /// A plugin's child identity, or none if it has no parent.
    pub fn child(&self, id: u64) -> Result<Option<Child>, Refusal> {
        let parent = self.plugin(id)?.parent;
        Ok(parent.map(|parent| Child { domain: self.domain, parent, id }))
    }

    /// Frees the place and the rows of a retired, Idle plugin without children.
    pub fn remove(&mut self, id: u64) -> Result<(), Refusal> {
        let place = self.place(id)?;
        let plugin = &self.plugins[place];
        if plugin.phase != Phase::Idle || !plugin.retired {
            return Err(Refusal::InvalidState);
        }
        let rows = plugin.rows();
        if self.registered().any(|(_, other)| other.parent == Some(id)) {
            return Err(Refusal::HasChildren);
        }
        self.occupancy &= !(1 << place);
        self.rows -= rows;
        Ok(())
    }
}
