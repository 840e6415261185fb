//! What the registry holds, and the queries on it.

use crate::admission::Root;
use crate::phases::Phase;
use crate::plugin::Plugin;
use crate::ports::{Edition, Port};
use crate::refusal::Refusal;

/// The number of plugin places: one bit each in the occupancy word.
pub const MAX_PLUGINS: usize = u32::BITS as usize;

pub struct Registry {
    pub(crate) domain: u64,
    pub(crate) first: u64,
    pub(crate) next: u64,
    /// Bit n is set while place n holds a registered plugin.
    pub(crate) occupancy: u32,
    /// Declaration rows in use.
    pub(crate) rows: u64,
    /// The ids by place, apart from the plugins so that a search stays short.
    pub(crate) ids: [u64; MAX_PLUGINS],
    /// A place outside the occupancy word is never read.
    pub(crate) plugins: [Plugin; MAX_PLUGINS],
}

/// What `show` answers of a plugin.
#[derive(Clone, Copy, Debug, PartialEq, Eq)]
pub struct Shown {
    pub parent: Option<u64>,
    pub phase: Phase,
    pub retired: bool,
    pub generation: u64,
    pub revision: u64,
    pub payload: u64,
    pub root: Root,
    pub anchor: Port,
}

/// The places whose bits are set, lowest first.
fn places(mut word: u32) -> impl Iterator<Item = usize> {
    std::iter::from_fn(move || {
        let lowest = word.trailing_zeros();
        word &= word.checked_sub(1)?;
        Some(lowest as usize)
    })
}

impl Registry {
    /// A fresh registry.
    pub const fn open(domain: u64, first: u64) -> Self {
        Self {
            domain,
            first,
            next: first,
            occupancy: 0,
            rows: 0,
            ids: [0; MAX_PLUGINS],
            plugins: [const { Plugin::EMPTY }; MAX_PLUGINS],
        }
    }

    /// Puts a fresh registry in this one's place. Emptying the occupancy word
    /// is enough, as free places are never read.
    pub fn reopen(&mut self, domain: u64, first: u64) {
        self.domain = domain;
        self.first = first;
        self.next = first;
        self.occupancy = 0;
        self.rows = 0;
    }

    pub fn domain(&self) -> u64 {
        self.domain
    }

    pub fn first(&self) -> u64 {
        self.first
    }

    /// The id that the next registration answers.
    pub fn next(&self) -> u64 {
        self.next
    }

    /// Declaration rows in use.
    pub fn rows(&self) -> u64 {
        self.rows
    }

    /// Registered plugins.
    pub fn count(&self) -> u64 {
        u64::from(self.occupancy.count_ones())
    }

    /// The registered plugins with their ids, lowest place first.
    pub fn registered(&self) -> impl Iterator<Item = (u64, &Plugin)> {
        places(self.occupancy).map(|place| (self.ids[place], &self.plugins[place]))
    }

    /// The plugin with this id.
    pub fn plugin(&self, id: u64) -> Result<&Plugin, Refusal> {
        Ok(&self.plugins[self.place(id)?])
    }

    /// A port's provider, with its id: there is never more than one.
    pub fn provider(&self, port: Port) -> Option<(u64, &Plugin)> {
        self.registered().find(|(_, plugin)| plugin.provides(port))
    }

    pub fn show(&self, id: u64) -> Result<Shown, Refusal> {
        let plugin = self.plugin(id)?;
        Ok(Shown {
            parent: plugin.parent,
            phase: plugin.phase,
            retired: plugin.retired,
            generation: plugin.generation,
            revision: plugin.record.revision,
            payload: plugin.record.payload,
            root: plugin.root,
            anchor: plugin.anchor,
        })
    }

    /// A plugin's edition of the realm rule, with its default.
    pub fn edition(&self, id: u64) -> Result<Edition, Refusal> {
        Ok(self.plugin(id)?.edition)
    }

    /// Looks an id up: its place, or refusal 1.
    pub(crate) fn place(&self, id: u64) -> Result<usize, Refusal> {
        places(self.occupancy).find(|&place| self.ids[place] == id).ok_or(Refusal::Unknown)
    }

    pub(crate) fn plugin_mut(&mut self, id: u64) -> Result<&mut Plugin, Refusal> {
        let place = self.place(id)?;
        Ok(&mut self.plugins[place])
    }
}
