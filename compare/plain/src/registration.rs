//! Registration.

use crate::admission::Root;
use crate::list::PortList;
use crate::phases::Phase;
use crate::plugin::Plugin;
use crate::ports::{Port, RealmList};
use crate::refusal::Refusal;
use crate::registry::Registry;
use crate::replacement::Record;
use crate::summary::Summary;

/// The most dependency keys a registration may declare.
pub const MAX_DEPENDENCY_KEYS: usize = 16;

/// The most provision keys a registration may declare.
pub const MAX_PROVISION_KEYS: usize = 15;

/// The most ports in a finished dependency list.
pub const MAX_DEPENDENCIES: usize = 48;

/// The declaration rows that all plugins share.
pub const MAX_ROWS: u64 = 1024;

/// What a registration asks for.
#[derive(Clone, Copy, Debug)]
pub struct Registration<'a> {
    pub parent: Option<u64>,
    pub anchor: Port,
    pub payload: u64,
    pub realms: RealmList<'a>,
    /// Keys.
    pub dependencies: &'a [u64],
    /// Keys.
    pub provisions: &'a [u64],
}

impl Registry {
    /// Registers a plugin and answers its id.
    pub fn register(&mut self, new: &Registration<'_>) -> Result<u64, Refusal> {
        let realms = new.realms.checked()?;
        if new.dependencies.len() > MAX_DEPENDENCY_KEYS || new.provisions.len() > MAX_PROVISION_KEYS
        {
            return Err(Refusal::TooManyKeys);
        }
        let parent = new.parent.map(|id| self.open_parent(id)).transpose()?;
        // A port carries its key, so keys resolve alike only if they are equal.
        if has_repeat(new.dependencies) {
            return Err(Refusal::DuplicateDependency);
        }
        let mut provisions = PortList::EMPTY;
        provisions.refill(new.provisions.iter().map(|&key| realms.port(key)));
        if has_repeat(new.provisions) || provisions.contains(&new.anchor) {
            return Err(Refusal::DuplicateProvision);
        }
        let offers = Summary::of(&provisions).with(new.anchor.key);
        if self.is_taken(new.anchor, &provisions, offers) {
            return Err(Refusal::Taken);
        }
        if self.next == u64::MAX {
            return Err(Refusal::NoId);
        }
        if self.occupancy == u32::MAX {
            return Err(Refusal::Full);
        }

        // The list is built where it will lie. Until the occupancy bit is set
        // nobody reads the place, so a refusal below still changes nothing.
        let place = self.occupancy.trailing_ones() as usize;
        let (plugin, inherited) = self.new_place(place, parent);
        plugin.dependencies.finish(
            new.dependencies,
            inherited,
            realms,
            &provisions,
            new.anchor,
            offers,
        )?;
        plugin.provisions = provisions;
        let rows = plugin.rows();
        if self.rows + rows > MAX_ROWS {
            return Err(Refusal::NoRows);
        }

        let plugin = &mut self.plugins[place];
        plugin.parent = new.parent;
        plugin.anchor = new.anchor;
        plugin.phase = Phase::Idle;
        plugin.retired = false;
        plugin.generation = Plugin::NEVER_BEGUN;
        plugin.record = Record::new(new.payload);
        plugin.root = Root::Unissued;
        plugin.edition = realms.edition();
        plugin.realms.refill(realms.rows());
        plugin.values.drop_all();
        plugin.offers = offers;
        plugin.needs = Summary::of(&plugin.dependencies);
        Ok(self.occupy(place, rows))
    }

    /// The place of a parent that may still have children.
    fn open_parent(&self, id: u64) -> Result<usize, Refusal> {
        let place = self.place(id)?;
        let parent = &self.plugins[place];
        if parent.retired {
            return Err(Refusal::Retired);
        }
        if parent.phase == Phase::Unloading {
            return Err(Refusal::InvalidState);
        }
        Ok(place)
    }

    /// Whether a registered plugin provides the anchor or one of the provisions. The
    /// summary is of them.
    fn is_taken(&self, anchor: Port, provisions: &[Port], offers: Summary) -> bool {
        self.registered().any(|(_, plugin)| plugin.provides_any(anchor, provisions, offers))
    }

    /// A free place, to be written, with the list to inherit from the parent.
    fn new_place(&mut self, place: usize, parent: Option<usize>) -> (&mut Plugin, &[Port]) {
        match parent {
            None => (&mut self.plugins[place], &[]),
            Some(parent) => {
                let [plugin, parent] = self
                    .plugins
                    .get_disjoint_mut([place, parent])
                    .expect("the parent's place is not free");
                (plugin, parent.dependencies())
            }
        }
    }

    /// Lets a written place count, and answers its id.
    fn occupy(&mut self, place: usize, rows: u64) -> u64 {
        let id = self.next;
        self.ids[place] = id;
        self.next += 1;
        self.rows += rows;
        self.occupancy |= 1 << place;
        id
    }
}

fn has_repeat(keys: &[u64]) -> bool {
    keys.iter().enumerate().any(|(n, key)| keys[..n].contains(key))
}
