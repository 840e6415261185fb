//! Reading the text back: document 02's fourth request.

use crate::admission::Root;
use crate::dependencies::Dependencies;
use crate::phases::Phase;
use crate::plugin::Plugin;
use crate::ports::{MAX_REALM_ROWS, Port, Realms};
use crate::reading::Reader;
use crate::refusal::Refusal;
use crate::registration::{MAX_DEPENDENCIES, MAX_DEPENDENCY_KEYS, MAX_PROVISION_KEYS, MAX_ROWS};
use crate::registry::{MAX_PLUGINS, Registry};
use crate::replacement::Record;
use crate::summary::Summary;

impl Registry {
    /// Puts the registry that a text tells in this one's place, with another domain
    /// than it had.
    pub fn load(&mut self, domain: u64, text: &[u8]) -> Result<(), Refusal> {
        // Read beside this one, as a refusal changes nothing.
        let mut told = Self::open(0, 0);
        told.read_text(text).ok_or(Refusal::BadText)?;
        if told.domain == domain {
            return Err(Refusal::SameDomain);
        }
        self.reopen(domain, told.first);
        self.next = told.next;
        self.rows = told.rows;
        self.occupancy = told.occupancy;
        self.ids = told.ids;
        // Free places are never read, so they need not be copied.
        let count = told.occupancy.count_ones() as usize;
        self.plugins[..count].clone_from_slice(&told.plugins[..count]);
        Ok(())
    }

    /// Reads a whole text into a fresh registry; none if it breaks the form or a
    /// condition.
    fn read_text(&mut self, text: &[u8]) -> Option<()> {
        let mut text = Reader::new(text);
        self.domain = text.line("domain=")?;
        self.first = text.line("first=")?;
        self.next = text.line("next=")?;
        if self.first > self.next {
            return None;
        }
        for place in 0..text.at_most("plugins=", MAX_PLUGINS)? {
            self.read_plugin(place, &mut text)?;
        }
        text.end()?;
        self.agrees().then_some(())
    }

    /// Reads a plugin into the place that is free after those before it.
    fn read_plugin(&mut self, place: usize, text: &mut Reader<'_>) -> Option<()> {
        let id = text.line("id=")?;
        let lower = &self.ids[..place];
        let rises = lower.last().map_or(id >= self.first, |&last| id > last);
        if !rises || id >= self.next {
            return None;
        }
        text.skip("parent=")?;
        let parent = text.number_or_none()?;
        let (before, free) = self.plugins.split_at_mut(place);
        let inherited = match parent {
            None => &[],
            Some(parent) => before[lower.binary_search(&parent).ok()?].dependencies(),
        };
        let plugin = &mut free[0];
        plugin.parent = parent;
        plugin.read(inherited, text)?;
        self.rows += plugin.rows();
        if self.rows > MAX_ROWS {
            return None;
        }
        self.ids[place] = id;
        self.occupancy |= 1 << place;
        Some(())
    }
}

impl Plugin {
    /// Reads the lines behind the parent's into a fresh place.
    fn read(&mut self, inherited: &[Port], text: &mut Reader<'_>) -> Option<()> {
        self.phase = Phase::numbered(text.line("phase=")?)?;
        self.retired = text.at_most("retired=", 1)? == 1;
        self.generation = text.line("generation=")?;
        self.record = Record { revision: text.line("revision=")?, payload: text.line("payload=")? };
        self.root = text.root()?;
        self.anchor = text.port("anchor=")?;
        self.edition = text.edition()?;

        let mut rows = [0; 2 * MAX_REALM_ROWS];
        let rows = &mut rows[..2 * text.at_most("realms=", MAX_REALM_ROWS)?];
        for row in rows.chunks_exact_mut(2) {
            let Port { key, realm } = text.port("realm=")?;
            row.copy_from_slice(&[key, realm]);
        }
        let realms = Realms::new(self.edition, rows).ok()?;
        self.realms.refill(realms.rows());
        for _ in 0..text.at_most("deps=", MAX_DEPENDENCIES)? {
            let fits = self.dependencies.push(text.port("dep=")?);
            debug_assert!(fits);
        }
        for place in 0..text.at_most("provs=", MAX_PROVISION_KEYS)? {
            let (key, realm) = text.pair("prov=")?;
            text.skip(",")?;
            let port = realms.port(key);
            if port.realm != realm {
                return None;
            }
            let fits = self.provisions.push(port);
            debug_assert!(fits);
            if let Some(value) = text.number_or_none()? {
                self.values.set(place, value);
            }
        }

        self.offers = Summary::of(&self.provisions).with(self.anchor.key);
        self.needs = Summary::of(&self.dependencies);
        if !self.list_is_given(inherited, realms) || !self.state_fits() {
            return None;
        }
        if matches!(self.root, Root::Queued { .. }) {
            self.root = Root::Unissued;
        }
        Some(())
    }

    /// Whether the rule gives the dependency list from some declared keys. If any
    /// number of its first ports can have been declared, so can the most: what is
    /// declared is left out behind, and the rest keeps its order.
    fn list_is_given(&self, inherited: &[Port], realms: Realms<'_>) -> bool {
        let list = &*self.dependencies;
        let mut declared = [0; MAX_DEPENDENCY_KEYS];
        let mut count = 0;
        for port in list.iter().take(MAX_DEPENDENCY_KEYS) {
            if realms.port(port.key) != *port || declared[..count].contains(&port.key) {
                break;
            }
            declared[count] = port.key;
            count += 1;
        }
        let mut given = Dependencies::EMPTY;
        given
            .finish(
                &declared[..count],
                inherited,
                realms,
                &self.provisions,
                self.anchor,
                self.offers,
            )
            .is_ok_and(|()| *given == *list)
    }

    /// Whether generation, root and values can be those of the phase.
    fn state_fits(&self) -> bool {
        let begun = self.generation != Self::NEVER_BEGUN;
        match self.phase {
            Phase::Idle => self.root == Root::Unissued && self.values.is_empty(),
            Phase::Active => {
                let valued = self.values.first_missing() >= self.provisions.len();
                begun && self.root == Root::Spent && valued
            }
            Phase::Loading | Phase::Unloading => match self.root {
                Root::Queued { revision, .. } => begun && revision <= self.record.revision,
                _ => begun,
            },
        }
    }
}
