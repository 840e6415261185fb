//! What the registry holds of one plugin.

use crate::admission::Root;
use crate::list::PortList;
use crate::phases::Phase;
use crate::ports::{Edition, MAX_REALM_ROWS, Port};
use crate::registration::{MAX_DEPENDENCIES, MAX_PROVISION_KEYS};
use crate::replacement::Record;
use crate::summary::Summary;
use crate::values::Values;

/// One plugin's place. Its id stands in the registry's table of ids.
#[derive(Clone, Debug)]
pub struct Plugin {
    pub(crate) parent: Option<u64>,
    pub(crate) anchor: Port,
    pub(crate) phase: Phase,
    pub(crate) retired: bool,
    pub(crate) generation: u64,
    pub(crate) record: Record,
    pub(crate) root: Root,
    pub(crate) edition: Edition,
    pub(crate) realms: PortList<MAX_REALM_ROWS>,
    pub(crate) dependencies: PortList<MAX_DEPENDENCIES>,
    pub(crate) provisions: PortList<MAX_PROVISION_KEYS>,
    pub(crate) values: Values,
    /// Of the provisions and the anchor.
    pub(crate) offers: Summary,
    /// Of the dependencies.
    pub(crate) needs: Summary,
}

impl Plugin {
    /// The generation of a plugin that has never begun.
    pub const NEVER_BEGUN: u64 = 0;

    /// What lies in a place that no plugin has had yet.
    pub(crate) const EMPTY: Self = Self {
        parent: None,
        anchor: Port::in_default_realm(0),
        phase: Phase::Idle,
        retired: false,
        generation: Self::NEVER_BEGUN,
        record: Record::new(0),
        root: Root::Unissued,
        edition: Edition::First,
        realms: PortList::EMPTY,
        dependencies: PortList::EMPTY,
        provisions: PortList::EMPTY,
        values: Values::NONE,
        offers: Summary::EMPTY,
        needs: Summary::EMPTY,
    };

    pub fn parent(&self) -> Option<u64> {
        self.parent
    }

    pub fn anchor(&self) -> Port {
        self.anchor
    }

    pub fn phase(&self) -> Phase {
        self.phase
    }

    pub fn retired(&self) -> bool {
        self.retired
    }

    pub fn generation(&self) -> u64 {
        self.generation
    }

    pub fn record(&self) -> Record {
        self.record
    }

    pub fn root(&self) -> Root {
        self.root
    }

    /// The edition of the realm rule by which its own list is read, with the default.
    pub fn edition(&self) -> Edition {
        self.edition
    }

    /// The realm rows, each written as the port that its key resolves to.
    pub fn realms(&self) -> &[Port] {
        &self.realms
    }

    pub fn dependencies(&self) -> &[Port] {
        &self.dependencies
    }

    pub fn provisions(&self) -> &[Port] {
        &self.provisions
    }

    /// The value offered for one of the provisions; the anchor has none.
    pub fn value(&self, port: Port) -> Option<u64> {
        self.values.get(self.provision(port)?)
    }

    /// Where a port stands in the provision list.
    pub(crate) fn provision(&self, port: Port) -> Option<usize> {
        if !self.offers.may_have(port.key) {
            return None;
        }
        self.provisions.iter().position(|&p| p == port)
    }

    /// Whether this plugin is the port's provider, by a provision or the anchor.
    pub fn provides(&self, port: Port) -> bool {
        self.offers.may_have(port.key) && (self.anchor == port || self.provisions.contains(&port))
    }

    /// Whether this plugin provides one of these ports. The summary is of them.
    pub(crate) fn provides_any(&self, anchor: Port, provisions: &[Port], offers: Summary) -> bool {
        self.offers.may_share(offers)
            && (self.provides(anchor) || provisions.iter().any(|&port| self.provides(port)))
    }

    /// Whether no port comes twice among the provisions and the anchor.
    pub(crate) fn provides_once(&self) -> bool {
        self.provisions
            .iter()
            .enumerate()
            .all(|(n, port)| *port != self.anchor && !self.provisions[..n].contains(port))
    }

    pub fn depends_on(&self, port: Port) -> bool {
        self.needs.may_have(port.key) && self.dependencies.contains(&port)
    }

    /// Whether this plugin holds its dependencies: Loading or Active.
    pub fn is_up(&self) -> bool {
        matches!(self.phase, Phase::Loading | Phase::Active)
    }

    /// The declaration rows it takes: dependencies, provisions and the anchor.
    pub fn rows(&self) -> u64 {
        (self.dependencies.len() + self.provisions.len() + 1) as u64
    }
}
