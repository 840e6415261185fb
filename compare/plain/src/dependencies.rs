//! Dependency list.

use crate::list::PortList;
use crate::ports::{Port, Realms};
use crate::refusal::Refusal;
use crate::registration::MAX_DEPENDENCIES;
use crate::registry::Registry;
use crate::summary::Summary;

pub(crate) type Dependencies = PortList<MAX_DEPENDENCIES>;

impl Dependencies {
    /// Writes the finished list: the declared keys in order, then for each port
    /// of the parent's list that port and its key resolved again. All keys are
    /// resolved by the plugin's own edition and rows, whatever its parent's. The
    /// summary is of its provisions and anchor.
    pub(crate) fn finish(
        &mut self,
        declared: &[u64],
        inherited: &[Port],
        realms: Realms<'_>,
        provisions: &[Port],
        anchor: Port,
        offers: Summary,
    ) -> Result<(), Refusal> {
        self.refill(declared.iter().map(|&key| realms.port(key)));
        let mut known = declared.iter().fold(offers, |known, &key| known.with(key));
        for &port in inherited {
            self.inherit(port, provisions, anchor, &mut known)?;
            let again = realms.port(port.key);
            // The same port was dealt with a line above.
            if again != port {
                self.inherit(again, provisions, anchor, &mut known)?;
            }
        }
        Ok(())
    }

    /// Appends a port unless the plugin provides it, has it as its anchor, or the
    /// list so far has it. The summary is of all these.
    fn inherit(
        &mut self,
        port: Port,
        provisions: &[Port],
        anchor: Port,
        known: &mut Summary,
    ) -> Result<(), Refusal> {
        let skipped = known.may_have(port.key)
            && (provisions.contains(&port) || port == anchor || self.contains(&port));
        *known = known.with(port.key);
        if skipped || self.push(port) { Ok(()) } else { Err(Refusal::TooLong) }
    }
}

impl Registry {
    /// The first port with this key in a plugin's dependency list.
    pub fn lookup(&self, id: u64, key: u64) -> Result<Option<Port>, Refusal> {
        let plugin = self.plugin(id)?;
        Ok(plugin.dependencies.iter().copied().find(|port| port.key == key))
    }
}
