//! Values.

use crate::phases::Phase;
use crate::plugin::Plugin;
use crate::ports::Port;
use crate::refusal::Refusal;
use crate::registration::MAX_PROVISION_KEYS;
use crate::registry::Registry;

/// A value or none for each provision, by its place in the list.
#[derive(Clone, Copy, Debug)]
pub(crate) struct Values {
    /// Bit n is set once provision n has its value.
    offered: u16,
    numbers: [u64; MAX_PROVISION_KEYS],
}

impl Values {
    pub(crate) const NONE: Self = Self { offered: 0, numbers: [0; MAX_PROVISION_KEYS] };

    pub(crate) fn get(&self, place: usize) -> Option<u64> {
        ((self.offered >> place) & 1 == 1).then(|| self.numbers[place])
    }

    pub(crate) fn set(&mut self, place: usize, value: u64) {
        self.offered |= 1 << place;
        self.numbers[place] = value;
    }

    pub(crate) fn drop_all(&mut self) {
        self.offered = 0;
    }

    pub(crate) fn is_empty(&self) -> bool {
        self.offered == 0
    }

    /// The first place without a value, which may lie past the list's end.
    pub(crate) fn first_missing(&self) -> usize {
        self.offered.trailing_ones() as usize
    }
}

impl Registry {
    pub fn offer(&mut self, id: u64, port: Port, value: u64) -> Result<(), Refusal> {
        let plugin = self.plugin_mut(id)?;
        if plugin.phase != Phase::Loading || plugin.retired {
            return Err(Refusal::Closed);
        }
        let place = plugin.provision(port).ok_or(Refusal::Undeclared)?;
        if plugin.values.get(place).is_some() {
            return Err(Refusal::Duplicate);
        }
        plugin.values.set(place, value);
        Ok(())
    }

    /// The value that a plugin reads at a dependency, and its provider's id.
    pub fn read(&self, id: u64, port: Port) -> Result<(u64, u64), Refusal> {
        let plugin = self.plugin(id)?;
        if !plugin.is_up() {
            return Err(Refusal::Closed);
        }
        if !plugin.depends_on(port) {
            return Err(Refusal::Undeclared);
        }
        let (provider, plugin) = self.provider(port).ok_or(Refusal::Missing)?;
        let value = plugin.value(port).ok_or(Refusal::Missing)?;
        Ok((value, provider))
    }

    /// The Active provider's value.
    pub fn visible(&self, port: Port) -> Option<u64> {
        self.active_provider(port)?.value(port)
    }

    /// The first provision without a value.
    pub fn missing(&self, id: u64) -> Result<Option<Port>, Refusal> {
        let plugin = self.plugin(id)?;
        Ok(plugin.provisions.get(plugin.values.first_missing()).copied())
    }

    /// Whether a list of key, realm pairs is the provision list in order.
    pub fn matches(&self, id: u64, list: &[u64]) -> Result<bool, Refusal> {
        let provisions = self.plugin(id)?.provisions();
        let (pairs, odd) = list.as_chunks();
        let same = |(&[key, realm], &port): (&[u64; 2], &Port)| port == Port::new(key, realm);
        Ok(odd.is_empty()
            && pairs.len() == provisions.len()
            && pairs.iter().zip(provisions).all(same))
    }

    /// Whether a port is declared as a service that the plugin may use now.
    pub fn declares(&self, id: u64, port: Port) -> Result<bool, Refusal> {
        let plugin = self.plugin(id)?;
        let provided = plugin.offers.may_have(port.key) && plugin.provisions.contains(&port);
        Ok(provided || plugin.is_up() && plugin.depends_on(port))
    }

    pub(crate) fn active_provider(&self, port: Port) -> Option<&Plugin> {
        self.registered()
            .map(|(_, plugin)| plugin)
            .find(|plugin| plugin.phase == Phase::Active && plugin.provides(port))
    }
}
