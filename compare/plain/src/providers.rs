//! Who provides what, in a registry that is being read. There are no free places between
//! its plugins.

use crate::phases::Phase;
use crate::plugin::Plugin;
use crate::ports::Port;
use crate::registration::MAX_PROVISION_KEYS;
use crate::registry::{MAX_PLUGINS, Registry};
use crate::summary::SUMMARIES;

/// The most provisions and anchors that there can be.
const MAX_PROVIDED: usize = MAX_PLUGINS * (MAX_PROVISION_KEYS + 1);

/// With summaries, up to so many of them are compared plugin by plugin. Of more, too many
/// bits are set: they are sorted, as without.
const FEW: usize = 128;

impl Registry {
    /// Whether no port is provided twice, and the plugins supply each other.
    pub(crate) fn agrees(&self) -> bool {
        let plugins = &self.plugins[..self.occupancy.count_ones() as usize];
        let provided = || plugins.iter().map(|plugin| plugin.provisions.len() + 1).sum::<usize>();
        if SUMMARIES && provided() <= FEW {
            let is_active = |plugin: &Plugin| plugin.phase == Phase::Active;
            let active = |port| plugins.iter().position(|p| is_active(p) && p.provides(port));
            all_differ(plugins) && self.supply(active)
        } else {
            let sorted = Providers::of(self);
            sorted.differ() && self.supply(|port| sorted.active(port))
        }
    }

    /// Whether all that Loading and Active plugins depend on is provided by Active ones,
    /// whose places are told, and none of them depends on itself, be it through others.
    fn supply(&self, active: impl Fn(Port) -> Option<usize>) -> bool {
        let mut up = 0u32;
        let mut needs = [0u32; MAX_PLUGINS];
        for (place, (_, plugin)) in self.registered().enumerate() {
            if !plugin.is_up() {
                continue;
            }
            up |= 1 << place;
            for &port in plugin.dependencies() {
                let Some(provider) = active(port) else { return false };
                needs[place] |= 1 << provider;
            }
        }
        // In each turn those that need no other are taken out; of a ring, none is.
        while up != 0 {
            let free = (0..MAX_PLUGINS)
                .filter(|&place| needs[place] & up == 0)
                .fold(0, |free, place| free | 1 << place);
            if up & free == 0 {
                return false;
            }
            up &= !free;
        }
        true
    }
}

/// Whether no port is provided twice, by comparing each plugin with those before it.
fn all_differ(plugins: &[Plugin]) -> bool {
    plugins.iter().enumerate().all(|(n, plugin)| {
        let Plugin { anchor, provisions, offers, .. } = plugin;
        let mut before = plugins[..n].iter();
        plugin.provides_once()
            && !before.any(|other| other.provides_any(*anchor, provisions, *offers))
    })
}

/// All provisions and anchors with the places of their plugins, sorted.
struct Providers<'r> {
    registry: &'r Registry,
    count: usize,
    ports: [(Port, usize); MAX_PROVIDED],
}

impl<'r> Providers<'r> {
    fn of(registry: &'r Registry) -> Self {
        let mut all = Self { registry, count: 0, ports: [(Port::new(0, 0), 0); MAX_PROVIDED] };
        for (place, (_, plugin)) in registry.registered().enumerate() {
            for &port in plugin.provisions().iter().chain([&plugin.anchor]) {
                all.ports[all.count] = (port, place);
                all.count += 1;
            }
        }
        all.ports[..all.count].sort_unstable();
        all
    }

    /// Whether no port comes twice.
    fn differ(&self) -> bool {
        self.ports[..self.count].is_sorted_by(|(a, _), (b, _)| a < b)
    }

    /// The place of a port's Active provider.
    fn active(&self, port: Port) -> Option<usize> {
        let ports = &self.ports[..self.count];
        let found = ports.binary_search_by_key(&port, |&(port, _)| port).ok()?;
        let (_, place) = ports[found];
        (self.registry.plugins[place].phase == Phase::Active).then_some(place)
    }
}
