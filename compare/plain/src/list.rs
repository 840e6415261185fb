//! A list of ports with fixed room.

use std::ops::Deref;

use crate::ports::Port;

/// At most `N` ports in order, held in place.
#[derive(Clone, Copy, Debug)]
pub(crate) struct PortList<const N: usize> {
    len: u8,
    ports: [Port; N],
}

impl<const N: usize> PortList<N> {
    pub(crate) const EMPTY: Self = {
        assert!(N <= u8::MAX as usize);
        Self { len: 0, ports: [Port::new(0, 0); N] }
    };

    pub(crate) fn clear(&mut self) {
        self.len = 0;
    }

    /// Appends a port, or answers false and keeps the list if it is full.
    #[must_use]
    pub(crate) fn push(&mut self, port: Port) -> bool {
        let Some(room) = self.ports.get_mut(usize::from(self.len)) else {
            return false;
        };
        *room = port;
        self.len += 1;
        true
    }

    /// Takes these ports in place of the old ones; the caller knows they fit.
    pub(crate) fn refill(&mut self, ports: impl Iterator<Item = Port>) {
        self.clear();
        for port in ports {
            let fits = self.push(port);
            debug_assert!(fits);
        }
    }
}

impl<const N: usize> Deref for PortList<N> {
    type Target = [Port];

    fn deref(&self) -> &[Port] {
        &self.ports[..usize::from(self.len)]
    }
}
