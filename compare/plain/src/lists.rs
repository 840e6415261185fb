//! Lists.

use crate::ports::Port;
use crate::refusal::Refusal;
use crate::registry::Registry;

impl Registry {
    /// Lists the dependencies into the buffer from a place; answers the count.
    pub fn deps(&self, id: u64, buffer: &mut [u64], place: u64) -> Result<u64, Refusal> {
        write_pairs(self.plugin(id)?.dependencies(), buffer, place)
    }

    /// Lists the provisions into the buffer from a place; answers the count.
    pub fn provs(&self, id: u64, buffer: &mut [u64], place: u64) -> Result<u64, Refusal> {
        write_pairs(self.plugin(id)?.provisions(), buffer, place)
    }

    /// Lists the realm rows into the buffer from a place; answers the count.
    pub fn realms(&self, id: u64, buffer: &mut [u64], place: u64) -> Result<u64, Refusal> {
        write_pairs(self.plugin(id)?.realms(), buffer, place)
    }
}

/// Writes alternating keys and realms; every number outside stays.
fn write_pairs(ports: &[Port], buffer: &mut [u64], place: u64) -> Result<u64, Refusal> {
    let room = usize::try_from(place)
        .ok()
        .and_then(|place| buffer.get_mut(place..))
        .and_then(|tail| tail.get_mut(..2 * ports.len()))
        .ok_or(Refusal::ShortBuffer)?;
    let (pairs, _) = room.as_chunks_mut();
    for (pair, port) in pairs.iter_mut().zip(ports) {
        *pair = [port.key, port.realm];
    }
    Ok(ports.len() as u64)
}
