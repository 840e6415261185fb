//! The registry as text: the first request of document 02.

use crate::admission::Root;
use crate::plugin::Plugin;
use crate::ports::Port;
use crate::refusal::Refusal;
use crate::registry::{MAX_PLUGINS, Registry};

/// The most digits that a number has, and the least room of a scratch.
pub const MAX_DIGITS: usize = 20;

/// Makes a number's digits at the front of a scratch and hands them back. A
/// scratch shorter than 20 bytes stays, and nothing comes back.
pub fn decimal(number: u64, scratch: &mut [u8]) -> &[u8] {
    if scratch.len() < MAX_DIGITS {
        return &[];
    }
    let front = &mut scratch[..digits(number)];
    write_digits(number, front);
    front
}

impl Registry {
    /// Writes the text to the front of the lent bytes, whose rest stays, and
    /// answers its length.
    pub fn write(&self, text: &mut [u8]) -> Result<usize, Refusal> {
        // What does not fit must leave no trace, so it is measured first.
        let length = self.text_length();
        let front = text.get_mut(..length).ok_or(Refusal::ShortBuffer)?;
        self.tell(&mut Writer { rest: front });
        Ok(length)
    }

    /// How long the text is.
    pub fn text_length(&self) -> usize {
        let mut length = Length(0);
        self.tell(&mut length);
        length.0
    }

    fn tell(&self, text: &mut impl Text) {
        text.line("domain=", self.domain);
        text.line("first=", self.first);
        text.line("next=", self.next);
        text.line("plugins=", self.count());
        // A plugin takes the lowest free place, so places don't follow the ids.
        let mut room = [(0, &self.plugins[0]); MAX_PLUGINS];
        let mut count = 0;
        for plugin in self.registered() {
            room[count] = plugin;
            count += 1;
        }
        let plugins = &mut room[..count];
        plugins.sort_unstable_by_key(|&(id, _)| id);
        for &mut (id, plugin) in plugins {
            plugin.tell(id, text);
        }
    }
}

impl Plugin {
    fn tell(&self, id: u64, text: &mut impl Text) {
        text.line("id=", id);
        match self.parent {
            Some(parent) => text.line("parent=", parent),
            None => text.put("parent=none\n"),
        }
        text.line("phase=", self.phase as u64);
        text.line("retired=", u64::from(self.retired));
        text.line("generation=", self.generation);
        text.line("revision=", self.record.revision);
        text.line("payload=", self.record.payload);
        match self.root {
            Root::Unissued => text.put("root=0\nqueued=none\n"),
            Root::Queued { revision, argument } => {
                text.put("root=1\n");
                text.pair("queued=", revision, argument);
                text.put("\n");
            }
            Root::Spent => text.put("root=2\nqueued=none\n"),
        }
        text.port("anchor=", self.anchor);
        text.line("edition=", self.edition.number());
        text.line("default=", self.edition.default_realm());
        text.ports("realms=", "realm=", &self.realms);
        text.ports("deps=", "dep=", &self.dependencies);
        text.line("provs=", self.provisions.len() as u64);
        for (place, port) in self.provisions.iter().enumerate() {
            text.pair("prov=", port.key, port.realm);
            match self.values.get(place) {
                Some(value) => text.line(",", value),
                None => text.put(",none\n"),
            }
        }
    }
}

/// What becomes of the text, piece by piece.
trait Text {
    fn put(&mut self, piece: &str);
    fn number(&mut self, number: u64);

    fn line(&mut self, name: &str, number: u64) {
        self.put(name);
        self.number(number);
        self.put("\n");
    }

    /// Two numbers with a comma, and no end yet.
    fn pair(&mut self, name: &str, first: u64, second: u64) {
        self.put(name);
        self.number(first);
        self.put(",");
        self.number(second);
    }

    fn port(&mut self, name: &str, port: Port) {
        self.pair(name, port.key, port.realm);
        self.put("\n");
    }

    fn ports(&mut self, count: &str, name: &str, ports: &[Port]) {
        self.line(count, ports.len() as u64);
        for &port in ports {
            self.port(name, port);
        }
    }
}

/// Its length.
struct Length(usize);

impl Text for Length {
    fn put(&mut self, piece: &str) {
        self.0 += piece.len();
    }

    fn number(&mut self, number: u64) {
        self.0 += digits(number);
    }
}

/// Its bytes, into room that is known to be enough.
struct Writer<'a> {
    rest: &'a mut [u8],
}

impl<'a> Writer<'a> {
    fn take(&mut self, length: usize) -> &'a mut [u8] {
        let (front, rest) = std::mem::take(&mut self.rest).split_at_mut(length);
        self.rest = rest;
        front
    }
}

impl Text for Writer<'_> {
    fn put(&mut self, piece: &str) {
        self.take(piece.len()).copy_from_slice(piece.as_bytes());
    }

    fn number(&mut self, number: u64) {
        write_digits(number, self.take(digits(number)));
    }
}

/// How many digits a number has.
fn digits(number: u64) -> usize {
    number.checked_ilog10().map_or(1, |log| log as usize + 1)
}

/// Fills the room with the number's digits, as many as it has.
fn write_digits(mut number: u64, room: &mut [u8]) {
    for byte in room.iter_mut().rev() {
        *byte = b'0' + (number % 10) as u8;
        number /= 10;
    }
}

#[cfg(test)]
mod tests {
    use super::*;

    #[test]
    fn a_number_is_the_filled_front_of_its_scratch() {
        let powers = (0..20).map(|exponent| 10u64.pow(exponent));
        let numbers = powers.flat_map(|power| [power - 1, power, power + 1, 9 * (power / 10)]);
        for number in numbers.chain([u64::MAX, u64::MAX - 1, 1 << 63]) {
            let wanted = number.to_string();
            for length in [20, 21, 40] {
                let mut scratch = vec![b'x'; length];
                assert_eq!(decimal(number, &mut scratch), wanted.as_bytes());
                let (front, rest) = scratch.split_at(wanted.len());
                assert_eq!(front, wanted.as_bytes());
                assert!(rest.iter().all(|&byte| byte == b'x'));
            }
        }
    }

    #[test]
    fn a_shorter_scratch_stays_even_for_one_digit() {
        for length in 0..MAX_DIGITS {
            let mut scratch = [b'x'; MAX_DIGITS];
            assert_eq!(decimal(7, &mut scratch[..length]), b"");
            assert_eq!(scratch, [b'x'; MAX_DIGITS]);
        }
    }
    /// All places and rows taken, and numbers as long as they get.
    #[test]
    fn a_long_text() {
        let last = u64::MAX;
        let mut registry = Registry::open(last, last - 33);
        let keys: Vec<u64> = (last - 15..=last).collect();
        for realm in last - 31..=last {
            let realms: Vec<u64> = keys.iter().flat_map(|&key| [key, realm]).collect();
            let new = crate::Registration {
                parent: None,
                anchor: Port::new(keys[0], realm),
                payload: last,
                realms: crate::RealmList::second(last, &realms),
                dependencies: &keys,
                provisions: &keys[1..],
            };
            let id = registry.register(&new).unwrap();
            // No lifetime is long enough for these, so they are put there.
            let plugin = registry.plugin_mut(id).unwrap();
            plugin.phase = crate::Phase::Loading;
            plugin.generation = last;
            plugin.record.revision = last;
            plugin.root = Root::Queued { revision: last, argument: last };
            for &key in &keys[1..] {
                registry.offer(id, Port::new(key, realm), last).unwrap();
            }
        }
        assert_eq!((registry.count(), registry.rows()), (32, 1024));
        let mut text = vec![0; 131_072];
        let length = registry.write(&mut text).unwrap();
        assert_eq!(length, 90_972);
        assert!(text[length..].iter().all(|&byte| byte == 0));
    }
}
