//! The registry and its operations.

use core::fmt;
use core::iter::FusedIterator;

use crate::engine::{self, ANSWER, WORDS};
use crate::numbers::{
    Definition, Identity, Invocation, Phase, Port, Reading, Receipt, Root, Ticket,
};
use crate::realms::{Edition, RealmList};
use crate::refusal::{Refusal, Refused};

/// A plugin registry, 35,904 bytes inline.
///
/// A refusal changes nothing. The checks of an operation run in the order that stands with it, and the first that holds
/// refuses.
///
/// It cannot be cloned: a copy would have the same domain, and what was admitted once could be called in both.
///
/// ```
/// use vaskelbi::{Definition, Port, Refusal, Registry};
///
/// let mut registry = Registry::open(7, 100);
/// let driver = registry.register(&Definition::new(Port::in_default_realm(30), 12))?;
/// let ticket = registry.begin(driver)?;
/// let invocation = registry.admit(ticket, 6)?;
/// let receipt = registry.call(invocation)?;
/// assert_eq!((receipt.payload, receipt.argument), (12, 6));
/// assert_eq!(registry.call(invocation), Err(Refusal::Stale));
/// # Ok::<(), Refusal>(())
/// ```
#[repr(transparent)]
pub struct Registry {
    words: [u64; WORDS],
}

/// More bytes than any registry's text has.
pub const TEXT_ROOM: usize = 131_072;

const _: () = assert!(size_of::<Registry>() == 35_904 && align_of::<Registry>() == 8);

type Answer = [u64; ANSWER];

/// What a status says of an operation that answers no number.
pub(crate) fn done(status: u64) -> Result<(), Refusal> {
    match Refusal::from_number(status) {
        None if status == 0 => Ok(()),
        None => unreachable!("there is no refusal {status}"),
        Some(refusal) => Err(refusal),
    }
}

/// The answer of an operation that may refuse.
fn answer(call: impl FnOnce(&mut Answer) -> u64) -> Result<Answer, Refusal> {
    let mut out = [0; ANSWER];
    done(call(&mut out))?;
    Ok(out)
}

/// The answer of one that never does.
fn plain_answer(call: impl FnOnce(&mut Answer) -> u64) -> Answer {
    let mut out = [0; ANSWER];
    let status = call(&mut out);
    debug_assert_eq!(status, 0);
    out
}

fn number([_, number, ..]: Answer) -> u64 {
    number
}

fn yes([_, number, ..]: Answer) -> bool {
    number != 0
}

fn port([_, key, realm, ..]: Answer) -> Port {
    Port { key, realm }
}

/// Reads an answer that may be none.
fn perhaps<T>(answer: Answer, read: impl FnOnce(Answer) -> T) -> Option<T> {
    (answer[0] != 0).then(|| read(answer))
}

/// The port that a key resolves to by a realm list. Refuses 26, 4.
pub fn resolve(realms: &RealmList, key: u64) -> Result<Port, Refusal> {
    let realms = realms.numbers();
    answer(|out| {
        // SAFETY: pointer and length are one borrowed slice's.
        unsafe { engine::vaskelbi_resolve(realms.as_ptr(), realms.len(), key, out) }
    })
    .map(port)
}

/// Opening, and the registry as a whole.
impl Registry {
    /// A fresh registry. `Box::new` keeps it off the stack.
    #[inline]
    pub fn open(domain: u64, first: u64) -> Self {
        let mut words = [0; WORDS];
        engine::vaskelbi_open(&mut words, domain, first);
        Self { words }
    }

    /// Puts a fresh registry in this one's place.
    pub fn reopen(&mut self, domain: u64, first: u64) {
        engine::vaskelbi_open(&mut self.words, domain, first);
    }

    /// The domain of its tickets, invocations and child identities.
    pub fn domain(&self) -> u64 {
        engine::vaskelbi_domain(&self.words)
    }

    /// The first id that it could answer.
    pub fn first_id(&self) -> u64 {
        engine::vaskelbi_first(&self.words)
    }

    /// The id that the next registration answers.
    pub fn next_id(&self) -> u64 {
        engine::vaskelbi_next(&self.words)
    }

    /// How many plugins are registered.
    pub fn count(&self) -> u64 {
        engine::vaskelbi_count(&self.words)
    }

    /// Declaration rows in use.
    pub fn rows(&self) -> u64 {
        engine::vaskelbi_rows(&self.words)
    }

    /// The lowest registered id at or above a number.
    pub fn id_from(&self, number: u64) -> Option<u64> {
        let found = plain_answer(|out| engine::vaskelbi_id_from(&self.words, number, out));
        perhaps(found, self::number)
    }

    /// The registered ids, rising.
    pub fn ids(&self) -> Ids<'_> {
        Ids { registry: self, from: Some(0) }
    }

    /// The words, to compare or to look at. What they mean is the engine's own.
    pub fn words(&self) -> &[u64; WORDS] {
        &self.words
    }
}

/// Registration.
impl Registry {
    /// Registers a plugin and answers its id. Refuses 26, 4, 5, 1 and 2 of the parent, 3 if the parent is Unloading, 6, 7, 8,
    /// 9, 10, 11, 12.
    pub fn register(&mut self, new: &Definition<'_>) -> Result<u64, Refusal> {
        let Definition { parent, anchor, ref realms, dependencies, provisions, payload } = *new;
        let realms = realms.numbers();
        let words = &mut self.words;
        answer(|out| match parent {
            // SAFETY: each pointer and length are one borrowed slice's, and `&mut self` overlaps none.
            None => unsafe {
                engine::vaskelbi_register(
                    words,
                    anchor.key,
                    anchor.realm,
                    payload,
                    realms.as_ptr(),
                    realms.len(),
                    dependencies.as_ptr(),
                    dependencies.len(),
                    provisions.as_ptr(),
                    provisions.len(),
                    out,
                )
            },
            // SAFETY: as above.
            Some(parent) => unsafe {
                engine::vaskelbi_register_child(
                    words,
                    parent,
                    anchor.key,
                    anchor.realm,
                    payload,
                    realms.as_ptr(),
                    realms.len(),
                    dependencies.as_ptr(),
                    dependencies.len(),
                    provisions.as_ptr(),
                    provisions.len(),
                    out,
                )
            },
        })
        .map(number)
    }
}

/// Phases.
impl Registry {
    /// Idle to Loading: generation + 1, root Unissued. Refuses 1, 2, 3 by phase, 16, 14.
    pub fn begin(&mut self, id: u64) -> Result<Ticket, Refusal> {
        let [_, domain, id, generation, kind, ..] =
            answer(|out| engine::vaskelbi_begin(&mut self.words, id, out))?;
        Ok(Ticket { domain, id, generation, kind })
    }

    /// Loading to Active. Refuses 1, 2, 3 by phase, 17, 22 if a provision has no value.
    pub fn ready(&mut self, id: u64) -> Result<(), Refusal> {
        done(engine::vaskelbi_ready(&mut self.words, id))
    }

    /// Loading to Unloading. Refuses 1, 3 by phase.
    pub fn fail(&mut self, id: u64) -> Result<(), Refusal> {
        done(engine::vaskelbi_fail(&mut self.words, id))
    }

    /// Active to Unloading. Refuses 1, 3 by phase, 15.
    pub fn unload(&mut self, id: u64) -> Result<(), Refusal> {
        done(engine::vaskelbi_unload(&mut self.words, id))
    }

    /// Unloading to Idle: values are dropped, root is Unissued. Refuses 1, 3 by phase.
    pub fn finish(&mut self, id: u64) -> Result<(), Refusal> {
        done(engine::vaskelbi_finish(&mut self.words, id))
    }
}

/// Replacement.
impl Registry {
    /// Stores a payload, revision + 1, in any phase, retired or not, and answers the former one. Refuses 1, 16.
    pub fn replace(&mut self, id: u64, payload: u64) -> Result<u64, Refused> {
        let mut out = [0; ANSWER];
        let status = engine::vaskelbi_replace(&mut self.words, id, payload, &mut out);
        match done(status) {
            Ok(()) => Ok(number(out)),
            Err(refusal) => Err(Refused { refusal, payload: number(out) }),
        }
    }

    /// Whether a count of replacements fits: revision + count is at most 2^64 − 1. Refuses 1.
    pub fn fits(&self, id: u64, count: u64) -> Result<bool, Refusal> {
        answer(|out| engine::vaskelbi_fits(&self.words, id, count, out)).map(yes)
    }
}

/// Admission and call.
impl Registry {
    /// Admits a ticket's setup; root becomes Queued. Refuses 3 by domain or kind, 1, 2, 13 if not Loading or of another
    /// generation, 3 if root isn't Unissued.
    pub fn admit(&mut self, ticket: Ticket, argument: u64) -> Result<Invocation, Refusal> {
        let Ticket { domain, id, generation, kind } = ticket;
        let [_, domain, id, generation, revision, argument, ..] = answer(|out| {
            engine::vaskelbi_admit(&mut self.words, domain, id, generation, kind, argument, out)
        })?;
        Ok(Invocation { domain, id, generation, revision, argument })
    }

    /// Whether a ticket would be admitted now.
    pub fn admits(&self, ticket: Ticket) -> bool {
        let Ticket { domain, id, generation, kind } = ticket;
        yes(plain_answer(|out| {
            engine::vaskelbi_admits(&self.words, domain, id, generation, kind, out)
        }))
    }

    /// Calls what was admitted, once; root becomes Spent. Refuses 3 by domain, 1, 2, 13 unless Loading, Queued, and
    /// generation, current revision, queued revision and argument all agree.
    pub fn call(&mut self, invocation: Invocation) -> Result<Receipt, Refusal> {
        let Invocation { domain, id, generation, revision, argument } = invocation;
        let [_, domain, id, generation, request, payload, argument] = answer(|out| {
            engine::vaskelbi_call(&mut self.words, domain, id, generation, revision, argument, out)
        })?;
        Ok(Receipt { domain, id, generation, request, payload, argument })
    }
}

/// Retirement.
impl Registry {
    /// Sets the retired mark. Refuses 1, 2.
    pub fn retire(&mut self, id: u64) -> Result<(), Refusal> {
        done(engine::vaskelbi_retire(&mut self.words, id))
    }

    /// Retires by child identity. Refuses 3 by domain, 1 if the id was never issued; accepts a plugin that is gone, and
    /// nothing changes; refuses 3 if its parent is another or none, 2.
    pub fn retire_child(&mut self, child: Identity) -> Result<(), Refusal> {
        let Identity { domain, parent, id } = child;
        done(engine::vaskelbi_retire_child(&mut self.words, domain, parent, id))
    }

    /// A plugin's child identity, or none without a parent. Refuses 1.
    pub fn child(&self, id: u64) -> Result<Option<Identity>, Refusal> {
        let found = answer(|out| engine::vaskelbi_child(&self.words, id, out))?;
        Ok(perhaps(found, |[_, domain, parent, id, ..]| Identity { domain, parent, id }))
    }

    /// Removes a plugin and frees its rows. Refuses 1, 3 unless Idle and retired, 18.
    pub fn remove(&mut self, id: u64) -> Result<(), Refusal> {
        done(engine::vaskelbi_remove(&mut self.words, id))
    }
}

/// Values.
impl Registry {
    /// Offers the value of a provision. Refuses 1, 19 unless Loading and not retired, 20 if not a provision, 21.
    pub fn offer(&mut self, id: u64, port: Port, value: u64) -> Result<(), Refusal> {
        done(engine::vaskelbi_offer(&mut self.words, id, port.key, port.realm, value))
    }

    /// Reads a dependency's value. Refuses 1, 19 if neither Loading nor Active, 20 if not a dependency, 22.
    pub fn read(&self, id: u64, port: Port) -> Result<Reading, Refusal> {
        let [_, value, provider, ..] =
            answer(|out| engine::vaskelbi_read(&self.words, id, port.key, port.realm, out))?;
        Ok(Reading { value, provider })
    }

    /// The Active provider's value of a port.
    pub fn visible(&self, port: Port) -> Option<u64> {
        let found =
            plain_answer(|out| engine::vaskelbi_visible(&self.words, port.key, port.realm, out));
        perhaps(found, number)
    }

    /// A plugin's own value of a provision. Refuses 1.
    pub fn own(&self, id: u64, port: Port) -> Result<Option<u64>, Refusal> {
        answer(|out| engine::vaskelbi_own(&self.words, id, port.key, port.realm, out))
            .map(|found| perhaps(found, number))
    }

    /// The first provision in order without a value. Refuses 1.
    pub fn missing(&self, id: u64) -> Result<Option<Port>, Refusal> {
        answer(|out| engine::vaskelbi_missing(&self.words, id, out))
            .map(|found| perhaps(found, port))
    }

    /// Whether a list of key, realm, key, realm is the provision list in order; not if its length is odd. Refuses 1.
    pub fn matches(&self, id: u64, list: &[u64]) -> Result<bool, Refusal> {
        answer(|out| {
            // SAFETY: pointer and length are one borrowed slice's.
            unsafe { engine::vaskelbi_matches(&self.words, id, list.as_ptr(), list.len(), out) }
        })
        .map(yes)
    }

    /// Whether a port is a provision, or a dependency while Loading or Active. Refuses 1.
    pub fn declares(&self, id: u64, port: Port) -> Result<bool, Refusal> {
        answer(|out| engine::vaskelbi_declares(&self.words, id, port.key, port.realm, out)).map(yes)
    }
}

/// Lists. Each is written as key, realm, key, realm from a place in the lent buffer, and every number outside stays; the
/// count of pairs is answered.
impl Registry {
    /// Lists the dependencies. Refuses 1, 23.
    pub fn list_dependencies(
        &self,
        id: u64,
        place: usize,
        buffer: &mut [u64],
    ) -> Result<usize, Refusal> {
        self.listed(engine::vaskelbi_list_dependencies, id, place, buffer)
    }

    /// Lists the provisions. Refuses 1, 23.
    pub fn list_provisions(
        &self,
        id: u64,
        place: usize,
        buffer: &mut [u64],
    ) -> Result<usize, Refusal> {
        self.listed(engine::vaskelbi_list_provisions, id, place, buffer)
    }

    /// Lists the realm rows, without edition and default. Refuses 1, 23.
    pub fn list_realms(&self, id: u64, place: usize, buffer: &mut [u64]) -> Result<usize, Refusal> {
        self.listed(engine::vaskelbi_list_realms, id, place, buffer)
    }

    fn listed(
        &self,
        list: engine::List,
        id: u64,
        place: usize,
        buffer: &mut [u64],
    ) -> Result<usize, Refusal> {
        answer(|out| {
            // SAFETY: pointer and length are one slice's, borrowed here alone.
            unsafe { list(&self.words, id, place, buffer.as_mut_ptr(), buffer.len(), out) }
        })
        .map(|found| number(found) as usize)
    }

    /// The first dependency with a key. Refuses 1.
    pub fn lookup(&self, id: u64, key: u64) -> Result<Option<Port>, Refusal> {
        answer(|out| engine::vaskelbi_lookup(&self.words, id, key, out))
            .map(|found| perhaps(found, port))
    }
}

/// Text: a line `name=value` for each thing that the registry holds, ended by byte 10, plugins by rising id.
impl Registry {
    /// Writes the text to the front of the lent bytes, whose rest stays, and answers its length. Refuses 23, and then writes
    /// nothing.
    pub fn write_text(&self, text: &mut [u8]) -> Result<usize, Refusal> {
        answer(|out| {
            // SAFETY: pointer and length are one slice's, borrowed here alone.
            unsafe { engine::vaskelbi_write_text(&self.words, text.as_mut_ptr(), text.len(), out) }
        })
        .map(|found| number(found) as usize)
    }

    /// Writes the text to the front of the lent bytes and answers it. Refuses 23.
    ///
    /// ```
    /// use vaskelbi::{Refusal, Registry};
    ///
    /// let registry = Registry::open(7, 100);
    /// let mut buffer = [0; 64];
    /// assert_eq!(registry.text(&mut buffer)?, "domain=7\nfirst=100\nnext=100\nplugins=0\n");
    /// assert_eq!(registry.text(&mut buffer[..8]), Err(Refusal::ShortBuffer));
    /// # Ok::<(), Refusal>(())
    /// ```
    pub fn text<'t>(&self, buffer: &'t mut [u8]) -> Result<&'t str, Refusal> {
        let length = self.write_text(buffer)?;
        Ok(core::str::from_utf8(&buffer[..length]).expect("a text has bytes below 128 alone"))
    }

    /// The registry that a text says, under a domain of its own. Refuses 24, 25. `Box::new` keeps it off the stack.
    ///
    /// A Queued root is Unissued then; everything else is as the text says. Nothing that was admitted before the text was written
    /// is called under the new domain.
    ///
    /// ```
    /// use vaskelbi::{Definition, Port, Refusal, Registry};
    ///
    /// let mut before = Registry::open(7, 100);
    /// let driver = before.register(&Definition::new(Port::in_default_realm(30), 12))?;
    /// let ticket = before.begin(driver)?;
    /// let invocation = before.admit(ticket, 6)?;
    /// let mut buffer = [0; 256];
    /// let length = before.write_text(&mut buffer)?;
    ///
    /// let mut after = Registry::load(8, &buffer[..length])?;
    /// assert_eq!(after.payload(driver), Ok(12));
    /// assert_eq!(after.call(invocation), Err(Refusal::InvalidState));
    /// assert_eq!(Registry::load(7, &buffer[..length]).err(), Some(Refusal::SameDomain));
    /// assert_eq!(Registry::load(8, &buffer[1..length]).err(), Some(Refusal::BadText));
    /// # Ok::<(), Refusal>(())
    /// ```
    pub fn load(domain: u64, text: &[u8]) -> Result<Self, Refusal> {
        let mut registry = Self { words: [0; WORDS] };
        registry.reload(domain, text)?;
        Ok(registry)
    }

    /// Puts the registry that a text says in this one's place. Refuses 24, 25, and then changes nothing.
    pub fn reload(&mut self, domain: u64, text: &[u8]) -> Result<(), Refusal> {
        // SAFETY: pointer and length are one borrowed slice's.
        done(unsafe { engine::vaskelbi_load(&mut self.words, domain, text.as_ptr(), text.len()) })
    }
}

/// Start orders: in which order the Idle plugins of a set begin, each Active before the next begins.
///
/// An order passes if it names the set's ids, each once, and every dependency of each is provided by a plugin that is Active now
/// or by one earlier in the order. The set's ids are checked one by one in list order: 27 if the id stands earlier in the list, 1,
/// 2, 3 unless Idle, 16 if its generation is 2^64 − 1.
impl Registry {
    /// Plans the passing order that has the lowest id at the first place where two differ, at the front of the lent buffer, whose
    /// rest stays. Answers the count of ids, or none, which writes nothing, if no order passes. Refuses by the set's checks, then
    /// 23 if the buffer has fewer numbers than the set.
    pub fn plan_order(&self, set: &[u64], buffer: &mut [u64]) -> Result<Option<usize>, Refusal> {
        answer(|out| {
            // SAFETY: each pointer and length are one slice's, and the buffer is borrowed here alone.
            unsafe {
                engine::vaskelbi_plan_order(
                    &self.words,
                    set.as_ptr(),
                    set.len(),
                    buffer.as_mut_ptr(),
                    buffer.len(),
                    out,
                )
            }
        })
        .map(|found| perhaps(found, number).map(|count| count as usize))
    }

    /// Plans the same order to the front of the lent buffer and answers it. Refuses as [`plan_order`](Self::plan_order).
    ///
    /// ```
    /// use vaskelbi::{Definition, Port, Refusal, Registry};
    ///
    /// let mut registry = Registry::open(7, 100);
    /// let anchor = Port::in_default_realm;
    /// let drive = Definition { dependencies: &[21], ..Definition::new(anchor(30), 12) };
    /// let drive = registry.register(&drive)?;
    /// let encoder = Definition { provisions: &[21], ..Definition::new(anchor(20), 500) };
    /// let encoder = registry.register(&encoder)?;
    ///
    /// let mut buffer = [0; 32];
    /// let order = registry.start_order(&[drive, encoder], &mut buffer)?;
    /// assert_eq!(order, Some(&[encoder, drive][..]));
    /// assert_eq!(registry.start_order(&[drive], &mut buffer), Ok(None));
    /// assert_eq!(registry.start_order(&[drive, drive], &mut buffer), Err(Refusal::Repeated));
    /// # Ok::<(), Refusal>(())
    /// ```
    pub fn start_order<'b>(
        &self,
        set: &[u64],
        buffer: &'b mut [u64],
    ) -> Result<Option<&'b [u64]>, Refusal> {
        let count = self.plan_order(set, buffer)?;
        Ok(count.map(|count| &buffer[..count]))
    }

    /// Whether an order passes; any ids may stand in it. Refuses by the set's checks.
    pub fn check_order(&self, set: &[u64], order: &[u64]) -> Result<bool, Refusal> {
        answer(|out| {
            // SAFETY: each pointer and length are one borrowed slice's.
            unsafe {
                engine::vaskelbi_check_order(
                    &self.words,
                    set.as_ptr(),
                    set.len(),
                    order.as_ptr(),
                    order.len(),
                    out,
                )
            }
        })
        .map(yes)
    }
}

/// What a plugin holds. Each refuses 1.
impl Registry {
    /// Its parent's id.
    pub fn parent(&self, id: u64) -> Result<Option<u64>, Refusal> {
        answer(|out| engine::vaskelbi_parent(&self.words, id, out))
            .map(|found| perhaps(found, number))
    }

    /// Its anchor.
    pub fn anchor(&self, id: u64) -> Result<Port, Refusal> {
        answer(|out| engine::vaskelbi_anchor(&self.words, id, out)).map(port)
    }

    /// Its edition of the realm rule, with its default realm.
    pub fn edition(&self, id: u64) -> Result<Edition, Refusal> {
        let [_, edition, default, ..] =
            answer(|out| engine::vaskelbi_edition(&self.words, id, out))?;
        Ok(match (edition, default) {
            (1, 0) => Edition::First,
            (2, default) => Edition::Second { default },
            _ => unreachable!("there is no edition {edition} with default {default}"),
        })
    }

    /// Its phase.
    pub fn phase(&self, id: u64) -> Result<Phase, Refusal> {
        let [_, phase, ..] = answer(|out| engine::vaskelbi_phase(&self.words, id, out))?;
        Ok(match phase {
            0 => Phase::Idle,
            1 => Phase::Loading,
            2 => Phase::Active,
            3 => Phase::Unloading,
            _ => unreachable!("there is no phase {phase}"),
        })
    }

    /// Its retired mark.
    pub fn retired(&self, id: u64) -> Result<bool, Refusal> {
        answer(|out| engine::vaskelbi_retired(&self.words, id, out)).map(yes)
    }

    /// Its generation; 0 if it has never begun.
    pub fn generation(&self, id: u64) -> Result<u64, Refusal> {
        answer(|out| engine::vaskelbi_generation(&self.words, id, out)).map(number)
    }

    /// Its revision: how often its payload was replaced.
    pub fn revision(&self, id: u64) -> Result<u64, Refusal> {
        answer(|out| engine::vaskelbi_revision(&self.words, id, out)).map(number)
    }

    /// Its payload.
    pub fn payload(&self, id: u64) -> Result<u64, Refusal> {
        answer(|out| engine::vaskelbi_payload(&self.words, id, out)).map(number)
    }

    /// Its root.
    pub fn root(&self, id: u64) -> Result<Root, Refusal> {
        let [_, root, revision, argument, ..] =
            answer(|out| engine::vaskelbi_root(&self.words, id, out))?;
        Ok(match root {
            0 => Root::Unissued,
            1 => Root::Queued { revision, argument },
            2 => Root::Spent,
            _ => unreachable!("there is no root {root}"),
        })
    }
}

impl fmt::Debug for Registry {
    fn fmt(&self, f: &mut fmt::Formatter<'_>) -> fmt::Result {
        f.debug_struct("Registry")
            .field("domain", &self.domain())
            .field("first_id", &self.first_id())
            .field("next_id", &self.next_id())
            .field("count", &self.count())
            .field("rows", &self.rows())
            .finish_non_exhaustive()
    }
}

/// The registered ids of a registry, rising.
#[derive(Clone, Debug)]
pub struct Ids<'a> {
    registry: &'a Registry,
    /// Where to go on; no number is above the last one.
    from: Option<u64>,
}

impl Iterator for Ids<'_> {
    type Item = u64;

    fn next(&mut self) -> Option<u64> {
        let id = self.registry.id_from(self.from?)?;
        self.from = id.checked_add(1);
        Some(id)
    }
}

impl FusedIterator for Ids<'_> {}
