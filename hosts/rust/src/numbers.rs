//! What operations take and answer.

use crate::realms::RealmList;

/// A key in a realm.
#[derive(Clone, Copy, Debug, PartialEq, Eq, PartialOrd, Ord, Hash)]
pub struct Port {
    /// What is provided.
    pub key: u64,
    /// Where; 0 is the default realm of edition 1.
    pub realm: u64,
}

impl Port {
    /// The realm of a key that has no row in a realm list of edition 1.
    pub const DEFAULT_REALM: u64 = 0;

    /// A key in a realm.
    pub const fn new(key: u64, realm: u64) -> Self {
        Self { key, realm }
    }

    /// A key in realm 0.
    pub const fn in_default_realm(key: u64) -> Self {
        Self::new(key, Self::DEFAULT_REALM)
    }

    /// The ports of alternating numbers, as a listing leaves them.
    pub fn pairs(numbers: &[u64]) -> impl ExactSizeIterator<Item = Self> {
        numbers.chunks_exact(2).map(|pair| Self::new(pair[0], pair[1]))
    }
}

/// What a registration is given.
#[derive(Clone, Copy, Debug, PartialEq, Eq)]
pub struct Definition<'a> {
    /// The parent's id, if there is one. Its dependencies are inherited, as they are and resolved again by this realm list, but for
    /// the new plugin's own provisions and anchor.
    pub parent: Option<u64>,
    /// A port of its own, which has no value.
    pub anchor: Port,
    /// The realm list, with its edition and default realm, which the plugin keeps.
    pub realms: RealmList,
    /// The keys it depends on. With its own provision or anchor among them it can never begin.
    pub dependencies: &'a [u64],
    /// The keys it provides.
    pub provisions: &'a [u64],
    /// The number that a receipt answers, such as a driver's.
    pub payload: u64,
}

impl Definition<'_> {
    /// A plugin of edition 1 with neither parent nor lists.
    pub const fn new(anchor: Port, payload: u64) -> Self {
        let realms = RealmList::first(&[]);
        Self { parent: None, anchor, realms, dependencies: &[], provisions: &[], payload }
    }
}

/// What a begin answers: leave to admit one setup.
#[derive(Clone, Copy, Debug, PartialEq, Eq, Hash)]
pub struct Ticket {
    /// The registry's domain.
    pub domain: u64,
    /// The plugin.
    pub id: u64,
    /// The generation that was begun.
    pub generation: u64,
    /// What it is for.
    pub kind: u64,
}

impl Ticket {
    /// The kind of every ticket that a registry answers.
    pub const SETUP: u64 = 1;
}

/// What an admission answers and a call takes.
#[derive(Clone, Copy, Debug, PartialEq, Eq, Hash)]
pub struct Invocation {
    /// The registry's domain.
    pub domain: u64,
    /// The plugin.
    pub id: u64,
    /// The generation that was begun.
    pub generation: u64,
    /// The revision at the admission.
    pub revision: u64,
    /// The argument.
    pub argument: u64,
}

/// What a call answers: this payload may run on this argument, once.
#[derive(Clone, Copy, Debug, PartialEq, Eq, Hash)]
pub struct Receipt {
    /// The registry's domain.
    pub domain: u64,
    /// The plugin.
    pub id: u64,
    /// The generation that was begun.
    pub generation: u64,
    /// 0.
    pub request: u64,
    /// The plugin's payload.
    pub payload: u64,
    /// The admitted argument.
    pub argument: u64,
}

/// A child identity.
#[derive(Clone, Copy, Debug, PartialEq, Eq, Hash)]
pub struct Identity {
    /// The registry's domain.
    pub domain: u64,
    /// The parent's id.
    pub parent: u64,
    /// The child's id.
    pub id: u64,
}

/// What a read answers.
#[derive(Clone, Copy, Debug, PartialEq, Eq, Hash)]
pub struct Reading {
    /// The value.
    pub value: u64,
    /// The id of the plugin that offered it.
    pub provider: u64,
}

/// A plugin's phase.
#[derive(Clone, Copy, Debug, PartialEq, Eq, Hash)]
pub enum Phase {
    /// Begin leads to Loading.
    Idle,
    /// Ready leads to Active, fail to Unloading.
    Loading,
    /// Unload leads to Unloading.
    Active,
    /// Finish leads to Idle.
    Unloading,
}

/// How far the setup of the present generation has come.
#[derive(Clone, Copy, Debug, PartialEq, Eq, Hash)]
pub enum Root {
    /// Not admitted.
    Unissued,
    /// Admitted, and not called.
    Queued {
        /// The revision at the admission.
        revision: u64,
        /// The argument.
        argument: u64,
    },
    /// Called.
    Spent,
}
