//! The plugin registry of document 01 in plain Rust.
//!
//! Written from the document alone, so that a registry made by other means can
//! be compared with it. The modules carry the names of the document's sections;
//! no operation of the registry uses the heap.

#![forbid(unsafe_code)]

mod refusal;

mod list;
mod ports;

mod admission;
mod dependencies;
mod lists;
mod load;
mod orders;
mod phases;
mod plugin;
mod providers;
mod reading;
mod registration;
mod registry;
mod replacement;
mod retirement;
mod slot;
mod summary;
mod text;
mod values;

pub mod console;
pub mod coverage;
pub mod damage;
pub mod difference;
pub mod rng;
pub mod script;
pub mod sheet;

pub use admission::{Invocation, Receipt, Root, SETUP, Ticket};
pub use phases::{Phase, Step};
pub use plugin::Plugin;
pub use ports::{DEFAULT_REALM, Edition, MAX_REALM_ROWS, Port, RealmList, resolve};
pub use refusal::Refusal;
pub use registration::{
    MAX_DEPENDENCIES, MAX_DEPENDENCY_KEYS, MAX_PROVISION_KEYS, MAX_ROWS, Registration,
};
pub use registry::{MAX_PLUGINS, Registry, Shown};
pub use replacement::{Record, RefusedPayload};
pub use retirement::Child;
pub use slot::{ChildSlot, Decision};
pub use summary::SUMMARIES;
pub use text::{MAX_DIGITS, decimal};
