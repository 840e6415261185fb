//! Vaskelbi: a registry that decides which driver plugin may run on a telescope mount, so that no setup admitted under one
//! driver ever runs under another. It is written in Rattle, and every function that is called here is proved to meet its
//! contract; this crate gives its numbers Rust's types.
//!
//! [`Registry`] has the operations, [`Refusal`] the reasons why one is refused, [`RealmList`] is the realm list with its edition,
//! and [`Slot`] is the child slot. Nothing allocates, and the crate needs neither `std` nor any other crate.
#![no_std]

mod engine;
mod numbers;
mod realms;
mod refusal;
mod registry;
mod slot;

pub use engine::WORDS;
pub use numbers::{Definition, Identity, Invocation, Phase, Port, Reading, Receipt, Root, Ticket};
pub use realms::{Edition, RealmList};
pub use refusal::{Refusal, Refused};
pub use registry::{Ids, Registry, TEXT_ROOM, resolve};
pub use slot::{Decision, Origin, Slot};
