//! The sides: the same C functions over each registry, and over nothing.

use std::arch::global_asm;

/// The words of the proved registry, as its crate says.
const PROVED: usize = match usize::from_str_radix(env!("WORDS"), 10) {
    Ok(words) => words,
    Err(_) => panic!("no number"),
};

/// The words that each world has, whichever registry lies in it.
pub const WORLD: usize = 6656;

/// Whether all registries fit into a world.
pub fn fit() -> bool {
    let plain = unsafe { plain::words().max(summary::words()) };
    PROVED.max(plain) <= WORLD
}

/// A count and up to six numbers.
pub type Out = [u64; 7];

/// The words of a slot, whichever side's it is.
pub const SLOT: usize = 8;

/// A slot as the archive has it: domain, parent, whether it has a generation, generation,
/// decision (0 Pending, 1 Assigned, 2 Failed, 3 Cancelled), and the assigned identity.
pub type Slot = [u64; SLOT];

/// The sides that are compared and measured, in the order of the table's columns.
pub const SIDES: [&Side; 3] = [&PLAIN, &SUMMARY, &OURS];

/// What was measured on each of them.
pub type Measured = [f64; SIDES.len()];

// It does nothing: what is left of a run is the driver's own cost.
global_asm!(".globl nothing_at_all", "nothing_at_all:", "ret");

/// Functions whose C names begin alike.
macro_rules! functions {
    ($begin:literal; $( fn $name:ident($($arg:ident: $kind:ty),*) $(-> $answer:ty)?; )*) => {
        use super::*;
        unsafe extern "C" {
            $(
                #[link_name = concat!($begin, stringify!($name))]
                pub fn $name($($arg: $kind),*) $(-> $answer)?;
            )*
        }
    };
}

macro_rules! sides {
    ($( fn $name:ident($($arg:ident: $kind:ty),*) $(-> $answer:ty)?; )*) => {
        /// One side's functions.
        pub struct Side {
            pub name: &'static str,
            /// Makes words a registry that can be opened.
            pub prepare: unsafe extern "C" fn(*mut u64),
            /// Tells a slot in the archive's words, over those that told it before.
            pub slot_words: unsafe extern "C" fn(*const u64, &mut Slot),
            $( pub $name: unsafe extern "C" fn($($arg: $kind),*) $(-> $answer)?, )*
        }

        mod plain {
            functions! {
                "plain_side_";
                fn words() -> usize;
                fn prepare(m: *mut u64);
                fn slot_words(slot: *const u64, words: &mut Slot);
                $( fn $name($($arg: $kind),*) $(-> $answer)?; )*
            }
        }

        #[cfg(not(feature = "twice"))]
        mod summary {
            functions! {
                "summary_side_";
                fn words() -> usize;
                fn prepare(m: *mut u64);
                fn slot_words(slot: *const u64, words: &mut Slot);
                $( fn $name($($arg: $kind),*) $(-> $answer)?; )*
            }
        }

        #[cfg(not(feature = "twice"))]
        mod proved {
            functions! { "vaskelbi_"; $( fn $name($($arg: $kind),*) $(-> $answer)?; )* }
            pub(super) use super::{any_words as prepare, own_words as slot_words};
        }

        #[cfg(feature = "twice")]
        use {plain as proved, plain as summary};

        // One instruction stands for them all, whatever their arguments.
        #[allow(clashing_extern_declarations)]
        mod empty {
            use super::*;
            unsafe extern "C" {
                $(
                    #[link_name = "nothing_at_all"]
                    pub fn $name($($arg: $kind),*) $(-> $answer)?;
                )*
            }
        }

        pub static PLAIN: Side = Side {
            name: "plain",
            prepare: plain::prepare,
            slot_words: plain::slot_words,
            $( $name: plain::$name, )*
        };

        /// The plain registry with summaries.
        pub static SUMMARY: Side = Side {
            name: "summary",
            prepare: summary::prepare,
            slot_words: summary::slot_words,
            $( $name: summary::$name, )*
        };

        pub static OURS: Side = Side {
            name: "ours",
            prepare: proved::prepare,
            slot_words: proved::slot_words,
            $( $name: proved::$name, )*
        };

        /// The driver alone.
        pub static EMPTY: Side = Side {
            name: "empty",
            prepare: any_words,
            slot_words: own_words,
            $( $name: empty::$name, )*
        };
    };
}

/// The proved registry opens over any words.
extern "C" fn any_words(_: *mut u64) {}

/// Its slots are the words themselves.
unsafe extern "C" fn own_words(slot: *const u64, words: &mut Slot) {
    *words = unsafe { slot.cast::<Slot>().read() };
}

sides! {
    fn open(m: *mut u64, domain: u64, first: u64);
    fn register(
        m: *mut u64, key: u64, realm: u64, payload: u64,
        realms: *const u64, realm_count: usize,
        dependencies: *const u64, dependency_count: usize,
        provisions: *const u64, provision_count: usize,
        out: &mut Out
    ) -> u64;
    fn register_child(
        m: *mut u64, parent: u64, key: u64, realm: u64, payload: u64,
        realms: *const u64, realm_count: usize,
        dependencies: *const u64, dependency_count: usize,
        provisions: *const u64, provision_count: usize,
        out: &mut Out
    ) -> u64;
    fn begin(m: *mut u64, id: u64, out: &mut Out) -> u64;
    fn ready(m: *mut u64, id: u64) -> u64;
    fn fail(m: *mut u64, id: u64) -> u64;
    fn unload(m: *mut u64, id: u64) -> u64;
    fn finish(m: *mut u64, id: u64) -> u64;
    fn replace(m: *mut u64, id: u64, payload: u64, out: &mut Out) -> u64;
    fn fits(m: *mut u64, id: u64, count: u64, out: &mut Out) -> u64;
    fn admit(
        m: *mut u64, domain: u64, id: u64, generation: u64, kind: u64, argument: u64,
        out: &mut Out
    ) -> u64;
    fn admits(
        m: *mut u64, domain: u64, id: u64, generation: u64, kind: u64, out: &mut Out
    ) -> u64;
    fn call(
        m: *mut u64, domain: u64, id: u64, generation: u64, revision: u64, argument: u64,
        out: &mut Out
    ) -> u64;
    fn retire(m: *mut u64, id: u64) -> u64;
    fn retire_child(m: *mut u64, domain: u64, parent: u64, id: u64) -> u64;
    fn child(m: *mut u64, id: u64, out: &mut Out) -> u64;
    fn remove(m: *mut u64, id: u64) -> u64;
    fn offer(m: *mut u64, id: u64, key: u64, realm: u64, value: u64) -> u64;
    fn read(m: *mut u64, id: u64, key: u64, realm: u64, out: &mut Out) -> u64;
    fn visible(m: *mut u64, key: u64, realm: u64, out: &mut Out) -> u64;
    fn own(m: *mut u64, id: u64, key: u64, realm: u64, out: &mut Out) -> u64;
    fn missing(m: *mut u64, id: u64, out: &mut Out) -> u64;
    fn matches(m: *mut u64, id: u64, pairs: *const u64, count: usize, out: &mut Out) -> u64;
    fn declares(m: *mut u64, id: u64, key: u64, realm: u64, out: &mut Out) -> u64;
    fn lookup(m: *mut u64, id: u64, key: u64, out: &mut Out) -> u64;
    fn list_dependencies(
        m: *mut u64, id: u64, place: usize, buffer: *mut u64, count: usize, out: &mut Out
    ) -> u64;
    fn list_provisions(
        m: *mut u64, id: u64, place: usize, buffer: *mut u64, count: usize, out: &mut Out
    ) -> u64;
    fn list_realms(
        m: *mut u64, id: u64, place: usize, buffer: *mut u64, count: usize, out: &mut Out
    ) -> u64;
    fn write_text(m: *mut u64, text: *mut u8, length: usize, out: &mut Out) -> u64;
    fn load(m: *mut u64, domain: u64, text: *const u8, length: usize) -> u64;
    fn plan_order(
        m: *mut u64, set: *const u64, set_count: usize, buffer: *mut u64, count: usize,
        out: &mut Out
    ) -> u64;
    fn check_order(
        m: *mut u64, set: *const u64, set_count: usize, order: *const u64, order_count: usize,
        out: &mut Out
    ) -> u64;
    fn parent(m: *mut u64, id: u64, out: &mut Out) -> u64;
    fn anchor(m: *mut u64, id: u64, out: &mut Out) -> u64;
    fn edition(m: *mut u64, id: u64, out: &mut Out) -> u64;
    fn phase(m: *mut u64, id: u64, out: &mut Out) -> u64;
    fn retired(m: *mut u64, id: u64, out: &mut Out) -> u64;
    fn generation(m: *mut u64, id: u64, out: &mut Out) -> u64;
    fn revision(m: *mut u64, id: u64, out: &mut Out) -> u64;
    fn payload(m: *mut u64, id: u64, out: &mut Out) -> u64;
    fn root(m: *mut u64, id: u64, out: &mut Out) -> u64;
    fn id_from(m: *mut u64, number: u64, out: &mut Out) -> u64;
    fn resolve(realms: *const u64, count: usize, key: u64, out: &mut Out) -> u64;
    fn domain(m: *mut u64) -> u64;
    fn first(m: *mut u64) -> u64;
    fn next(m: *mut u64) -> u64;
    fn count(m: *mut u64) -> u64;
    fn rows(m: *mut u64) -> u64;
    fn slot_pending(slot: *mut u64, domain: u64, parent: u64, generation: u64);
    fn slot_assigned(slot: *mut u64, domain: u64, parent: u64, id: u64);
    fn slot_assign(slot: *mut u64, domain: u64, parent: u64, id: u64) -> u64;
    fn slot_reject(slot: *mut u64) -> u64;
    fn slot_cancel(slot: *mut u64) -> u64;
}
