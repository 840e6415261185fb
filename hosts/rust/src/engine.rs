//! The archive's functions. That these declarations are those of crates/host_c is what ../agree looks at.

/// The words of a registry.
pub const WORDS: usize = 4488;

/// The words of an answer: how many numbers, and up to six.
pub const ANSWER: usize = 7;

/// The words of a child slot.
pub const SLOT: usize = 8;

// A reference to an array is C's pointer, and its type holds all that a function asks of it: it is not null, is aligned, has
// the room, and is nobody else's if it is `&mut`. So only the functions with slices, which are pointer and length, are unsafe.
unsafe extern "C" {
    pub safe fn vaskelbi_open(m: &mut [u64; WORDS], domain: u64, first: u64);
    pub safe fn vaskelbi_domain(m: &[u64; WORDS]) -> u64;
    pub safe fn vaskelbi_first(m: &[u64; WORDS]) -> u64;
    pub safe fn vaskelbi_next(m: &[u64; WORDS]) -> u64;
    pub safe fn vaskelbi_count(m: &[u64; WORDS]) -> u64;
    pub safe fn vaskelbi_rows(m: &[u64; WORDS]) -> u64;

    pub unsafe fn vaskelbi_resolve(
        realms: *const u64,
        realms_len: usize,
        key: u64,
        out: &mut [u64; ANSWER],
    ) -> u64;
    pub unsafe fn vaskelbi_register(
        m: &mut [u64; WORDS],
        key: u64,
        realm: u64,
        payload: u64,
        realms: *const u64,
        realms_len: usize,
        dependencies: *const u64,
        dependencies_len: usize,
        provisions: *const u64,
        provisions_len: usize,
        out: &mut [u64; ANSWER],
    ) -> u64;
    pub unsafe fn vaskelbi_register_child(
        m: &mut [u64; WORDS],
        parent: u64,
        key: u64,
        realm: u64,
        payload: u64,
        realms: *const u64,
        realms_len: usize,
        dependencies: *const u64,
        dependencies_len: usize,
        provisions: *const u64,
        provisions_len: usize,
        out: &mut [u64; ANSWER],
    ) -> u64;

    pub safe fn vaskelbi_begin(m: &mut [u64; WORDS], id: u64, out: &mut [u64; ANSWER]) -> u64;
    pub safe fn vaskelbi_ready(m: &mut [u64; WORDS], id: u64) -> u64;
    pub safe fn vaskelbi_fail(m: &mut [u64; WORDS], id: u64) -> u64;
    pub safe fn vaskelbi_unload(m: &mut [u64; WORDS], id: u64) -> u64;
    pub safe fn vaskelbi_finish(m: &mut [u64; WORDS], id: u64) -> u64;

    pub safe fn vaskelbi_replace(
        m: &mut [u64; WORDS],
        id: u64,
        payload: u64,
        out: &mut [u64; ANSWER],
    ) -> u64;
    pub safe fn vaskelbi_fits(
        m: &[u64; WORDS],
        id: u64,
        count: u64,
        out: &mut [u64; ANSWER],
    ) -> u64;

    pub safe fn vaskelbi_admit(
        m: &mut [u64; WORDS],
        domain: u64,
        id: u64,
        generation: u64,
        kind: u64,
        argument: u64,
        out: &mut [u64; ANSWER],
    ) -> u64;
    pub safe fn vaskelbi_admits(
        m: &[u64; WORDS],
        domain: u64,
        id: u64,
        generation: u64,
        kind: u64,
        out: &mut [u64; ANSWER],
    ) -> u64;
    pub safe fn vaskelbi_call(
        m: &mut [u64; WORDS],
        domain: u64,
        id: u64,
        generation: u64,
        revision: u64,
        argument: u64,
        out: &mut [u64; ANSWER],
    ) -> u64;

    pub safe fn vaskelbi_retire(m: &mut [u64; WORDS], id: u64) -> u64;
    pub safe fn vaskelbi_retire_child(
        m: &mut [u64; WORDS],
        domain: u64,
        parent: u64,
        id: u64,
    ) -> u64;
    pub safe fn vaskelbi_child(m: &[u64; WORDS], id: u64, out: &mut [u64; ANSWER]) -> u64;
    pub safe fn vaskelbi_remove(m: &mut [u64; WORDS], id: u64) -> u64;

    pub safe fn vaskelbi_offer(
        m: &mut [u64; WORDS],
        id: u64,
        key: u64,
        realm: u64,
        value: u64,
    ) -> u64;
    pub safe fn vaskelbi_read(
        m: &[u64; WORDS],
        id: u64,
        key: u64,
        realm: u64,
        out: &mut [u64; ANSWER],
    ) -> u64;
    pub safe fn vaskelbi_visible(
        m: &[u64; WORDS],
        key: u64,
        realm: u64,
        out: &mut [u64; ANSWER],
    ) -> u64;
    pub safe fn vaskelbi_own(
        m: &[u64; WORDS],
        id: u64,
        key: u64,
        realm: u64,
        out: &mut [u64; ANSWER],
    ) -> u64;
    pub safe fn vaskelbi_missing(m: &[u64; WORDS], id: u64, out: &mut [u64; ANSWER]) -> u64;
    pub unsafe fn vaskelbi_matches(
        m: &[u64; WORDS],
        id: u64,
        list: *const u64,
        list_len: usize,
        out: &mut [u64; ANSWER],
    ) -> u64;
    pub safe fn vaskelbi_declares(
        m: &[u64; WORDS],
        id: u64,
        key: u64,
        realm: u64,
        out: &mut [u64; ANSWER],
    ) -> u64;

    pub safe fn vaskelbi_lookup(
        m: &[u64; WORDS],
        id: u64,
        key: u64,
        out: &mut [u64; ANSWER],
    ) -> u64;
    pub unsafe fn vaskelbi_list_dependencies(
        m: &[u64; WORDS],
        id: u64,
        place: usize,
        buffer: *mut u64,
        buffer_len: usize,
        out: &mut [u64; ANSWER],
    ) -> u64;
    pub unsafe fn vaskelbi_list_provisions(
        m: &[u64; WORDS],
        id: u64,
        place: usize,
        buffer: *mut u64,
        buffer_len: usize,
        out: &mut [u64; ANSWER],
    ) -> u64;
    pub unsafe fn vaskelbi_list_realms(
        m: &[u64; WORDS],
        id: u64,
        place: usize,
        buffer: *mut u64,
        buffer_len: usize,
        out: &mut [u64; ANSWER],
    ) -> u64;

    pub unsafe fn vaskelbi_write_text(
        m: &[u64; WORDS],
        text: *mut u8,
        text_len: usize,
        out: &mut [u64; ANSWER],
    ) -> u64;

    pub unsafe fn vaskelbi_load(
        m: &mut [u64; WORDS],
        domain: u64,
        text: *const u8,
        text_len: usize,
    ) -> u64;

    pub unsafe fn vaskelbi_plan_order(
        m: &[u64; WORDS],
        set: *const u64,
        set_len: usize,
        buffer: *mut u64,
        buffer_len: usize,
        out: &mut [u64; ANSWER],
    ) -> u64;
    pub unsafe fn vaskelbi_check_order(
        m: &[u64; WORDS],
        set: *const u64,
        set_len: usize,
        order: *const u64,
        order_len: usize,
        out: &mut [u64; ANSWER],
    ) -> u64;

    pub safe fn vaskelbi_parent(m: &[u64; WORDS], id: u64, out: &mut [u64; ANSWER]) -> u64;
    pub safe fn vaskelbi_anchor(m: &[u64; WORDS], id: u64, out: &mut [u64; ANSWER]) -> u64;
    pub safe fn vaskelbi_edition(m: &[u64; WORDS], id: u64, out: &mut [u64; ANSWER]) -> u64;
    pub safe fn vaskelbi_phase(m: &[u64; WORDS], id: u64, out: &mut [u64; ANSWER]) -> u64;
    pub safe fn vaskelbi_retired(m: &[u64; WORDS], id: u64, out: &mut [u64; ANSWER]) -> u64;
    pub safe fn vaskelbi_generation(m: &[u64; WORDS], id: u64, out: &mut [u64; ANSWER]) -> u64;
    pub safe fn vaskelbi_revision(m: &[u64; WORDS], id: u64, out: &mut [u64; ANSWER]) -> u64;
    pub safe fn vaskelbi_payload(m: &[u64; WORDS], id: u64, out: &mut [u64; ANSWER]) -> u64;
    pub safe fn vaskelbi_root(m: &[u64; WORDS], id: u64, out: &mut [u64; ANSWER]) -> u64;
    pub safe fn vaskelbi_id_from(m: &[u64; WORDS], number: u64, out: &mut [u64; ANSWER]) -> u64;

    pub safe fn vaskelbi_slot_pending(
        slot: &mut [u64; SLOT],
        domain: u64,
        parent: u64,
        generation: u64,
    );
    pub safe fn vaskelbi_slot_assigned(slot: &mut [u64; SLOT], domain: u64, parent: u64, id: u64);
    pub safe fn vaskelbi_slot_assign(
        slot: &mut [u64; SLOT],
        domain: u64,
        parent: u64,
        id: u64,
    ) -> u64;
    pub safe fn vaskelbi_slot_reject(slot: &mut [u64; SLOT]) -> u64;
    pub safe fn vaskelbi_slot_cancel(slot: &mut [u64; SLOT]) -> u64;
}

/// A function that lists a plugin's ports.
pub type List =
    unsafe extern "C" fn(&[u64; WORDS], u64, usize, *mut u64, usize, &mut [u64; ANSWER]) -> u64;

// The functions take lengths and places as 64-bit numbers.
const _: () = assert!(size_of::<usize>() == size_of::<u64>());
