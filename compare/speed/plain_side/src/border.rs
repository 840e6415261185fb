//! The functions, with the arguments and answers of the archive's.

// A registry is one pointer, as the archive's memory is; a slice is a pointer and a length.
#![allow(improper_ctypes_definitions)]

use std::slice::{from_raw_parts, from_raw_parts_mut};

use plain::{
    Child, ChildSlot, Invocation, Phase, Port, RealmList, Registration, Registry, Root, SETUP,
    Ticket,
};

use crate::telling::{
    Out, SLOT, Slot, accepted, done, handed_back, kept, number, numbers, of, of_child, of_edition,
    of_port, perhaps, tell_slot, whether,
};

/// Exports functions under C names that begin with the library's, none of them inlined.
macro_rules! border {
    ($( fn $name:ident($($arg:ident: $kind:ty),* $(,)?) $(-> $answer:ty)? $body:block )*) => {
        $(
            #[unsafe(export_name = concat!(env!("CARGO_CRATE_NAME"), "_", stringify!($name)))]
            #[inline(never)]
            unsafe extern "C" fn $name($($arg: $kind),*) $(-> $answer)? $body
        )*
    };
}

unsafe fn list<'a, T>(first: *const T, count: usize) -> &'a [T] {
    unsafe { from_raw_parts(first, count) }
}

unsafe fn buffer<'a, T>(first: *mut T, count: usize) -> &'a mut [T] {
    unsafe { from_raw_parts_mut(first, count) }
}

// A slot lies in the driver's words in its own form, as the registry does.
const _: () = assert!(size_of::<ChildSlot>() <= SLOT * size_of::<u64>());

border! {
    // How many words a registry takes.
    fn words() -> usize {
        size_of::<Registry>().div_ceil(size_of::<u64>())
    }

    // Makes words a registry, which every other function asks for.
    fn prepare(m: *mut Registry) {
        unsafe { m.write(Registry::open(0, 0)) }
    }

    fn open(m: &mut Registry, domain: u64, first: u64) {
        m.reopen(domain, first);
    }

    fn register(
        m: &mut Registry,
        key: u64,
        realm: u64,
        payload: u64,
        realms: *const u64,
        realm_count: usize,
        dependencies: *const u64,
        dependency_count: usize,
        provisions: *const u64,
        provision_count: usize,
        out: &mut Out,
    ) -> u64 {
        let realms = RealmList::from_numbers(unsafe { list(realms, realm_count) });
        let new = |realms| Registration {
            parent: None,
            anchor: Port::new(key, realm),
            payload,
            realms,
            dependencies: unsafe { list(dependencies, dependency_count) },
            provisions: unsafe { list(provisions, provision_count) },
        };
        number(realms.and_then(|realms| m.register(&new(realms))), out)
    }

    fn register_child(
        m: &mut Registry,
        parent: u64,
        key: u64,
        realm: u64,
        payload: u64,
        realms: *const u64,
        realm_count: usize,
        dependencies: *const u64,
        dependency_count: usize,
        provisions: *const u64,
        provision_count: usize,
        out: &mut Out,
    ) -> u64 {
        let realms = RealmList::from_numbers(unsafe { list(realms, realm_count) });
        let new = |realms| Registration {
            parent: Some(parent),
            anchor: Port::new(key, realm),
            payload,
            realms,
            dependencies: unsafe { list(dependencies, dependency_count) },
            provisions: unsafe { list(provisions, provision_count) },
        };
        number(realms.and_then(|realms| m.register(&new(realms))), out)
    }

    fn begin(m: &mut Registry, id: u64, out: &mut Out) -> u64 {
        let ticket = m.begin(id);
        numbers(ticket.map(|t| [t.domain, t.id, t.generation, t.kind]), out)
    }

    fn ready(m: &mut Registry, id: u64) -> u64 {
        done(m.ready(id))
    }

    fn fail(m: &mut Registry, id: u64) -> u64 {
        done(m.fail(id))
    }

    fn unload(m: &mut Registry, id: u64) -> u64 {
        done(m.unload(id))
    }

    fn finish(m: &mut Registry, id: u64) -> u64 {
        done(m.finish(id))
    }

    fn replace(m: &mut Registry, id: u64, payload: u64, out: &mut Out) -> u64 {
        match m.replace(id, payload) {
            Ok(former) => accepted([former], out),
            Err(refused) => handed_back(refused.refusal, refused.payload, out),
        }
    }

    fn fits(m: &Registry, id: u64, count: u64, out: &mut Out) -> u64 {
        whether(m.fits(id, count), out)
    }

    fn admit(
        m: &mut Registry,
        domain: u64,
        id: u64,
        generation: u64,
        kind: u64,
        argument: u64,
        out: &mut Out,
    ) -> u64 {
        let admitted = m.admit(Ticket { domain, id, generation, kind }, argument);
        numbers(admitted.map(|i| [i.domain, i.id, i.generation, i.revision, i.argument]), out)
    }

    // The plain registry has no such question; it is put together from what it tells of a plugin.
    fn admits(
        m: &Registry,
        domain: u64,
        id: u64,
        generation: u64,
        kind: u64,
        out: &mut Out,
    ) -> u64 {
        let admits = domain == m.domain()
            && kind == SETUP
            && m.plugin(id).is_ok_and(|plugin| {
                !plugin.retired()
                    && plugin.phase() == Phase::Loading
                    && plugin.generation() == generation
                    && plugin.root() == Root::Unissued
            });
        accepted([u64::from(admits)], out)
    }

    fn call(
        m: &mut Registry,
        domain: u64,
        id: u64,
        generation: u64,
        revision: u64,
        argument: u64,
        out: &mut Out,
    ) -> u64 {
        let receipt = m.call(Invocation { domain, id, generation, revision, argument });
        numbers(
            receipt.map(|r| [r.domain, r.id, r.generation, r.request, r.payload, r.argument]),
            out,
        )
    }

    fn retire(m: &mut Registry, id: u64) -> u64 {
        done(m.retire(id))
    }

    fn retire_child(m: &mut Registry, domain: u64, parent: u64, id: u64) -> u64 {
        done(m.retire_child(Child { domain, parent, id }))
    }

    fn child(m: &Registry, id: u64, out: &mut Out) -> u64 {
        perhaps(m.child(id).map(|child| child.map(of_child)), out)
    }

    fn remove(m: &mut Registry, id: u64) -> u64 {
        done(m.remove(id))
    }

    fn offer(m: &mut Registry, id: u64, key: u64, realm: u64, value: u64) -> u64 {
        done(m.offer(id, Port::new(key, realm), value))
    }

    fn read(m: &Registry, id: u64, key: u64, realm: u64, out: &mut Out) -> u64 {
        let read = m.read(id, Port::new(key, realm));
        numbers(read.map(|(value, provider)| [value, provider]), out)
    }

    fn visible(m: &Registry, key: u64, realm: u64, out: &mut Out) -> u64 {
        perhaps(Ok(m.visible(Port::new(key, realm)).map(|value| [value])), out)
    }

    fn own(m: &Registry, id: u64, key: u64, realm: u64, out: &mut Out) -> u64 {
        let plugin = m.plugin(id);
        perhaps(plugin.map(|p| p.value(Port::new(key, realm)).map(|value| [value])), out)
    }

    fn missing(m: &Registry, id: u64, out: &mut Out) -> u64 {
        perhaps(m.missing(id).map(|port| port.map(of_port)), out)
    }

    fn matches(m: &Registry, id: u64, pairs: *const u64, count: usize, out: &mut Out) -> u64 {
        whether(m.matches(id, unsafe { list(pairs, count) }), out)
    }

    fn declares(m: &Registry, id: u64, key: u64, realm: u64, out: &mut Out) -> u64 {
        whether(m.declares(id, Port::new(key, realm)), out)
    }

    fn lookup(m: &Registry, id: u64, key: u64, out: &mut Out) -> u64 {
        perhaps(m.lookup(id, key).map(|port| port.map(of_port)), out)
    }

    fn list_dependencies(
        m: &Registry,
        id: u64,
        place: usize,
        first: *mut u64,
        count: usize,
        out: &mut Out,
    ) -> u64 {
        number(m.deps(id, unsafe { buffer(first, count) }, place as u64), out)
    }

    fn list_provisions(
        m: &Registry,
        id: u64,
        place: usize,
        first: *mut u64,
        count: usize,
        out: &mut Out,
    ) -> u64 {
        number(m.provs(id, unsafe { buffer(first, count) }, place as u64), out)
    }

    fn list_realms(
        m: &Registry,
        id: u64,
        place: usize,
        first: *mut u64,
        count: usize,
        out: &mut Out,
    ) -> u64 {
        number(m.realms(id, unsafe { buffer(first, count) }, place as u64), out)
    }

    fn write_text(m: &Registry, first: *mut u8, length: usize, out: &mut Out) -> u64 {
        number(m.write(unsafe { buffer(first, length) }).map(|length| length as u64), out)
    }

    fn load(m: &mut Registry, domain: u64, first: *const u8, length: usize) -> u64 {
        done(m.load(domain, unsafe { list(first, length) }))
    }

    fn plan_order(
        m: &Registry,
        set: *const u64,
        set_count: usize,
        first: *mut u64,
        count: usize,
        out: &mut Out,
    ) -> u64 {
        let planned =
            m.plan_order(unsafe { list(set, set_count) }, unsafe { buffer(first, count) });
        perhaps(planned.map(|count| count.map(|count| [count as u64])), out)
    }

    fn check_order(
        m: &Registry,
        set: *const u64,
        set_count: usize,
        order: *const u64,
        order_count: usize,
        out: &mut Out,
    ) -> u64 {
        let [set, order] = [(set, set_count), (order, order_count)]
            .map(|(first, count)| unsafe { list(first, count) });
        whether(m.check_order(set, order), out)
    }

    fn parent(m: &Registry, id: u64, out: &mut Out) -> u64 {
        perhaps(m.plugin(id).map(|plugin| plugin.parent().map(|parent| [parent])), out)
    }

    fn anchor(m: &Registry, id: u64, out: &mut Out) -> u64 {
        numbers(m.plugin(id).map(|plugin| of_port(plugin.anchor())), out)
    }

    fn edition(m: &Registry, id: u64, out: &mut Out) -> u64 {
        numbers(m.edition(id).map(of_edition), out)
    }

    fn phase(m: &Registry, id: u64, out: &mut Out) -> u64 {
        of(m.plugin(id), |plugin| plugin.phase() as u64, out)
    }

    fn retired(m: &Registry, id: u64, out: &mut Out) -> u64 {
        of(m.plugin(id), |plugin| u64::from(plugin.retired()), out)
    }

    fn generation(m: &Registry, id: u64, out: &mut Out) -> u64 {
        of(m.plugin(id), |plugin| plugin.generation(), out)
    }

    fn revision(m: &Registry, id: u64, out: &mut Out) -> u64 {
        of(m.plugin(id), |plugin| plugin.record().revision, out)
    }

    fn payload(m: &Registry, id: u64, out: &mut Out) -> u64 {
        of(m.plugin(id), |plugin| plugin.record().payload, out)
    }

    fn root(m: &Registry, id: u64, out: &mut Out) -> u64 {
        match m.plugin(id).map(|plugin| plugin.root()) {
            Ok(Root::Unissued) => accepted([0], out),
            Ok(Root::Queued { revision, argument }) => accepted([1, revision, argument], out),
            Ok(Root::Spent) => accepted([2], out),
            Err(refusal) => done(Err(refusal)),
        }
    }

    fn id_from(m: &Registry, number: u64, out: &mut Out) -> u64 {
        let lowest = m.registered().map(|(id, _)| id).filter(|&id| id >= number).min();
        perhaps(Ok(lowest.map(|id| [id])), out)
    }

    fn resolve(realms: *const u64, count: usize, key: u64, out: &mut Out) -> u64 {
        let realms = RealmList::from_numbers(unsafe { list(realms, count) });
        numbers(realms.and_then(|realms| plain::resolve(key, realms)).map(of_port), out)
    }

    fn domain(m: &Registry) -> u64 {
        m.domain()
    }

    fn first(m: &Registry) -> u64 {
        m.first()
    }

    fn next(m: &Registry) -> u64 {
        m.next()
    }

    fn count(m: &Registry) -> u64 {
        m.count()
    }

    fn rows(m: &Registry) -> u64 {
        m.rows()
    }

    fn slot_pending(slot: *mut ChildSlot, domain: u64, parent: u64, generation: u64) {
        unsafe { slot.write(ChildSlot::pending(domain, parent, generation)) }
    }

    fn slot_assigned(slot: *mut ChildSlot, domain: u64, parent: u64, id: u64) {
        unsafe { slot.write(ChildSlot::assigned(Child { domain, parent, id })) }
    }

    fn slot_assign(slot: &mut ChildSlot, domain: u64, parent: u64, id: u64) -> u64 {
        kept(slot.assign(Child { domain, parent, id }), slot)
    }

    fn slot_reject(slot: &mut ChildSlot) -> u64 {
        kept(slot.reject(), slot)
    }

    fn slot_cancel(slot: &mut ChildSlot) -> u64 {
        kept(slot.cancel(), slot)
    }

    // The slot in the archive's words, over those that told it before; it is never timed.
    fn slot_words(slot: &ChildSlot, words: &mut Slot) {
        tell_slot(*slot, words);
    }
}
