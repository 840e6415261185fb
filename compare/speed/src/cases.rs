//! What is timed: an operation on registries made ready for it.

use plain::console::TEXT;

use crate::sides::{Out, SLOT, Side};
use crate::worlds::{self, *};

/// What the operations write to, beside the registry.
pub struct Room<'a> {
    pub out: Out,
    pub buffer: [u64; 100],
    /// Lent to each run, for it would cost more than most runs to make. At its front
    /// stands the case's text, if it has one.
    pub text: &'a mut [u8],
}

impl<'a> Room<'a> {
    pub const fn new(text: &'a mut [u8]) -> Self {
        Self { out: [0; 7], buffer: [0; 100], text }
    }
}

/// The world whose text is read, and what comes behind it.
pub type Reads = (fn(&mut World), &'static str);

pub struct Case {
    pub name: &'static str,
    /// Makes the registry that the operations find.
    pub prepare: fn(&mut World),
    /// How many operations one run makes.
    pub operations: u64,
    /// What each of them returns: a status, or the number asked for.
    pub returns: u64,
    /// How many slots its world has in the registry's place.
    pub slots: usize,
    /// The length of the text that each operation writes or reads, if it does.
    pub bytes: u64,
    /// What they read, if they do: one text or none.
    pub reads: &'static [Reads],
    /// Makes them, and answers the sum of what they return. No step depends on an
    /// answer, so that the driver does the same on every side.
    pub run: unsafe fn(&Side, *mut u64, &mut Room<'_>) -> u64,
}

/// All ids of a full registry, not in order.
fn ids() -> impl Iterator<Item = u64> {
    (0..32).map(|n| FIRST + (13 * n + 5) % 32)
}

unsafe fn register<const R: usize, const D: usize, const P: usize>(
    side: &Side,
    m: *mut u64,
    new: &Stranger<R, D, P>,
    room: &mut Room<'_>,
) -> u64 {
    unsafe {
        (side.register)(
            m,
            new.anchor,
            1,
            40,
            new.realms.as_ptr(),
            new.realms.len(),
            new.dependencies.as_ptr(),
            new.dependencies.len(),
            new.provisions.as_ptr(),
            new.provisions.len(),
            &mut room.out,
        )
    }
}

unsafe fn register_child<const R: usize, const D: usize, const P: usize>(
    side: &Side,
    m: *mut u64,
    parent: u64,
    new: &Stranger<R, D, P>,
    room: &mut Room<'_>,
) -> u64 {
    unsafe {
        (side.register_child)(
            m,
            parent,
            new.anchor,
            1,
            40,
            new.realms.as_ptr(),
            new.realms.len(),
            new.dependencies.as_ptr(),
            new.dependencies.len(),
            new.provisions.as_ptr(),
            new.provisions.len(),
            &mut room.out,
        )
    }
}

unsafe fn write_text(side: &Side, m: *mut u64, length: usize, room: &mut Room<'_>) -> u64 {
    unsafe { (side.write_text)(m, room.text[..length].as_mut_ptr(), length, &mut room.out) }
}

/// Loads the text that stands in the room, into another domain than it has.
unsafe fn load(side: &Side, m: *mut u64, length: u64, room: &Room<'_>) -> u64 {
    unsafe { (side.load)(m, DOMAIN + 1, room.text[..length as usize].as_ptr(), length as usize) }
}

unsafe fn plan(side: &Side, m: *mut u64, set: &[u64], room: &mut Room<'_>) -> u64 {
    let (buffer, count) = (room.buffer.as_mut_ptr(), room.buffer.len());
    unsafe { (side.plan_order)(m, set.as_ptr(), set.len(), buffer, count, &mut room.out) }
}

unsafe fn check(side: &Side, m: *mut u64, set: &[u64], order: &[u64], room: &mut Room<'_>) -> u64 {
    let (first, count) = (order.as_ptr(), order.len());
    unsafe { (side.check_order)(m, set.as_ptr(), set.len(), first, count, &mut room.out) }
}

/// The slots of a world, not in order.
unsafe fn slots(m: *mut u64) -> impl Iterator<Item = *mut u64> {
    (0..SLOTS).map(move |n| unsafe { m.add(SLOT * ((13 * n + 5) % SLOTS)) })
}

/// A case: name; world; operations, what each returns, the world's slots if it has any,
/// the bytes that each writes or reads if it does, the world that these tell and what
/// comes behind; the operations themselves.
macro_rules! cases {
    ($( $name:literal, $world:expr, $operations:expr => $returns:expr
            $(, $slots:expr)? $(=> $bytes:expr)? $(, of $read:expr, $behind:expr)?;
        |$side:ident, $m:ident, $room:ident| $turn:expr; )*) => {
        pub const CASES: &[Case] = &[$(
            Case {
                name: $name,
                prepare: $world,
                operations: $operations,
                returns: $returns,
                slots: 0 $(+ $slots)?,
                bytes: 0 $(+ $bytes)?,
                reads: &[$(($read, $behind))?],
                run: {
                    unsafe fn run($side: &Side, $m: *mut u64, $room: &mut Room<'_>) -> u64 {
                        #[allow(unused_unsafe)]
                        unsafe { $turn.fold(0, u64::wrapping_add) }
                    }
                    run
                },
            },
        )*];
    };
}

/// A line too many: the list before it has as many as its count says.
const LINE: &str = "prov=1,0,none\n";

cases! {
    "open", strangers, 32 => 0;
        |s, m, _room| (0..32).map(|n| { (s.open)(m, DOMAIN, n); 0 });
    "register (2 dependencies, 2 provisions, 3 realm rows), filling 0 to 32", |_| {}, 32 => 0;
        |s, m, room| STRANGERS.iter().map(|new| register(s, m, new, room));
    "register the last of 32", all_but_one, 1 => 0;
        |s, m, room| STRANGERS[31..].iter().map(|new| register(s, m, new, room));
    "register under a parent of 16 dependencies, filling 1 to 32", parent_of_16, 31 => 0;
        |s, m, room| HEIRS[1..].iter().map(|new| register_child(s, m, FIRST, new, room));
    "register under a parent of 46 dependencies, the first 8", parent_of_46, 8 => 0;
        |s, m, room| STRANGERS[3..11].iter().map(|new| register_child(s, m, HEIR, new, room));
    "register (16 dependencies, 15 provisions, 16 realm rows), filling 0 to 32", |_| {}, 32 => 0;
        |s, m, room| SITES.iter().map(|new| register(s, m, new, room));
    "register the first (16 dependencies, 15 provisions, 16 realm rows)", |_| {}, 1 => 0;
        |s, m, room| SITES[..1].iter().map(|new| register(s, m, new, room));
    "register under a parent of 16 dependencies (16 realm rows), filling 1 to 32", parent_of_16, 31 => 0;
        |s, m, room| SITE_HEIRS[1..].iter().map(|new| register_child(s, m, FIRST, new, room));
    "register in edition 2 (16 dependencies, 15 provisions, 16 realm rows), filling 0 to 32", |_| {}, 32 => 0;
        |s, m, room| SECOND_SITES.iter().map(|new| register(s, m, new, room));
    "register in edition 2 under a parent of 16 dependencies, filling 1 to 28", parent_of_16, 27 => 0;
        |s, m, room| SECOND_HEIRS[1..28].iter().map(|new| register_child(s, m, FIRST, new, room));
    "register refused: another edition", all_but_one, 32 => 26;
        |s, m, room| (0..32).map(|_| register(s, m, &OTHER_EDITION, room));
    "register refused: taken by the last of 31", all_but_one, 1 => 8;
        |s, m, room| STRANGERS[30..31].iter().map(|new| register(s, m, new, room));
    "begin without dependencies", idle, 32 => 0;
        |s, m, room| ids().map(|id| (s.begin)(m, id, &mut room.out));
    "begin with 4 dependencies among 20 Active", supplied, USERS => 0;
        |s, m, room| users().map(|id| (s.begin)(m, id, &mut room.out));
    "begin with 48 dependencies", deep, 1 => 0;
        |s, m, room| [DEEP].into_iter().map(|id| (s.begin)(m, id, &mut room.out));
    "begin refused: the 4th dependency has no provider", unsupplied, USERS => 14;
        |s, m, room| users().map(|id| (s.begin)(m, id, &mut room.out));
    "begin refused: phase", loading, 32 => 3;
        |s, m, room| ids().map(|id| (s.begin)(m, id, &mut room.out));
    "begin refused: unknown among 32", idle, 32 => 1;
        |s, m, room| ids().map(|id| (s.begin)(m, id + 32, &mut room.out));
    "ready (2 provisions)", settled, 32 => 0;
        |s, m, _room| ids().map(|id| (s.ready)(m, id));
    "ready refused: a value is missing", nearly_ready, 32 => 22;
        |s, m, _room| ids().map(|id| (s.ready)(m, id));
    "fail", settled, 32 => 0;
        |s, m, _room| ids().map(|id| (s.fail)(m, id));
    "unload checked against 30 Active", crowd, 1 => 0;
        |s, m, _room| [FIRST + 31].into_iter().map(|id| (s.unload)(m, id));
    "unload refused: in use by the last of 32", crowd, 8 => 15;
        |s, m, _room| (0..8).map(|_| (s.unload)(m, FIRST + 1));
    "finish", unloading, 32 => 0;
        |s, m, _room| ids().map(|id| (s.finish)(m, id));
    "replace", strangers, 32 => 0;
        |s, m, room| ids().map(|id| (s.replace)(m, id, id + 1, &mut room.out));
    "replace refused: unknown among 32", strangers, 32 => 1;
        |s, m, room| ids().map(|id| (s.replace)(m, id + 32, id, &mut room.out));
    "fits", strangers, 32 => 0;
        |s, m, room| ids().map(|id| (s.fits)(m, id, id, &mut room.out));
    "admit + call", loading, 32 => 0;
        |s, m, room| ids().map(|id| {
            (s.admit)(m, DOMAIN, id, 1, SETUP, ARGUMENT, &mut room.out)
                + (s.call)(m, DOMAIN, id, 1, 0, ARGUMENT, &mut room.out)
        });
    "admit", loading, 32 => 0;
        |s, m, room| ids().map(|id| (s.admit)(m, DOMAIN, id, 1, SETUP, id, &mut room.out));
    "admit refused: stale", loading, 32 => 13;
        |s, m, room| ids().map(|id| (s.admit)(m, DOMAIN, id, 2, SETUP, id, &mut room.out));
    "admits", loading, 32 => 0;
        |s, m, room| ids().map(|id| (s.admits)(m, DOMAIN, id, 1, SETUP, &mut room.out));
    "call", queued, 32 => 0;
        |s, m, room| ids().map(|id| (s.call)(m, DOMAIN, id, 1, 0, ARGUMENT, &mut room.out));
    "call refused: replaced since", overtaken, 32 => 13;
        |s, m, room| ids().map(|id| (s.call)(m, DOMAIN, id, 1, 0, ARGUMENT, &mut room.out));
    "retire", strangers, 32 => 0;
        |s, m, _room| ids().map(|id| (s.retire)(m, id));
    "retire_child", family, 31 => 0;
        |s, m, _room| (1..32).map(|n| (s.retire_child)(m, DOMAIN, FIRST, FIRST + n));
    "child", family, 32 => 0;
        |s, m, room| ids().map(|id| (s.child)(m, id, &mut room.out));
    "remove the newest of a full table", newest_retired, 1 => 0;
        |s, m, _room| [FIRST + 31].into_iter().map(|id| (s.remove)(m, id));
    "remove the oldest of a full table", oldest_retired, 1 => 0;
        |s, m, _room| [FIRST].into_iter().map(|id| (s.remove)(m, id));
    "retire + remove the newest of a full table", full, 1 => 0;
        |s, m, _room| [FIRST + 31].into_iter().map(|id| (s.retire)(m, id) + (s.remove)(m, id));
    "retire + remove the oldest of a full table", full, 1 => 0;
        |s, m, _room| [FIRST].into_iter().map(|id| (s.retire)(m, id) + (s.remove)(m, id));
    "remove refused: a child, the last of 32", orphanage, 32 => 18;
        |s, m, _room| (0..32).map(|_| (s.remove)(m, FIRST));
    "offer (2 provisions)", loading, 64 => 0;
        |s, m, _room| ids().flat_map(|id| {
            own_keys(id - FIRST).map(|key| (s.offer)(m, id, key, 0, id))
        });
    "offer (15 provisions)", deep_loading, 15 => 0;
        |s, m, _room| DEEP_PROVISIONS.iter().map(|&key| (s.offer)(m, DEEP, key, 0, key));
    "offer refused: undeclared", loading, 32 => 20;
        |s, m, _room| ids().map(|id| (s.offer)(m, id, NOBODYS, 0, id));
    "read (4 dependencies, 20 providers)", worlds::active, 4 * USERS => 0;
        |s, m, room| users().flat_map(|id| {
            needs(id - FIRST - PROVIDERS).map(|key| (s.read)(m, id, key, 0, &mut room.out))
        });
    "read at place 40 of 48", deep_active, 32 => 0;
        |s, m, room| (0..32).map(|_| (s.read)(m, DEEP, AT_40, 0, &mut room.out));
    "visible among 32 Active", worlds::active, 40 => 0;
        |s, m, room| (1..41).map(|key| (s.visible)(m, key, 0, &mut room.out));
    "visible: none among 32 Active", worlds::active, 32 => 0;
        |s, m, room| (0..32).map(|n| (s.visible)(m, NOBODYS + n, 0, &mut room.out));
    "own", worlds::active, 2 * PROVIDERS => 0;
        |s, m, room| (0..PROVIDERS).flat_map(|n| {
            own_keys(n).map(|key| (s.own)(m, FIRST + n, key, 0, &mut room.out))
        });
    "missing: the second of 2 provisions", nearly_ready, 32 => 0;
        |s, m, room| ids().map(|id| (s.missing)(m, id, &mut room.out));
    "missing: none of 15", deep_active, 32 => 0;
        |s, m, room| (0..32).map(|_| (s.missing)(m, DEEP, &mut room.out));
    "matches 2 provisions", idle, 32 => 0;
        |s, m, room| ids().map(|id| {
            let [a, b] = own_keys(id - FIRST);
            (s.matches)(m, id, [a, 0, b, 0].as_ptr(), 4, &mut room.out)
        });
    "matches 15 provisions", deep, 32 => 0;
        |s, m, room| (0..32).map(|_| {
            (s.matches)(m, DEEP, DEEP_PAIRS.as_ptr(), DEEP_PAIRS.len(), &mut room.out)
        });
    "declares: a provision", idle, 32 => 0;
        |s, m, room| ids().map(|id| (s.declares)(m, id, own_keys(id - FIRST)[1], 0, &mut room.out));
    "declares: the dependency at place 40 of 48", deep_active, 32 => 0;
        |s, m, room| (0..32).map(|_| (s.declares)(m, DEEP, AT_40, 0, &mut room.out));
    "lookup at place 40 of 48", deep, 32 => 0;
        |s, m, room| (0..32).map(|_| (s.lookup)(m, DEEP, AT_40, &mut room.out));
    "lookup of 2", strangers, 32 => 0;
        |s, m, room| ids().map(|id| {
            (s.lookup)(m, id, 1000 * (id - FIRST + 1) + 6, &mut room.out)
        });
    "list 48 dependencies", deep, 32 => 0;
        |s, m, room| (0..32).map(|_| {
            (s.list_dependencies)(m, DEEP, 2, room.buffer.as_mut_ptr(), 100, &mut room.out)
        });
    "list 15 provisions", deep, 32 => 0;
        |s, m, room| (0..32).map(|_| {
            (s.list_provisions)(m, DEEP, 2, room.buffer.as_mut_ptr(), 100, &mut room.out)
        });
    "list 16 realm rows", deep, 32 => 0;
        |s, m, room| (0..32).map(|_| {
            (s.list_realms)(m, DEEP, 2, room.buffer.as_mut_ptr(), 100, &mut room.out)
        });
    "list refused: short buffer", deep, 32 => 23;
        |s, m, room| (0..32).map(|_| {
            (s.list_dependencies)(m, DEEP, 5, room.buffer.as_mut_ptr(), 100, &mut room.out)
        });
    "write the text of one plugin", one, 32 => 0 => ONE_TEXT;
        |s, m, room| (0..32).map(|_| write_text(s, m, TEXT, room));
    "write the text of 32 Active plugins", worlds::active, 1 => 0 => ACTIVE_TEXT;
        |s, m, room| (0..1).map(|_| write_text(s, m, TEXT, room));
    "write the text of 32 plugins and 1,024 rows", full, 1 => 0 => FULL_TEXT;
        |s, m, room| (0..1).map(|_| write_text(s, m, TEXT, room));
    "write the text of 32 plugins and 1,024 rows, long numbers", long, 1 => 0 => LONG_TEXT;
        |s, m, room| (0..1).map(|_| write_text(s, m, TEXT, room));
    "write refused: a byte too little for 32 plugins and 1,024 rows", full, 1 => 23;
        |s, m, room| (0..1).map(|_| write_text(s, m, FULL_TEXT as usize - 1, room));
    "load the text of 12 plugins", strangers, 1 => 0 => DOZEN_TEXT, of dozen, "";
        |s, m, room| (0..1).map(|_| load(s, m, DOZEN_TEXT, room));
    "load the text of 32 Active plugins", strangers, 1 => 0 => ACTIVE_TEXT, of worlds::active, "";
        |s, m, room| (0..1).map(|_| load(s, m, ACTIVE_TEXT, room));
    "load the text of 32 plugins and 1,024 rows", strangers, 1 => 0 => FULL_TEXT, of full, "";
        |s, m, room| (0..1).map(|_| load(s, m, FULL_TEXT, room));
    "load refused: a line too many at the end of a full text", strangers, 1 => 24
            => FULL_TEXT + LINE.len() as u64, of full, LINE;
        |s, m, room| (0..1).map(|_| load(s, m, FULL_TEXT + LINE.len() as u64, room));
    "plan 32 in a chain, given in reverse", chain, 1 => 0;
        |s, m, room| (0..1).map(|_| plan(s, m, &ROW_DOWN, room));
    "plan 32 in a chain, the highest id first", chain_down, 1 => 0;
        |s, m, room| (0..1).map(|_| plan(s, m, &ROW, room));
    "plan 32 without dependencies", idle, 1 => 0;
        |s, m, room| (0..1).map(|_| plan(s, m, &ROW_DOWN, room));
    "plan a pier of 12", pier, 4 => 0;
        |s, m, room| (0..4).map(|_| plan(s, m, &PIER_SET, room));
    "plan: none in a ring of 32", ring, 1 => 0;
        |s, m, room| (0..1).map(|_| plan(s, m, &ROW, room));
    "plan refused: the last of 32 repeated", idle, 4 => 27;
        |s, m, room| (0..4).map(|_| plan(s, m, &LAST_REPEATED, room));
    "check the order of 32 in a chain", chain, 1 => 0;
        |s, m, room| (0..1).map(|_| check(s, m, &ROW_DOWN, &ROW, room));
    "check the order of a pier of 12", pier, 4 => 0;
        |s, m, room| (0..4).map(|_| check(s, m, &PIER_SET, &PIER_ORDER, room));
    "check: no, two of 32 in a chain swapped", chain, 1 => 0;
        |s, m, room| (0..1).map(|_| check(s, m, &ROW_DOWN, &LAST_SWAPPED, room));
    "parent", family, 32 => 0;
        |s, m, room| ids().map(|id| (s.parent)(m, id, &mut room.out));
    "anchor", strangers, 32 => 0;
        |s, m, room| ids().map(|id| (s.anchor)(m, id, &mut room.out));
    "edition", strangers, 32 => 0;
        |s, m, room| ids().map(|id| (s.edition)(m, id, &mut room.out));
    "phase", loading, 32 => 0;
        |s, m, room| ids().map(|id| (s.phase)(m, id, &mut room.out));
    "retired", strangers, 32 => 0;
        |s, m, room| ids().map(|id| (s.retired)(m, id, &mut room.out));
    "generation", loading, 32 => 0;
        |s, m, room| ids().map(|id| (s.generation)(m, id, &mut room.out));
    "revision", strangers, 32 => 0;
        |s, m, room| ids().map(|id| (s.revision)(m, id, &mut room.out));
    "payload", strangers, 32 => 0;
        |s, m, room| ids().map(|id| (s.payload)(m, id, &mut room.out));
    "root", queued, 32 => 0;
        |s, m, room| ids().map(|id| (s.root)(m, id, &mut room.out));
    "all eight of a plugin, one after the other", queued, 32 => 0;
        |s, m, room| ids().map(|id| {
            let out = &mut room.out;
            (s.parent)(m, id, out)
                + (s.anchor)(m, id, out)
                + (s.phase)(m, id, out)
                + (s.retired)(m, id, out)
                + (s.generation)(m, id, out)
                + (s.revision)(m, id, out)
                + (s.payload)(m, id, out)
                + (s.root)(m, id, out)
        });
    "id_from, from id to id of 32", strangers, 32 => 0;
        |s, m, room| (0..32).map(|n| (s.id_from)(m, FIRST + n, &mut room.out));
    "resolve in 16 realm rows", |_| {}, 16 => 0;
        |s, _m, room| (0..16).map(|n| {
            (s.resolve)(DEEP_REALMS.as_ptr(), DEEP_REALMS.len(), 401 + n, &mut room.out)
        });
    "resolve in 16 realm rows: no row", |_| {}, 16 => 0;
        |s, _m, room| (0..16).map(|n| {
            (s.resolve)(DEEP_REALMS.as_ptr(), DEEP_REALMS.len(), 430 + n, &mut room.out)
        });
    "resolve in 16 realm rows of edition 2: no row", |_| {}, 16 => 0;
        |s, _m, room| (0..16).map(|n| {
            let realms = &SECOND_DEEP_REALMS;
            (s.resolve)(realms.as_ptr(), realms.len(), 430 + n, &mut room.out)
        });
    "rows of 32 plugins", strangers, 32 => 32 * 5;
        |s, m, _room| (0..32).map(|_| (s.rows)(m));
    "count of 32 plugins", strangers, 32 => 32;
        |s, m, _room| (0..32).map(|_| (s.count)(m));
    "domain", strangers, 32 => DOMAIN;
        |s, m, _room| (0..32).map(|_| (s.domain)(m));
    "first", strangers, 32 => FIRST;
        |s, m, _room| (0..32).map(|_| (s.first)(m));
    "next", strangers, 32 => FIRST + 32;
        |s, m, _room| (0..32).map(|_| (s.next)(m));
    "slot pending", decided_slots, 32 => 0, SLOTS;
        |s, m, _room| slots(m).map(|slot| { (s.slot_pending)(slot, DOMAIN, FIRST, 5); 0 });
    "slot assigned", decided_slots, 32 => 0, SLOTS;
        |s, m, _room| slots(m).map(|slot| { (s.slot_assigned)(slot, DOMAIN, FIRST, CHILD); 0 });
    "slot assign", pending_slots, 32 => 0, SLOTS;
        |s, m, _room| slots(m).map(|slot| (s.slot_assign)(slot, DOMAIN, FIRST, CHILD));
    "slot assign refused: decided", decided_slots, 32 => 3, SLOTS;
        |s, m, _room| slots(m).map(|slot| (s.slot_assign)(slot, DOMAIN, FIRST, CHILD));
    "slot assign refused: other parent", pending_slots, 32 => 3, SLOTS;
        |s, m, _room| slots(m).map(|slot| (s.slot_assign)(slot, DOMAIN, CHILD, CHILD));
    "slot reject", pending_slots, 32 => 0, SLOTS;
        |s, m, _room| slots(m).map(|slot| (s.slot_reject)(slot));
    "slot cancel", pending_slots, 32 => 0, SLOTS;
        |s, m, _room| slots(m).map(|slot| (s.slot_cancel)(slot));
}

/// A registration that names edition 3.
static OTHER_EDITION: Stranger = {
    let mut other = Stranger::numbered(31);
    other.realms[0] = 3;
    other
};

/// All ids of a row, and the last once more.
static LAST_REPEATED: [u64; 33] = {
    let mut ids = [ROW[31]; 33];
    let mut n = 0;
    while n < 32 {
        ids[n] = ROW[n];
        n += 1;
    }
    ids
};

/// The last two of a row in each other's place.
static LAST_SWAPPED: [u64; 32] = {
    let mut ids = ROW;
    ids[30] = ROW[31];
    ids[31] = ROW[30];
    ids
};

/// The plugins of a supplied world that need the others.
fn users() -> impl Iterator<Item = u64> {
    (0..USERS).map(|n| FIRST + PROVIDERS + (5 * n + 3) % USERS)
}

/// The provision list of the deep plugin, as key, realm pairs.
static DEEP_PAIRS: [u64; 30] = {
    let mut pairs = [0; 30];
    let mut n = 0;
    while n < 15 {
        pairs[2 * n] = DEEP_PROVISIONS[n];
        n += 1;
    }
    pairs
};
