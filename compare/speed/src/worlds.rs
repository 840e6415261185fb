//! Registries made ready for a case, through the same C functions on each side.

use crate::sides::{Out, SLOT, Side, WORLD};

pub const DOMAIN: u64 = 7;

/// The id of the plugin that is registered first; the next has the next id.
pub const FIRST: u64 = 1000;

/// The kind of a ticket.
pub const SETUP: u64 = 1;

/// Anchors lie apart from all other keys.
pub const ANCHORS: u64 = 1 << 40;

/// What a root is called with.
pub const ARGUMENT: u64 = 5;

/// A registry under construction. Every step has to be accepted.
pub struct World {
    side: &'static Side,
    words: Vec<u64>,
    out: Out,
    registered: u64,
}

/// The lists that a plugin declares.
#[derive(Clone, Copy)]
pub struct Lists<'a> {
    /// Edition, default, key, realm, key, realm.
    pub realms: &'a [u64],
    pub dependencies: &'a [u64],
    pub provisions: &'a [u64],
}

/// No lists, and edition 1.
impl Default for Lists<'_> {
    fn default() -> Self {
        Self { realms: &[1, 0], dependencies: &[], provisions: &[] }
    }
}

/// Two dependencies, two provisions and three realm rows, none shared with another.
pub struct Stranger<
    const REALMS: usize = 8,
    const DEPENDENCIES: usize = 2,
    const PROVISIONS: usize = 2,
> {
    pub anchor: u64,
    /// Edition, default, and the rows' numbers.
    pub realms: [u64; REALMS],
    pub dependencies: [u64; DEPENDENCIES],
    pub provisions: [u64; PROVISIONS],
}

/// Its provisions' ports: the first key has a realm row, the second none.
pub const STRANGER_REALM: u64 = 7;

pub static STRANGERS: [Stranger; 32] = {
    let mut all = [const { Stranger::numbered(0) }; 32];
    let mut n = 0;
    while n < 32 {
        all[n] = Stranger::numbered(n as u64);
        n += 1;
    }
    all
};

impl Stranger {
    pub const fn numbered(n: u64) -> Self {
        let base = 1000 * (n + 1);
        Self {
            anchor: ANCHORS + n,
            realms: [1, 0, base + 1, STRANGER_REALM, base + 5, 8, base + 9, 9],
            dependencies: [base + 5, base + 6],
            provisions: [base + 1, base + 2],
        }
    }
}

impl<const R: usize, const D: usize, const P: usize> Stranger<R, D, P> {
    pub const fn lists(&self) -> Lists<'_> {
        Lists {
            realms: &self.realms,
            dependencies: &self.dependencies,
            provisions: &self.provisions,
        }
    }
}

/// 16 realm rows for every other one of the keys that follow the first, in an edition with
/// a default.
const fn every_other(edition: u64, default: u64, first: u64) -> [u64; 34] {
    let mut realms = [STRANGER_REALM; 34];
    realms[0] = edition;
    realms[1] = default;
    let mut n = 0;
    while n < 16 {
        realms[2 * n + 2] = first + 2 * n as u64;
        n += 1;
    }
    realms
}

/// 16 dependencies, 15 provisions and 16 realm rows, none shared with another. Every other key has a row.
pub static SITES: [Stranger<34, 16, 15>; 32] = sites(1, 0);

/// The same in edition 2: the keys without a row have a default realm of their own.
pub static SECOND_SITES: [Stranger<34, 16, 15>; 32] = sites(2, SECOND_REALM);

/// A default realm in edition 2.
pub const SECOND_REALM: u64 = 4;

const fn sites(edition: u64, default: u64) -> [Stranger<34, 16, 15>; 32] {
    let mut all = [const { site(1, 0, 0) }; 32];
    let mut n = 0;
    while n < 32 {
        all[n] = site(edition, default, n as u64);
        n += 1;
    }
    all
}

const fn site(edition: u64, default: u64, n: u64) -> Stranger<34, 16, 15> {
    let base = 1000 * (n + 1);
    Stranger {
        anchor: ANCHORS + n,
        realms: every_other(edition, default, base),
        dependencies: run(base),
        provisions: run(base + 16),
    }
}

impl World {
    pub fn new(side: &'static Side) -> Self {
        let mut world = Self { side, words: vec![0; WORLD], out: [0; 7], registered: 0 };
        unsafe {
            (side.prepare)(world.words.as_mut_ptr());
            (side.open)(world.words.as_mut_ptr(), DOMAIN, FIRST);
        }
        world
    }

    pub fn words(&self) -> &[u64] {
        &self.words
    }

    fn m(&mut self) -> *mut u64 {
        self.words.as_mut_ptr()
    }

    fn accepted(&self, step: &str, status: u64) {
        assert_eq!(
            status, 0,
            "{step} was refused while a world was made on the {} side",
            self.side.name
        );
    }

    /// Registers a plugin without a parent and answers its id.
    pub fn register(&mut self, lists: Lists<'_>) -> u64 {
        let Lists { realms, dependencies, provisions } = lists;
        let (m, anchor) = (self.m(), ANCHORS + self.registered);
        let status = unsafe {
            (self.side.register)(
                m,
                anchor,
                0,
                self.registered,
                realms.as_ptr(),
                realms.len(),
                dependencies.as_ptr(),
                dependencies.len(),
                provisions.as_ptr(),
                provisions.len(),
                &mut self.out,
            )
        };
        self.accepted("register", status);
        self.registered += 1;
        FIRST + self.registered - 1
    }

    /// Registers a plugin under a parent and answers its id.
    pub fn register_child(&mut self, parent: u64, lists: Lists<'_>) -> u64 {
        let Lists { realms, dependencies, provisions } = lists;
        let (m, anchor) = (self.m(), ANCHORS + self.registered);
        let status = unsafe {
            (self.side.register_child)(
                m,
                parent,
                anchor,
                0,
                self.registered,
                realms.as_ptr(),
                realms.len(),
                dependencies.as_ptr(),
                dependencies.len(),
                provisions.as_ptr(),
                provisions.len(),
                &mut self.out,
            )
        };
        self.accepted("register_child", status);
        self.registered += 1;
        FIRST + self.registered - 1
    }

    pub fn begin(&mut self, id: u64) {
        let status = unsafe { (self.side.begin)(self.m(), id, &mut self.out) };
        self.accepted("begin", status);
    }

    /// Admits the first generation of a plugin that was never replaced.
    pub fn admit(&mut self, id: u64) {
        let m = self.m();
        let status = unsafe { (self.side.admit)(m, DOMAIN, id, 1, SETUP, ARGUMENT, &mut self.out) };
        self.accepted("admit", status);
    }

    pub fn call(&mut self, id: u64) {
        let m = self.m();
        let status = unsafe { (self.side.call)(m, DOMAIN, id, 1, 0, ARGUMENT, &mut self.out) };
        self.accepted("call", status);
    }

    pub fn offer(&mut self, id: u64, key: u64, realm: u64) {
        let status = unsafe { (self.side.offer)(self.m(), id, key, realm, key + 100) };
        self.accepted("offer", status);
    }

    pub fn ready(&mut self, id: u64) {
        let status = unsafe { (self.side.ready)(self.m(), id) };
        self.accepted("ready", status);
    }

    pub fn fail(&mut self, id: u64) {
        let status = unsafe { (self.side.fail)(self.m(), id) };
        self.accepted("fail", status);
    }

    pub fn replace(&mut self, id: u64) {
        let status = unsafe { (self.side.replace)(self.m(), id, 1, &mut self.out) };
        self.accepted("replace", status);
    }

    pub fn retire(&mut self, id: u64) {
        let status = unsafe { (self.side.retire)(self.m(), id) };
        self.accepted("retire", status);
    }

    /// Makes a slot Pending, over the registry's words: a world has the one or the other.
    /// They are cleared first, as not all are written.
    fn slot(&mut self, n: usize) -> *mut u64 {
        let words = &mut self.words[n * SLOT..][..SLOT];
        words.fill(0);
        let slot = words.as_mut_ptr();
        unsafe { (self.side.slot_pending)(slot, DOMAIN, FIRST, n as u64) };
        slot
    }

    /// Writes the registry's text to the front of the room; answers its length.
    pub fn write(&mut self, room: &mut [u8]) -> usize {
        let m = self.m();
        let (text, length) = (room.as_mut_ptr(), room.len());
        let status = unsafe { (self.side.write_text)(m, text, length, &mut self.out) };
        self.accepted("write_text", status);
        self.out[1] as usize
    }

    /// Makes an Idle plugin Active. Its provisions have realm 0.
    pub fn raise(&mut self, id: u64, provisions: &[u64]) {
        self.begin(id);
        self.admit(id);
        self.call(id);
        for &key in provisions {
            self.offer(id, key, 0);
        }
        self.ready(id);
    }
}

/// 32 Idle plugins that have nothing to do with each other.
pub fn strangers(world: &mut World) {
    for stranger in &STRANGERS {
        world.register(stranger.lists());
    }
}

/// The same but for the last.
pub fn all_but_one(world: &mut World) {
    for stranger in &STRANGERS[..31] {
        world.register(stranger.lists());
    }
}

/// The two provision keys of a plugin that needs nobody.
pub const fn own_keys(n: u64) -> [u64; 2] {
    [2 * n + 1, 2 * n + 2]
}

fn independent(world: &mut World, n: u64) -> u64 {
    world.register(Lists { provisions: &own_keys(n), ..Lists::default() })
}

/// 32 Idle plugins without dependencies, with two provisions each.
pub fn idle(world: &mut World) {
    for n in 0..32 {
        independent(world, n);
    }
}

/// The same, Loading.
pub fn loading(world: &mut World) {
    for n in 0..32 {
        let id = independent(world, n);
        world.begin(id);
    }
}

/// The same, admitted.
pub fn queued(world: &mut World) {
    loading(world);
    for n in 0..32 {
        world.admit(FIRST + n);
    }
}

/// The same, replaced after their admission.
pub fn overtaken(world: &mut World) {
    queued(world);
    for n in 0..32 {
        world.replace(FIRST + n);
    }
}

/// The same, called, with the second value missing.
pub fn nearly_ready(world: &mut World) {
    queued(world);
    for n in 0..32 {
        world.call(FIRST + n);
        world.offer(FIRST + n, own_keys(n)[0], 0);
    }
}

/// The same, with all values.
pub fn settled(world: &mut World) {
    nearly_ready(world);
    for n in 0..32 {
        world.offer(FIRST + n, own_keys(n)[1], 0);
    }
}

/// The same, Unloading.
pub fn unloading(world: &mut World) {
    settled(world);
    for n in 0..32 {
        world.fail(FIRST + n);
    }
}

/// How many providers there are in a supplied world, and plugins that need them.
pub const PROVIDERS: u64 = 20;
pub const USERS: u64 = 12;

/// The keys that a user needs: four of the providers' provisions.
pub const fn needs(user: u64) -> [u64; 4] {
    let mut keys = [0; 4];
    let mut n = 0;
    while n < 4 {
        let provider = (3 * user + 5 * n as u64 + 1) % PROVIDERS;
        keys[n] = own_keys(provider)[n % 2];
        n += 1;
    }
    keys
}

/// A key that nobody provides.
pub const NOBODYS: u64 = 999_999;

/// The provision keys of a user.
pub const fn user_keys(user: u64) -> [u64; 2] {
    own_keys(100 + user)
}

fn providers(world: &mut World) {
    for n in 0..PROVIDERS {
        let id = independent(world, n);
        world.raise(id, &own_keys(n));
    }
}

/// 20 Active plugins, and 12 Idle ones with four dependencies among them.
pub fn supplied(world: &mut World) {
    providers(world);
    for user in 0..USERS {
        world.register(Lists {
            dependencies: &needs(user),
            provisions: &user_keys(user),
            ..Lists::default()
        });
    }
}

/// The same, but the fourth dependency of each has no provider.
pub fn unsupplied(world: &mut World) {
    providers(world);
    for user in 0..USERS {
        let mut dependencies = needs(user);
        dependencies[3] = NOBODYS;
        world.register(Lists {
            dependencies: &dependencies,
            provisions: &user_keys(user),
            ..Lists::default()
        });
    }
}

/// The supplied world with all 32 Active.
pub fn active(world: &mut World) {
    supplied(world);
    for user in 0..USERS {
        world.raise(FIRST + PROVIDERS + user, &user_keys(user));
    }
}

/// Two providers and 30 Active plugins with four dependencies. Nobody needs the
/// 30; the second provider is needed by the last of them alone.
pub fn crowd(world: &mut World) {
    let common = [1, 2, 3, 4];
    let rare = [5, 6];
    for provisions in [&common[..], &rare[..]] {
        let id = world.register(Lists { provisions, ..Lists::default() });
        world.raise(id, provisions);
    }
    for n in 2..32 {
        let provisions = own_keys(100 + n);
        let dependencies = if n < 31 { common } else { [1, 2, 3, 5] };
        let id = world.register(Lists {
            dependencies: &dependencies,
            provisions: &provisions,
            ..Lists::default()
        });
        world.raise(id, &provisions);
    }
}

/// Numbers that follow each other.
pub const fn run<const N: usize>(first: u64) -> [u64; N] {
    let mut keys = [0; N];
    let mut n = 0;
    while n < N {
        keys[n] = first + n as u64;
        n += 1;
    }
    keys
}

/// The plugin of a deep world that has 48 dependencies, 15 provisions and 16 realm rows.
pub const DEEP: u64 = FIRST + 6;

/// The key of its dependency at place 40: 33 to 48 come first, then 17 to 32, then 1 to 16.
pub const AT_40: u64 = 8;

pub const DEEP_PROVISIONS: [u64; 15] = run(301);

/// Its realm list.
pub const DEEP_REALMS: [u64; 34] = deep_realms(1, 0);

/// The same rows in edition 2.
pub const SECOND_DEEP_REALMS: [u64; 34] = deep_realms(2, SECOND_REALM);

const fn deep_realms(edition: u64, default: u64) -> [u64; 34] {
    let mut realms = [3; 34];
    realms[0] = edition;
    realms[1] = default;
    let mut n = 0;
    while n < 16 {
        realms[2 * n + 2] = 401 + n as u64;
        n += 1;
    }
    realms
}

/// Four Active plugins that provide keys 1 to 60, then a grandparent, a parent and
/// a child of 16 declared dependencies each: the child has 48.
pub fn deep(world: &mut World) {
    for n in 0..4 {
        let provisions = run::<15>(15 * n + 1);
        let id = world.register(Lists { provisions: &provisions, ..Lists::default() });
        world.raise(id, &provisions);
    }
    let top = world.register(Lists { dependencies: &run::<16>(1), ..Lists::default() });
    let middle =
        world.register_child(top, Lists { dependencies: &run::<16>(17), ..Lists::default() });
    let deep = world.register_child(
        middle,
        Lists { dependencies: &run::<16>(33), provisions: &DEEP_PROVISIONS, realms: &DEEP_REALMS },
    );
    assert_eq!(deep, DEEP);
}

/// The same, with the child Active.
pub fn deep_active(world: &mut World) {
    deep(world);
    world.raise(DEEP, &DEEP_PROVISIONS);
}

/// The same, with the child Loading and without values.
pub fn deep_loading(world: &mut World) {
    deep(world);
    world.begin(DEEP);
}

/// A stranger whose first realm row resolves one of the inherited keys anew.
pub static HEIRS: [Stranger; 32] = {
    let mut all = [const { Stranger::numbered(0) }; 32];
    let mut n = 0;
    while n < 32 {
        let mut heir = Stranger::numbered(n as u64);
        heir.realms = [1, 0, 3, 5, heir.provisions[0], STRANGER_REALM, heir.dependencies[0], 8];
        all[n] = heir;
        n += 1;
    }
    all
};

/// Two dependencies and two provisions; 16 realm rows, of which 8 resolve inherited keys anew.
pub static SITE_HEIRS: [Stranger<34>; 32] = {
    let mut all = [const { site_heir(0) }; 32];
    let mut n = 0;
    while n < 32 {
        all[n] = site_heir(n as u64);
        n += 1;
    }
    all
};

const fn site_heir(n: u64) -> Stranger<34> {
    let Stranger { anchor, dependencies, provisions, .. } = Stranger::numbered(n);
    Stranger { anchor, realms: every_other(1, 0, 1), dependencies, provisions }
}

/// Two dependencies and two provisions; no row, and a default that resolves all inherited
/// keys anew.
pub static SECOND_HEIRS: [Stranger<2>; 32] = {
    let mut all = [const { second_heir(0) }; 32];
    let mut n = 0;
    while n < 32 {
        all[n] = second_heir(n as u64);
        n += 1;
    }
    all
};

const fn second_heir(n: u64) -> Stranger<2> {
    let Stranger { anchor, dependencies, provisions, .. } = Stranger::numbered(n);
    Stranger { anchor, realms: [2, SECOND_REALM], dependencies, provisions }
}

/// A parent with 16 dependencies.
pub fn parent_of_16(world: &mut World) {
    world.register(Lists { dependencies: &run::<16>(1), ..Lists::default() });
}

/// A parent with 46 dependencies.
pub const HEIR: u64 = FIRST + 2;

pub fn parent_of_46(world: &mut World) {
    let top = world.register(Lists { dependencies: &run::<16>(1), ..Lists::default() });
    let middle =
        world.register_child(top, Lists { dependencies: &run::<16>(17), ..Lists::default() });
    world.register_child(middle, Lists { dependencies: &run::<14>(33), ..Lists::default() });
}

/// 32 Idle plugins of 32 rows each: all places and all rows are taken.
pub fn full(world: &mut World) {
    for n in 0..32 {
        world.register(Lists {
            dependencies: &run::<16>(1_000_000),
            provisions: &run::<15>(100 * n + 1),
            ..Lists::default()
        });
    }
}

/// The same, with numbers of 20 digits wherever they can be.
pub fn long(world: &mut World) {
    const KEYS: [u64; 16] = run(u64::MAX - 15);
    for n in 0..32 {
        let mut realms = [u64::MAX - n; 34];
        realms[0] = 2;
        for (row, key) in KEYS.iter().enumerate() {
            realms[2 * row + 2] = *key;
        }
        world.register(Lists { dependencies: &KEYS, provisions: &KEYS[..15], realms: &realms });
    }
}

/// Eight Active plugins, and four more with four dependencies among them.
pub fn dozen(world: &mut World) {
    for n in 0..8 {
        let id = independent(world, n);
        world.raise(id, &own_keys(n));
    }
    for user in 0..4 {
        let dependencies = [0, 1, 2, 3].map(|n| own_keys((3 * user + 2 * n) % 8)[n as usize % 2]);
        let provisions = user_keys(user);
        let id = world.register(Lists {
            dependencies: &dependencies,
            provisions: &provisions,
            ..Lists::default()
        });
        world.raise(id, &provisions);
    }
}

/// One plugin, with two provisions.
pub fn one(world: &mut World) {
    independent(world, 0);
}

/// The lengths of the texts of `one`, `dozen`, `active`, `full` and `long`.
pub const ONE_TEXT: u64 = 226;
pub const DOZEN_TEXT: u64 = 2409;
pub const ACTIVE_TEXT: u64 = 6451;
pub const FULL_TEXT: u64 = 20337;
pub const LONG_TEXT: u64 = 78911;

/// 32 Idle plugins of 32 rows each, with the newest retired.
pub fn newest_retired(world: &mut World) {
    full(world);
    world.retire(FIRST + 31);
}

/// The same, but the oldest.
pub fn oldest_retired(world: &mut World) {
    full(world);
    world.retire(FIRST);
}

/// A parent and 31 children.
pub fn family(world: &mut World) {
    let parent = world.register(Lists::default());
    for _ in 1..32 {
        world.register_child(parent, Lists::default());
    }
}

/// A parent that is retired, and its child, the last of 32.
pub fn orphanage(world: &mut World) {
    for _ in 0..31 {
        world.register(Lists::default());
    }
    world.register_child(FIRST, Lists::default());
    world.retire(FIRST);
}

/// The key that plugin n of a row of them provides.
const fn in_row(n: u64) -> u64 {
    n + 1
}

/// A row of 32 Idle plugins, of which each depends on what a rule says.
fn row(world: &mut World, needs: impl Fn(u64) -> Option<u64>) {
    for n in 0..32 {
        let dependency = needs(n).map(in_row);
        world.register(Lists {
            dependencies: dependency.as_slice(),
            provisions: &[in_row(n)],
            ..Lists::default()
        });
    }
}

/// Each needs the one before it.
pub fn chain(world: &mut World) {
    row(world, |n| n.checked_sub(1));
}

/// Each needs the one after it, so that they begin from the highest id down.
pub fn chain_down(world: &mut World) {
    row(world, |n| (n < 31).then_some(n + 1));
}

/// Each needs the one after it, and the last the first.
pub fn ring(world: &mut World) {
    row(world, |n| Some((n + 1) % 32));
}

/// All ids of a row, from the lowest and from the highest.
pub const ROW: [u64; 32] = run(FIRST);
pub const ROW_DOWN: [u64; 32] = {
    let mut ids = ROW;
    let mut n = 0;
    while n < 32 {
        ids[n] = ROW[31 - n];
        n += 1;
    }
    ids
};

/// What a pier's plugins provide.
const HOUR_ENCODER: u64 = 1;
const DECLINATION_ENCODER: u64 = 2;
const HOUR_DRIVE: u64 = 3;
const DECLINATION_DRIVE: u64 = 4;
const CLOCK: u64 = 5;
const HOUR_ANGLE: u64 = 6;
const POINTING: u64 = 7;
const THERMOMETER: u64 = 8;
const FOCUS_MOTOR: u64 = 9;
const FOCUSER: u64 = 10;
const DOME: u64 = 11;
const GUIDER: u64 = 12;

/// Twelve Idle plugins as they stand on a pier, in the order of their registration: what
/// each provides, and what it needs.
const PIER: [(u64, &[u64]); 12] = [
    (DOME, &[HOUR_ANGLE, POINTING]),
    (HOUR_ENCODER, &[]),
    (HOUR_DRIVE, &[HOUR_ENCODER]),
    (POINTING, &[HOUR_ANGLE, DECLINATION_ENCODER, HOUR_DRIVE, DECLINATION_DRIVE]),
    (DECLINATION_ENCODER, &[]),
    (DECLINATION_DRIVE, &[DECLINATION_ENCODER]),
    (HOUR_ANGLE, &[HOUR_ENCODER, CLOCK]),
    (CLOCK, &[]),
    (FOCUSER, &[FOCUS_MOTOR, THERMOMETER]),
    (GUIDER, &[POINTING, FOCUSER]),
    (FOCUS_MOTOR, &[]),
    (THERMOMETER, &[]),
];

pub fn pier(world: &mut World) {
    for (provision, dependencies) in PIER {
        world.register(Lists { dependencies, provisions: &[provision], ..Lists::default() });
    }
}

/// Its ids, not in order.
pub const PIER_SET: [u64; 12] = {
    let mut ids = [0; 12];
    let mut n = 0;
    while n < 12 {
        ids[n] = FIRST + (5 * n as u64 + 3) % 12;
        n += 1;
    }
    ids
};

/// The order in which they can begin that is planned.
pub const PIER_ORDER: [u64; 12] = {
    let mut ids = [1, 2, 4, 5, 7, 6, 3, 0, 10, 11, 8, 9];
    let mut n = 0;
    while n < 12 {
        ids[n] += FIRST;
        n += 1;
    }
    ids
};

/// The slots of a world that has them.
pub const SLOTS: usize = 32;

/// The child that a slot is offered.
pub const CHILD: u64 = FIRST + 1;

/// Pending slots of the same parent.
pub fn pending_slots(world: &mut World) {
    for n in 0..SLOTS {
        world.slot(n);
    }
}

/// The same, Assigned, Failed and Cancelled by turns.
pub fn decided_slots(world: &mut World) {
    for n in 0..SLOTS {
        let slot = world.slot(n);
        let status = unsafe {
            match n % 3 {
                0 => (world.side.slot_assign)(slot, DOMAIN, FIRST, CHILD),
                1 => (world.side.slot_reject)(slot),
                _ => (world.side.slot_cancel)(slot),
            }
        };
        world.accepted("a slot's decision", status);
    }
}
