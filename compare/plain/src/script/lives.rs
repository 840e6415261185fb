//! Lives: what a registry is opened for, and the steps from birth to removal.

use super::Script;
use super::draft::Draft;
use crate::admission::Root;
use crate::console::{BUFFER, TEXT};
use crate::phases::Phase;
use crate::ports::Port;
use crate::registry::MAX_PLUGINS;

/// What the lines after an opening aim at.
#[derive(Clone, Copy, Debug, PartialEq, Eq)]
enum Aim {
    /// Plugins that come, work together and go.
    Common,
    /// All 32 places taken.
    Crowd,
    /// Long dependency lists, and all 1,024 rows in use.
    Rows,
    /// Plugins with 48 dependencies, all of them provided.
    Supply,
    /// Plugins that need each other, to be begun in order.
    Pier,
}

/// One registry's time, from its opening.
#[derive(Clone, Copy, Debug)]
pub(super) struct Life {
    aim: Aim,
    /// Lines until the next opening.
    pub(super) left: u64,
    /// Keys and realms in common use; few, so that ports clash.
    pub(super) keys: u64,
    pub(super) realms: u64,
    /// How many plugins there should be.
    crowd: u64,
}

/// Which way a plugin is to go.
#[derive(Clone, Copy, PartialEq, Eq)]
enum Way {
    /// To Active.
    Up,
    /// To removal.
    Down,
}

impl Life {
    pub(super) const fn over() -> Self {
        Self { aim: Aim::Common, left: 0, keys: 10, realms: 3, crowd: 8 }
    }

    /// A short time on the registry that is there before any opening.
    pub(super) const fn unopened() -> Self {
        Self { left: 60, ..Self::over() }
    }
}

impl Script {
    /// Writes one line or a few.
    pub(super) fn step(&mut self) {
        // Without ids little can happen any more.
        if self.registry().next() == u64::MAX {
            self.life.left = self.life.left.min(40);
        }
        if self.life.left == 0 {
            self.open();
        }
        match self.rng.below(225) {
            0..=69 => self.advance(),
            70..=99 => self.grow(),
            100..=169 => self.probe(),
            170..=173 => self.midnight(),
            174..=176 => self.whole_life(),
            177..=180 => self.replay(),
            181..=189 => self.look(),
            190..=195 => self.malformed(),
            196..=197 => self.passed_over(),
            198 => self.long_line(),
            199 => self.register_bare(),
            200..=205 => self.write(),
            206..=221 => self.order(),
            _ => self.carry(),
        }
    }

    fn open(&mut self) {
        let aim = self.rng.one_of([
            Aim::Common,
            Aim::Common,
            Aim::Common,
            Aim::Common,
            Aim::Crowd,
            Aim::Rows,
            Aim::Rows,
            Aim::Supply,
            Aim::Pier,
            Aim::Pier,
        ]);
        let (low, high) = match aim {
            Aim::Common => self.rng.one_of([(20, 200), (200, 800), (800, 3000)]),
            _ => (400, 1500),
        };
        let crowd = match aim {
            Aim::Common | Aim::Supply | Aim::Pier => self.rng.between(4, 14),
            Aim::Crowd | Aim::Rows => MAX_PLUGINS as u64,
        };
        self.life = Life {
            aim,
            left: self.rng.between(low, high),
            keys: self.rng.between(5, 14),
            realms: self.rng.between(2, 4),
            crowd,
        };
        let (domain, first) = (self.rng.number(), self.first_id());
        self.ask("open", &[domain, first]);
        match aim {
            Aim::Common => {}
            Aim::Crowd => self.pack(),
            Aim::Rows => self.fill(),
            Aim::Supply => self.supply(),
            Aim::Pier => self.pier(),
        }
    }

    /// A first id: any, or so near the end that ids run out.
    fn first_id(&mut self) -> u64 {
        let places = MAX_PLUGINS as u64;
        match self.rng.below(12) {
            0 => u64::MAX - self.rng.below(5),
            // The last place and the last id may then go together.
            1 => u64::MAX - self.rng.between(places - 1, places + 2),
            2 => u64::MAX - self.rng.between(5, 100),
            3 => u64::MAX - self.rng.between(100, 2000),
            4 | 5 => 0,
            6 => self.rng.number(),
            _ => self.rng.below(1000),
        }
    }

    /// Registers what the present life aims at.
    fn grow(&mut self) {
        let full = self.registry().count() == MAX_PLUGINS as u64;
        if full && !self.rng.one_in(4) {
            return self.advance();
        }
        let accepted = match self.life.aim {
            Aim::Rows if !self.rng.one_in(5) => {
                let long = self.registry().count() < 4 || self.rng.one_in(3);
                let draft = if long { self.long_draft() } else { self.filling_draft() };
                self.register(&draft)
            }
            Aim::Crowd if !self.rng.one_in(4) => {
                let draft = self.tiny_draft();
                self.register(&draft)
            }
            Aim::Pier if !self.is_crowded() && self.rng.one_in(4) => return self.pier(),
            _ if !self.is_crowded() || full || self.rng.one_in(4) => self.register_any(),
            _ => return self.advance(),
        };
        if accepted && self.rng.one_in(4) {
            self.look_at_lists();
        }
    }

    /// Whether there are as many plugins as there should be.
    pub(super) fn is_crowded(&self) -> bool {
        self.registry().count() >= self.life.crowd
    }

    /// Lists what the last registration has made.
    fn look_at_lists(&mut self) {
        let id = self.registry().next() - 1;
        let list = self.rng.one_of(["deps", "provs", "realms"]);
        self.ask(list, &[id, 0]);
        self.ask("buffer", &[0, BUFFER as u64]);
        let more = self.rng.one_of([("rows", None), ("edition", Some(id))]);
        self.ask(more.0, more.1.as_slice());
    }

    /// Moves some plugin on by its next step.
    pub(super) fn advance(&mut self) {
        // Plugins with lists are moved more often: the others have a short way.
        let needy = self.id_where(|p| !p.dependencies().is_empty() || !p.provisions().is_empty());
        let Some(id) = needy.filter(|_| self.rng.one_in(2)).or_else(|| self.id_where(|_| true))
        else {
            self.register_any();
            return;
        };
        let crowded = self.registry().count() > self.life.crowd;
        let plugin = self.plugin(id);
        let down = if plugin.retired() {
            true
        } else if plugin.generation() == u64::MAX {
            // It won't begin again.
            self.rng.one_in(2)
        } else if plugin.phase() == Phase::Active {
            self.rng.one_in(if crowded { 2 } else { 4 })
        } else {
            self.rng.one_in(if crowded { 4 } else { 16 })
        };
        self.move_on(id, if down { Way::Down } else { Way::Up });
    }

    /// Takes one step of a plugin's way, or of another that stands in its way.
    fn move_on(&mut self, id: u64, way: Way) {
        let plugin = self.plugin(id);
        match (plugin.phase(), way) {
            (Phase::Idle, Way::Up) => self.begin_or_help(id),
            (Phase::Idle, Way::Down) if plugin.retired() => self.remove_or_help(id),
            (Phase::Idle, Way::Down) => {
                self.ask("retire", &[id]);
            }
            (Phase::Loading, Way::Up) => {
                self.load(id);
            }
            (Phase::Loading, Way::Down) => {
                self.ask("fail", &[id]);
            }
            (Phase::Active, Way::Up) => self.use_services(id),
            (Phase::Active, Way::Down) => self.unload_or_help(id),
            (Phase::Unloading, _) => {
                self.ask("finish", &[id]);
            }
        }
    }

    fn begin_or_help(&mut self, id: u64) {
        let Some((needy, port)) = self.first_lack(id) else {
            self.begin(id);
            return;
        };
        let provider = self.registry().provider(port).map(|(id, p)| (id, p.retired()));
        match provider {
            _ if self.rng.one_in(8) => {
                self.begin(id);
            }
            Some((other, false)) if other != needy => {
                self.step_up(other);
            }
            None if self.rng.one_in(2) => {
                let draft = self.provider_draft(needy, port);
                self.register(&draft);
            }
            _ if self.rng.one_in(3) => {
                self.ask("retire", &[needy]);
            }
            _ => self.probe(),
        }
    }

    /// Why this plugin cannot begin: itself or, where its provider cannot begin
    /// either, a provider further up, with the port that is lacking there.
    fn first_lack(&self, id: u64) -> Option<(u64, Port)> {
        let mut lack = (id, self.lacking(id)?);
        // Providers may lack each other in a ring, so only a few are asked.
        for _ in 0..6 {
            match self.registry().provider(lack.1) {
                Some((other, plugin)) if plugin.phase() == Phase::Idle => {
                    let Some(port) = self.lacking(other) else { break };
                    lack = (other, port);
                }
                _ => break,
            }
        }
        Some(lack)
    }

    /// One plain step up, without helping others first; answers whether it was
    /// accepted.
    fn step_up(&mut self, id: u64) -> bool {
        match self.plugin(id).phase() {
            Phase::Idle => self.begin(id),
            Phase::Loading => self.load(id),
            Phase::Active => false,
            Phase::Unloading => self.ask("finish", &[id]),
        }
    }

    /// One step of a Loading plugin: admit, call, offer what is missing, ready.
    fn load(&mut self, id: u64) -> bool {
        let plugin = self.plugin(id);
        if plugin.retired() {
            return self.ask("fail", &[id]);
        }
        let (root, revision) = (plugin.root(), plugin.record().revision);
        let missing =
            plugin.provisions().iter().copied().find(|port| plugin.value(*port).is_none());
        // Offers may come before the root has run.
        if let Some(port) = missing
            && (root == Root::Spent || self.rng.one_in(4))
        {
            let value = self.rng.number();
            return self.offer(id, port, value);
        }
        match root {
            Root::Unissued => {
                let (ticket, argument) = (self.ticket(id), self.rng.number());
                self.admit(ticket, argument)
            }
            Root::Queued { revision: queued, .. } if queued != revision => self.ask("fail", &[id]),
            Root::Queued { .. } => {
                let invocation = self.queued(id).expect("it is queued");
                self.call(invocation)
            }
            Root::Spent => self.ask("ready", &[id]),
        }
    }

    /// An Active plugin reads, or its values are seen.
    fn use_services(&mut self, id: u64) {
        let plugin = self.plugin(id);
        let (needs, gives) = (plugin.dependencies().to_vec(), plugin.provisions().to_vec());
        let (need, give) = (self.rng.pick(&needs), self.rng.pick(&gives));
        match (need, give) {
            (Some(port), _) if !self.rng.one_in(4) => {
                self.ask("read", &[id, port.key, port.realm]);
            }
            (_, Some(port)) if self.rng.one_in(4) => {
                self.ask("visible", &[port.key, port.realm]);
            }
            _ => self.probe(),
        }
    }

    fn unload_or_help(&mut self, id: u64) {
        let plugin = self.plugin(id);
        let dependant = self.registry().registered().find(|(_, other)| {
            other.is_up() && other.dependencies().iter().any(|&port| plugin.provides(port))
        });
        match dependant.map(|(id, p)| (id, p.phase())) {
            Some((other, phase)) if !self.rng.one_in(3) => {
                let step = if phase == Phase::Active { "unload" } else { "fail" };
                self.ask(step, &[other]);
            }
            _ => {
                self.ask("unload", &[id]);
            }
        }
    }

    fn remove_or_help(&mut self, id: u64) {
        let mut last = id;
        // Ids rise from parent to child, so this ends.
        while let Some(child) = self.id_where(|p| p.parent() == Some(last)) {
            last = child;
        }
        let (parent, retired) = (self.plugin(last).parent(), self.plugin(last).retired());
        match parent {
            _ if last == id || self.rng.one_in(8) => {
                self.remove(id);
            }
            Some(parent) if !retired && self.rng.one_in(2) => {
                let domain = self.registry().domain();
                self.ask("retire_child", &[domain, parent, last]);
            }
            _ => {
                self.step_down(last);
            }
        }
    }

    /// One plain step down, without helping others first; answers whether it
    /// was accepted.
    fn step_down(&mut self, id: u64) -> bool {
        let plugin = self.plugin(id);
        match plugin.phase() {
            Phase::Idle if plugin.retired() => self.remove(id),
            Phase::Idle => self.ask("retire", &[id]),
            Phase::Loading => self.ask("fail", &[id]),
            Phase::Active => self.ask("unload", &[id]),
            Phase::Unloading => self.ask("finish", &[id]),
        }
    }

    /// Takes a plugin all the way up, with other lines in between if wished.
    pub(super) fn raise(&mut self, id: u64, disturbed: bool) {
        while self.registry().plugin(id).is_ok() && self.step_up(id) {
            if disturbed && self.rng.one_in(8) {
                self.probe();
            }
        }
    }

    /// Takes a plugin all the way down.
    fn lower(&mut self, id: u64) {
        while self.registry().plugin(id).is_ok() && self.step_down(id) {}
    }

    /// Registers a plugin that depends on nothing.
    fn register_bare(&mut self) {
        let mut draft = self.sound_draft();
        draft.parent = None;
        draft.dependencies.clear();
        self.register(&draft);
    }

    /// A plugin's whole life, and what is left of it afterwards.
    fn whole_life(&mut self) {
        let mut draft = self.sound_draft();
        if self.rng.one_in(2) {
            draft.parent = None;
        }
        if !self.register(&draft) {
            return;
        }
        let id = self.registry().next() - 1;
        self.raise(id, true);
        if self.registry().plugin(id).is_ok() {
            self.use_services(id);
        }
        self.lower(id);
        if let Some(&child) = self.removed.back() {
            self.ask("retire_child", &[child.domain, child.parent, child.id]);
        }
        if let Some(&invocation) = self.invocations.back() {
            self.call(invocation);
        }
    }

    /// Replaces a payload between admission and call, mostly by the same one.
    fn midnight(&mut self) {
        let Some(id) = self.id_where(|p| p.phase() == Phase::Idle && !p.retired()) else {
            return self.register_bare();
        };
        if self.lacking(id).is_some() || !self.begin(id) {
            return self.advance();
        }
        let (ticket, argument) = (self.ticket(id), self.rng.number());
        self.admit(ticket, argument);
        let Some(admitted) = self.queued(id) else {
            return;
        };
        let payload = self.plugin(id).record().payload;
        let payload = if self.rng.one_in(4) { self.rng.number() } else { payload };
        self.ask("replace", &[id, payload]);
        self.call(admitted);
        // The revision of now, which was not queued, does not help either.
        let mut present = admitted;
        present.revision = self.plugin(id).record().revision;
        self.call(present);
        self.admit(ticket, argument);
        self.ask("fail", &[id]);
        self.call(admitted);
        self.ask("finish", &[id]);
    }

    /// Tries old tickets and invocations again, as they were.
    pub(super) fn replay(&mut self) {
        let tickets: Vec<_> = self.tickets.iter().copied().collect();
        let invocations: Vec<_> = self.invocations.iter().copied().collect();
        if let Some(ticket) = self.rng.pick(&tickets) {
            let argument = self.rng.number();
            self.admit(ticket, argument);
        }
        if let Some(invocation) = self.rng.pick(&invocations) {
            self.call(invocation);
        }
    }

    /// Takes all places at once, with one try too many.
    fn pack(&mut self) {
        if self.rng.one_in(3) {
            return;
        }
        for _ in 0..=MAX_PLUGINS {
            let draft = self.tiny_draft();
            self.register(&draft);
        }
    }

    /// Takes all rows at once, with tries too many. Three generations with 16
    /// keys in three realms make a list of 48 ports to be inherited.
    fn fill(&mut self) {
        if self.rng.one_in(3) {
            return;
        }
        self.heirs(false);
        for _ in 0..self.rng.between(24, 34) {
            let draft = self.filling_draft();
            self.register(&draft);
        }
    }

    /// Three providers of 16 ports each, and heirs of whom the last depends on
    /// all 48. Key 16 is provided by the anchors.
    fn supply(&mut self) {
        for realm in 0..3 {
            let mut provider = Draft::bare(Port::new(16, realm), self.rng.number());
            provider.provisions = (1..=15).collect();
            self.turn(&mut provider, realm);
            if self.register(&provider) {
                let id = self.registry().next() - 1;
                self.raise(id, false);
            }
        }
        self.heirs(true);
        let id = self.registry().next().saturating_sub(1);
        self.ask("deps", &[id, 4]);
        self.ask("buffer", &[0, 100]);
    }

    /// Three plugins, each the next one's parent, with 16, 32 and 48
    /// dependencies: keys 1 to 16 in realms 0, 1 and 2.
    fn heirs(&mut self, supplied: bool) {
        let mut parent = None;
        for realm in 0..3 {
            let mut heir = Draft::bare(self.fresh_port(), self.rng.number());
            heir.parent = parent;
            if realm == 0 {
                heir.dependencies = (1..=16).collect();
            }
            self.turn(&mut heir, realm);
            if !self.register(&heir) {
                return;
            }
            let id = self.registry().next() - 1;
            parent = Some(id);
            if supplied && (realm == 2 || self.rng.one_in(2)) {
                self.raise(id, false);
            }
        }
    }

    /// Lets keys 1 to 16 resolve to this realm: by rows, or by default.
    fn turn(&mut self, draft: &mut Draft, realm: u64) {
        let by_default = self.rng.one_in(2);
        let other = self.rng.below(4);
        (draft.edition, draft.default) = if by_default { (2, realm) } else { (1, other) };
        draft.turn_16(realm);
    }

    /// Tells what can be told of the registry as it is.
    fn look(&mut self) {
        match self.rng.below(6) {
            0 => self.ask("rows", &[]),
            1 => self.ask("count", &[]),
            2 => self.ask("next", &[]),
            3 => self.ask("buffer", &[0, 100]),
            _ => {
                let id = self.any_id();
                self.ask("show", &[id])
            }
        };
    }

    /// Writes the registry as text. Long texts are mostly asked for with too
    /// little room, so that the answers don't get too long.
    fn write(&mut self) {
        let length = self.registry().text_length() as u64;
        let long = length > 3000 && !self.rng.one_in(1 + length / 3000);
        let size = match self.rng.below(if long { 6 } else { 14 }) {
            0 => 0,
            1..=3 => length - 1,
            4 => self.rng.below(length),
            5 => self.rng.below(12),
            6..=9 => length,
            10 => length + 1 + self.rng.below(12),
            11 => self.rng.one_of([TEXT - 1, TEXT, TEXT + 1]) as u64,
            12 => u64::MAX - self.rng.below(2),
            _ => self.rng.number(),
        };
        self.ask("write", &[size]);
    }
}
