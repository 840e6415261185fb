//! Start orders: piers to be planned, sets of ids, and orders to be checked.

use super::{Script, words};
use crate::phases::Phase;
use crate::plugin::Plugin;
use crate::ports::Port;
use crate::registry::MAX_PLUGINS;

impl Script {
    /// Asks for an order of plugins that are there, or of a pier that is made for it.
    pub(super) fn order(&mut self) {
        let mut set = self.set();
        if set.len() < 2 && !self.rng.one_in(8) {
            let pier = !self.is_crowded() && self.rng.one_in(2);
            return if pier { self.pier() } else { self.advance() };
        }
        if self.rng.one_in(4) {
            for _ in 0..self.rng.one_of([1, 1, 2, 3]) {
                self.spoil_set(&mut set);
            }
        }
        self.order_set(&set);
    }

    /// Plans an order or checks one, and now and then begins by it.
    fn order_set(&mut self, set: &[u64]) {
        match self.rng.below(10) {
            0 => self.begin_in_order(set),
            1..=4 => self.plan(set),
            _ => self.check(set),
        }
    }

    fn plan(&mut self, set: &[u64]) {
        let enough = set.len() as u64;
        let size = match self.rng.below(12) {
            0 => 0,
            1 | 2 => enough.saturating_sub(1),
            3 => enough + self.rng.between(1, 40),
            4 => self.rng.one_of([31, 32, 33, u64::MAX - 1, u64::MAX]),
            5 => self.rng.number(),
            _ => enough,
        };
        self.ask("plan", &[&[size], set].concat());
    }

    fn check(&mut self, set: &[u64]) {
        let mut order = self.order_of(set);
        for _ in 0..self.rng.one_of([0, 1, 1, 1, 1, 2]) {
            self.spoil_order(set, &mut order);
        }
        let line = format!("{} {}", words("check set", set), words("order", &order));
        let line = if self.rng.one_in(60) { self.spaced(&line) } else { line };
        self.say(line);
    }

    /// Begins the plugins of a set as planned, each once the one before it is Active.
    fn begin_in_order(&mut self, set: &[u64]) {
        self.plan(set);
        let order = self.order_of(set);
        if self.registry().check_order(set, &order) == Ok(true) {
            for id in order {
                self.raise(id, false);
            }
        }
    }

    /// The order that would be planned, or the set as it is.
    fn order_of(&self, set: &[u64]) -> Vec<u64> {
        let mut order = [0; MAX_PLUGINS];
        match self.registry().plan_order(set, &mut order) {
            Ok(Some(count)) => order[..count].to_vec(),
            _ => set.to_vec(),
        }
    }

    /// A set of ids, mostly of Idle plugins and with those that they need.
    fn set(&mut self) -> Vec<u64> {
        let mut idle: Vec<u64> =
            self.registry().registered().filter(|(_, p)| may_start(p)).map(|(id, _)| id).collect();
        self.rng.shuffle(&mut idle);
        let count = match self.rng.below(12) {
            0 => 0,
            1 => return idle,
            2..=5 => self.rng.between(1, 3),
            _ => self.rng.between(1, 10),
        };
        idle.truncate(count as usize);
        if !self.rng.one_in(4) {
            self.add_providers(&mut idle);
        }
        if !self.rng.one_in(4) {
            self.drop_stuck(&mut idle);
        }
        self.rng.shuffle(&mut idle);
        idle
    }

    fn is_startable(&self, id: u64) -> bool {
        self.registry().plugin(id).is_ok_and(may_start)
    }

    /// Adds the Idle plugins that those in the set need, be it through others.
    fn add_providers(&self, set: &mut Vec<u64>) {
        let mut n = 0;
        while n < set.len() {
            for &port in self.plugin(set[n]).dependencies() {
                let provider = self.registry().provider(port).filter(|(_, p)| may_start(p));
                if let Some((id, _)) = provider
                    && !set.contains(&id)
                {
                    set.push(id);
                }
            }
            n += 1;
        }
    }

    /// Takes out those that could not begin in any order.
    fn drop_stuck(&self, set: &mut Vec<u64>) {
        let mut begun: Vec<u64> = Vec::new();
        let provided = |port: &Port, begun: &[u64]| {
            let provider = self.registry().provider(*port);
            provider.is_some_and(|(id, p)| p.phase() == Phase::Active || begun.contains(&id))
        };
        let can = |id: u64, begun: &[u64]| {
            self.plugin(id).dependencies().iter().all(|port| provided(port, begun))
        };
        while let Some(&id) = set.iter().find(|&&id| !begun.contains(&id) && can(id, &begun)) {
            begun.push(id);
        }
        *set = begun;
    }

    /// Puts an id in that is refused, or many.
    fn spoil_set(&mut self, set: &mut Vec<u64>) {
        let bad = match self.rng.below(12) {
            0..=2 => self.rng.pick(set),
            3 => Some(self.strange_id()),
            4 => self.id_where(Plugin::retired),
            5 => self.id_where(|p| p.retired() && p.phase() != Phase::Idle),
            6 => self.id_where(|p| p.phase() == Phase::Loading),
            7 => self.id_where(|p| p.phase() == Phase::Active),
            8 => self.id_where(|p| p.phase() == Phase::Unloading),
            9 | 10 => self.id_where(|p| p.generation() == u64::MAX),
            _ => {
                // More than there are plugins.
                let more = self.rng.between(1, 40) as usize;
                let ids: Vec<u64> = (0..MAX_PLUGINS + more).map(|_| self.any_id()).collect();
                set.extend(ids);
                None
            }
        };
        if let Some(id) = bad {
            let place = self.rng.below(set.len() as u64 + 1) as usize;
            set.insert(place, id);
        }
    }

    /// Asks for orders with plugins that can't begin again, as their generation is the last,
    /// and with those that can once more.
    pub(super) fn order_worn(&mut self) {
        for _ in 0..self.rng.between(2, 4) {
            let mut set = self.set();
            if let Some(id) = self.id_where(|p| p.generation() >= u64::MAX - 1)
                && !set.contains(&id)
            {
                let place = self.rng.below(set.len() as u64 + 1) as usize;
                set.insert(place, id);
            }
            if self.rng.one_in(3) {
                self.spoil_set(&mut set);
            }
            self.order_set(&set);
        }
    }

    /// Changes an order: some changes keep it a good one.
    fn spoil_order(&mut self, set: &[u64], order: &mut Vec<u64>) {
        if order.is_empty() {
            let id = self.any_id();
            return order.push(id);
        }
        let [place, other] = [(); 2].map(|()| self.rng.below(order.len() as u64) as usize);
        let foreign = match self.rng.below(3) {
            0 => self.strange_id(),
            1 => self.any_id(),
            _ => self.id_where(may_start).unwrap_or(0),
        };
        match self.rng.below(16) {
            0 => self.rng.shuffle(order),
            1 => order.swap(place, other),
            2..=5 => self.turn_order(set, order),
            6 | 7 => {
                order.remove(place);
            }
            8 => order.insert(other, order[place]),
            9 => order[other] = order[place],
            10 | 11 => order.insert(place, foreign),
            12 => order[place] = foreign,
            13 => order[place..].rotate_left(1),
            14 => order.clear(),
            _ => {
                let times = self.rng.between(2, 6) as usize;
                *order = order.repeat(times);
            }
        }
    }

    /// Swaps neighbours as long as the order passes.
    fn turn_order(&mut self, set: &[u64], order: &mut [u64]) {
        for _ in 0..2 * order.len() {
            let place = self.rng.below(order.len() as u64) as usize;
            let next = (place + 1).min(order.len() - 1);
            order.swap(place, next);
            if self.registry().check_order(set, order) != Ok(true) {
                order.swap(place, next);
            }
        }
    }

    /// Registers a pier, and asks for orders of it.
    pub(super) fn pier(&mut self) {
        let first = self.registry().next();
        self.register_pier();
        for _ in 0..self.rng.between(2, 6) {
            let mut set: Vec<u64> =
                (first..self.registry().next()).filter(|id| self.is_startable(*id)).collect();
            if set.is_empty() {
                return;
            }
            if self.rng.one_in(2) {
                self.drop_stuck(&mut set);
            }
            self.rng.shuffle(&mut set);
            if self.rng.one_in(6) {
                self.spoil_set(&mut set);
            }
            self.order_set(&set);
        }
    }

    /// Registers plugins, as many as there is place for, of which each may need others.
    /// Their ids don't follow the order in which they can begin.
    fn register_pier(&mut self) {
        let free = MAX_PLUGINS - self.registry().count() as usize;
        let all = MAX_PLUGINS;
        let count = self.rng.one_of([2, 3, 4, 5, 6, 7, 8, 9, 10, 12, all, all]).min(free);
        let mut ranks: Vec<usize> = (0..count).collect();
        self.rng.shuffle(&mut ranks);
        let ports: Vec<Port> = (0..count).map(|_| self.fresh_port()).collect();
        let chain = self.rng.one_in(4);
        // Some piers have needs that go round, or that others must meet.
        let (round, open) = (self.rng.one_in(3), self.rng.one_in(2));
        let family = self.rng.one_in(6);
        for n in 0..count {
            let mut draft = self.tiny_draft();
            draft.parent = draft.parent.filter(|_| family);
            if self.rng.one_in(4) {
                draft.anchor = ports[n];
            } else {
                draft.provide(ports[n]);
            }
            for other in 0..count {
                let earlier = ranks[other] < ranks[n];
                let before = ranks[other] + 1 == ranks[n];
                let some = earlier && self.rng.one_in(1 + count as u64 / 2);
                let needs = if chain { before } else { some };
                if needs || round && !earlier && self.rng.one_in(4 * count as u64) {
                    draft.need(ports[other]);
                }
            }
            if open && self.rng.one_in(4) {
                let active = self.rng.one_in(2);
                let port = self.provided_port(active).unwrap_or(Port::new(1, 0));
                draft.need(port);
            }
            self.register(&draft);
        }
    }
}

/// Whether a plugin may be in a set.
fn may_start(plugin: &Plugin) -> bool {
    plugin.phase() == Phase::Idle && !plugin.retired() && plugin.generation() < u64::MAX
}
