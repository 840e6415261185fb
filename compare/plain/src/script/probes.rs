//! Single operations with arguments that may be right, nearly right or wrong.

use super::Script;
use crate::admission::{Invocation, Root, Ticket};
use crate::phases::Phase;
use crate::plugin::Plugin;
use crate::ports::Port;
use crate::slot::Decision;

impl Script {
    pub(super) fn probe(&mut self) {
        match self.rng.below(42) {
            0 => self.probe_phase("begin", Phase::Idle),
            1 => self.probe_ready(),
            2 => self.probe_phase("fail", Phase::Loading),
            3 => self.probe_phase("unload", Phase::Active),
            4 => self.probe_phase("finish", Phase::Unloading),
            5 => self.probe_replace(),
            6 => self.probe_fits(),
            7..=9 => self.probe_admit(),
            10..=12 => self.probe_call(),
            13 => self.probe_retire(),
            14 | 15 => self.probe_retire_child(),
            16 | 17 => self.probe_remove(),
            18 => self.probe_id("child"),
            19..=21 => self.probe_offer(),
            22..=24 => self.probe_read(),
            25 => self.probe_visible(),
            26 => self.probe_id("missing"),
            27 => self.probe_matches(),
            28 => self.probe_declares(),
            29 => self.probe_lookup(),
            30 => self.probe_resolve(),
            31..=33 => self.probe_list(),
            34 => self.probe_buffer(),
            35 => self.probe_id("show"),
            36 | 37 => self.probe_id("edition"),
            _ => self.probe_slot(),
        }
    }

    /// Mostly a registered id, and else a strange one.
    pub(super) fn any_id(&mut self) -> u64 {
        if self.rng.one_in(6) {
            return self.strange_id();
        }
        self.id_where(|_| true).unwrap_or_else(|| self.rng.number())
    }

    /// An id that is most likely not registered: removed, not issued, or any.
    pub(super) fn strange_id(&mut self) -> u64 {
        let (first, next) = (self.registry().first(), self.registry().next());
        match self.rng.below(6) {
            0 | 1 => first + self.rng.below(next - first),
            2 => next,
            3 => next.wrapping_add(1),
            4 => first.wrapping_sub(1),
            _ => self.rng.number(),
        }
    }

    /// One time in so many a plugin of which this is true, and else any id.
    fn id_like(&mut self, one_in: u64, is: impl Fn(&Plugin) -> bool) -> u64 {
        if self.rng.one_in(one_in)
            && let Some(id) = self.id_where(is)
        {
            return id;
        }
        self.any_id()
    }

    /// Any port: common, provided, or with strange numbers.
    fn any_port(&mut self) -> Port {
        match self.rng.below(4) {
            0 => self.common_port(),
            1 => Port::new(self.rng.number(), self.rng.number()),
            _ => self.provided_port(false).unwrap_or(Port::new(0, 0)),
        }
    }

    /// A port of this plugin's own, or any other.
    fn port_of(&mut self, id: u64) -> Port {
        let Ok(plugin) = self.registry().plugin(id) else {
            return self.any_port();
        };
        let anchor = plugin.anchor();
        let (needs, gives) = (plugin.dependencies().to_vec(), plugin.provisions().to_vec());
        let port = match self.rng.below(8) {
            0..=2 => self.rng.pick(&needs),
            3..=5 => self.rng.pick(&gives),
            6 => Some(anchor),
            _ => None,
        };
        port.unwrap_or_else(|| self.any_port())
    }

    fn probe_id(&mut self, operation: &str) {
        let id = self.any_id();
        self.ask(operation, &[id]);
    }

    /// A step between phases, rarely where it would be accepted: the lives see
    /// to that.
    fn probe_phase(&mut self, step: &str, from: Phase) {
        let id = match self.rng.below(6) {
            0 => self.id_like(1, |p| p.phase() == from && !p.retired()),
            1 => self.id_like(1, |p| p.phase() == from && p.retired()),
            2 => self.id_like(1, Plugin::retired),
            _ => self.id_like(1, |p| p.phase() != from),
        };
        if step == "begin" {
            self.begin(id);
        } else {
            self.ask(step, &[id]);
        }
    }

    fn probe_ready(&mut self) {
        if self.rng.one_in(2) {
            return self.probe_phase("ready", Phase::Loading);
        }
        let id = self.id_like(1, |p| p.phase() == Phase::Loading);
        self.ask("ready", &[id]);
    }

    fn probe_replace(&mut self) {
        let id = self.any_id();
        let same = self.registry().plugin(id).ok().map(|p| p.record().payload);
        let payload = same.filter(|_| self.rng.one_in(2)).unwrap_or_else(|| self.rng.number());
        self.ask("replace", &[id, payload]);
    }

    fn probe_fits(&mut self) {
        let id = self.any_id();
        let revision = self.registry().plugin(id).map_or(0, |p| p.record().revision);
        let most = u64::MAX - revision;
        let count = match self.rng.below(4) {
            0 => most,
            1 => most.saturating_add(1),
            2 => u64::MAX,
            _ => self.rng.number(),
        };
        self.ask("fits", &[id, count]);
    }

    fn probe_admit(&mut self) {
        let old: Vec<Ticket> = self.tickets.iter().copied().collect();
        let live = match self.rng.below(5) {
            0 => self.rng.pick(&old),
            1 => self.id_where(|_| true).map(|id| self.ticket(id)),
            2 => self.id_where(Plugin::retired).map(|id| self.ticket(id)),
            3 => self.id_where(|p| p.root() != Root::Unissued).map(|id| self.ticket(id)),
            _ => self.id_where(|p| p.phase() == Phase::Loading).map(|id| self.ticket(id)),
        };
        let id = self.any_id();
        let domain = self.registry().domain();
        let mut ticket = live.unwrap_or(Ticket { domain, id, generation: 1, kind: 1 });
        for _ in 0..self.rng.one_of([0, 1, 1, 1, 2]) {
            match self.rng.below(6) {
                0 => ticket.domain = self.rng.nudge(ticket.domain),
                1 => ticket.kind = self.rng.nudge(ticket.kind),
                2 => ticket.id = self.strange_id(),
                _ => ticket.generation = self.rng.nudge(ticket.generation),
            }
        }
        let argument = self.rng.number();
        self.admit(ticket, argument);
    }

    fn probe_call(&mut self) {
        let old: Vec<Invocation> = self.invocations.iter().copied().collect();
        let queued = |p: &Plugin| matches!(p.root(), Root::Queued { .. });
        let base = match self.rng.below(5) {
            0 => self.rng.pick(&old),
            1 => self.id_where(queued).and_then(|id| self.queued(id)),
            2 => self.id_where(|p| queued(p) && p.retired()).and_then(|id| self.queued(id)),
            3 => {
                let loading = self.id_where(|p| p.phase() == Phase::Loading);
                loading.map(|id| self.invocation_of(id))
            }
            _ => self.id_where(|_| true).map(|id| self.invocation_of(id)),
        };
        let id = self.any_id();
        let domain = self.registry().domain();
        let mut asked =
            base.unwrap_or(Invocation { domain, id, generation: 1, revision: 0, argument: 0 });
        for _ in 0..self.rng.one_of([0, 1, 1, 1, 2]) {
            match self.rng.below(6) {
                0 => asked.domain = self.rng.nudge(asked.domain),
                1 => asked.id = self.strange_id(),
                2 => asked.generation = self.rng.nudge(asked.generation),
                3 => asked.revision = self.rng.nudge(asked.revision),
                _ => asked.argument = self.rng.nudge(asked.argument),
            }
        }
        self.call(asked);
    }

    /// What an invocation of this plugin would be now, with any argument.
    fn invocation_of(&mut self, id: u64) -> Invocation {
        let argument = self.rng.number();
        let domain = self.registry().domain();
        let plugin = self.plugin(id);
        let (generation, revision) = (plugin.generation(), plugin.record().revision);
        Invocation { domain, id, generation, revision, argument }
    }

    fn probe_retire(&mut self) {
        let id = self.id_like(2, Plugin::retired);
        self.ask("retire", &[id]);
    }

    fn probe_retire_child(&mut self) {
        let removed: Vec<_> = self.removed.iter().copied().collect();
        let domain = self.registry().domain();
        let id = match self.rng.below(5) {
            0 => self.id_like(1, |p| p.parent().is_some()),
            1 => self.id_like(1, |p| p.parent().is_some() && p.retired()),
            2 => self.id_like(1, |p| p.parent().is_none()),
            _ => self.strange_id(),
        };
        let parent = self.registry().plugin(id).ok().and_then(Plugin::parent);
        let mut child = match self.rng.pick(&removed) {
            Some(child) if self.rng.one_in(5) => [child.domain, child.parent, child.id],
            _ => [domain, parent.unwrap_or_else(|| self.rng.number()), id],
        };
        if self.rng.one_in(3) {
            child[1] = self.rng.nudge(child[1]);
        }
        if self.rng.one_in(6) {
            child[0] = self.rng.nudge(child[0]);
        }
        self.ask("retire_child", &child);
    }

    fn probe_remove(&mut self) {
        let id = match self.rng.below(4) {
            0 => self.id_like(1, Plugin::retired),
            1 => self.id_like(1, |p| p.phase() == Phase::Idle),
            2 => {
                let parents: Vec<u64> =
                    self.registry().registered().filter_map(|(_, p)| p.parent()).collect();
                self.rng.pick(&parents).unwrap_or(0)
            }
            _ => self.any_id(),
        };
        self.remove(id);
    }

    fn probe_offer(&mut self) {
        let id = match self.rng.below(4) {
            0 | 1 => self.id_like(1, |p| p.phase() == Phase::Loading),
            2 => self.id_like(1, |p| p.phase() == Phase::Loading && p.retired()),
            _ => self.any_id(),
        };
        let (port, value) = (self.port_of(id), self.rng.number());
        let offered = self.offered_port(id).filter(|_| self.rng.one_in(3));
        self.offer(id, offered.unwrap_or(port), value);
    }

    /// A provision of this plugin that has its value already.
    fn offered_port(&mut self, id: u64) -> Option<Port> {
        let plugin = self.registry().plugin(id).ok()?;
        let has_value = |port: &Port| plugin.value(*port).is_some();
        let ports: Vec<Port> = plugin.provisions().iter().copied().filter(has_value).collect();
        self.rng.pick(&ports)
    }

    fn probe_read(&mut self) {
        let id = self.id_like(1, |p| p.is_up() && !p.dependencies().is_empty());
        let id = if self.rng.one_in(3) { self.any_id() } else { id };
        let port = self.port_of(id);
        self.ask("read", &[id, port.key, port.realm]);
    }

    fn probe_visible(&mut self) {
        let id = self.id_like(1, |p| p.phase() == Phase::Active && !p.provisions().is_empty());
        let port = match self.offered_port(id) {
            Some(port) if self.rng.one_in(2) => port,
            _ => self.any_port(),
        };
        self.ask("visible", &[port.key, port.realm]);
    }

    fn probe_matches(&mut self) {
        let id = self.any_id();
        let mut list: Vec<u64> = vec![id];
        if let Ok(plugin) = self.registry().plugin(id) {
            list.extend(plugin.provisions().iter().flat_map(|port| [port.key, port.realm]));
        }
        let last = list.len() - 1;
        match self.rng.below(8) {
            0 => list.push(self.rng.number()),
            1 => list.extend([self.rng.number(), self.rng.number()]),
            2 if last > 0 => list.truncate(last),
            3 if last > 0 => list.truncate(last - 1),
            4 if last > 0 => list[last] = self.rng.nudge(list[last]),
            5 if last > 2 => {
                list.swap(1, 3);
                list.swap(2, 4);
            }
            _ => {}
        }
        self.ask("matches", &list);
    }

    fn probe_declares(&mut self) {
        let id = self.any_id();
        let port = self.port_of(id);
        self.ask("declares", &[id, port.key, port.realm]);
    }

    fn probe_lookup(&mut self) {
        let id = self.any_id();
        let key = self.port_of(id).key;
        self.ask("lookup", &[id, key]);
    }

    fn probe_resolve(&mut self) {
        let rows = self.rng.one_of([0, 1, 2, 3, 15, 16, 16, 17]);
        let step = self.rng.between(1, 3);
        let mut list: Vec<u64> =
            (0..rows).flat_map(|row| [2 + step * row, self.rng.number()]).collect();
        if rows > 0 && self.rng.one_in(4) {
            list[2 * (rows as usize - 1)] = u64::MAX;
        }
        let any = self.rng.number();
        let listed = self.rng.pick(&list).unwrap_or(1);
        let default = self.rng.one_of([0, 1, any, listed]);
        let edition = match self.rng.below(9) {
            0 => self.rng.one_of([0, 3, u64::MAX, any]),
            1..=3 => 1,
            _ => 2,
        };
        if self.rng.one_in(3) {
            self.spoil_realms(&mut list);
        }
        let key = match self.rng.pick(&list) {
            Some(number) if !self.rng.one_in(3) => number,
            _ => self.rng.number(),
        };
        list.splice(0..0, [key, edition, default]);
        self.ask("resolve", &list);
    }

    fn probe_list(&mut self) {
        let list = self.rng.one_of(["deps", "provs", "realms"]);
        let id = self.any_id();
        let count = self.registry().plugin(id).map_or(0, |plugin| match list {
            "deps" => plugin.dependencies().len(),
            "provs" => plugin.provisions().len(),
            _ => plugin.realms().len(),
        });
        let last = 100 - 2 * count as u64;
        let place = match self.rng.below(8) {
            0 => last,
            1 => last + 1,
            2 => last.max(1) - 1,
            3 => self.rng.one_of([99, 100, 101, u64::MAX]),
            4 => self.rng.number(),
            _ => self.rng.below(101),
        };
        if self.ask(list, &[id, place]) && self.rng.one_in(3) {
            self.ask("buffer", &[0, 100]);
        }
    }

    fn probe_buffer(&mut self) {
        let mut place = || match self.rng.below(3) {
            0 => self.rng.one_of([0, 1, 99, 100, 101, u64::MAX]),
            1 => self.rng.number(),
            _ => self.rng.below(101),
        };
        let (from, to) = (place(), place());
        self.ask("buffer", &[from, to]);
    }

    fn probe_slot(&mut self) {
        let slot = self.console.slot();
        let decided = slot.decision != Decision::Pending;
        // A decided slot is soon put aside, or little more would come of it.
        match self.rng.below(if decided { 12 } else { 8 }) {
            0 => self.ask("slot reject", &[]),
            1 => self.ask("slot cancel", &[]),
            2..=5 => {
                let mut child = [slot.domain, slot.parent, self.any_id()];
                if self.rng.one_in(3) {
                    child[0] = self.rng.nudge(child[0]);
                }
                if self.rng.one_in(3) {
                    child[1] = self.rng.nudge(child[1]);
                }
                self.ask("slot assign", &child)
            }
            6 => {
                let child = [self.rng.number(), self.any_id(), self.any_id()];
                self.ask("slot assigned", &child)
            }
            _ => {
                let origin = [self.registry().domain(), self.any_id(), self.rng.number()];
                self.ask("slot pending", &origin)
            }
        };
    }
}
