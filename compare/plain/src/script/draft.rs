//! Registrations: sound ones, spoilt ones, and ones made to reach a limit.

use std::collections::BTreeMap;

use super::{Script, words};
use crate::phases::Phase;
use crate::plugin::Plugin;
use crate::ports::{MAX_REALM_ROWS, Port};
use crate::registration::{MAX_DEPENDENCIES, MAX_DEPENDENCY_KEYS, MAX_PROVISION_KEYS, MAX_ROWS};

/// A registration in the making.
#[derive(Clone, Debug)]
pub(super) struct Draft {
    pub(super) parent: Option<u64>,
    pub(super) anchor: Port,
    pub(super) payload: u64,
    pub(super) edition: u64,
    pub(super) default: u64,
    pub(super) rows: BTreeMap<u64, u64>,
    pub(super) dependencies: Vec<u64>,
    pub(super) provisions: Vec<u64>,
}

impl Draft {
    /// A registration with nothing but an anchor, in edition 1.
    pub(super) fn bare(anchor: Port, payload: u64) -> Self {
        Self {
            parent: None,
            anchor,
            payload,
            edition: 1,
            default: 0,
            rows: BTreeMap::new(),
            dependencies: Vec::new(),
            provisions: Vec::new(),
        }
    }

    fn resolve(&self, key: u64) -> Port {
        let default = if self.edition == 2 { self.default } else { 0 };
        Port::new(key, self.rows.get(&key).copied().unwrap_or(default))
    }

    /// Lets the key resolve to this port. Its default realm needs no row.
    fn aim(&mut self, port: Port) {
        if self.resolve(port.key) != port {
            self.rows.insert(port.key, port.realm);
        }
    }

    /// Provides this port, if its key has no other use yet.
    pub(super) fn provide(&mut self, port: Port) {
        if !self.names(port.key) {
            self.aim(port);
            self.provisions.push(port.key);
        }
    }

    /// Depends on this port, if its key has no other use yet.
    pub(super) fn need(&mut self, port: Port) {
        if !self.names(port.key) {
            self.aim(port);
            self.dependencies.push(port.key);
        }
    }

    fn names(&self, key: u64) -> bool {
        self.dependencies.contains(&key) || self.provisions.contains(&key)
    }

    /// Lets keys 1 to 16 resolve to this realm by rows, where they are needed.
    pub(super) fn turn_16(&mut self, realm: u64) {
        for key in 1..=16 {
            self.aim(Port::new(key, realm));
        }
    }

    /// Whether no registration may name its edition.
    fn is_of_another_edition(&self) -> bool {
        self.edition != 1 && self.edition != 2
    }

    /// The realm rows as a list of key, realm, key, realm.
    pub(super) fn realms(&self) -> Vec<u64> {
        self.rows.iter().flat_map(|(&key, &realm)| [key, realm]).collect()
    }

    pub(super) fn line(&self, realms: &[u64]) -> String {
        let parent = self.parent.map_or("none".to_string(), |id| id.to_string());
        let Port { key, realm } = self.anchor;
        let Self { payload, edition, default, .. } = self;
        let start = format!("register {parent} {key} {realm} {payload} {edition} {default}");
        let realms = words("realms", realms);
        let dependencies = words("deps", &self.dependencies);
        let provisions = words("provs", &self.provisions);
        format!("{start} {realms} {dependencies} {provisions}")
    }
}

impl Script {
    /// Registers; answers whether it was accepted.
    pub(super) fn register(&mut self, draft: &Draft) -> bool {
        let line = draft.line(&draft.realms());
        self.say(line)
    }

    /// Registers a sound draft, or one spoilt in one to three ways.
    pub(super) fn register_any(&mut self) -> bool {
        let mut draft = self.sound_draft();
        if self.rng.one_in(2) {
            return self.register(&draft);
        }
        for _ in 0..self.rng.one_of([1, 1, 2, 3]) {
            self.spoil(&mut draft);
        }
        let mut realms = draft.realms();
        // The edition is looked at before the rows.
        let spoilt = if draft.is_of_another_edition() { 2 } else { 4 };
        if self.rng.one_in(spoilt) {
            self.spoil_realms(&mut realms);
        }
        let line = draft.line(&realms);
        let line = if self.rng.one_in(40) { self.spaced(&line) } else { line };
        self.say(line)
    }

    /// A draft with free ports of its own and dependencies that are provided.
    pub(super) fn sound_draft(&mut self) -> Draft {
        let mut draft = Draft::bare(Port::new(0, 0), self.rng.number());
        if self.rng.one_in(2) {
            draft.parent = self.id_where(may_be_parent);
        }
        (draft.edition, draft.default) = self.edition_for(draft.parent);
        // With its parent's rows a child inherits little that is new.
        if let Some(parent) = draft.parent
            && !self.rng.one_in(3)
        {
            let rows = self.plugin(parent).realms();
            draft.rows = rows.iter().map(|row| (row.key, row.realm)).collect();
        }
        for _ in 0..self.rng.one_of([0, 1, 1, 2, 3]) {
            let active = !self.rng.one_in(4);
            if let Some(port) = self.provided_port(active) {
                draft.need(port);
            }
        }
        for _ in 0..self.rng.one_of([0, 1, 1, 2, 3, 5]) {
            let port = self.free_port();
            draft.provide(port);
        }
        for _ in 0..self.rng.below(3) {
            let port = self.common_port();
            if !draft.names(port.key) {
                draft.rows.insert(port.key, port.realm);
            }
        }
        draft.anchor = self.anchor_for(&draft);
        draft
    }

    /// An edition and a default, which edition 1 ignores: often the parent's, and mostly
    /// a realm in use.
    fn edition_for(&mut self, parent: Option<u64>) -> (u64, u64) {
        let of_parent = parent.map(|id| self.plugin(id).edition());
        let of_parent = of_parent.map_or((1, 0), |of| (of.number(), of.default_realm()));
        if self.rng.one_in(3) {
            return of_parent;
        }
        let default = match self.rng.below(8) {
            0 => 0,
            1 => of_parent.1,
            2 => self.rng.number(),
            _ => self.rng.between(1, self.life.realms - 1),
        };
        (self.rng.one_of([1, 2, 2]), default)
    }

    /// A draft that provides this port for a plugin in need. It depends on nothing, or is
    /// the needy one's child and has the port as its anchor.
    pub(super) fn provider_draft(&mut self, needy: u64, port: Port) -> Draft {
        if self.rng.one_in(3) {
            let mut draft = Draft::bare(port, self.rng.number());
            if self.rng.one_in(2) && may_be_parent(self.plugin(needy)) {
                draft.parent = Some(needy);
            }
            return draft;
        }
        let mut draft = Draft::bare(self.fresh_port(), self.rng.number());
        if self.rng.one_in(3) {
            (draft.edition, draft.default) = (2, port.realm);
        }
        draft.provide(port);
        draft
    }

    /// Makes one thing wrong, odd, or just as much as is allowed.
    fn spoil(&mut self, draft: &mut Draft) {
        match self.rng.below(19) {
            0 => {
                let keys = self.rng.one_of([16, 17, 17, 18, 40]);
                draft.dependencies = self.keys(keys);
            }
            1 => {
                let keys = self.rng.one_of([15, 16, 16, 17, 40]);
                draft.provisions = self.keys(keys);
            }
            2 => draft.parent = Some(self.strange_id()),
            3 | 4 => draft.parent = self.id_where(Plugin::retired).or(draft.parent),
            5 => {
                let unloading = self.id_where(|p| p.phase() == Phase::Unloading);
                draft.parent = unloading.or(draft.parent);
            }
            6 => {
                let key = self.rng.pick(&draft.dependencies).unwrap_or(3);
                draft.dependencies.extend([key, key]);
            }
            7 => {
                let key = self.rng.pick(&draft.provisions).unwrap_or(3);
                draft.provisions.extend([key, key]);
            }
            8 => {
                if let Some(key) = self.rng.pick(&draft.provisions) {
                    draft.anchor = draft.resolve(key);
                }
            }
            9 | 10 => {
                if let Some(port) = self.provided_port(false) {
                    draft.provisions.retain(|&key| key != port.key);
                    draft.rows.insert(port.key, port.realm);
                    draft.provisions.push(port.key);
                }
            }
            11 => draft.anchor = self.provided_port(false).unwrap_or(draft.anchor),
            12 => {
                // Depends on itself: accepted, and never to begin.
                let own = self.rng.pick(&draft.provisions);
                let port = own.map_or(draft.anchor, |key| draft.resolve(key));
                draft.rows.insert(port.key, port.realm);
                draft.dependencies.retain(|&key| key != port.key);
                draft.dependencies.push(port.key);
            }
            13 => {
                draft.rows.clear();
                while draft.rows.len() < MAX_REALM_ROWS {
                    let port = Port::new(self.rng.below(24), self.rng.below(4));
                    draft.rows.insert(port.key, port.realm);
                }
            }
            14 => {
                let longest = self.longest_parent();
                draft.parent = longest.or(draft.parent);
                let realm = self.rng.between(1, 5);
                self.turn_rows(draft, MAX_REALM_ROWS, realm);
            }
            15 | 16 => {
                let any = self.rng.number();
                draft.edition = self.rng.one_of([0, 3, 3, u64::MAX, any]);
            }
            17 => (draft.edition, draft.default) = self.edition_for(None),
            _ => draft.dependencies.push(self.rng.number()),
        }
    }

    /// Breaks a realm list in one of the ways there are.
    pub(super) fn spoil_realms(&mut self, realms: &mut Vec<u64>) {
        match self.rng.below(6) {
            0 => realms.push(self.rng.number()),
            1 => {
                realms.pop();
            }
            2 => {
                let rows = self.rng.one_of([17, 17, 18, 24]);
                *realms = (0..rows).flat_map(|key| [3 * key, key]).collect();
            }
            3 if realms.len() >= 2 => {
                let row = [realms[0], self.rng.below(4)];
                realms.splice(0..0, row);
            }
            4 if realms.len() >= 4 => {
                let last = realms.len() / 2 * 2;
                realms.swap(last - 4, last - 2);
            }
            _ => *realms = self.rng.one_of([[2, 5, 2, 1], [9, 1, 2, 5], [2, 5, 2, 5]]).to_vec(),
        }
    }

    /// So many different keys in any order.
    pub(super) fn keys(&mut self, count: u64) -> Vec<u64> {
        let start = self.rng.one_of([0, 0, 30, 1000, u64::MAX - 60]);
        let mut keys: Vec<u64> = (start..start + count).collect();
        self.rng.shuffle(&mut keys);
        keys
    }

    /// A port from the few that this life uses.
    pub(super) fn common_port(&mut self) -> Port {
        Port::new(self.rng.below(self.life.keys), self.rng.below(self.life.realms))
    }

    /// A port that somebody provides, if wished an Active one.
    pub(super) fn provided_port(&mut self, active: bool) -> Option<Port> {
        let id = self.id_where(|p| !active || p.phase() == Phase::Active)?;
        let plugin = self.plugin(id);
        let (anchor, provisions) = (plugin.anchor(), plugin.provisions().to_vec());
        let provision = self.rng.pick(&provisions).filter(|_| !self.rng.one_in(4));
        Some(provision.unwrap_or(anchor))
    }

    /// A port that somebody depends on and nobody provides.
    fn wanted_port(&mut self) -> Option<Port> {
        let id = self.id_where(|p| !p.dependencies().is_empty())?;
        let ports: Vec<Port> = self.plugin(id).dependencies().to_vec();
        self.rng.pick(&ports).filter(|port| self.is_free(*port))
    }

    /// A port that nobody provides, rather one that is wanted.
    fn free_port(&mut self) -> Port {
        if self.rng.one_in(2)
            && let Some(port) = self.wanted_port()
        {
            return port;
        }
        for _ in 0..6 {
            let port = self.common_port();
            if self.is_free(port) {
                return port;
            }
        }
        self.fresh_port()
    }

    /// A port that nobody has heard of.
    pub(super) fn fresh_port(&mut self) -> Port {
        let key = self.rng.between(100_000, 1_000_000_000);
        Port::new(key, self.rng.below(3))
    }

    /// A free port that is none of the draft's provisions.
    fn anchor_for(&mut self, draft: &Draft) -> Port {
        for _ in 0..4 {
            let port = self.free_port();
            if draft.provisions.iter().all(|&key| draft.resolve(key) != port) {
                return port;
            }
        }
        self.fresh_port()
    }

    /// The plugin with the longest dependency list that may have children.
    fn longest_parent(&self) -> Option<u64> {
        self.registry()
            .registered()
            .filter(|(_, p)| may_be_parent(p))
            .max_by_key(|(_, p)| p.dependencies().len())
            .map(|(id, _)| id)
    }

    /// Turns so many of the parent's keys to another realm.
    fn turn_rows(&mut self, draft: &mut Draft, count: usize, realm: u64) {
        let Some(parent) = draft.parent.filter(|&id| self.registry().plugin(id).is_ok()) else {
            return;
        };
        let mut keys: Vec<u64> =
            self.plugin(parent).dependencies().iter().map(|port| port.key).collect();
        keys.sort_unstable();
        keys.dedup();
        self.rng.shuffle(&mut keys);
        draft.rows = keys.into_iter().take(count.min(MAX_REALM_ROWS)).map(|k| (k, realm)).collect();
    }

    /// A draft towards dependency lists of 48 ports, and past them.
    pub(super) fn long_draft(&mut self) -> Draft {
        let mut draft = Draft::bare(self.fresh_port(), self.rng.number());
        let parent =
            if self.rng.one_in(4) { self.id_where(may_be_parent) } else { self.longest_parent() };
        let length = parent.map_or(0, |id| self.plugin(id).dependencies().len());
        if length < 10 {
            let count = self.rng.between(12, 16);
            (draft.edition, draft.default) = self.edition_for(None);
            draft.dependencies = (0..count).collect();
            self.rng.shuffle(&mut draft.dependencies);
            return draft;
        }
        draft.parent = parent;
        (draft.edition, draft.default) = self.edition_for(parent);
        // One time in two the list shall get exactly this long.
        let aim = MAX_DEPENDENCIES + self.rng.below(2) as usize;
        let short = aim.saturating_sub(length);
        match self.rng.below(4) {
            0 => {
                let (count, realm) = (self.rng.below(17) as usize, self.rng.between(1, 5));
                self.turn_rows(&mut draft, count, realm);
            }
            1 if short <= MAX_DEPENDENCY_KEYS => {
                let start = self.rng.between(100, 200);
                draft.dependencies = (start..start + short as u64).collect();
            }
            2 => {
                let realm = self.rng.between(6, 1000);
                self.turn_rows(&mut draft, short, realm);
            }
            _ => {
                for _ in 0..self.rng.below(3) {
                    let port = self.free_port();
                    draft.provide(port);
                }
            }
        }
        draft
    }

    /// A draft towards 1,024 rows in use, and past them.
    pub(super) fn filling_draft(&mut self) -> Draft {
        let room = MAX_ROWS - self.registry().rows();
        if let Some(parent) = self.longest_parent()
            && room > self.plugin(parent).dependencies().len() as u64
            && !self.rng.one_in(6)
        {
            let mut draft = Draft::bare(self.fresh_port(), self.rng.number());
            draft.parent = Some(parent);
            (draft.edition, draft.default) =
                self.rng.one_of([(1, 0), (1, 5), (2, 0), (2, 1), (2, 2)]);
            return draft;
        }
        let need = self.rng.one_of([room, room, room + 1, room + 1, room.max(2) - 1, 1]);
        self.draft_of_rows(need)
    }

    /// A draft that needs so many rows, or as many as one can without a parent.
    fn draft_of_rows(&mut self, need: u64) -> Draft {
        let keys = need.max(1) - 1;
        let most = MAX_DEPENDENCY_KEYS as u64;
        let low = keys.saturating_sub(MAX_PROVISION_KEYS as u64).min(most);
        let dependencies = self.rng.between(low, keys.min(most));
        let provisions = (keys - dependencies).min(MAX_PROVISION_KEYS as u64);
        let mut draft = Draft::bare(self.fresh_port(), self.rng.number());
        (draft.edition, draft.default) = self.edition_for(None);
        draft.dependencies = (0..dependencies).collect();
        let start = self.rng.between(10_000, 90_000);
        draft.provisions = (start..start + provisions).collect();
        draft
    }

    /// A draft with as little as there can be, so that places run out first.
    pub(super) fn tiny_draft(&mut self) -> Draft {
        let mut draft = Draft::bare(self.fresh_port(), self.rng.number());
        if self.rng.one_in(3) {
            draft.parent = self.id_where(may_be_parent);
        }
        (draft.edition, draft.default) = self.edition_for(draft.parent);
        draft
    }
}

fn may_be_parent(plugin: &Plugin) -> bool {
    !plugin.retired() && plugin.phase() != Phase::Unloading
}
