//! A text as records: told of a registry, read and written, line by line and slowly.
//!
//! Nothing here is shared with the registry's own writing and reading, so that both
//! can be held against it.

use std::collections::{BTreeMap, VecDeque};

use crate::admission::Root;
use crate::phases::Phase;
use crate::plugin::Plugin;
use crate::ports::{Edition, Port};
use crate::registry::Registry;

/// What a text tells, with any numbers: it need not meet a condition.
#[derive(Clone, Debug, PartialEq, Eq)]
pub struct Sheet {
    pub domain: u64,
    pub first: u64,
    pub next: u64,
    /// In the text's order.
    pub plugins: Vec<Leaf>,
}

/// What it tells of one plugin.
#[derive(Clone, Debug, PartialEq, Eq)]
pub struct Leaf {
    pub id: u64,
    pub parent: Option<u64>,
    pub phase: Phase,
    pub retired: bool,
    pub generation: u64,
    pub revision: u64,
    pub payload: u64,
    pub root: Root,
    pub anchor: Port,
    pub edition: Edition,
    /// Each row as the port that its key resolves to.
    pub realms: Vec<Port>,
    pub dependencies: Vec<Port>,
    /// With the values.
    pub provisions: Vec<(Port, Option<u64>)>,
}

/// How a dependency list is finished: by the rule, or by a slip.
#[derive(Clone, Copy)]
pub struct Rule {
    /// Whether the anchor is skipped among what is inherited. Before document 02 it
    /// was not.
    pub skips_anchor: bool,
    /// The edition by which inherited keys are resolved again: the plugin's own.
    pub again: Edition,
}

impl Sheet {
    /// What a registry holds.
    pub fn of(registry: &Registry) -> Self {
        let by_id: BTreeMap<u64, &Plugin> = registry.registered().collect();
        Self {
            domain: registry.domain(),
            first: registry.first(),
            next: registry.next(),
            plugins: by_id.into_iter().map(|(id, plugin)| Leaf::of(id, plugin)).collect(),
        }
    }

    /// What a text tells; none if it has not the form.
    pub fn read(text: &[u8]) -> Option<Self> {
        let lines = str::from_utf8(text).ok()?.split('\n').collect();
        let sheet = Page(lines).sheet()?;
        // The page is read with some lenience. But what is written of it must be the
        // text, byte for byte.
        (sheet.text().as_bytes() == text).then_some(sheet)
    }

    pub fn text(&self) -> String {
        let mut lines = vec![
            format!("domain={}", self.domain),
            format!("first={}", self.first),
            format!("next={}", self.next),
            format!("plugins={}", self.plugins.len()),
        ];
        for plugin in &self.plugins {
            plugin.tell(&mut lines);
        }
        lines.iter().map(|line| format!("{line}\n")).collect()
    }

    /// The rows that all plugins take.
    pub fn rows(&self) -> usize {
        self.plugins.iter().map(|p| p.dependencies.len() + p.provisions.len() + 1).sum()
    }

    /// What it tells once it is loaded.
    pub fn loaded(mut self, domain: u64) -> Self {
        self.domain = domain;
        for plugin in &mut self.plugins {
            if let Root::Queued { .. } = plugin.root {
                plugin.root = Root::Unissued;
            }
        }
        self
    }
}

impl Leaf {
    fn of(id: u64, plugin: &Plugin) -> Self {
        let valued = |&port: &Port| (port, plugin.value(port));
        Self {
            id,
            parent: plugin.parent(),
            phase: plugin.phase(),
            retired: plugin.retired(),
            generation: plugin.generation(),
            revision: plugin.record().revision,
            payload: plugin.record().payload,
            root: plugin.root(),
            anchor: plugin.anchor(),
            edition: plugin.edition(),
            realms: plugin.realms().to_vec(),
            dependencies: plugin.dependencies().to_vec(),
            provisions: plugin.provisions().iter().map(valued).collect(),
        }
    }

    /// Whether a port is one of its provisions.
    pub fn provides(&self, port: Port) -> bool {
        self.provisions.iter().any(|(other, _)| *other == port)
    }

    /// Whether it is the port's provider, by a provision or the anchor.
    pub fn has(&self, port: Port) -> bool {
        self.provides(port) || self.anchor == port
    }

    /// Whether it is Loading or Active.
    pub fn is_up(&self) -> bool {
        self.phase == Phase::Loading || self.phase == Phase::Active
    }

    /// The port that a key resolves to by its realms and its edition.
    pub fn resolve(&self, key: u64) -> Port {
        self.resolve_by(self.edition, key)
    }

    /// The port that a key resolves to by its realms and some edition.
    fn resolve_by(&self, edition: Edition, key: u64) -> Port {
        let row = self.realms.iter().find(|row| row.key == key);
        let realm = match edition {
            Edition::First => 0,
            Edition::Second { default } => default,
        };
        row.copied().unwrap_or(Port { key, realm })
    }

    /// The rule for its dependency list.
    pub fn rule(&self) -> Rule {
        Rule { skips_anchor: true, again: self.edition }
    }

    /// The dependency list that a rule gives.
    pub fn finished(&self, declared: &[Port], inherited: &[Port], rule: Rule) -> Vec<Port> {
        let mut list = declared.to_vec();
        for port in inherited {
            for port in [*port, self.resolve_by(rule.again, port.key)] {
                let own = self.provides(port) || rule.skips_anchor && self.anchor == port;
                if !own && !list.contains(&port) {
                    list.push(port);
                }
            }
        }
        list
    }

    fn tell(&self, lines: &mut Vec<String>) {
        let phase = match self.phase {
            Phase::Idle => 0,
            Phase::Loading => 1,
            Phase::Active => 2,
            Phase::Unloading => 3,
        };
        let (root, queued) = match self.root {
            Root::Unissued => (0, "none".to_string()),
            Root::Queued { revision, argument } => (1, format!("{revision},{argument}")),
            Root::Spent => (2, "none".to_string()),
        };
        let pair = |port: &Port| format!("{},{}", port.key, port.realm);
        lines.extend([
            format!("id={}", self.id),
            format!("parent={}", or_none(self.parent)),
            format!("phase={phase}"),
            format!("retired={}", if self.retired { 1 } else { 0 }),
            format!("generation={}", self.generation),
            format!("revision={}", self.revision),
            format!("payload={}", self.payload),
            format!("root={root}"),
            format!("queued={queued}"),
            format!("anchor={}", pair(&self.anchor)),
        ]);
        lines.extend(match self.edition {
            Edition::First => ["edition=1".to_string(), "default=0".to_string()],
            Edition::Second { default } => ["edition=2".to_string(), format!("default={default}")],
        });
        lines.push(format!("realms={}", self.realms.len()));
        lines.extend(self.realms.iter().map(|row| format!("realm={}", pair(row))));
        lines.push(format!("deps={}", self.dependencies.len()));
        lines.extend(self.dependencies.iter().map(|port| format!("dep={}", pair(port))));
        lines.push(format!("provs={}", self.provisions.len()));
        let valued = |(port, value): &(Port, Option<u64>)| {
            format!("prov={},{}", pair(port), or_none(*value))
        };
        lines.extend(self.provisions.iter().map(valued));
    }
}

fn or_none(number: Option<u64>) -> String {
    number.map_or("none".to_string(), |number| number.to_string())
}

/// Lines still to be read, the next one first.
struct Page<'t>(VecDeque<&'t str>);

impl<'t> Page<'t> {
    fn sheet(mut self) -> Option<Sheet> {
        let domain = self.number("domain=")?;
        let first = self.number("first=")?;
        let next = self.number("next=")?;
        self.value("plugins=")?;
        let mut plugins = Vec::new();
        while self.comes("id=") {
            plugins.push(self.leaf()?);
        }
        Some(Sheet { domain, first, next, plugins })
    }

    fn leaf(&mut self) -> Option<Leaf> {
        Some(Leaf {
            id: self.number("id=")?,
            parent: number_or_none(self.value("parent=")?)?,
            phase: match self.value("phase=")? {
                "0" => Phase::Idle,
                "1" => Phase::Loading,
                "2" => Phase::Active,
                "3" => Phase::Unloading,
                _ => return None,
            },
            retired: match self.value("retired=")? {
                "0" => false,
                "1" => true,
                _ => return None,
            },
            generation: self.number("generation=")?,
            revision: self.number("revision=")?,
            payload: self.number("payload=")?,
            root: match (self.value("root=")?, self.value("queued=")?) {
                ("0", "none") => Root::Unissued,
                ("1", queued) => {
                    let Port { key: revision, realm: argument } = pair(queued)?;
                    Root::Queued { revision, argument }
                }
                ("2", "none") => Root::Spent,
                _ => return None,
            },
            anchor: pair(self.value("anchor=")?)?,
            edition: match (self.value("edition=")?, self.value("default=")?) {
                ("1", "0") => Edition::First,
                ("2", default) => Edition::Second { default: default.parse().ok()? },
                _ => return None,
            },
            realms: self.list("realms=", "realm=", pair)?,
            dependencies: self.list("deps=", "dep=", pair)?,
            provisions: self.list("provs=", "prov=", |value| {
                let (port, value) = value.rsplit_once(',')?;
                Some((pair(port)?, number_or_none(value)?))
            })?,
        })
    }

    fn comes(&self, name: &str) -> bool {
        self.0.front().is_some_and(|line| line.starts_with(name))
    }

    /// What stands behind the name on the next line.
    fn value(&mut self, name: &str) -> Option<&'t str> {
        self.0.pop_front()?.strip_prefix(name)
    }

    fn number(&mut self, name: &str) -> Option<u64> {
        self.value(name)?.parse().ok()
    }

    /// As many lines as there are, whatever the count says.
    fn list<T>(
        &mut self,
        count: &str,
        name: &str,
        read: impl Fn(&str) -> Option<T>,
    ) -> Option<Vec<T>> {
        self.value(count)?;
        let mut list = Vec::new();
        while self.comes(name) {
            list.push(read(self.value(name)?)?);
        }
        Some(list)
    }
}

fn pair(value: &str) -> Option<Port> {
    let (key, realm) = value.split_once(',')?;
    Some(Port { key: key.parse().ok()?, realm: realm.parse().ok()? })
}

fn number_or_none(value: &str) -> Option<Option<u64>> {
    if value == "none" { Some(None) } else { value.parse().ok().map(Some) }
}
