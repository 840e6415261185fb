//! Random scripts for the console, the same for the same seed.
//!
//! The generator answers every line on a console of its own and looks at the
//! registry there to choose the next one. So plugins live through whole lives,
//! and every refusal that can be had is had often.

mod carry;
mod draft;
mod lives;
mod malformed;
mod orders;
mod probes;

use std::collections::VecDeque;
use std::fmt::Display;
use std::io::{self, Write};

use crate::admission::{Invocation, Root, SETUP, Ticket};
use crate::console::{Console, Line};
use crate::plugin::Plugin;
use crate::ports::Port;
use crate::registry::Registry;
use crate::retirement::Child;
use crate::rng::Rng;

use lives::Life;

/// How many old tickets, invocations and children are kept to be tried again.
const KEPT: usize = 16;

/// Writes a script of so many lines, the lines of texts not counted. For every fourth
/// seed the last line has no byte 10, and for every fourth the last line's text ends
/// too early, as a console must take that too.
pub fn write(seed: u64, lines: u64, out: &mut impl Write) -> io::Result<()> {
    let cut_end = seed % 4 == 1 && lines > 0;
    let mut script = Script::new(seed, if cut_end { lines - 1 } else { lines });
    while script.left > 0 {
        script.step();
        out.write_all(&script.text)?;
        script.text.clear();
    }
    if cut_end {
        script.left = 1;
        script.carry_cut();
        out.write_all(&script.text)?;
    }
    Ok(())
}

struct Script {
    rng: Rng,
    /// Lines still to be written.
    left: u64,
    /// Whether the last line goes without its byte 10.
    bare_end: bool,
    /// Lines written and not yet handed out.
    text: Vec<u8>,
    console: Console,
    answer: Vec<u8>,
    life: Life,
    tickets: VecDeque<Ticket>,
    invocations: VecDeque<Invocation>,
    removed: VecDeque<Child>,
    /// Texts of earlier registries.
    texts: VecDeque<Vec<u8>>,
    /// Domains from which a registry was carried to another.
    domains: VecDeque<u64>,
}

impl Script {
    fn new(seed: u64, lines: u64) -> Self {
        let mut rng = Rng::new(seed);
        // Every other script starts without an opening.
        let life = if rng.one_in(2) { Life::over() } else { Life::unopened() };
        Self {
            rng,
            left: lines,
            bare_end: seed % 4 == 3,
            text: Vec::new(),
            console: Console::new(),
            answer: Vec::new(),
            life,
            tickets: VecDeque::new(),
            invocations: VecDeque::new(),
            removed: VecDeque::new(),
            texts: VecDeque::new(),
            domains: VecDeque::new(),
        }
    }

    fn registry(&self) -> &Registry {
        self.console.registry()
    }

    /// Writes one line and answers it; answers whether it was accepted.
    fn say(&mut self, line: impl AsRef<[u8]>) -> bool {
        self.say_with(line.as_ref(), b"")
    }

    /// Writes one line with its text.
    fn say_with(&mut self, line: &[u8], text: &[u8]) -> bool {
        self.answer.clear();
        if self.left == 0 {
            return false;
        }
        self.left -= 1;
        self.life.left = self.life.left.saturating_sub(1);
        self.text.extend_from_slice(line);
        let mut line = Line { words: line, text };
        if self.left > 0 || !self.bare_end {
            self.text.push(b'\n');
            self.text.extend_from_slice(text);
        } else {
            // The input ends with the line, so there is no text.
            line.text = b"";
        }
        self.console.answer(line, &mut self.answer);
        self.answer.starts_with(b"ok")
    }

    /// Writes an operation and its numbers, now and then with spaces to spare.
    fn ask(&mut self, operation: &str, numbers: &[u64]) -> bool {
        let line = words(operation, numbers);
        if self.rng.one_in(60) {
            let line = self.spaced(&line);
            return self.say(line);
        }
        self.say(line)
    }

    /// The line with more spaces than it needs.
    fn spaced(&mut self, line: &str) -> String {
        let mut spaced = " ".repeat(self.rng.below(3) as usize);
        for word in line.split(' ') {
            spaced += word;
            spaced += &" ".repeat(1 + self.rng.below(3) as usize);
        }
        if self.rng.one_in(2) { spaced } else { spaced.trim_end().to_string() }
    }

    // The operations whose answers are kept, to be used and misused later.

    fn begin(&mut self, id: u64) -> bool {
        let accepted = self.ask("begin", &[id]);
        if accepted {
            let ticket = self.ticket(id);
            keep(&mut self.tickets, ticket);
        }
        accepted
    }

    fn admit(&mut self, ticket: Ticket, argument: u64) -> bool {
        let Ticket { domain, id, generation, kind } = ticket;
        let accepted = self.ask("admit", &[domain, id, generation, kind, argument]);
        if accepted {
            let revision = self.plugin(id).record().revision;
            let invocation = Invocation { domain, id, generation, revision, argument };
            keep(&mut self.invocations, invocation);
        }
        accepted
    }

    fn call(&mut self, asked: Invocation) -> bool {
        let Invocation { domain, id, generation, revision, argument } = asked;
        self.ask("call", &[domain, id, generation, revision, argument])
    }

    fn remove(&mut self, id: u64) -> bool {
        let parent = self.registry().plugin(id).ok().and_then(Plugin::parent);
        let child = Child { domain: self.registry().domain(), parent: parent.unwrap_or(0), id };
        let accepted = self.ask("remove", &[id]);
        if accepted {
            keep(&mut self.removed, child);
        }
        accepted
    }

    fn offer(&mut self, id: u64, port: Port, value: u64) -> bool {
        self.ask("offer", &[id, port.key, port.realm, value])
    }

    // Looking at the registry.

    /// A plugin known to be registered.
    fn plugin(&self, id: u64) -> &Plugin {
        self.registry().plugin(id).expect("only registered ids are asked for here")
    }

    /// The ticket of a plugin's present generation, live or not.
    fn ticket(&self, id: u64) -> Ticket {
        let generation = self.plugin(id).generation();
        Ticket { domain: self.registry().domain(), id, generation, kind: SETUP }
    }

    /// The invocation that is queued at a plugin.
    fn queued(&self, id: u64) -> Option<Invocation> {
        let plugin = self.plugin(id);
        let Root::Queued { revision, argument } = plugin.root() else {
            return None;
        };
        let domain = self.registry().domain();
        Some(Invocation { domain, id, generation: plugin.generation(), revision, argument })
    }

    /// A random registered plugin of which this is true.
    fn id_where(&mut self, is: impl Fn(&Plugin) -> bool) -> Option<u64> {
        let ids: Vec<u64> =
            self.registry().registered().filter(|(_, p)| is(p)).map(|(id, _)| id).collect();
        self.rng.pick(&ids)
    }

    /// The first dependency of a plugin without an Active provider.
    fn lacking(&self, id: u64) -> Option<Port> {
        let registry = self.registry();
        let supplied = |port: &Port| registry.active_provider(*port).is_some();
        self.plugin(id).dependencies().iter().copied().find(|port| !supplied(port))
    }

    fn is_free(&self, port: Port) -> bool {
        self.registry().provider(port).is_none()
    }
}

fn keep<T>(kept: &mut VecDeque<T>, new: T) {
    if kept.len() == KEPT {
        kept.pop_front();
    }
    kept.push_back(new);
}

/// Words parted by single spaces.
fn words<T: Display>(first: &str, rest: &[T]) -> String {
    let mut line = first.to_string();
    for word in rest {
        line += &format!(" {word}");
    }
    line
}
