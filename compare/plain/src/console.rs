//! The console: one operation a line, one answer for each.

mod answer;
mod lines;
mod parse;

pub use answer::Answer;
pub use lines::{Line, Lines, MAX_LINE};
pub use parse::{Operation, parse, text_length};

use crate::admission::Root;
use crate::ports::{Edition, Port, resolve};
use crate::refusal::Refusal;
use crate::registry::{MAX_PLUGINS, Registry, Shown};
use crate::retirement::Child;
use crate::slot::{ChildSlot, Decision};

/// How many numbers the buffer has.
pub const BUFFER: usize = 100;

/// How many bytes can be lent for a text, and how long one to be loaded may be; every
/// text that is written is shorter.
pub const TEXT: usize = 131_072;

/// What the console keeps from line to line.
pub struct Console {
    registry: Box<Registry>,
    slot: ChildSlot,
    buffer: [u64; BUFFER],
    /// What is lent for a text.
    text: Box<[u8]>,
    /// Room for a line's lists, kept to be used again.
    numbers: Vec<u64>,
}

impl Default for Console {
    fn default() -> Self {
        Self::new()
    }
}

impl Console {
    pub fn new() -> Self {
        Self {
            registry: Box::new(Registry::open(0, 0)),
            slot: ChildSlot::pending(0, 0, 0),
            buffer: [0; BUFFER],
            text: vec![0; TEXT].into_boxed_slice(),
            numbers: Vec::with_capacity(MAX_LINE / 2),
        }
    }

    pub fn registry(&self) -> &Registry {
        &self.registry
    }

    pub fn slot(&self) -> ChildSlot {
        self.slot
    }

    /// Answers one line. The answer is appended with its byte 10; a line to be
    /// passed over leaves `out` as it was.
    pub fn answer(&mut self, line: Line<'_>, out: &mut Vec<u8>) {
        if is_passed_over(line.words) {
            return;
        }
        let mut numbers = std::mem::take(&mut self.numbers);
        let mut answer = Answer::new(out);
        match parse(line, &mut numbers) {
            None => answer.bad(),
            Some(operation) => {
                if let Err(refusal) = self.carry_out(&operation, &mut answer) {
                    answer.no(refusal);
                }
            }
        }
        answer.end();
        self.numbers = numbers;
    }

    /// Carries an operation out and writes what it answers if accepted.
    fn carry_out(&mut self, asked: &Operation<'_>, out: &mut Answer<'_>) -> Result<(), Refusal> {
        let registry = &mut *self.registry;
        match *asked {
            Operation::Open { domain, first } => {
                registry.reopen(domain, first);
                out.ok();
            }
            Operation::Register(ref new) => out.ok_numbers(&[registry.register(new)?]),
            Operation::Begin(id) => {
                let ticket = registry.begin(id)?;
                out.ok_numbers(&[ticket.domain, ticket.id, ticket.generation, ticket.kind]);
            }
            Operation::Ready(id) => done(registry.ready(id), out)?,
            Operation::Fail(id) => done(registry.fail(id), out)?,
            Operation::Unload(id) => done(registry.unload(id), out)?,
            Operation::Finish(id) => done(registry.finish(id), out)?,
            Operation::Replace { id, payload } => match registry.replace(id, payload) {
                Ok(former) => out.ok_numbers(&[former]),
                Err(refused) => {
                    out.no(refused.refusal);
                    out.number(refused.payload);
                }
            },
            Operation::Fits { id, count } => out.ok_yes_no(registry.fits(id, count)?),
            Operation::Admit { ticket, argument } => {
                let admitted = registry.admit(ticket, argument)?;
                out.ok_numbers(&[
                    admitted.domain,
                    admitted.id,
                    admitted.generation,
                    admitted.revision,
                    admitted.argument,
                ]);
            }
            Operation::Call(invocation) => {
                let receipt = registry.call(invocation)?;
                out.ok_numbers(&[
                    receipt.domain,
                    receipt.id,
                    receipt.generation,
                    receipt.request,
                    receipt.payload,
                    receipt.argument,
                ]);
            }
            Operation::Retire(id) => done(registry.retire(id), out)?,
            Operation::RetireChild(child) => done(registry.retire_child(child), out)?,
            Operation::Remove(id) => done(registry.remove(id), out)?,
            Operation::Child(id) => out.ok_or_none(registry.child(id)?.map(child_numbers)),
            Operation::Offer { id, port, value } => done(registry.offer(id, port, value), out)?,
            Operation::Read { id, port } => {
                let (value, provider) = registry.read(id, port)?;
                out.ok_numbers(&[value, provider]);
            }
            Operation::Visible(port) => out.ok_or_none(registry.visible(port).map(|value| [value])),
            Operation::Missing(id) => out.ok_or_none(registry.missing(id)?.map(port_numbers)),
            Operation::Matches { id, list } => out.ok_yes_no(registry.matches(id, list)?),
            Operation::Declares { id, port } => out.ok_yes_no(registry.declares(id, port)?),
            Operation::Lookup { id, key } => {
                out.ok_or_none(registry.lookup(id, key)?.map(port_numbers));
            }
            Operation::Resolve { key, realms } => {
                out.ok_numbers(&port_numbers(resolve(key, realms)?));
            }
            Operation::Edition(id) => out.ok_numbers(&edition_numbers(registry.edition(id)?)),
            Operation::Plan { size, set } => {
                // No order is longer than that.
                let mut order = [0; MAX_PLUGINS];
                let lent = &mut order[..size.min(MAX_PLUGINS as u64) as usize];
                match registry.plan_order(set, lent)? {
                    Some(count) => out.ok_numbers(&order[..count]),
                    None => {
                        out.ok();
                        out.word("none");
                    }
                }
            }
            Operation::Check { set, order } => out.ok_yes_no(registry.check_order(set, order)?),
            Operation::Deps { id, place } => {
                out.ok_numbers(&[registry.deps(id, &mut self.buffer, place)?]);
            }
            Operation::Provs { id, place } => {
                out.ok_numbers(&[registry.provs(id, &mut self.buffer, place)?]);
            }
            Operation::Realms { id, place } => {
                out.ok_numbers(&[registry.realms(id, &mut self.buffer, place)?]);
            }
            Operation::Buffer { from, to } => out.ok_numbers(self.buffer_part(from, to)),
            Operation::Rows => out.ok_numbers(&[registry.rows()]),
            Operation::Count => out.ok_numbers(&[registry.count()]),
            Operation::Next => out.ok_numbers(&[registry.next()]),
            Operation::Show(id) => write_shown(&registry.show(id)?, out),
            Operation::Write { size } => {
                let lent = &mut self.text[..size.min(TEXT as u64) as usize];
                let length = registry.write(lent)?;
                out.ok_numbers(&[length as u64]);
                out.text(&lent[..length]);
            }
            Operation::Load { domain, text } => done(registry.load(domain, text), out)?,
            Operation::SlotPending { domain, parent, generation } => {
                self.take_slot(ChildSlot::pending(domain, parent, generation), out);
            }
            Operation::SlotAssigned(child) => self.take_slot(ChildSlot::assigned(child), out),
            Operation::SlotAssign(child) => self.take_slot(self.slot.assign(child)?, out),
            Operation::SlotReject => self.take_slot(self.slot.reject()?, out),
            Operation::SlotCancel => self.take_slot(self.slot.cancel()?, out),
        }
        Ok(())
    }

    /// The buffer from one place up to another, each taken as the end if past it.
    fn buffer_part(&self, from: u64, to: u64) -> &[u64] {
        let [from, to] = [from, to].map(|place| place.min(BUFFER as u64) as usize);
        self.buffer.get(from..to).unwrap_or_default()
    }

    fn take_slot(&mut self, slot: ChildSlot, out: &mut Answer<'_>) {
        self.slot = slot;
        out.ok_numbers(&[slot.domain, slot.parent]);
        out.number_or_none(slot.generation);
        match slot.decision {
            Decision::Pending => out.word("pending"),
            Decision::Assigned(child) => {
                out.word("assigned");
                out.numbers(&child_numbers(child));
            }
            Decision::Failed => out.word("failed"),
            Decision::Cancelled => out.word("cancelled"),
        }
    }
}

/// Whether a line gets no answer at all.
pub fn is_passed_over(line: &[u8]) -> bool {
    matches!(line.first(), None | Some(b'#'))
}

fn done(result: Result<(), Refusal>, out: &mut Answer<'_>) -> Result<(), Refusal> {
    result.map(|()| out.ok())
}

fn port_numbers(port: Port) -> [u64; 2] {
    [port.key, port.realm]
}

fn edition_numbers(edition: Edition) -> [u64; 2] {
    [edition.number(), edition.default_realm()]
}

fn child_numbers(child: Child) -> [u64; 3] {
    [child.domain, child.parent, child.id]
}

fn write_shown(shown: &Shown, out: &mut Answer<'_>) {
    out.ok();
    out.number_or_none(shown.parent);
    out.numbers(&[
        shown.phase as u64,
        u64::from(shown.retired),
        shown.generation,
        shown.revision,
        shown.payload,
    ]);
    match shown.root {
        Root::Unissued => {
            out.number(0);
            out.word("none");
        }
        Root::Queued { revision, argument } => out.numbers(&[1, revision, argument]),
        Root::Spent => {
            out.number(2);
            out.word("none");
        }
    }
    out.numbers(&port_numbers(shown.anchor));
}
