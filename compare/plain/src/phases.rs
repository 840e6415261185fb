//! Phases.

use crate::admission::{Root, SETUP, Ticket};
use crate::plugin::Plugin;
use crate::refusal::Refusal;
use crate::registry::Registry;

/// A plugin's phase, in the order of the table's rows.
#[derive(Clone, Copy, Debug, PartialEq, Eq)]
pub enum Phase {
    Idle,
    Loading,
    Active,
    Unloading,
}

/// A step between phases, in the order of the table's columns.
#[derive(Clone, Copy, Debug, PartialEq, Eq)]
pub enum Step {
    Begin,
    Ready,
    Fail,
    Unload,
    Finish,
}

/// The whole rule: phase by step, none where the step is refused.
const TABLE: [[Option<Phase>; 5]; 4] = {
    use Phase::*;
    [
        [Some(Loading), None, None, None, None],
        [None, Some(Active), Some(Unloading), None, None],
        [None, None, None, Some(Unloading), None],
        [None, None, None, None, Some(Idle)],
    ]
};

impl Phase {
    /// The phase that a text tells by its number.
    pub(crate) fn numbered(number: u64) -> Option<Self> {
        use Phase::*;
        [Idle, Loading, Active, Unloading].into_iter().find(|&phase| phase as u64 == number)
    }

    /// The phase after a step, or refusal 3.
    pub fn after(self, step: Step) -> Result<Self, Refusal> {
        TABLE[self as usize][step as usize].ok_or(Refusal::InvalidState)
    }
}

impl Registry {
    pub fn begin(&mut self, id: u64) -> Result<Ticket, Refusal> {
        let place = self.place(id)?;
        let plugin = &self.plugins[place];
        if plugin.retired {
            return Err(Refusal::Retired);
        }
        let phase = plugin.phase.after(Step::Begin)?;
        let generation = plugin.generation.checked_add(1).ok_or(Refusal::Exhausted)?;
        if !self.is_supplied(plugin) {
            return Err(Refusal::Unavailable);
        }
        let plugin = &mut self.plugins[place];
        plugin.phase = phase;
        plugin.generation = generation;
        plugin.root = Root::Unissued;
        Ok(Ticket { domain: self.domain, id, generation, kind: SETUP })
    }

    pub fn ready(&mut self, id: u64) -> Result<(), Refusal> {
        let plugin = self.plugin_mut(id)?;
        if plugin.retired {
            return Err(Refusal::Retired);
        }
        let phase = plugin.phase.after(Step::Ready)?;
        if plugin.root != Root::Spent {
            return Err(Refusal::NotRun);
        }
        if plugin.values.first_missing() < plugin.provisions.len() {
            return Err(Refusal::Missing);
        }
        plugin.phase = phase;
        Ok(())
    }

    pub fn fail(&mut self, id: u64) -> Result<(), Refusal> {
        let plugin = self.plugin_mut(id)?;
        plugin.phase = plugin.phase.after(Step::Fail)?;
        Ok(())
    }

    pub fn unload(&mut self, id: u64) -> Result<(), Refusal> {
        let place = self.place(id)?;
        let plugin = &self.plugins[place];
        let phase = plugin.phase.after(Step::Unload)?;
        if self.is_in_use(plugin) {
            return Err(Refusal::InUse);
        }
        self.plugins[place].phase = phase;
        Ok(())
    }

    pub fn finish(&mut self, id: u64) -> Result<(), Refusal> {
        let plugin = self.plugin_mut(id)?;
        plugin.phase = plugin.phase.after(Step::Finish)?;
        plugin.values.drop_all();
        plugin.root = Root::Unissued;
        Ok(())
    }

    /// Whether every dependency has an Active provider.
    fn is_supplied(&self, plugin: &Plugin) -> bool {
        plugin.dependencies.iter().all(|&port| self.active_provider(port).is_some())
    }

    /// Whether a Loading or Active plugin depends on a port of this one.
    fn is_in_use(&self, plugin: &Plugin) -> bool {
        self.registered().any(|(_, other)| {
            other.is_up()
                && other.needs.may_share(plugin.offers)
                && other.dependencies.iter().any(|&port| plugin.provides(port))
        })
    }
}

#[cfg(test)]
mod tests {
    use super::*;

    #[test]
    fn exhausted_generation_comes_after_the_phase_and_before_the_dependencies() {
        let mut registry = Registry::open(0, 0);
        let id = registry
            .register(&crate::Registration {
                parent: None,
                anchor: crate::Port::new(1, 0),
                payload: 0,
                realms: crate::RealmList::first(&[]),
                dependencies: &[2],
                provisions: &[],
            })
            .unwrap();
        registry.plugins[0].generation = u64::MAX;
        assert_eq!(registry.begin(id), Err(Refusal::Exhausted));
        registry.plugins[0].phase = Phase::Active;
        assert_eq!(registry.begin(id), Err(Refusal::InvalidState));
    }

    #[test]
    fn the_table_has_five_steps() {
        let steps = TABLE.iter().flatten().filter(|next| next.is_some()).count();
        assert_eq!(steps, 5);
    }
}
