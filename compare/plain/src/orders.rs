//! Start order for a pier: document 02's sixth request.

use crate::phases::Phase;
use crate::plugin::Plugin;
use crate::refusal::Refusal;
use crate::registry::{MAX_PLUGINS, Registry};

/// Of up to so many ids all orders are tried, one after the other.
const TRIED: usize = 7;

impl Registry {
    /// Writes the order in which the plugins of a set can begin to the front of the
    /// buffer, whose rest stays, and answers their count. None if no order passes, and
    /// then nothing is written.
    pub fn plan_order(&self, set: &[u64], buffer: &mut [u64]) -> Result<Option<usize>, Refusal> {
        self.check_set(set)?;
        let front = buffer.get_mut(..set.len()).ok_or(Refusal::ShortBuffer)?;
        // The ids are registered and different, so there are not more than places.
        let mut order = [0; MAX_PLUGINS];
        let order = &mut order[..set.len()];
        order.copy_from_slice(set);
        order.sort_unstable();
        let passes =
            if set.len() <= TRIED { self.try_all(set, order) } else { self.arrange(order) };
        if !passes {
            return Ok(None);
        }
        front.copy_from_slice(order);
        Ok(Some(order.len()))
    }

    /// Whether an order passes for a set.
    pub fn check_order(&self, set: &[u64], order: &[u64]) -> Result<bool, Refusal> {
        self.check_set(set)?;
        Ok(self.passes(set, order))
    }

    /// Checks a set's ids, one by one in list order.
    fn check_set(&self, set: &[u64]) -> Result<(), Refusal> {
        for (n, id) in set.iter().enumerate() {
            if set[..n].contains(id) {
                return Err(Refusal::Repeated);
            }
            self.plugin(*id)?.may_start()?;
        }
        Ok(())
    }

    /// Whether an order names the set's ids, each once, and each of them can begin once
    /// those before it are Active.
    fn passes(&self, set: &[u64], order: &[u64]) -> bool {
        // The set's ids are different: so many ids that have them all have each once.
        let names_each_once = order.len() == set.len() && set.iter().all(|id| order.contains(id));
        names_each_once && (0..order.len()).all(|n| self.can_follow(order[n], &order[..n]))
    }

    /// Whether every dependency is provided by an Active plugin or by an earlier one.
    fn can_follow(&self, id: u64, earlier: &[u64]) -> bool {
        let provided = |port| {
            self.registered().any(|(other, plugin)| {
                plugin.provides(port) && (plugin.phase == Phase::Active || earlier.contains(&other))
            })
        };
        self.plugin(id).is_ok_and(|plugin| plugin.dependencies.iter().all(|&port| provided(port)))
    }

    /// Tries all orders of sorted ids, and stops at the first that passes.
    fn try_all(&self, set: &[u64], order: &mut [u64]) -> bool {
        while !self.passes(set, order) {
            if !next_order(order) {
                return false;
            }
        }
        true
    }

    /// Puts sorted ids in order: at each place the lowest that can begin by then. What
    /// can begin once can begin later too, so no choice is ever regretted.
    fn arrange(&self, order: &mut [u64]) -> bool {
        for n in 0..order.len() {
            let (earlier, rest) = order.split_at_mut(n);
            let Some(next) = rest.iter().position(|&id| self.can_follow(id, earlier)) else {
                return false;
            };
            // Those that it passes by stay sorted.
            rest[..=next].rotate_right(1);
        }
        true
    }
}

impl Plugin {
    /// The checks on one plugin of a set, in order.
    fn may_start(&self) -> Result<(), Refusal> {
        let checks = [
            (self.retired, Refusal::Retired),
            (self.phase != Phase::Idle, Refusal::InvalidState),
            (self.generation == u64::MAX, Refusal::Exhausted),
        ];
        match checks.into_iter().find(|(holds, _)| *holds) {
            Some((_, refusal)) => Err(refusal),
            None => Ok(()),
        }
    }
}

/// Makes the next one of all orders, counted from the sorted one; false after the last.
fn next_order(order: &mut [u64]) -> bool {
    // Behind this place the ids fall, so that part has had all its orders.
    let Some(place) = order.windows(2).rposition(|pair| pair[0] < pair[1]) else {
        return false;
    };
    let higher = order[place + 1..].partition_point(|&id| id > order[place]);
    order.swap(place, place + higher);
    order[place + 1..].reverse();
    true
}

#[cfg(test)]
mod tests {
    use super::*;

    #[test]
    fn all_orders_come_once_and_rise() {
        for (count, wanted) in [(0, 1), (1, 1), (2, 2), (3, 6), (4, 24), (7, 5040)] {
            let mut order: Vec<u64> = (0..count).map(|n| 3 * n + 1).collect();
            let mut orders = vec![order.clone()];
            while next_order(&mut order) {
                orders.push(order.clone());
            }
            assert_eq!(orders.len(), wanted);
            assert!(orders.is_sorted_by(|a, b| a < b));
        }
    }
}
