//! The same slots: random operations on all sides, every word compared.

use std::collections::BTreeSet;

use crate::answers::Tally;
use crate::sides::{SIDES, SLOT, Side, Slot};

/// The slots that lie side by side: what a call writes beyond its own shows in the next.
const BENCH: usize = 8;

/// Five kinds of slot for each function; for `assign`, four ways to agree with its origin.
const CIRCUMSTANCES: usize = 4 * 5 + 5 * 4;

/// A call: the function, and its three numbers where it has them.
#[derive(Clone, Copy, Debug)]
enum Call {
    Pending([u64; 3]),
    Assigned([u64; 3]),
    Assign([u64; 3]),
    Reject,
    Cancel,
}

impl Call {
    fn name(self) -> &'static str {
        match self {
            Call::Pending(_) => "slot_pending",
            Call::Assigned(_) => "slot_assigned",
            Call::Assign(_) => "slot_assign",
            Call::Reject => "slot_reject",
            Call::Cancel => "slot_cancel",
        }
    }

    unsafe fn make(self, side: &Side, slot: *mut u64) -> u64 {
        unsafe {
            match self {
                Call::Pending([domain, parent, generation]) => {
                    (side.slot_pending)(slot, domain, parent, generation);
                    0
                }
                Call::Assigned([domain, parent, id]) => {
                    (side.slot_assigned)(slot, domain, parent, id);
                    0
                }
                Call::Assign([domain, parent, id]) => (side.slot_assign)(slot, domain, parent, id),
                Call::Reject => (side.slot_reject)(slot),
                Call::Cancel => (side.slot_cancel)(slot),
            }
        }
    }
}

/// Random numbers: splitmix64.
struct Rng(u64);

impl Rng {
    fn next(&mut self) -> u64 {
        self.0 = self.0.wrapping_add(0x9e37_79b9_7f4a_7c15);
        let mut z = self.0;
        z = (z ^ (z >> 30)).wrapping_mul(0xbf58_476d_1ce4_e5b9);
        z = (z ^ (z >> 27)).wrapping_mul(0x94d0_49bb_1331_11eb);
        z ^ (z >> 31)
    }

    fn below(&mut self, end: u64) -> u64 {
        self.next() % end
    }

    /// Any number, with a liking for small ones and the last.
    fn number(&mut self) -> u64 {
        match self.below(4) {
            0 => self.next(),
            1 => u64::MAX,
            _ => self.below(4),
        }
    }

    /// Mostly this number, else one that differs in a single bit, or any.
    fn near(&mut self, number: u64) -> u64 {
        match self.below(6) {
            0 => self.number(),
            1 => number ^ (1 << self.below(64)),
            _ => number,
        }
    }

    fn call(&mut self, [domain, parent, ..]: Slot) -> Call {
        match self.below(8) {
            0..3 => Call::Pending([self.number(), self.number(), self.number()]),
            3 => Call::Assigned([self.number(), self.number(), self.number()]),
            4..6 => Call::Assign([self.near(domain), self.near(parent), self.number()]),
            6 => Call::Reject,
            _ => Call::Cancel,
        }
    }
}

/// Tells slots in the archive's words, over those that told them before: what a slot lacks
/// stays. It is asked at least once for each slot that is made.
pub fn tell(side: &Side, words: &[u64], told: &mut [Slot]) {
    for (slot, told) in words.chunks_exact(SLOT).zip(told) {
        unsafe { (side.slot_words)(slot.as_ptr(), told) };
    }
}

/// Makes so many calls on all sides, on slots chosen at random.
pub fn compare(operations: u64, tally: &mut Tally) -> Result<(), String> {
    let mut benches = SIDES.map(|side| {
        let (mut bench, mut told) = ([0; SLOT * BENCH], [[0; SLOT]; BENCH]);
        for slot in bench.chunks_exact_mut(SLOT) {
            unsafe { (side.slot_pending)(slot.as_mut_ptr(), 0, 0, 0) };
        }
        tell(side, &bench, &mut told);
        (side, bench, told)
    });
    let (mut rng, mut seen) = (Rng(1), BTreeSet::new());
    let (_, _, mut before) = benches[0];
    for _ in 0..operations {
        let place = rng.below(BENCH as u64) as usize;
        let slot = before[place];
        let call = rng.call(slot);
        let [plain, others @ ..] = benches.each_mut().map(|(side, bench, told)| {
            let slot = bench[place * SLOT..][..SLOT].as_mut_ptr();
            let status = unsafe { call.make(side, slot) };
            tell(side, bench, told);
            (side.name, (status, *told))
        });
        let (_, (status, now)) = plain;
        for (name, other) in others {
            if other != (status, now) {
                return Err(format!(
                    "{call:?} on slot {place} of {before:?}: {:?}, and {name} {other:?}",
                    (status, now)
                ));
            }
        }
        let origin = match call {
            Call::Assign([domain, parent, _]) => (domain == slot[0], parent == slot[1]),
            _ => (true, true),
        };
        seen.insert((call.name(), slot[4], slot[2], origin));
        tally.add(call.name(), status);
        tally.slot_operations += 1;
        before = now;
    }
    if seen.len() != CIRCUMSTANCES {
        return Err(format!(
            "the slots' calls saw {} of {CIRCUMSTANCES} circumstances",
            seen.len()
        ));
    }
    Ok(())
}
