//! The child slot: a decision is taken once.

use vaskelbi::{Decision, Identity, Origin, Refusal, Slot};

const CHILD: Identity = Identity { domain: 1, parent: 2, id: 3 };

fn decided_stays(mut slot: Slot) {
    let (origin, decision) = (slot.origin(), slot.decision());
    assert_eq!(slot.assign(CHILD), Err(Refusal::InvalidState));
    assert_eq!(slot.reject(), Err(Refusal::InvalidState));
    assert_eq!(slot.cancel(), Err(Refusal::InvalidState));
    assert_eq!((slot.origin(), slot.decision()), (origin, decision));
}

#[test]
fn pending_to_assigned() {
    let mut slot = Slot::pending(1, 2, 9);
    let origin = Origin { domain: 1, parent: 2, generation: Some(9) };
    assert_eq!((slot.origin(), slot.decision()), (origin, Decision::Pending));
    let foreign = Identity { domain: 0, ..CHILD };
    assert_eq!(slot.assign(foreign), Err(Refusal::InvalidState));
    let stranger = Identity { parent: 0, ..CHILD };
    assert_eq!(slot.assign(stranger), Err(Refusal::InvalidState));
    assert_eq!(slot, Slot::pending(1, 2, 9));
    slot.assign(CHILD).unwrap();
    assert_eq!((slot.origin(), slot.decision()), (origin, Decision::Assigned(CHILD)));
    decided_stays(slot);
}

#[test]
fn pending_to_failed_or_cancelled() {
    let mut slot = Slot::pending(1, 2, 0);
    slot.reject().unwrap();
    assert_eq!(slot.decision(), Decision::Failed);
    assert_eq!(slot.origin().generation, Some(0));
    decided_stays(slot);
    let mut slot = Slot::pending(1, 2, 9);
    slot.cancel().unwrap();
    assert_eq!(slot.decision(), Decision::Cancelled);
    decided_stays(slot);
}

#[test]
fn made_assigned() {
    let slot = Slot::assigned(CHILD);
    let origin = Origin { domain: 1, parent: 2, generation: None };
    assert_eq!((slot.origin(), slot.decision()), (origin, Decision::Assigned(CHILD)));
    decided_stays(slot);
}
