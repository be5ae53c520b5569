//! The judge of routine files.

use crate::refusal::Refusal;
use crate::routine::{Call, Hold, Holds, Kind, Routine, Set, NOTHING};

/// Passes the set, or names the first failing call in file order.
pub fn judge(set: &Set) -> Result<(), Refusal> {
    for (block, routine) in (1..).zip(&set.routines) {
        if let Some(place) = failing_place(routine) {
            return Err(Refusal::at_call(block, place));
        }
    }
    Ok(())
}

/// The place of the first call that is not good; n + 1 when the routine ends holding something.
fn failing_place(routine: &Routine) -> Option<usize> {
    let mut holds = NOTHING;
    for (place, &call) in (1..).zip(routine.calls()) {
        if !is_good(call, &holds) {
            return Some(place);
        }
        call.apply(&mut holds);
    }
    let holds_something = holds.iter().any(|&hold| hold != Hold::Free);
    holds_something.then_some(routine.calls().len() + 1)
}

fn is_good(call: Call, holds: &Holds) -> bool {
    match call.kind {
        Kind::Modlock | Kind::Readlock => holds[call.base - 1..]
            .iter()
            .all(|&hold| hold == Hold::Free),
        Kind::Unlock => holds[call.base - 1] == Hold::Modifies,
        Kind::Decrease => holds[call.base - 1] == Hold::Reads,
    }
}
