//! Which tables are consistent with a set.

use crate::routine::{holds_after, Hold, Holds, Kind, Routine, Set, MAX_PROCESSES, NOTHING};
use crate::table::{Base, Phase, Process, Table};

pub fn is_consistent(set: &Set, table: &Table) -> bool {
    has_clear_rest(set, table)
        && set
            .routines
            .iter()
            .zip(&table.processes)
            .all(|(routine, process)| {
                phase_fits(routine, process.call, process.phase)
                    && marks_fit(process.phase, process.wake, process.entry)
            })
        && bases_fit_holds(set, table)
}

/// Bases above B and processes above N are zero.
fn has_clear_rest(set: &Set, table: &Table) -> bool {
    table.bases[set.bases..]
        .iter()
        .all(|&b| b == Base::default())
        && table.processes[set.processes()..]
            .iter()
            .all(|&p| p == Process::default())
}

/// Whether a process may have completed `completed` calls and be in `phase`.
pub fn phase_fits(routine: &Routine, completed: u16, phase: Phase) -> bool {
    let done = usize::from(completed);
    if done > routine.calls().len() || routine.stops_at().is_some_and(|error| error < done) {
        return false;
    }
    let Some(call) = routine.current(completed) else {
        return phase == Phase::Start;
    };
    let error = routine.is_logic_error_at(completed);
    match phase {
        Phase::Start => true,
        Phase::Enlist | Phase::SecondTry | Phase::Delist | Phase::Waiting => {
            call.kind.is_take() && !error
        }
        Phase::SetSwitch => call.kind == Kind::Modlock && !error,
        Phase::Notify => !call.kind.is_take() && !error,
        Phase::Stopped => error,
    }
}

pub fn marks_fit(phase: Phase, wake: bool, entry: bool) -> bool {
    match phase {
        Phase::SecondTry | Phase::Delist | Phase::SetSwitch | Phase::Waiting => wake != entry,
        Phase::Start | Phase::Enlist | Phase::Notify | Phase::Stopped => !wake && !entry,
    }
}

/// The completed calls, plus the current base in phase 3, less the current base in phase 6.
/// Either is what the current call will leave when it is complete.
pub fn holds_now(routine: &Routine, process: &Process) -> Holds {
    let counted = match process.phase {
        Phase::Delist | Phase::Notify => usize::from(process.call) + 1,
        _ => usize::from(process.call),
    };
    holds_after(&routine.calls()[..counted])
}

fn bases_fit_holds(set: &Set, table: &Table) -> bool {
    let mut holds = [NOTHING; MAX_PROCESSES];
    let standing = set.routines.iter().zip(&table.processes);
    for (held, (routine, process)) in holds.iter_mut().zip(standing) {
        *held = holds_now(routine, process);
    }
    (0..set.bases).all(|b| {
        let column = holds.map(|held| held[b]);
        base_fits(&table.bases[b], &column)
    })
}

/// `holds` are the holds of all processes on this one base.
fn base_fits(base: &Base, holds: &[Hold; MAX_PROCESSES]) -> bool {
    let lock_fits = (1..)
        .zip(holds)
        .all(|(p, &hold)| (hold == Hold::Modifies) == (base.lock == p));
    let modified = holds.contains(&Hold::Modifies);
    let readers = holds.iter().filter(|&&hold| hold == Hold::Reads).count();
    lock_fits
        && (modified || base.lock == 0)
        && usize::from(base.count) == readers
        && (base.lock == 0 || base.count == 0)
}
