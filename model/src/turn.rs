//! One turn of one process.

use crate::routine::{Kind, Set};
use crate::table::{Base, Phase, Process, Table};

#[derive(Clone, Copy, PartialEq, Eq, Debug)]
pub enum Did {
    Moved,
    Idle,
}

impl Did {
    pub fn word(self) -> &'static str {
        match self {
            Did::Moved => "MOVED",
            Did::Idle => "IDLE",
        }
    }
}

/// A turn of process p, 1 to N, on a table that is consistent with the set.
pub fn turn(set: &Set, table: &mut Table, p: usize) -> Did {
    let routine = &set.routines[p - 1];
    let process = &mut table.processes[p - 1];
    let Some(call) = routine.current(process.call) else {
        return Did::Idle;
    };
    let base = &mut table.bases[call.base - 1];
    match process.phase {
        Phase::Start if routine.is_logic_error_at(process.call) => process.phase = Phase::Stopped,
        Phase::Start => start(process, base, call.kind, p),
        Phase::Enlist => {
            process.entry = true;
            process.phase = Phase::SecondTry;
        }
        Phase::SecondTry => second_try(process, base, call.kind, p),
        Phase::Delist => {
            process.entry = false;
            process.wake = false;
            complete(process);
        }
        Phase::SetSwitch => {
            base.nomore = true;
            process.phase = Phase::Waiting;
        }
        Phase::Waiting if process.wake => {
            process.wake = false;
            process.phase = Phase::Start;
        }
        Phase::Waiting | Phase::Stopped => return Did::Idle,
        Phase::Notify => {
            complete(process);
            notify(set, table, call.base);
        }
    }
    Did::Moved
}

fn start(process: &mut Process, base: &mut Base, kind: Kind, p: usize) {
    match kind {
        Kind::Modlock | Kind::Readlock => {
            if succeeds(base, kind, p) {
                complete(process);
            } else {
                process.phase = Phase::Enlist;
            }
        }
        Kind::Unlock => {
            base.lock = 0;
            base.nomore = false;
            process.phase = Phase::Notify;
        }
        Kind::Decrease => {
            base.count -= 1;
            if base.count == 0 {
                base.nomore = false;
                process.phase = Phase::Notify;
            } else {
                complete(process);
            }
        }
    }
}

fn second_try(process: &mut Process, base: &mut Base, kind: Kind, p: usize) {
    process.phase = if succeeds(base, kind, p) {
        Phase::Delist
    } else if kind == Kind::Modlock {
        Phase::SetSwitch
    } else {
        Phase::Waiting
    };
}

/// A try at a modlock or readlock; a failed one changes nothing.
fn succeeds(base: &mut Base, kind: Kind, p: usize) -> bool {
    if kind == Kind::Modlock {
        let free = base.lock == 0 && base.count == 0;
        if free {
            base.lock = p as u16;
        }
        free
    } else {
        let open = base.lock == 0 && !base.nomore;
        if open {
            base.count += 1;
        }
        open
    }
}

fn complete(process: &mut Process) {
    process.call += 1;
    process.phase = Phase::Start;
}

/// Wakes everyone on the waiting list for base b.
fn notify(set: &Set, table: &mut Table, b: usize) {
    for (routine, process) in set.routines.iter().zip(&mut table.processes) {
        let names_b = routine.current(process.call).is_some_and(|c| c.base == b);
        if process.entry && names_b {
            process.entry = false;
            process.wake = true;
        }
    }
}
