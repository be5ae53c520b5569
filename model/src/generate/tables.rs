//! Tables for a set: reachable, consistent only, spoiled, and wild.

use crate::consistent::{holds_now, is_consistent, marks_fit, phase_fits};
use crate::generate::broken::broken;
use crate::random::Random;
use crate::routine::{Hold, Holds, Routine, Set};
use crate::table::{Phase, Process, Table, Words, WORDS};
use crate::turn::turn;

pub fn any(random: &mut Random, set: &Set) -> Vec<u16> {
    match random.below(100) {
        0..=2 => Table::fresh().to_words().to_vec(),
        3..=49 => reachable(random, set).to_words().to_vec(),
        50..=69 => chosen(random, set).to_words().to_vec(),
        70..=86 => broken(random, set).to_vec(),
        87..=93 => wild(random, set).to_vec(),
        _ => of_wrong_length(random, set),
    }
}

/// The table after random turns from the fresh table.
pub fn reachable(random: &mut Random, set: &Set) -> Table {
    let mut table = Table::fresh();
    let mut left = match random.below(5) {
        0 => random.below(8),
        1..=3 => random.below(12 * set.processes()),
        _ => random.below(600),
    };
    let longest = random.pick(&[1, 1, 2, 6]);
    while left > 0 {
        let p = random.between(1, set.processes());
        let burst = random.between(1, longest).min(left);
        for _ in 0..burst {
            turn(set, &mut table, p);
        }
        left -= burst;
    }
    table
}

/// A consistent table that need not be reachable.
pub fn chosen(random: &mut Random, set: &Set) -> Table {
    let mut table = if random.chance(25) {
        reachable(random, set)
    } else {
        let mut table = Table::fresh();
        let crowded = random.chance(60);
        for p in 0..set.processes() {
            place_process(random, set, &mut table, p, crowded);
        }
        table
    };
    for process in &mut table.processes {
        if process.wake != process.entry && random.chance(30) {
            (process.wake, process.entry) = (process.entry, process.wake);
        }
    }
    for base in &mut table.bases[..set.bases] {
        base.nomore ^= random.chance(35);
    }
    table
}

/// Puts the process somewhere that its phase and the holds of those before it allow; if
/// `crowded`, rather on a waiting list or about to notify one.
fn place_process(random: &mut Random, set: &Set, table: &mut Table, p: usize, crowded: bool) {
    for attempt in 0..10 {
        let process = some_process(random, &set.routines[p]);
        if crowded && attempt < 7 && !process.entry && process.phase != Phase::Notify {
            continue;
        }
        let mut tried = *table;
        tried.processes[p] = process;
        settle(set, &mut tried);
        if is_consistent(set, &tried) {
            *table = tried;
            return;
        }
    }
}

pub(super) fn some_process(random: &mut Random, routine: &Routine) -> Process {
    let last = routine.stops_at().unwrap_or(routine.calls().len());
    let call = match routine.stops_at() {
        Some(error) if random.chance(30) => error,
        _ => random.between(0, last),
    } as u16;
    let fitting: Vec<Phase> = Phase::ALL
        .into_iter()
        .filter(|&phase| phase_fits(routine, call, phase))
        .collect();
    let phase = random.pick(&fitting);
    in_phase(random, call, phase)
}

/// With marks that the phase allows.
pub(super) fn in_phase(random: &mut Random, call: u16, phase: Phase) -> Process {
    let marked = marks_fit(phase, true, false);
    let wake = marked && random.chance(50);
    Process {
        call,
        phase,
        wake,
        entry: marked && !wake,
    }
}

/// Works LOCK and COUNT out from what the processes hold; of two modifiers the last is named.
pub(super) fn settle(set: &Set, table: &mut Table) {
    settle_by(set, table, |routine, process| {
        let finished = routine.current(process.call).is_none();
        let phase = if finished {
            Phase::Start
        } else {
            process.phase
        };
        let call = process.call.min(routine.calls().len() as u16);
        let within = Process {
            call,
            phase,
            ..*process
        };
        holds_now(routine, &within)
    });
}

pub(super) fn settle_by(set: &Set, table: &mut Table, holds: impl Fn(&Routine, &Process) -> Holds) {
    for base in &mut table.bases {
        (base.lock, base.count) = (0, 0);
    }
    for (p, routine) in set.routines.iter().enumerate() {
        let held = holds(routine, &table.processes[p]);
        for (base, hold) in table.bases.iter_mut().zip(held) {
            match hold {
                Hold::Free => {}
                Hold::Modifies => base.lock = p as u16 + 1,
                Hold::Reads => base.count += 1,
            }
        }
    }
}

/// Words without regard to any rule.
pub fn wild(random: &mut Random, set: &Set) -> Words {
    let mut words = reachable(random, set).to_words();
    match random.below(4) {
        0 => words.fill_with(|| random.word()),
        1 => words.fill_with(|| random.below(10) as u16),
        2 => words.fill_with(|| random.below(2) as u16),
        _ => {
            for _ in 0..random.between(1, 3) {
                let special = [0, 1, 2, 7, 8, 9, 33, 255, 256, 65535];
                words[random.below(WORDS)] = random.pick(&special);
            }
        }
    }
    words
}

pub fn of_wrong_length(random: &mut Random, set: &Set) -> Vec<u16> {
    let other = random.between(0, 256);
    let length = random.pick(&[0, 1, 79, 79, 81, 81, 256, other]);
    let mut words = reachable(random, set).to_words().to_vec();
    let fill = random.pick(&[0, 1, 65535]);
    words.resize(length, fill);
    words
}

#[cfg(test)]
mod tests {
    use super::*;
    use crate::generate::sets;

    #[test]
    fn reachable_and_chosen_tables_are_consistent() {
        let mut random = Random::new(6);
        for _ in 0..2000 {
            let set = sets::any(&mut random);
            assert!(is_consistent(&set, &reachable(&mut random, &set)));
            assert!(is_consistent(&set, &chosen(&mut random, &set)));
        }
    }
}
