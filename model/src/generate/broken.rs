//! Tables that break one rule of consistency.

use crate::consistent::{is_consistent, marks_fit, phase_fits};
use crate::generate::tables::{chosen, in_phase, reachable, settle, settle_by, some_process};
use crate::random::Random;
use crate::routine::{holds_after, Kind, Set, MAX_BASES, MAX_PROCESSES};
use crate::table::{Phase, Table, Words, BASE_WORDS, PROCESSES_AT, PROCESS_WORDS};

const LOCK: usize = 0;
const NOMORE: usize = 1;
const COUNT: usize = 2;
const CALL: usize = 0;
const PHASE: usize = 1;
const WAKE: usize = 2;
const ENTRY: usize = 3;

/// A consistent table spoiled so as to break one rule of consistency.
pub fn broken(random: &mut Random, set: &Set) -> Words {
    loop {
        let table = if random.chance(50) {
            reachable(random, set)
        } else {
            chosen(random, set)
        };
        let rule = random.pick(&RULES);
        if let Some(words) = rule(random, set, table) {
            return words;
        }
    }
}

/// Nothing if the set or the table gives no room to break the rule.
type Break = fn(&mut Random, &Set, Table) -> Option<Words>;

const RULES: [Break; 17] = [
    base_above_bases,
    process_above_processes,
    nomore_out_of_range,
    phase_out_of_range,
    call_above_calls,
    finished_in_a_phase,
    completed_logic_error,
    phase_at_wrong_call,
    phase_at_wrong_call,
    phase_at_logic_error,
    phase_at_logic_error,
    wrong_marks,
    wrong_marks,
    wrong_lock,
    wrong_count,
    clashing_holds,
    holds_of_completed_calls_only,
];

fn poke(table: &Table, at: usize, value: u16) -> Option<Words> {
    let mut words = table.to_words();
    let changed = words[at] != value;
    words[at] = value;
    changed.then_some(words)
}

fn base_word(index: usize, word: usize) -> usize {
    BASE_WORDS * index + word
}

fn process_word(index: usize, word: usize) -> usize {
    PROCESSES_AT + PROCESS_WORDS * index + word
}

fn base_above_bases(random: &mut Random, set: &Set, table: Table) -> Option<Words> {
    if set.bases == MAX_BASES {
        return None;
    }
    let edge = random.pick(&[set.bases, MAX_BASES - 1]);
    let index = if random.chance(50) {
        edge
    } else {
        random.between(set.bases, MAX_BASES - 1)
    };
    let word = random.pick(&[LOCK, NOMORE, COUNT]);
    poke(&table, base_word(index, word), random.pick(&[1, 1, 2, 256]))
}

fn process_above_processes(random: &mut Random, set: &Set, table: Table) -> Option<Words> {
    if set.processes() == MAX_PROCESSES {
        return None;
    }
    let edge = random.pick(&[set.processes(), MAX_PROCESSES - 1]);
    let index = if random.chance(50) {
        edge
    } else {
        random.between(set.processes(), MAX_PROCESSES - 1)
    };
    let word = random.pick(&[CALL, PHASE, WAKE, ENTRY]);
    poke(
        &table,
        process_word(index, word),
        random.pick(&[1, 1, 2, 256]),
    )
}

fn nomore_out_of_range(random: &mut Random, set: &Set, table: Table) -> Option<Words> {
    let at = base_word(random.below(set.bases), NOMORE);
    poke(&table, at, random.pick(&[2, 2, 3, 256, 257, 65535]))
}

fn phase_out_of_range(random: &mut Random, set: &Set, table: Table) -> Option<Words> {
    let p = random.below(set.processes());
    let old = table.processes[p].phase.word();
    let value = random.pick(&[8, 8, 9, 65535, old + 8, old + 256]);
    poke(&table, process_word(p, PHASE), value)
}

/// Some process finished but for its CALL, or CALL with its high byte spoiled.
fn call_above_calls(random: &mut Random, set: &Set, mut table: Table) -> Option<Words> {
    let p = random.below(set.processes());
    let routine = &set.routines[p];
    let at = process_word(p, CALL);
    if random.chance(30) {
        let call = table.processes[p].call;
        return poke(&table, at, call + random.pick(&[256, 32768]));
    }
    let n = routine.calls().len() as u16;
    table.processes[p] = in_phase(random, n, Phase::Start);
    if routine.stops_at().is_some() || !settles(set, &mut table) {
        return None;
    }
    poke(&table, at, random.pick(&[n + 1, n + 1, n + 2, 33, 65535]))
}

fn settles(set: &Set, table: &mut Table) -> bool {
    settle(set, table);
    is_consistent(set, table)
}

fn finished_in_a_phase(random: &mut Random, set: &Set, mut table: Table) -> Option<Words> {
    let p = random.below(set.processes());
    let n = set.routines[p].calls().len() as u16;
    table.processes[p] = in_phase(random, n, Phase::Start);
    if !settles(set, &mut table) {
        return None;
    }
    let phase = Phase::ALL[random.between(1, 7)];
    table.processes[p] = in_phase(random, n, phase);
    Some(table.to_words())
}

fn completed_logic_error(random: &mut Random, set: &Set, mut table: Table) -> Option<Words> {
    let p = random.below(set.processes());
    let routine = &set.routines[p];
    let error = routine.stops_at()?;
    let call = random.between(error + 1, routine.calls().len());
    if random.chance(50) {
        table = Table::fresh();
    }
    table.processes[p] = in_phase(random, call as u16, Phase::Start);
    settle(set, &mut table);
    Some(table.to_words())
}

/// A phase whose current call is of the wrong kind, or is or is not a logic error.
fn phase_at_wrong_call(random: &mut Random, set: &Set, table: Table) -> Option<Words> {
    let p = random.below(set.processes());
    let routine = &set.routines[p];
    let last = routine.stops_at().unwrap_or(routine.calls().len());
    let call = random.between(0, last) as u16;
    let phase = Phase::ALL[random.between(1, 7)];
    if routine.current(call).is_none() || phase_fits(routine, call, phase) {
        return None;
    }
    put_in_phase(random, set, table, p, call, phase)
}

/// A phase that fits the kind of the current call, but not its being a logic error.
fn phase_at_logic_error(random: &mut Random, set: &Set, table: Table) -> Option<Words> {
    let p = random.below(set.processes());
    let routine = &set.routines[p];
    let call = routine.stops_at()? as u16;
    let phases = match routine.current(call)?.kind {
        Kind::Modlock => &Phase::ALL[1..6],
        Kind::Readlock => &[
            Phase::Enlist,
            Phase::SecondTry,
            Phase::Delist,
            Phase::Waiting,
        ],
        Kind::Unlock | Kind::Decrease => &Phase::ALL[6..7],
    };
    let phase = random.pick(phases);
    put_in_phase(random, set, table, p, call, phase)
}

/// Nothing if the table would be inconsistent even with the process at the start of the call.
fn put_in_phase(
    random: &mut Random,
    set: &Set,
    mut table: Table,
    p: usize,
    call: u16,
    phase: Phase,
) -> Option<Words> {
    table.processes[p] = in_phase(random, call, Phase::Start);
    if !settles(set, &mut table) {
        return None;
    }
    table.processes[p] = in_phase(random, call, phase);
    settle(set, &mut table);
    Some(table.to_words())
}

fn wrong_marks(random: &mut Random, set: &Set, table: Table) -> Option<Words> {
    let phase = |p: usize| table.processes[p].phase;
    let marked: Vec<usize> = (0..set.processes())
        .filter(|&p| marks_fit(phase(p), true, false))
        .collect();
    let p = if marked.is_empty() || random.chance(40) {
        random.below(set.processes())
    } else {
        random.pick(&marked)
    };
    let (wake, entry) = some_marks(random);
    if wake < 2 && entry < 2 && marks_fit(phase(p), wake == 1, entry == 1) {
        return None;
    }
    let mut words = table.to_words();
    words[process_word(p, WAKE)] = wake;
    words[process_word(p, ENTRY)] = entry;
    Some(words)
}

/// Mostly both or neither.
fn some_marks(random: &mut Random) -> (u16, u16) {
    let values = [0, 1, 2, 256, 65535];
    let any = (random.pick(&values), random.pick(&values));
    random.pick(&[(0, 0), (0, 1), (1, 0), (1, 1), any])
}

fn wrong_lock(random: &mut Random, set: &Set, table: Table) -> Option<Words> {
    let b = random.below(set.bases);
    let other = random.between(0, 9) as u16;
    let above = set.processes() as u16 + 1;
    let high = table.bases[b].lock.wrapping_add(256);
    poke(
        &table,
        base_word(b, LOCK),
        random.pick(&[0, other, other, above, high]),
    )
}

fn wrong_count(random: &mut Random, set: &Set, table: Table) -> Option<Words> {
    let b = random.below(set.bases);
    let right = table.bases[b].count;
    let near = [right.saturating_sub(1), right + 1];
    let value = random.pick(&[near[0], near[1], 0, right + 256, 65535]);
    poke(&table, base_word(b, COUNT), value)
}

/// Every process in order by itself, but two modifying, or one modifying and one reading, a base.
fn clashing_holds(random: &mut Random, set: &Set, mut table: Table) -> Option<Words> {
    for _ in 0..4 {
        let p = random.below(set.processes());
        table.processes[p] = some_process(random, &set.routines[p]);
        if !settles(set, &mut table) {
            return Some(table.to_words());
        }
    }
    None
}

/// Forgets the base that phase 3 adds or phase 6 takes away.
fn holds_of_completed_calls_only(_: &mut Random, set: &Set, mut table: Table) -> Option<Words> {
    settle_by(set, &mut table, |routine, process| {
        holds_after(&routine.calls()[..usize::from(process.call)])
    });
    (!is_consistent(set, &table)).then(|| table.to_words())
}

#[cfg(test)]
mod tests {
    use super::*;
    use crate::generate::sets;

    fn is_consistent_words(set: &Set, words: &Words) -> bool {
        Table::from_words(words).is_some_and(|table| is_consistent(set, &table))
    }

    #[test]
    fn every_rule_can_be_broken_and_then_is() {
        let mut random = Random::new(7);
        let mut counts = [0; RULES.len()];
        for _ in 0..1000 {
            let set = sets::any(&mut random);
            for (count, rule) in counts.iter_mut().zip(RULES) {
                let table = chosen(&mut random, &set);
                if let Some(words) = rule(&mut random, &set, table) {
                    assert!(!is_consistent_words(&set, &words));
                    *count += 1;
                }
            }
        }
        assert!(counts.iter().all(|&count| count > 50), "{counts:?}");
    }
}
