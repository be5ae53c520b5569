//! What must hold of every play, tried on generated sets.

use model::consistent::is_consistent;
use model::generate::{sets, tables};
use model::random::Random;
use model::routine::{holds_after, Set};
use model::standing::{standing, would_move};
use model::table::Table;
use model::turn::{turn, Did};

#[test]
fn turns_keep_consistency() {
    let mut random = Random::new(11);
    for _ in 0..3000 {
        let set = sets::any(&mut random);
        let mut table = tables::chosen(&mut random, &set);
        for _ in 0..20 {
            let p = random.between(1, set.processes());
            let before = table;
            let did = turn(&set, &mut table, p);
            assert!(is_consistent(&set, &table));
            assert_eq!(did == Did::Moved, before != table);
        }
    }
}

fn release_count(set: &Set) -> usize {
    let calls = set.routines.iter().flat_map(|routine| routine.calls());
    calls.filter(|call| !call.kind.is_take()).count()
}

/// A passing set is never stuck, ends, and moves at most (5 N + 1) R times, R the releases.
#[test]
fn passing_sets_finish() {
    let mut random = Random::new(12);
    for _ in 0..1000 {
        let set = sets::passing(&mut random);
        let bound = (5 * set.processes() + 1) * release_count(&set);
        let mut table = Table::fresh();
        let mut moves = 0;
        while standing(&set, &table) == 1 {
            let p = random.between(1, set.processes());
            if turn(&set, &mut table, p) == Did::Moved {
                moves += 1;
            }
        }
        assert_eq!(standing(&set, &table), 0);
        assert!(moves <= bound);
    }
}

/// The stored place of the first logic error agrees with the definition at every call.
#[test]
fn logic_errors_follow_the_definition() {
    let mut random = Random::new(13);
    for _ in 0..2000 {
        for routine in &sets::loose(&mut random).routines {
            let errors = (0..routine.calls().len()).filter(|&done| {
                let holds = holds_after(&routine.calls()[..done]);
                routine.calls()[done].is_logic_error(&holds)
            });
            assert_eq!(errors.min(), routine.stops_at());
        }
    }
}

#[test]
fn idle_is_finished_waiting_unwoken_or_stopped() {
    let mut random = Random::new(14);
    for _ in 0..3000 {
        let set = sets::any(&mut random);
        let table = tables::chosen(&mut random, &set);
        for (p, routine) in (1..).zip(&set.routines) {
            let process = table.processes[p - 1];
            let finished = usize::from(process.call) == routine.calls().len();
            let waits = process.phase.word() == 5 && !process.wake;
            let stopped = process.phase.word() == 7;
            assert_eq!(would_move(&set, &table, p), !(finished || waits || stopped));
        }
    }
}
