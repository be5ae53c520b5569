//! The standing of a table.

use crate::routine::Set;
use crate::table::Table;
use crate::turn::{turn, Did};

/// 0: every routine finished; 1: not 0 and some process would move; 2: neither.
/// The table is consistent with the set.
pub fn standing(set: &Set, table: &Table) -> u8 {
    let all_finished = set
        .routines
        .iter()
        .zip(&table.processes)
        .all(|(routine, process)| routine.current(process.call).is_none());
    let someone_moves = (1..=set.processes()).any(|p| would_move(set, table, p));
    match (all_finished, someone_moves) {
        (true, _) => 0,
        (false, true) => 1,
        (false, false) => 2,
    }
}

pub fn would_move(set: &Set, table: &Table, p: usize) -> bool {
    let mut tried = *table;
    turn(set, &mut tried, p) == Did::Moved
}
