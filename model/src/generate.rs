//! The generator of trials.

pub mod broken;
pub mod damage;
pub mod plays;
pub mod sets;
pub mod tables;

use std::io::{self, Write};

use crate::file;
use crate::random::Random;
use crate::routine::Set;
use crate::table::{PROCESSES_AT, PROCESS_WORDS};
use crate::trials::{Op, Trial};

/// Writes `count` trials of the given ops, the same for the same seed.
pub fn write_trials(seed: u64, count: u64, ops: &[Op], out: &mut impl Write) -> io::Result<()> {
    let mut random = Random::new(seed);
    for _ in 0..count {
        some_trial(&mut random, ops).write(out)?;
    }
    Ok(())
}

fn some_trial(random: &mut Random, ops: &[Op]) -> Trial {
    let op = some_op(random, ops);
    match op {
        Op::Read => file_trial(random, op, 60),
        Op::Judge => file_trial(random, op, 25),
        Op::Fresh => fresh_trial(random),
        Op::Turn | Op::Standing => table_trial(random, op),
    }
}

/// Turns are asked most, as they have most cases.
fn some_op(random: &mut Random, ops: &[Op]) -> Op {
    let weight = |op: Op| match op {
        Op::Read => 10,
        Op::Judge => 20,
        Op::Fresh => 3,
        Op::Turn => 50,
        Op::Standing => 17,
    };
    let mut left = random.below(ops.iter().map(|&op| weight(op)).sum());
    for &op in ops {
        if left < weight(op) {
            return op;
        }
        left -= weight(op);
    }
    Op::Read
}

fn file_of(random: &mut Random, set: &Set, damaged_percent: usize) -> Vec<u8> {
    if random.chance(damaged_percent) {
        damage::damaged(random, set)
    } else {
        file::write(set)
    }
}

fn file_trial(random: &mut Random, op: Op, damaged_percent: usize) -> Trial {
    let set = sets::any(random);
    Trial {
        op,
        file: file_of(random, &set, damaged_percent),
        words: Vec::new(),
        process: 0,
    }
}

fn fresh_trial(random: &mut Random) -> Trial {
    let set = sets::any(random);
    let words = if random.chance(50) {
        tables::of_wrong_length(random, &set)
    } else {
        tables::any(random, &set)
    };
    let length = random.pick(&[0, 0, 1, 16]);
    Trial {
        op: Op::Fresh,
        file: (0..length).map(|_| random.byte()).collect(),
        words,
        process: some_process(random, set.processes(), 1),
    }
}

fn table_trial(random: &mut Random, op: Op) -> Trial {
    let set = sets::any(random);
    let words = tables::any(random, &set);
    let busy = busy_process(random, &set, &words);
    Trial {
        op,
        file: file_of(random, &set, 10),
        process: some_process(random, set.processes(), busy),
        words,
    }
}

/// Of three processes drawn, one in the midst of a call or about to stop, else an unfinished one.
fn busy_process(random: &mut Random, set: &Set, words: &[u16]) -> usize {
    let drawn = [(); 3].map(|()| random.between(1, set.processes()));
    let worth = |&p: &usize| {
        let routine = &set.routines[p - 1];
        let at = PROCESSES_AT + PROCESS_WORDS * (p - 1);
        match words.get(at..at + 2) {
            Some(&[_, 1..=6]) => 2,
            Some(&[call, 0]) if routine.is_logic_error_at(call) => 2,
            Some(&[call, _]) if routine.current(call).is_none() => 0,
            _ => 1,
        }
    };
    drawn.into_iter().max_by_key(worth).unwrap_or(1)
}

/// Mostly `inside`, which is 1 to N; otherwise just outside, or 1 to N only when narrowed.
fn some_process(random: &mut Random, processes: usize, inside: usize) -> u32 {
    let inside = inside as u32;
    if random.chance(85) {
        return inside;
    }
    let above = processes as u32 + 1;
    let narrowed = [256 + inside, 65536 + inside, (1 << 31) + inside];
    let fixed = [0, 1, above - 1, above, 8, 9, 255, 256, 65537, u32::MAX];
    match random.below(4) {
        0 => random.pick(&narrowed),
        1 => random.bits() as u32,
        _ => random.pick(&fixed),
    }
}
