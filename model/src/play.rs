//! The playing program.

use std::fmt::Write;
use std::fs::File;
use std::io::{self, Read};
use std::path::Path;

use crate::file;
use crate::refusal::{self, Refusal};
use crate::routine::Set;
use crate::standing::standing;
use crate::table::Table;
use crate::turn::turn;

pub const MAX_TURNS: usize = 4096;
const MAX_READ: u64 = 4097;

/// What the program prints for the two files in `folder`.
pub fn play_folder(folder: &Path) -> String {
    let set_bytes = load(&folder.join("set.bin"));
    let turns = load(&folder.join("turns.bin"));
    play(&set_bytes, &turns)
}

/// One byte more than the limit is enough to see that a file is too long.
fn load(path: &Path) -> Vec<u8> {
    let read = || -> io::Result<Vec<u8>> {
        let mut bytes = Vec::new();
        File::open(path)?.take(MAX_READ).read_to_end(&mut bytes)?;
        Ok(bytes)
    };
    read().unwrap_or_default()
}

pub fn play(set_bytes: &[u8], turns: &[u8]) -> String {
    match start(set_bytes, turns) {
        Ok(set) => play_turns(&set, turns),
        Err(refusal) => format!("{refusal}\n"),
    }
}

fn start(set_bytes: &[u8], turns: &[u8]) -> Result<Set, Refusal> {
    let set = file::read(set_bytes)?;
    if turns.len() > MAX_TURNS {
        return Err(Refusal::of(refusal::TOO_MANY_TURNS));
    }
    Ok(set)
}

fn play_turns(set: &Set, turns: &[u8]) -> String {
    let mut out = String::from("TURN PROC CALL PHASE DID\n");
    let mut table = Table::fresh();
    for (number, &byte) in (1..).zip(turns) {
        let p = usize::from(byte);
        if !(1..=set.processes()).contains(&p) {
            push_line(&mut out, Refusal::of(refusal::PROCESS));
            return out;
        }
        let did = turn(set, &mut table, p).word();
        let after = table.processes[p - 1];
        let phase = after.phase.word();
        push_line(
            &mut out,
            format_args!("{number} {p} {} {phase} {did}", after.call),
        );
    }
    push_line(&mut out, format_args!("STANDING {}", standing(set, &table)));
    out
}

fn push_line(out: &mut String, line: impl std::fmt::Display) {
    writeln!(out, "{line}").expect("a string takes every line");
}
