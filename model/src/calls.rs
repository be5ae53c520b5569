//! The five calls on bytes and words, with their refusals in order.

use crate::consistent::is_consistent;
use crate::refusal::{self, Refusal};
use crate::routine::Set;
use crate::table::{Table, Words};
use crate::turn::Did;
use crate::{file, judge, standing, turn};

pub fn read(bytes: &[u8]) -> Result<Set, Refusal> {
    file::read(bytes)
}

pub fn judge(bytes: &[u8]) -> Result<(), Refusal> {
    judge::judge(&file::read(bytes)?)
}

pub fn fresh(words: &mut [u16]) -> Result<(), Refusal> {
    let words = exact_mut(words)?;
    *words = Table::fresh().to_words();
    Ok(())
}

pub fn turn(bytes: &[u8], words: &mut [u16], process: u32) -> Result<Did, Refusal> {
    let set = file::read(bytes)?;
    let words = exact_mut(words)?;
    let mut table = consistent_table(&set, words)?;
    let p = process as usize;
    if !(1..=set.processes()).contains(&p) {
        return Err(Refusal::of(refusal::PROCESS));
    }
    let did = turn::turn(&set, &mut table, p);
    *words = table.to_words();
    Ok(did)
}

pub fn standing(bytes: &[u8], words: &[u16]) -> Result<u8, Refusal> {
    let set = file::read(bytes)?;
    let words = words.try_into().map_err(|_| wrong_length())?;
    let table = consistent_table(&set, words)?;
    Ok(standing::standing(&set, &table))
}

fn wrong_length() -> Refusal {
    Refusal::of(refusal::TABLE_LENGTH)
}

fn exact_mut(words: &mut [u16]) -> Result<&mut Words, Refusal> {
    words.try_into().map_err(|_| wrong_length())
}

fn consistent_table(set: &Set, words: &Words) -> Result<Table, Refusal> {
    Table::from_words(words)
        .filter(|table| is_consistent(set, table))
        .ok_or(Refusal::of(refusal::INCONSISTENT))
}
