//! The routine file: layout, check, field rules.

use crate::refusal::{self, Refusal};
use crate::routine::{Call, Kind, Routine, Set, MAX_BASES, MAX_CALLS, MAX_PROCESSES};

pub const BLOCK: usize = 512;
pub const CALLS_AT: usize = 4;
pub const CHECK_AT: usize = 508;
pub const MAX_FILE: usize = MAX_PROCESSES * BLOCK;

/// Reads a file, or gives the first of the refusals 1, 2, 3 that is due.
pub fn read(bytes: &[u8]) -> Result<Set, Refusal> {
    if bytes.is_empty() || bytes.len() > MAX_FILE || !bytes.len().is_multiple_of(BLOCK) {
        return Err(Refusal::of(refusal::LENGTH));
    }
    let blocks: Vec<&[u8]> = bytes.chunks(BLOCK).collect();
    if let Some(bad) = blocks.iter().position(|block| !has_right_check(block)) {
        return Err(Refusal::at_block(refusal::CHECK, bad + 1));
    }
    let bases = usize::from(blocks[0][3]);
    let mut routines = Vec::with_capacity(blocks.len());
    for (p, block) in (1..).zip(&blocks) {
        match read_block(block, p, blocks.len(), bases) {
            Some(routine) => routines.push(routine),
            None => return Err(Refusal::at_block(refusal::FIELD, p)),
        }
    }
    Ok(Set { bases, routines })
}

/// The check that the first 508 bytes of `block` ask for.
pub fn check_of(block: &[u8]) -> u32 {
    let weighted = (1u32..).zip(&block[..CHECK_AT]);
    1 + weighted.map(|(w, &byte)| w * u32::from(byte)).sum::<u32>()
}

fn has_right_check(block: &[u8]) -> bool {
    block[CHECK_AT..BLOCK] == check_of(block).to_le_bytes()
}

/// Block p of a file of `processes` blocks, or nothing if it breaks a field rule.
fn read_block(block: &[u8], p: usize, processes: usize, bases: usize) -> Option<Routine> {
    let [own, all, n, b] = [0, 1, 2, 3].map(|i| usize::from(block[i]));
    if own != p || all != processes || n > MAX_CALLS {
        return None;
    }
    if b != bases || !(1..=MAX_BASES).contains(&b) {
        return None;
    }
    let end = CALLS_AT + 2 * n;
    if block[end..CHECK_AT].iter().any(|&byte| byte != 0) {
        return None;
    }
    let pairs = block[CALLS_AT..end].chunks(2);
    let calls: Option<Vec<Call>> = pairs.map(|pair| read_call(pair, bases)).collect();
    calls.map(Routine::new)
}

fn read_call(pair: &[u8], bases: usize) -> Option<Call> {
    let kind = Kind::from_byte(pair[0])?;
    let base = usize::from(pair[1]);
    (1..=bases).contains(&base).then_some(Call::new(kind, base))
}

/// The file of a set. Sets beyond the limits are written too, for files that must be refused.
pub fn write(set: &Set) -> Vec<u8> {
    let mut bytes = Vec::with_capacity(set.processes() * BLOCK);
    for (p, routine) in (1u8..).zip(&set.routines) {
        let mut block = [0; BLOCK];
        let counts = [set.processes(), routine.calls().len(), set.bases];
        block[0] = p;
        block[1..CALLS_AT].copy_from_slice(&counts.map(|count| count as u8));
        for (pair, call) in block[CALLS_AT..].chunks_mut(2).zip(routine.calls()) {
            pair.copy_from_slice(&[call.kind.byte(), call.base as u8]);
        }
        seal(&mut block);
        bytes.extend_from_slice(&block);
    }
    bytes
}

/// Makes the check of one block right.
pub fn seal(block: &mut [u8]) {
    let check = check_of(block);
    block[CHECK_AT..BLOCK].copy_from_slice(&check.to_le_bytes());
}
