//! Damaged routine files.

use crate::file::{self, BLOCK, CALLS_AT, CHECK_AT};
use crate::generate::sets;
use crate::random::Random;
use crate::routine::{Set, MAX_CALLS};

/// The file of `set`, damaged in one place, now and then in two.
pub fn damaged(random: &mut Random, set: &Set) -> Vec<u8> {
    let mut bytes = file::write(set);
    damage(random, &mut bytes, set);
    if random.chance(20) && bytes.len() == set.processes() * BLOCK {
        damage(random, &mut bytes, set);
    }
    bytes
}

fn damage(random: &mut Random, bytes: &mut Vec<u8>, set: &Set) {
    let p = random.between(1, set.processes());
    let block = &mut bytes[(p - 1) * BLOCK..][..BLOCK];
    match random.below(20) {
        0..=3 => change_length(random, bytes),
        4..=5 => flip_bytes(random, bytes),
        6..=8 => spoil_check(random, block),
        9..=15 => spoil_field(random, block, p),
        16 => fill(random, block),
        17 => spoil_bases_everywhere(random, bytes, set),
        18 => swap_blocks(random, bytes, set.processes()),
        _ => *bytes = file::write(&sets::beyond_limits(random)),
    }
}

/// Cuts the file, or lengthens it by its own bytes or by zeros.
fn change_length(random: &mut Random, bytes: &mut Vec<u8>) {
    let limits = [0, 1, 511, 512, 513, 4096, 4097, 4608, 5120, 8192];
    let length = match random.below(4) {
        0 => random.between(0, 8192),
        1 => (bytes.len() + random.pick(&[1, BLOCK, BLOCK + 1])) - 1,
        _ => random.pick(&limits),
    };
    let zeros = random.chance(30);
    let old = bytes.len();
    bytes.truncate(length);
    while bytes.len() < length {
        let next = if zeros { 0 } else { bytes[bytes.len() - old] };
        bytes.push(next);
    }
}

fn flip_bytes(random: &mut Random, bytes: &mut [u8]) {
    for _ in 0..random.between(1, 3) {
        let at = random.below(bytes.len());
        bytes[at] ^= 1 << random.below(8);
    }
}

fn spoil_check(random: &mut Random, block: &mut [u8]) {
    let right = file::check_of(block);
    let weights = (0u32..).zip(&block[..CHECK_AT]);
    let from_zero = 1 + weights.map(|(w, &byte)| w * u32::from(byte)).sum::<u32>();
    let wrong = match random.below(8) {
        at @ 0..=3 => right ^ (random.between(1, 255) as u32) << (8 * at),
        4 => right - 1,
        5 => right + 1,
        6 => right.swap_bytes(),
        _ => from_zero,
    };
    block[CHECK_AT..].copy_from_slice(&wrong.to_le_bytes());
}

/// Breaks one field rule and makes the check right again.
fn spoil_field(random: &mut Random, block: &mut [u8], p: usize) {
    let [_, all, n, bases] = [0, 1, 2, 3].map(|at| block[at]);
    let calls = usize::from(n).min(MAX_CALLS);
    let kind_at = CALLS_AT + 2 * random.below(calls.max(1));
    let above = bases.wrapping_add(1);
    let (at, value) = match random.below(9) {
        0 => (0, other_than(random, p as u8)),
        1 => (1, other_than(random, all)),
        2 => (2, random.pick(&[33, 34, 64, 252, 255, n.wrapping_add(1)])),
        3 => (2, n.saturating_sub(1)),
        4 => (3, other_than(random, bases)),
        5 => (3, random.pick(&[0, 17, 255])),
        6 if calls > 0 => (kind_at, random.pick(&[0, 5, 6, 255])),
        7 if calls > 0 => (kind_at + 1, random.pick(&[0, above, above, 255])),
        _ => (padding_place(random, calls), random.pick(&[1, 2, 128, 255])),
    };
    block[at] = value;
    file::seal(block);
}

/// Mostly the first or the last byte that must be zero.
fn padding_place(random: &mut Random, calls: usize) -> usize {
    let first = CALLS_AT + 2 * calls;
    let last = CHECK_AT - 1;
    let anywhere = random.between(first, last);
    random.pick(&[first, first + 1, last, last, anywhere, anywhere])
}

/// Mostly a neighbour of `byte`.
fn other_than(random: &mut Random, byte: u8) -> u8 {
    let far = byte.wrapping_add(random.between(1, 255) as u8);
    let near = [byte.wrapping_sub(1), byte.wrapping_add(1)];
    random.pick(&[0, near[0], near[1], near[0], near[1], far])
}

/// A block of other bytes, mostly with the right check: large ones reach its fourth byte.
fn fill(random: &mut Random, block: &mut [u8]) {
    match random.below(3) {
        0 => block.fill(0),
        1 => block.fill(255),
        _ => block.iter_mut().for_each(|byte| *byte = random.byte()),
    }
    if random.chance(75) {
        file::seal(block);
    }
}

/// The same wrong or lower B in every block: only calls or the limit can be at fault.
fn spoil_bases_everywhere(random: &mut Random, bytes: &mut [u8], set: &Set) {
    let lower = set.bases as u8 - 1;
    let bases = random.pick(&[0, 17, lower, lower, lower]);
    for block in bytes.chunks_exact_mut(BLOCK) {
        block[3] = bases;
        file::seal(block);
    }
}

fn swap_blocks(random: &mut Random, bytes: &mut [u8], processes: usize) {
    let [one, two] = [(); 2].map(|()| random.below(processes) * BLOCK);
    for i in 0..BLOCK {
        bytes.swap(one + i, two + i);
    }
}

#[cfg(test)]
mod tests {
    use super::*;

    #[test]
    fn nearly_every_damaged_file_is_refused() {
        let mut random = Random::new(5);
        let mut counts = [0; 4];
        for _ in 0..4000 {
            let set = sets::any(&mut random);
            let bytes = damaged(&mut random, &set);
            match file::read(&bytes) {
                Ok(_) => counts[0] += 1,
                Err(refusal) => counts[usize::from(refusal.number)] += 1,
            }
        }
        assert!(counts[0] < 600, "{counts:?}");
        assert!(counts[1..].iter().all(|&count| count > 600), "{counts:?}");
    }
}
