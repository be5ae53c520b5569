//! Files on either side of the refusals 1, 2 and 3.

use super::{file_of, refused, two_processes, vector, Vector};
use crate::file::{self, BLOCK, CHECK_AT};
use crate::routine::{modlock, unlock};

pub fn vectors() -> Vec<Vector> {
    let whole = [lengths(), checks()];
    let fields = [numbers(), counts(), bases(), kinds(), paddings()];
    whole.into_iter().chain(fields).flatten().collect()
}

/// The file with byte `at` of block p changed and the check made right again.
fn with_byte(mut bytes: Vec<u8>, p: usize, at: usize, value: u8) -> Vec<u8> {
    let block = &mut bytes[(p - 1) * BLOCK..][..BLOCK];
    block[at] = value;
    file::seal(block);
    bytes
}

/// The file with byte `at` of block p changed and the check left as it was.
fn with_flaw(mut bytes: Vec<u8>, p: usize, at: usize) -> Vec<u8> {
    bytes[(p - 1) * BLOCK + at] ^= 1;
    bytes
}

fn with_length(mut bytes: Vec<u8>, length: usize) -> Vec<u8> {
    bytes.resize(length, 0);
    bytes
}

fn lengths() -> Vec<Vector> {
    let empty = || file_of(1, [&[]]);
    let eight = || file_of(1, [&[]; 8]);
    vec![
        refused("no blocks", Vec::new(), "REFUSED 1 0 0"),
        refused("1 byte", vec![1], "REFUSED 1 0 0"),
        refused("511 bytes", with_length(empty(), 511), "REFUSED 1 0 0"),
        vector("N 1, B 1, n 0", empty(), "READ 1 1", "PASSES"),
        refused("513 bytes", with_length(empty(), 513), "REFUSED 1 0 0"),
        vector("8 blocks", eight(), "READ 8 1", "PASSES"),
        refused("4,095 bytes", with_length(eight(), 4095), "REFUSED 1 0 0"),
        refused("4,097 bytes", with_length(eight(), 4097), "REFUSED 1 0 0"),
        refused("9 blocks", file_of(1, [&[]; 9]), "REFUSED 1 0 0"),
        refused("16 blocks", file_of(1, [&[]; 16]), "REFUSED 1 0 0"),
    ]
}

fn checks() -> Vec<Vector> {
    let two = two_processes;
    let bad_field = || with_byte(two(), 1, 4, 5);
    let ones = || with_byte(vec![255; BLOCK], 1, 0, 255);
    let zeros = vec![0; BLOCK];
    let sealed = with_byte(zeros.clone(), 1, 0, 0);
    let both = with_flaw(with_flaw(two(), 2, 508), 1, 508);
    let long = with_length(with_flaw(two(), 1, 508), 1025);
    vec![
        vector("checks 56 and 69", two(), "READ 2 1", "PASSES"),
        refused("512 zeros", zeros, "REFUSED 2 1 0"),
        refused("508 zeros and check 1", sealed, "REFUSED 3 1 0"),
        refused("byte 508", with_flaw(two(), 1, 508), "REFUSED 2 1 0"),
        refused("byte 509", with_flaw(two(), 1, 509), "REFUSED 2 1 0"),
        refused("byte 510", with_flaw(two(), 1, 510), "REFUSED 2 1 0"),
        refused("byte 511", with_flaw(two(), 1, 511), "REFUSED 2 1 0"),
        refused("block 2's check", with_flaw(two(), 2, 508), "REFUSED 2 2 0"),
        refused("both checks", both, "REFUSED 2 1 0"),
        refused("a changed call", with_flaw(two(), 2, 7), "REFUSED 2 2 0"),
        refused("all bytes 255, check right", ones(), "REFUSED 3 1 0"),
        refused("all bytes 255", with_flaw(ones(), 1, 511), "REFUSED 2 1 0"),
        refused(
            "field 1, check 2",
            with_flaw(bad_field(), 2, 508),
            "REFUSED 2 2 0",
        ),
        refused("length and check", long, "REFUSED 1 0 0"),
    ]
}

fn numbers() -> Vec<Vector> {
    let one = || file_of(1, [&[]]);
    let two = two_processes;
    let three = || file_of(1, [&[]; 3]);
    let two_bad = with_byte(with_byte(three(), 3, 0, 9), 2, 1, 2);
    let cut = with_length(two(), BLOCK);
    vec![
        refused("byte 0 is 0", with_byte(one(), 1, 0, 0), "REFUSED 3 1 0"),
        refused("byte 0 is 2", with_byte(one(), 1, 0, 2), "REFUSED 3 1 0"),
        refused("byte 1 is 0", with_byte(one(), 1, 1, 0), "REFUSED 3 1 0"),
        refused("byte 1 is 2", with_byte(one(), 1, 1, 2), "REFUSED 3 1 0"),
        refused("2 says 1", with_byte(two(), 2, 0, 1), "REFUSED 3 2 0"),
        refused("2 says N 1", with_byte(two(), 2, 1, 1), "REFUSED 3 2 0"),
        refused("block 1 alone of two", cut, "REFUSED 3 1 0"),
        refused("blocks 2 and 3", two_bad, "REFUSED 3 2 0"),
    ]
}

fn counts() -> Vec<Vector> {
    let one = || file_of(1, [&[]]);
    let two = two_processes;
    let many = [modlock(1), unlock(1)].repeat(17);
    let count = |n| file_of(1, [&many[..n]]);
    vec![
        vector("32 calls", count(32), "READ 1 1", "PASSES"),
        refused("33 calls", count(33), "REFUSED 3 1 0"),
        refused("34 calls", count(34), "REFUSED 3 1 0"),
        refused("n 33 of none", with_byte(one(), 1, 2, 33), "REFUSED 3 1 0"),
        refused("n 255", with_byte(one(), 1, 2, 255), "REFUSED 3 1 0"),
        refused("n above", with_byte(two(), 2, 2, 3), "REFUSED 3 2 0"),
        refused("n below", with_byte(two(), 2, 2, 1), "REFUSED 3 2 0"),
    ]
}

fn bases() -> Vec<Vector> {
    let top = [modlock(16), unlock(16)];
    let two = two_processes;
    let none = |bases| file_of(bases, [&[], &[]]);
    vec![
        vector("base 16, B 16", file_of(16, [&top]), "READ 1 16", "PASSES"),
        refused("base 16, B 15", file_of(15, [&top]), "REFUSED 3 1 0"),
        refused(
            "base 16, B 15, block 2",
            file_of(15, [&[], &top]),
            "REFUSED 3 2 0",
        ),
        vector("B 16", none(16), "READ 2 16", "PASSES"),
        refused("B 0", none(0), "REFUSED 3 1 0"),
        refused("B 17", none(17), "REFUSED 3 1 0"),
        refused("B 255", none(255), "REFUSED 3 1 0"),
        refused("B 0 in block 2", with_byte(two(), 2, 3, 0), "REFUSED 3 2 0"),
        refused("B 2 in block 2", with_byte(two(), 2, 3, 2), "REFUSED 3 2 0"),
        refused("B 2 in block 1", with_byte(two(), 1, 3, 2), "REFUSED 3 2 0"),
        refused(
            "B 17 in block 1",
            with_byte(two(), 1, 3, 17),
            "REFUSED 3 1 0",
        ),
        refused("base 0", with_byte(two(), 1, 5, 0), "REFUSED 3 1 0"),
        refused(
            "base 0 in block 2",
            with_byte(two(), 2, 7, 0),
            "REFUSED 3 2 0",
        ),
        refused("base 2, B 1", with_byte(two(), 2, 7, 2), "REFUSED 3 2 0"),
        refused("base 255", with_byte(two(), 1, 5, 255), "REFUSED 3 1 0"),
    ]
}

fn kinds() -> Vec<Vector> {
    let two = two_processes;
    let judged_bad = with_byte(two(), 1, 6, 4);
    vec![
        refused("kind 0", with_byte(two(), 1, 4, 0), "REFUSED 3 1 0"),
        refused("kind 5", with_byte(two(), 1, 4, 5), "REFUSED 3 1 0"),
        refused("kind 255", with_byte(two(), 1, 4, 255), "REFUSED 3 1 0"),
        refused("last kind 0", with_byte(two(), 2, 6, 0), "REFUSED 3 2 0"),
        refused("last kind 5", with_byte(two(), 2, 6, 5), "REFUSED 3 2 0"),
        refused(
            "field before judge",
            with_byte(judged_bad, 2, 6, 5),
            "REFUSED 3 2 0",
        ),
    ]
}

fn paddings() -> Vec<Vector> {
    let one = || file_of(1, [&[]]);
    let two = two_processes;
    let full = || file_of(1, [&[modlock(1), unlock(1)].repeat(16)]);
    let last = CHECK_AT - 1;
    vec![
        refused("byte 4 of none", with_byte(one(), 1, 4, 1), "REFUSED 3 1 0"),
        refused(
            "byte 8 after two calls",
            with_byte(two(), 1, 8, 1),
            "REFUSED 3 1 0",
        ),
        refused(
            "byte 9 after two calls",
            with_byte(two(), 2, 9, 1),
            "REFUSED 3 2 0",
        ),
        refused(
            "byte 68 after 32 calls",
            with_byte(full(), 1, 68, 1),
            "REFUSED 3 1 0",
        ),
        refused("byte 256", with_byte(one(), 1, 256, 255), "REFUSED 3 1 0"),
        refused(
            "byte 506",
            with_byte(one(), 1, last - 1, 1),
            "REFUSED 3 1 0",
        ),
        refused("byte 507", with_byte(one(), 1, last, 1), "REFUSED 3 1 0"),
        refused(
            "byte 507 of block 2",
            with_byte(two(), 2, last, 128),
            "REFUSED 3 2 0",
        ),
    ]
}

#[cfg(test)]
mod tests {
    use super::*;

    #[test]
    fn lengths_are_those_of_the_limits() {
        let lengths: Vec<usize> = lengths().iter().map(|vector| vector.file.len()).collect();
        assert_eq!(lengths, [0, 1, 511, 512, 513, 4096, 4095, 4097, 4608, 8192]);
    }
}
