//! Cases for the playing program.

use std::fs;
use std::io::{self, ErrorKind};
use std::path::Path;

use crate::file;
use crate::generate::{damage, sets};
use crate::play::MAX_TURNS;
use crate::random::Random;

/// Writes `count` cases as folders 0, 1, ... of `folder`.
pub fn write(seed: u64, count: u64, folder: &Path) -> io::Result<()> {
    let mut random = Random::new(seed);
    for case in 0..count {
        let folder = folder.join(case.to_string());
        fs::create_dir_all(&folder)?;
        let (set_bytes, turns) = play_case(&mut random);
        put(&folder.join("set.bin"), set_bytes)?;
        put(&folder.join("turns.bin"), turns)?;
    }
    Ok(())
}

/// The bytes of set.bin and of turns.bin; nothing for a file that shall be absent.
fn play_case(random: &mut Random) -> (Option<Vec<u8>>, Option<Vec<u8>>) {
    let set = sets::any(random);
    let set_bytes = match random.below(100) {
        0..=3 => None,
        4..=5 => Some(Vec::new()),
        6..=22 => Some(damage::damaged(random, &set)),
        _ => Some(file::write(&set)),
    };
    let turns = random
        .chance(95)
        .then(|| some_turns(random, set.processes()));
    (set_bytes, turns)
}

fn some_turns(random: &mut Random, processes: usize) -> Vec<u8> {
    let length = match random.below(20) {
        0 => 0,
        1 => MAX_TURNS,
        2 => random.pick(&[MAX_TURNS - 1, MAX_TURNS]),
        3 => random.pick(&[MAX_TURNS + 1, MAX_TURNS + 1, MAX_TURNS + 2, 10_000]),
        4..=8 => random.between(1, 20),
        _ => random.between(20, 600),
    };
    let mut turns: Vec<u8> = (0..length)
        .map(|_| random.between(1, processes) as u8)
        .collect();
    if length > 0 && random.chance(25) {
        let middle = random.below(length);
        let at = random.pick(&[0, length - 1, middle]);
        turns[at] = random.pick(&[0, processes as u8 + 1, 9, 255]);
    }
    turns
}

/// Removes what an earlier run left where the file shall be absent.
fn put(path: &Path, bytes: Option<Vec<u8>>) -> io::Result<()> {
    match bytes {
        Some(bytes) => fs::write(path, bytes),
        None => match fs::remove_file(path) {
            Err(error) if error.kind() != ErrorKind::NotFound => Err(error),
            _ => Ok(()),
        },
    }
}
