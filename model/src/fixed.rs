//! The fixed vectors for reading and judging.

mod files;
mod judged;

use std::io::{self, Write};

use crate::file;
use crate::generate::{damage, sets};
use crate::random::Random;
use crate::routine::{decrease, modlock, readlock, unlock, Call, Set};
use crate::trials::{Op, Trial};

const DAMAGED_SEED: u64 = 1966;
const DAMAGED_COUNT: usize = 150;

/// A file and what document 01 says of it.
#[derive(Clone)]
pub struct Vector {
    pub name: &'static str,
    pub file: Vec<u8>,
    pub read: &'static str,
    pub judge: &'static str,
}

/// Every vector, asked of the reader and of the judge.
pub fn write(out: &mut impl Write) -> io::Result<()> {
    let files = hand_made().into_iter().map(|vector| vector.file);
    for file in files.chain(damaged_files()) {
        for op in [Op::Read, Op::Judge] {
            let trial = Trial {
                op,
                file: file.clone(),
                ..Trial::default()
            };
            trial.write(out)?;
        }
    }
    Ok(())
}

fn damaged_files() -> Vec<Vec<u8>> {
    let mut random = Random::new(DAMAGED_SEED);
    let mut one = || {
        let set = sets::any(&mut random);
        damage::damaged(&mut random, &set)
    };
    (0..DAMAGED_COUNT).map(|_| one()).collect()
}

pub fn hand_made() -> Vec<Vector> {
    [files::vectors(), judged::vectors()].concat()
}

fn vector(name: &'static str, file: Vec<u8>, read: &'static str, judge: &'static str) -> Vector {
    Vector {
        name,
        file,
        read,
        judge,
    }
}

/// A file refused alike by the reader and by the judge.
fn refused(name: &'static str, file: Vec<u8>, answer: &'static str) -> Vector {
    vector(name, file, answer, answer)
}

pub fn file_of<const N: usize>(bases: usize, lists: [&[Call]; N]) -> Vec<u8> {
    let lists = lists.iter().map(|calls| calls.to_vec()).collect();
    file::write(&Set::new(bases, lists))
}

/// Document 01's example: a modifier and a reader of base 1.
pub fn two_processes() -> Vec<u8> {
    let modifier = [modlock(1), unlock(1)];
    let reader = [readlock(1), decrease(1)];
    file_of(1, [&modifier, &reader])
}

#[cfg(test)]
mod tests {
    use super::*;

    fn answer(op: Op, file: &[u8]) -> String {
        let mut trial = Trial {
            op,
            file: file.to_vec(),
            ..Trial::default()
        };
        trial.answer().to_string()
    }

    #[test]
    fn hand_made_vectors_are_answered_as_written() {
        for vector in hand_made() {
            let answers = [Op::Read, Op::Judge].map(|op| answer(op, &vector.file));
            assert_eq!(answers, [vector.read, vector.judge], "{}", vector.name);
        }
    }

    #[test]
    fn every_refusal_is_among_the_damaged_files() {
        let files = damaged_files();
        for start in ["REFUSED 1", "REFUSED 2", "REFUSED 3"] {
            let refused = |file: &&Vec<u8>| answer(Op::Read, file).starts_with(start);
            assert!(files.iter().filter(refused).count() > 20, "{start}");
        }
    }
}
