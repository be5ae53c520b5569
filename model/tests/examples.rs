//! Document 01's examples; the numbers are the document's.

use model::fixed::{file_of, two_processes};
use model::play::play;
use model::routine::{decrease, modlock, readlock, unlock, Call};
use model::table::WORDS;
use model::{calls, file, refusal::Refusal, turn::Did};

fn refused<T>(number: u8, block: usize, place: usize) -> Result<T, Refusal> {
    Err(Refusal {
        number,
        block,
        place,
    })
}

fn check_in_file(bytes: &[u8], p: usize) -> u32 {
    let at = p * 512 - 4;
    u32::from_le_bytes(bytes[at..at + 4].try_into().unwrap())
}

/// Non-zero words of a table: (word, value).
fn words(set: &[(usize, u16)]) -> [u16; WORDS] {
    let mut words = [0; WORDS];
    for &(at, value) in set {
        words[at] = value;
    }
    words
}

fn play_moves(bytes: &[u8], turns: &[u32]) -> [u16; WORDS] {
    let mut words = [0; WORDS];
    for &p in turns {
        assert_eq!(calls::turn(bytes, &mut words, p), Ok(Did::Moved));
    }
    words
}

#[test]
fn smallest_file() {
    let bytes = file_of(1, [&[]]);
    assert_eq!(check_in_file(&bytes, 1), 8);
    assert_eq!(calls::judge(&bytes), Ok(()));
    assert_eq!(calls::standing(&bytes, &[0; WORDS]), Ok(0));
}

#[test]
fn checks_of_the_two_process_file() {
    let bytes = two_processes();
    assert_eq!(bytes.len(), 1024);
    assert_eq!(bytes[..9], [1, 2, 2, 1, 1, 1, 3, 1, 0]);
    assert_eq!(bytes[512..521], [2, 2, 2, 1, 2, 1, 4, 1, 0]);
    assert_eq!(check_in_file(&bytes, 1), 56);
    assert_eq!(check_in_file(&bytes, 2), 69);
    assert_eq!(calls::judge(&bytes), Ok(()));
    assert_eq!(file::check_of(&[255; 512]), 32_967_931);
}

#[test]
fn ten_turns() {
    let expected = "\
TURN PROC CALL PHASE DID
1 1 1 0 MOVED
2 2 0 1 MOVED
3 1 1 6 MOVED
4 2 0 2 MOVED
5 1 2 0 MOVED
6 2 0 3 MOVED
7 2 1 0 MOVED
8 1 2 0 IDLE
9 2 1 6 MOVED
10 2 2 0 MOVED
STANDING 0
";
    let turns = [1, 2, 1, 2, 1, 2, 2, 1, 2, 2];
    assert_eq!(play(&two_processes(), &turns), expected);
}

/// LOCK, NOMORE and COUNT of base 1 are words 0 to 2; process 1 has 48 to 51, process 2 52 to 55.
#[test]
fn turns_1_to_6_word_by_word() {
    let bytes = two_processes();
    let after = [
        words(&[(0, 1), (48, 1)]),
        words(&[(0, 1), (48, 1), (53, 1)]),
        words(&[(48, 1), (49, 6), (53, 1)]),
        words(&[(48, 1), (49, 6), (53, 2), (55, 1)]),
        words(&[(48, 2), (53, 2), (54, 1)]),
        words(&[(2, 1), (48, 2), (53, 3), (54, 1)]),
    ];
    let turns = [1, 2, 1, 2, 1, 2];
    for (played, expected) in (1..).zip(after) {
        assert_eq!(play_moves(&bytes, &turns[..played]), expected, "{played}");
    }
}

#[test]
fn lengths() {
    for length in [0, 511, 4608] {
        assert_eq!(calls::judge(&vec![0; length]), refused(1, 0, 0));
        assert_eq!(play(&vec![0; length], &[]), "REFUSED 1 0\n");
    }
    assert_eq!(calls::judge(&[0; 4096]), refused(2, 1, 0));
    assert_eq!(calls::judge(&file_of(1, [&[]; 8])), Ok(()));
}

#[test]
fn judge() {
    let judge = |calls: &[Call]| calls::judge(&file_of(3, [calls]));
    assert_eq!(judge(&[readlock(1), readlock(1)]), refused(4, 1, 2));
    assert_eq!(judge(&[modlock(2), modlock(1)]), refused(4, 1, 2));
    assert_eq!(judge(&[modlock(1)]), refused(4, 1, 2));
    assert_eq!(judge(&[modlock(1), decrease(1)]), refused(4, 1, 2));
    let slip = [modlock(1), modlock(3), unlock(3), modlock(2)];
    assert_eq!(judge(&slip), refused(4, 1, 5));
    let released = [&slip[..], &[unlock(2), unlock(1)]].concat();
    assert_eq!(judge(&released), Ok(()));
    assert_eq!(judge(&[modlock(3), modlock(2)]), refused(4, 1, 2));
}

#[test]
fn ring_without_releases() {
    let bytes = file_of(2, [&[modlock(1), modlock(2)], &[modlock(2), modlock(1)]]);
    let words = play_moves(&bytes, &[1, 2, 1, 1, 1, 1, 2, 2, 2, 2]);
    assert_eq!(calls::standing(&bytes, &words), Ok(2));
}

#[test]
fn limits() {
    let top = [modlock(16), unlock(16)];
    assert!(calls::read(&file_of(16, [&top])).is_ok());
    assert_eq!(calls::read(&file_of(15, [&top])), refused(3, 1, 0));
    let pair = [modlock(1), unlock(1)];
    assert!(calls::read(&file_of(1, [&pair.repeat(16)])).is_ok());
    assert_eq!(
        calls::read(&file_of(1, [&pair.repeat(17)[..33]])),
        refused(3, 1, 0)
    );
    assert_eq!(calls::read(&[0; 512]), refused(2, 1, 0));
}

#[test]
fn process_numbers() {
    let bytes = two_processes();
    let turn = |p| calls::turn(&bytes, &mut [0; WORDS], p);
    assert_eq!(turn(2), Ok(Did::Moved));
    for p in [0, 3, 256 + 1, 65536 + 1, u32::MAX] {
        assert_eq!(turn(p), refused(7, 0, 0));
    }
}

#[test]
fn order_of_a_turns_refusals() {
    let bytes = two_processes();
    let mut flawed = bytes.clone();
    flawed[508] ^= 1;
    let mut short = [1; 79];
    assert_eq!(calls::turn(&flawed, &mut short, 0), refused(2, 1, 0));
    assert_eq!(calls::turn(&bytes, &mut short, 0), refused(5, 0, 0));
    assert_eq!(short, [1; 79]);
    let mut wild = [1; WORDS];
    assert_eq!(calls::turn(&bytes, &mut wild, 0), refused(6, 0, 0));
    assert_eq!(calls::turn(&bytes, &mut [0; WORDS], 0), refused(7, 0, 0));
    assert_eq!(calls::fresh(&mut [1; 81]), refused(5, 0, 0));
    assert_eq!(calls::fresh(&mut wild), Ok(()));
    assert_eq!(wild, [0; WORDS]);
}

#[test]
fn playing_program() {
    let header = "TURN PROC CALL PHASE DID\n";
    let bytes = two_processes();
    assert_eq!(play(&[], &[]), "REFUSED 1 0\n");
    assert_eq!(play(&[0; 512], &[1; 4097]), "REFUSED 2 1\n");
    assert_eq!(play(&bytes, &[0; 4097]), "REFUSED 8 0\n");
    assert_eq!(play(&bytes, &[]), format!("{header}STANDING 1\n"));
    assert_eq!(play(&bytes, &[3]), format!("{header}REFUSED 7 0\n"));
    assert_eq!(
        play(&bytes, &[1, 0, 1]),
        format!("{header}1 1 1 0 MOVED\nREFUSED 7 0\n")
    );
    assert_eq!(play(&bytes, &[1; 4096]).lines().count(), 4098);
}

/// The second modifier waited and set the switch; after both, a reader enters again.
#[test]
fn unlock_turns_the_switch_off() {
    let modifier = [modlock(1), unlock(1)];
    let reader = [readlock(1), decrease(1)];
    let bytes = file_of(1, [&modifier, &modifier, &reader, &reader]);
    let moves = [1, 2, 2, 2, 2, 1, 1, 2, 2, 2, 2, 3];
    let words = play_moves(&bytes, &moves);
    assert_eq!(words[..3], [0, 0, 1]);
}
