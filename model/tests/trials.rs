//! The form of trials files and of the answers to them.

use model::fixed::two_processes;
use model::generate::write_trials;
use model::tally::Tally;
use model::trials::{answer_all, Op, Trial};

fn answers(input: &[u8]) -> String {
    let mut out = Vec::new();
    answer_all(&mut &input[..], &mut out).unwrap();
    String::from_utf8(out).unwrap()
}

fn bytes_of(op: Op, file: Vec<u8>, words: Vec<u16>, process: u32) -> Vec<u8> {
    let mut bytes = Vec::new();
    let trial = Trial {
        op,
        file,
        words,
        process,
    };
    trial.write(&mut bytes).unwrap();
    bytes
}

#[test]
fn one_line_a_trial() {
    let two = two_processes;
    let mut input = bytes_of(Op::Read, two(), vec![], 0);
    input.extend(bytes_of(Op::Judge, two(), vec![], 0));
    input.extend(bytes_of(Op::Fresh, vec![], vec![7, 0xabcd], 0));
    input.extend(bytes_of(Op::Turn, two(), vec![0xfffe], 1));
    input.extend(bytes_of(Op::Standing, two(), vec![0; 80], 0));
    let expected = "\
1 READ 2 1
2 PASSES
3 REFUSED 5 0 0 0007 abcd
4 REFUSED 5 0 0 fffe
5 STANDING 1
";
    assert_eq!(answers(&input), expected);
    input.pop();
    assert_eq!(answers(&input), expected.replace("5 STANDING 1", "STOP"));
}

#[test]
fn words_after_a_turn_and_after_fresh() {
    let input = bytes_of(Op::Turn, two_processes(), vec![0; 80], 1);
    let zeros = " 0000".repeat(47);
    let rest = " 0000".repeat(31);
    assert_eq!(answers(&input), format!("4 MOVED 0001{zeros} 0001{rest}\n"));
    let input = bytes_of(Op::Fresh, vec![], vec![9; 80], 1);
    assert_eq!(answers(&input), format!("3 FRESH{}\n", " 0000".repeat(80)));
}

#[test]
fn layout() {
    let bytes = bytes_of(Op::Standing, vec![9, 8], vec![0x0102], 0x0403_0201);
    assert_eq!(bytes, [5, 2, 0, 9, 8, 1, 0, 2, 1, 1, 2, 3, 4]);
}

#[test]
fn stops() {
    assert_eq!(answers(&[]), "");
    assert_eq!(answers(&[0]), "STOP\n");
    assert_eq!(answers(&[6, 0, 0, 0, 0, 0, 0, 0, 0]), "STOP\n");
    assert_eq!(answers(&[1]), "STOP\n");
    let limit = |length, words| answers(&bytes_of(Op::Read, vec![0; length], vec![0; words], 0));
    assert_eq!(limit(8192, 256), "1 REFUSED 1 0 0\n");
    assert_eq!(limit(8193, 256), "STOP\n");
    assert_eq!(limit(8192, 257), "STOP\n");
}

#[test]
fn generated_trials_reach_every_answer_and_transition() {
    let mut trials = Vec::new();
    write_trials(1, 10_000, &Op::ALL, &mut trials).unwrap();
    assert!(Tally::of(&mut &trials[..]).unwrap().is_complete());
    let mut again = Vec::new();
    write_trials(1, 10_000, &Op::ALL, &mut again).unwrap();
    assert!(trials == again);
}
