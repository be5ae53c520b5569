//! How often each answer and each phase transition occurs in a trials file.

use std::collections::BTreeMap;
use std::io::{self, Read, Write};

use crate::file;
use crate::routine::Set;
use crate::table::{Process, Table, Words};
use crate::trials::{Answer, Next, Op, Trial};

/// Counts by name. Every name that must occur is there from the start, with count 0; what a
/// notify did to the waiting lists is counted too, but need not occur.
pub struct Tally {
    counts: BTreeMap<String, u64>,
}

impl Tally {
    fn new() -> Tally {
        let counts = required().into_iter().map(|name| (name, 0)).collect();
        Tally { counts }
    }

    pub fn of(input: &mut impl Read) -> io::Result<Tally> {
        let mut tally = Tally::new();
        let mut trial = Trial::default();
        loop {
            match trial.read(input)? {
                Next::Trial => tally.count(&mut trial),
                Next::End => return Ok(tally),
                Next::Stop => {
                    tally.add("STOP".to_string());
                    return Ok(tally);
                }
            }
        }
    }

    pub fn write(&self, out: &mut impl Write) -> io::Result<()> {
        for (name, count) in &self.counts {
            writeln!(out, "{count} {name}")?;
        }
        Ok(())
    }

    pub fn is_complete(&self) -> bool {
        self.counts.values().all(|&count| count > 0)
    }

    fn add(&mut self, name: String) {
        *self.counts.entry(name).or_insert(0) += 1;
    }

    fn count(&mut self, trial: &mut Trial) {
        let before = table_of(&trial.words);
        let answer = trial.answer();
        self.add(answer_name(trial.op, &answer));
        if let (Op::Turn, Answer::Did(_), Some(before)) = (trial.op, answer, before) {
            self.count_turn(trial, &before);
        }
    }

    fn count_turn(&mut self, trial: &Trial, before: &Table) {
        let (Ok(set), Some(after)) = (file::read(&trial.file), table_of(&trial.words)) else {
            return;
        };
        let p = trial.process as usize;
        let [old, new] = [before, &after].map(|table| table.processes[p - 1]);
        self.add(transition_name(&set, p, &old, &new));
        if old.phase.word() == 6 {
            self.add(notify_name(before, &after));
        }
    }
}

fn table_of(words: &[u16]) -> Option<Table> {
    let words: &Words = words.try_into().ok()?;
    Table::from_words(words)
}

fn answer_name(op: Op, answer: &Answer) -> String {
    match answer {
        Answer::Read { .. } => "READ".to_string(),
        Answer::Refused(refusal) => refused_name(op, refusal.number),
        other => other.to_string(),
    }
}

fn refused_name(op: Op, number: u8) -> String {
    format!("op {} REFUSED {number}", op.byte())
}

fn transition_name(set: &Set, p: usize, old: &Process, new: &Process) -> String {
    let call = set.routines[p - 1].current(old.call);
    let kind = call.map_or("finished", |call| call.kind.name());
    format!("{} -> {} {kind}", old.phase.word(), new.phase.word())
}

fn notify_name(before: &Table, after: &Table) -> String {
    let listed = |table: &Table| table.processes.iter().filter(|p| p.entry).count();
    let left = listed(after);
    let woken = listed(before) - left;
    let others = if left > 0 { "some" } else { "none" };
    match woken {
        0 | 1 => format!("notify woke {woken}, left {others}"),
        _ => format!("notify woke several, left {others}"),
    }
}

fn required() -> Vec<String> {
    let answers = "READ,PASSES,FRESH,MOVED,IDLE,STANDING 0,STANDING 1,STANDING 2".split(',');
    let mut names: Vec<String> = answers.map(String::from).collect();
    for op in Op::ALL {
        let numbers = refusals(op).iter();
        names.extend(numbers.map(|&number| refused_name(op, number)));
    }
    for (from, to, kinds) in TRANSITIONS {
        let kinds = kinds.split(' ');
        names.extend(kinds.map(|kind| format!("{from} -> {to} {kind}")));
    }
    names
}

fn refusals(op: Op) -> &'static [u8] {
    match op {
        Op::Read => &[1, 2, 3],
        Op::Judge => &[1, 2, 3, 4],
        Op::Fresh => &[5],
        Op::Turn => &[1, 2, 3, 5, 6, 7],
        Op::Standing => &[1, 2, 3, 5, 6],
    }
}

const TRANSITIONS: [(u8, u8, &str); 14] = [
    (0, 0, "finished modlock readlock decrease"),
    (0, 1, "modlock readlock"),
    (0, 6, "unlock decrease"),
    (0, 7, "modlock readlock unlock decrease"),
    (1, 2, "modlock readlock"),
    (2, 3, "modlock readlock"),
    (2, 4, "modlock"),
    (2, 5, "readlock"),
    (3, 0, "modlock readlock"),
    (4, 5, "modlock"),
    (5, 0, "modlock readlock"),
    (5, 5, "modlock readlock"),
    (6, 0, "unlock decrease"),
    (7, 7, "modlock readlock unlock decrease"),
];
