//! The state table, as 80 words and as a structure.

use crate::routine::{MAX_BASES, MAX_PROCESSES};

pub const WORDS: usize = 80;
pub const BASE_WORDS: usize = 3;
pub const PROCESS_WORDS: usize = 4;
pub const PROCESSES_AT: usize = MAX_BASES * BASE_WORDS;

pub type Words = [u16; WORDS];

#[derive(Clone, Copy, PartialEq, Eq, Debug, Default)]
pub enum Phase {
    #[default]
    Start,
    Enlist,
    SecondTry,
    Delist,
    SetSwitch,
    Waiting,
    Notify,
    Stopped,
}

impl Phase {
    /// Every phase, at the index that is its number.
    pub const ALL: [Phase; 8] = [
        Phase::Start,
        Phase::Enlist,
        Phase::SecondTry,
        Phase::Delist,
        Phase::SetSwitch,
        Phase::Waiting,
        Phase::Notify,
        Phase::Stopped,
    ];

    pub fn from_word(word: u16) -> Option<Phase> {
        Phase::ALL.get(usize::from(word)).copied()
    }

    pub fn word(self) -> u16 {
        self as u16
    }
}

#[derive(Clone, Copy, PartialEq, Eq, Debug, Default)]
pub struct Base {
    /// 0, or the process that modifies the base.
    pub lock: u16,
    pub nomore: bool,
    pub count: u16,
}

#[derive(Clone, Copy, PartialEq, Eq, Debug, Default)]
pub struct Process {
    /// Calls completed.
    pub call: u16,
    pub phase: Phase,
    pub wake: bool,
    pub entry: bool,
}

/// A table none of whose words is out of every range; it need not be consistent.
/// Base b stands at index b - 1, process p at index p - 1.
#[derive(Clone, Copy, PartialEq, Eq, Debug, Default)]
pub struct Table {
    pub bases: [Base; MAX_BASES],
    pub processes: [Process; MAX_PROCESSES],
}

impl Table {
    pub fn fresh() -> Table {
        Table::default()
    }

    /// Nothing if NOMORE, PHASE, WAKE or ENTRY has a value that no consistent table has.
    pub fn from_words(words: &Words) -> Option<Table> {
        let (base_words, process_words) = words.split_at(PROCESSES_AT);
        let mut table = Table::fresh();
        for (base, words) in table.bases.iter_mut().zip(base_words.chunks(BASE_WORDS)) {
            base.lock = words[0];
            base.nomore = mark(words[1])?;
            base.count = words[2];
        }
        let records = process_words.chunks(PROCESS_WORDS);
        for (process, words) in table.processes.iter_mut().zip(records) {
            process.call = words[0];
            process.phase = Phase::from_word(words[1])?;
            process.wake = mark(words[2])?;
            process.entry = mark(words[3])?;
        }
        Some(table)
    }

    pub fn to_words(&self) -> Words {
        let mut words = [0; WORDS];
        let (base_words, process_words) = words.split_at_mut(PROCESSES_AT);
        for (base, words) in self.bases.iter().zip(base_words.chunks_mut(BASE_WORDS)) {
            words.copy_from_slice(&[base.lock, base.nomore.into(), base.count]);
        }
        let records = process_words.chunks_mut(PROCESS_WORDS);
        for (process, words) in self.processes.iter().zip(records) {
            words[0] = process.call;
            words[1] = process.phase.word();
            words[2] = process.wake.into();
            words[3] = process.entry.into();
        }
        words
    }
}

fn mark(word: u16) -> Option<bool> {
    match word {
        0 => Some(false),
        1 => Some(true),
        _ => None,
    }
}
