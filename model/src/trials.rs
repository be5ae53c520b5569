//! Trials files: their form, and the model's answers to them.

use std::fmt;
use std::io::{self, ErrorKind, Read, Write};

use crate::calls;
use crate::refusal::Refusal;
use crate::turn::Did;

pub const MAX_FILE_BYTES: usize = 8192;
pub const MAX_TABLE_WORDS: usize = 256;

#[derive(Clone, Copy, PartialEq, Eq, Debug, Default)]
pub enum Op {
    #[default]
    Read,
    Judge,
    Fresh,
    Turn,
    Standing,
}

impl Op {
    pub const ALL: [Op; 5] = [Op::Read, Op::Judge, Op::Fresh, Op::Turn, Op::Standing];

    pub fn from_byte(byte: u8) -> Option<Op> {
        Op::ALL.into_iter().find(|op| op.byte() == byte)
    }

    pub fn byte(self) -> u8 {
        self as u8 + 1
    }

    fn changes_table(self) -> bool {
        matches!(self, Op::Fresh | Op::Turn)
    }
}

#[derive(Clone, PartialEq, Eq, Debug, Default)]
pub struct Trial {
    pub op: Op,
    pub file: Vec<u8>,
    pub words: Vec<u16>,
    pub process: u32,
}

/// What stands next in a trials file. `Stop`: a trial cut off, too long, or of no known op.
#[derive(Clone, Copy, PartialEq, Eq, Debug)]
pub enum Next {
    Trial,
    End,
    Stop,
}

#[derive(Clone, Copy, PartialEq, Eq, Debug)]
pub enum Answer {
    Read { processes: usize, bases: usize },
    Passes,
    Fresh,
    Did(Did),
    Standing(u8),
    Refused(Refusal),
}

impl fmt::Display for Answer {
    fn fmt(&self, f: &mut fmt::Formatter) -> fmt::Result {
        match self {
            Answer::Read { processes, bases } => write!(f, "READ {processes} {bases}"),
            Answer::Passes => f.write_str("PASSES"),
            Answer::Fresh => f.write_str("FRESH"),
            Answer::Did(did) => f.write_str(did.word()),
            Answer::Standing(number) => write!(f, "STANDING {number}"),
            Answer::Refused(refusal) => write!(f, "{refusal} {}", refusal.place),
        }
    }
}

impl Trial {
    /// The model's answer; the words are left as the call leaves them.
    pub fn answer(&mut self) -> Answer {
        self.call().unwrap_or_else(Answer::Refused)
    }

    fn call(&mut self) -> Result<Answer, Refusal> {
        Ok(match self.op {
            Op::Read => {
                let set = calls::read(&self.file)?;
                Answer::Read {
                    processes: set.processes(),
                    bases: set.bases,
                }
            }
            Op::Judge => {
                calls::judge(&self.file)?;
                Answer::Passes
            }
            Op::Fresh => {
                calls::fresh(&mut self.words)?;
                Answer::Fresh
            }
            Op::Turn => Answer::Did(calls::turn(&self.file, &mut self.words, self.process)?),
            Op::Standing => Answer::Standing(calls::standing(&self.file, &self.words)?),
        })
    }

    pub fn write(&self, out: &mut impl Write) -> io::Result<()> {
        out.write_all(&[self.op.byte()])?;
        out.write_all(&(self.file.len() as u16).to_le_bytes())?;
        out.write_all(&self.file)?;
        out.write_all(&(self.words.len() as u16).to_le_bytes())?;
        for word in &self.words {
            out.write_all(&word.to_le_bytes())?;
        }
        out.write_all(&self.process.to_le_bytes())
    }

    /// Reads the next trial into `self`, whose buffers are used again.
    pub fn read(&mut self, input: &mut impl Read) -> io::Result<Next> {
        let mut op = [0];
        match input.read_exact(&mut op) {
            Err(error) if error.kind() == ErrorKind::UnexpectedEof => return Ok(Next::End),
            other => other?,
        }
        let Some(op) = Op::from_byte(op[0]) else {
            return Ok(Next::Stop);
        };
        self.op = op;
        match self.read_rest(input) {
            Ok(true) => Ok(Next::Trial),
            Ok(false) => Ok(Next::Stop),
            Err(error) if error.kind() == ErrorKind::UnexpectedEof => Ok(Next::Stop),
            Err(error) => Err(error),
        }
    }

    /// False if the trial is longer than the limits allow.
    fn read_rest(&mut self, input: &mut impl Read) -> io::Result<bool> {
        let length = usize::from(read_u16(input)?);
        if length > MAX_FILE_BYTES {
            return Ok(false);
        }
        self.file.resize(length, 0);
        input.read_exact(&mut self.file)?;
        let count = usize::from(read_u16(input)?);
        if count > MAX_TABLE_WORDS {
            return Ok(false);
        }
        let mut bytes = [0; 2 * MAX_TABLE_WORDS];
        let bytes = &mut bytes[..2 * count];
        input.read_exact(bytes)?;
        self.words.clear();
        let pairs = bytes.chunks_exact(2);
        self.words
            .extend(pairs.map(|pair| u16::from_le_bytes([pair[0], pair[1]])));
        let mut process = [0; 4];
        input.read_exact(&mut process)?;
        self.process = u32::from_le_bytes(process);
        Ok(true)
    }
}

fn read_u16(input: &mut impl Read) -> io::Result<u16> {
    let mut bytes = [0; 2];
    input.read_exact(&mut bytes)?;
    Ok(u16::from_le_bytes(bytes))
}

/// Answers every trial of `input`, a line each.
pub fn answer_all(input: &mut impl Read, out: &mut impl Write) -> io::Result<()> {
    let mut trial = Trial::default();
    loop {
        match trial.read(input)? {
            Next::Trial => answer_line(&mut trial, out)?,
            Next::End => return Ok(()),
            Next::Stop => return writeln!(out, "STOP"),
        }
    }
}

fn answer_line(trial: &mut Trial, out: &mut impl Write) -> io::Result<()> {
    let answer = trial.answer();
    write!(out, "{} {answer}", trial.op.byte())?;
    if trial.op.changes_table() {
        for &word in &trial.words {
            out.write_all(&hexadecimal(word))?;
        }
    }
    out.write_all(b"\n")
}

/// A space and four lower-case digits.
fn hexadecimal(word: u16) -> [u8; 5] {
    let digit = |shift: u16| b"0123456789abcdef"[usize::from(word >> shift & 15)];
    [b' ', digit(12), digit(8), digit(4), digit(0)]
}
