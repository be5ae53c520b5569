//! Refusals and their numbers.

use std::fmt;

pub const LENGTH: u8 = 1;
pub const CHECK: u8 = 2;
pub const FIELD: u8 = 3;
pub const JUDGE: u8 = 4;
pub const TABLE_LENGTH: u8 = 5;
pub const INCONSISTENT: u8 = 6;
pub const PROCESS: u8 = 7;
pub const TOO_MANY_TURNS: u8 = 8;

#[derive(Clone, Copy, PartialEq, Eq, Debug)]
pub struct Refusal {
    pub number: u8,
    pub block: usize,
    pub place: usize,
}

impl Refusal {
    pub fn of(number: u8) -> Refusal {
        Refusal::at_block(number, 0)
    }

    pub fn at_block(number: u8, block: usize) -> Refusal {
        Refusal {
            number,
            block,
            place: 0,
        }
    }

    pub fn at_call(block: usize, place: usize) -> Refusal {
        Refusal {
            number: JUDGE,
            block,
            place,
        }
    }
}

/// Number and block, as the playing program prints them.
impl fmt::Display for Refusal {
    fn fmt(&self, f: &mut fmt::Formatter) -> fmt::Result {
        write!(f, "REFUSED {} {}", self.number, self.block)
    }
}
