//! The answer of split and combine, as document 01 numbers it.

use std::fmt;

/// Done with a count of bytes written, or refused by a number with places.
#[derive(Clone, Copy, Debug, PartialEq, Eq)]
pub enum Outcome {
    Done(usize),
    /// Places count from 0 and are 0 where the reason has none.
    Refused {
        number: u32,
        first: usize,
        second: usize,
    },
}

impl Outcome {
    /// A refusal without places.
    pub const fn refused(number: u32) -> Self {
        Self::refused_at(number, 0, 0)
    }

    pub const fn refused_at(number: u32, first: usize, second: usize) -> Self {
        Outcome::Refused {
            number,
            first,
            second,
        }
    }

    /// The refusal's number, 0 when done.
    pub const fn number(self) -> u32 {
        match self {
            Outcome::Done(_) => 0,
            Outcome::Refused { number, .. } => number,
        }
    }

    /// Reads the 64-bit word of the C entries: a count, or from bit 40 on the number of a refusal, from
    /// bit 16 on its first place and from bit 0 on its second. No bit is dropped: what no answer has,
    /// bits from 48 on, gives a number that no refusal has, so that different words read differently.
    pub const fn from_word(word: u64) -> Self {
        match word >> 40 {
            0 => Outcome::Done(word as usize),
            number => Outcome::Refused {
                number: number as u32,
                first: (word >> 16 & 0xff_ffff) as usize,
                second: (word & 0xffff) as usize,
            },
        }
    }

    /// The 64-bit word of the C entries.
    pub const fn to_word(self) -> u64 {
        match self {
            Outcome::Done(count) => count as u64,
            Outcome::Refused {
                number,
                first,
                second,
            } => (number as u64) << 40 | (first as u64) << 16 | second as u64,
        }
    }
}

impl fmt::Display for Outcome {
    fn fmt(&self, f: &mut fmt::Formatter<'_>) -> fmt::Result {
        match self {
            Outcome::Done(count) => write!(f, "done {count}"),
            Outcome::Refused {
                number,
                first,
                second,
            } => write!(f, "refused {number} ({first}, {second})"),
        }
    }
}
