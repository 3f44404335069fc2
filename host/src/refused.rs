//! A refusal: document 01's number, and one plain sentence for each.

use std::error::Error;
use std::fmt;

/// A call was refused, and has written nothing.
#[derive(Debug, Clone, Copy, PartialEq, Eq)]
pub struct Refused {
    /// Document 01's number, 1 to 14.
    pub number: u32,
    /// The length that 9 asks for, 0 with every other number.
    pub needed: usize,
}

impl Refused {
    pub const TABLE_LENGTH: u32 = 1;
    pub const QUEUE_LENGTH: u32 = 2;
    pub const MATRIX: u32 = 3;
    pub const STRING_RANGE: u32 = 4;
    pub const IDENTITY: u32 = 5;
    pub const PIVOT_SET: u32 = 6;
    pub const NO_ENTRY: u32 = 7;
    pub const BAD_ENTRY: u32 = 8;
    pub const ROOM: u32 = 9;
    pub const NO_PIVOT: u32 = 10;
    pub const NATIVE_RANGE: u32 = 11;
    pub const PLAN: u32 = 12;
    pub const NOT_LETTERS: u32 = 13;
    pub const QUBIT_RANGE: u32 = 14;

    /// An answer's number as a result: 0 refuses nothing.
    pub(crate) fn unless(number: u32, needed: usize) -> Result<(), Refused> {
        if number == 0 {
            Ok(())
        } else {
            Err(Refused { number, needed })
        }
    }

    /// What is wrong, in one sentence.
    pub fn sentence(self) -> &'static str {
        match self.number {
            Self::TABLE_LENGTH => "A table has 67,108,864 bytes, and this one has not.",
            Self::QUEUE_LENGTH => "A queue has 67,108,864 bytes, and this one has not.",
            Self::MATRIX => "A matrix has 36 numbers, each 0 or 1, and this one has not.",
            Self::STRING_RANGE => "A string is a number below 16,777,216.",
            Self::IDENTITY => "The identity is no measurement, and has no plan.",
            Self::PIVOT_SET => {
                "A pivot-free lookup takes I on the pivot, qubit 0, which is the last letter of a text."
            }
            Self::NO_ENTRY => "The table has no plan for this string.",
            Self::BAD_ENTRY => "The table is damaged, or was built for other matrices.",
            Self::ROOM => "The buffer for the answer is too short.",
            Self::NO_PIVOT => {
                "A rotation needs a letter on the pivot, and this native's string has I there."
            }
            Self::NATIVE_RANGE => "A native is a number from 0 to 539.",
            Self::PLAN => {
                "A plan is lines mx=, my=, base=, then 0 to 256 of rotation=, and this is none."
            }
            Self::NOT_LETTERS => {
                "A text is twelve letters of I, X, Z and Y, qubit 11 first and qubit 0 last."
            }
            Self::QUBIT_RANGE => "A qubit is a number from 0 to 11.",
            _ => "The library refused this for a reason unknown here.",
        }
    }
}

impl fmt::Display for Refused {
    fn fmt(&self, f: &mut fmt::Formatter<'_>) -> fmt::Result {
        write!(f, "refused={}: {}", self.number, self.sentence())
    }
}

impl Error for Refused {}
