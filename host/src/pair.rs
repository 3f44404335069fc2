//! The two matrices of a code: those of the gross and the two-gross code, and a reader of digits.
//!
//! The constants and the codes' names follow crates/bicycle_cliffords/src/measurement.rs of the
//! Bicycle Architecture Compiler. Changed: matrices are arrays of 36 bytes by rows; the reader of
//! digits is added.
//!
//! Copyright contributors to the Bicycle Architecture Compiler project. Licensed under the Apache
//! License, Version 2.0 (see NOTICE).

use std::fmt;
use std::str::FromStr;

/// Six rows of six numbers, 0 or 1, one row behind the other.
pub type Matrix = [u8; 36];

/// The matrices Mx and My, by rows.
#[derive(Debug, Clone, Copy, PartialEq, Eq)]
pub struct Pair {
    pub mx: Matrix,
    pub my: Matrix,
}

#[rustfmt::skip]
pub const GROSS_MEASUREMENT: Pair = Pair {
    mx: [
        0, 1, 0, 1, 0, 0,
        0, 1, 0, 0, 0, 1,
        0, 0, 1, 1, 0, 0,
        1, 1, 0, 1, 1, 0,
        0, 1, 0, 0, 1, 0,
        1, 1, 1, 1, 0, 1,
    ],
    my: [
        1, 0, 0, 0, 0, 1,
        1, 1, 1, 0, 0, 1,
        0, 0, 0, 0, 1, 0,
        0, 1, 0, 0, 0, 0,
        0, 1, 1, 0, 0, 1,
        0, 0, 1, 1, 0, 1,
    ],
};

#[rustfmt::skip]
pub const TWOGROSS_MEASUREMENT: Pair = Pair {
    mx: [
        0, 1, 1, 1, 0, 1,
        1, 0, 1, 0, 1, 1,
        1, 0, 1, 0, 1, 0,
        1, 0, 1, 1, 1, 1,
        0, 1, 1, 1, 1, 1,
        1, 0, 0, 1, 1, 0,
    ],
    my: [
        1, 1, 1, 1, 1, 0,
        1, 1, 0, 1, 1, 1,
        0, 1, 1, 0, 0, 0,
        1, 0, 0, 0, 1, 0,
        1, 0, 0, 1, 1, 1,
        1, 0, 0, 0, 0, 1,
    ],
};

/// The codes whose matrices are constants.
#[derive(Debug, Clone, Copy, PartialEq, Eq)]
pub enum Code {
    Gross,
    TwoGross,
}

impl Code {
    pub const ALL: [Code; 2] = [Code::Gross, Code::TwoGross];

    pub fn pair(self) -> Pair {
        match self {
            Code::Gross => GROSS_MEASUREMENT,
            Code::TwoGross => TWOGROSS_MEASUREMENT,
        }
    }

    pub fn name(self) -> &'static str {
        match self {
            Code::Gross => "gross",
            Code::TwoGross => "two-gross",
        }
    }
}

impl fmt::Display for Code {
    fn fmt(&self, f: &mut fmt::Formatter<'_>) -> fmt::Result {
        f.write_str(self.name())
    }
}

/// No code has this name.
#[derive(Debug, Clone, Copy, PartialEq, Eq)]
pub struct UnknownCode;

impl FromStr for Code {
    type Err = UnknownCode;

    fn from_str(name: &str) -> Result<Self, UnknownCode> {
        Code::ALL
            .into_iter()
            .find(|code| code.name() == name)
            .ok_or(UnknownCode)
    }
}

/// The text is not 36 decimal digits.
#[derive(Debug, Clone, Copy, PartialEq, Eq)]
pub struct NotDigits;

/// Reads 36 decimal digits by rows. A digit over 1 is read as well: the library refuses it, by 3.
pub fn matrix(digits: &[u8]) -> Result<Matrix, NotDigits> {
    let digits: &Matrix = digits.try_into().map_err(|_| NotDigits)?;
    if digits.iter().all(u8::is_ascii_digit) {
        Ok(digits.map(|digit| digit - b'0'))
    } else {
        Err(NotDigits)
    }
}

impl Pair {
    /// The pair of two texts of 36 digits each.
    pub fn from_digits(mx: &[u8], my: &[u8]) -> Result<Pair, NotDigits> {
        Ok(Pair {
            mx: matrix(mx)?,
            my: matrix(my)?,
        })
    }
}

/// A matrix as `matrix` reads it.
pub fn digits(matrix: &Matrix) -> String {
    matrix
        .iter()
        .map(|&number| char::from(b'0' + number))
        .collect()
}
