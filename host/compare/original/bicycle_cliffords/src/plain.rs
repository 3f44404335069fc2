//! The original's answers in plain numbers, in one form for its own crate and for the sorted copy.

use std::sync::LazyLock;

use bicycle_common::{AutomorphismData, TwoBases};
use nalgebra::SMatrix;

use crate::measurement::CodeMeasurement;
use crate::native_measurement::NativeMeasurement;

/// A native by its number, with the string that it measures.
#[derive(Debug, Clone, Copy, PartialEq, Eq)]
pub struct Native {
    pub number: u16,
    pub string: u32,
}

/// An entry of a table. `implements` is what the original says that it measures.
#[derive(Debug, Clone, Copy, PartialEq, Eq)]
pub struct Entry {
    pub measurement: u32,
    pub conjugated_with: Option<u32>,
    pub cost: u32,
    pub implements: u32,
}

#[derive(Debug, Clone, PartialEq, Eq)]
pub struct Plan {
    pub measures: u32,
    pub base: Native,
    pub rotations: Vec<Native>,
}

pub trait Builder: Sized {
    type Table: Table;

    /// `new` with all natives.
    fn start(code: CodeMeasurement) -> Self;
    fn build(&mut self);
    fn len(&self) -> usize;
    fn is_empty(&self) -> bool;
    fn entry(&self, p: u32) -> Option<Entry>;
    /// The map from strings to natives, in any order.
    fn kept(&self) -> Vec<Native>;
    fn complete(self) -> Result<Self::Table, String>;
}

pub trait Table {
    fn implementation(&self, p: u32) -> Plan;
    fn min_data(&self, p: u32) -> Plan;
    fn cost(&self, p: u32) -> u32;
}

/// The pair of two matrices by rows.
pub fn code(mx: &[u8; 36], my: &[u8; 36]) -> CodeMeasurement {
    let matrix = |m: &[u8; 36]| {
        SMatrix(std::array::from_fn(|i| {
            std::array::from_fn(|j| u32::from(m[6 * i + j]))
        }))
    };
    CodeMeasurement {
        mx: matrix(mx),
        my: matrix(my),
    }
}

static NUMBERS: LazyLock<[u16; 36 * 16]> = LazyLock::new(|| {
    let mut numbers = [u16::MAX; 36 * 16];
    for (n, native) in NativeMeasurement::all().iter().enumerate() {
        numbers[place(native.automorphism, native.logical)] = n as u16;
    }
    numbers
});

fn place(automorphism: AutomorphismData, bases: TwoBases) -> usize {
    let shift = 6 * automorphism.get_x() as usize + automorphism.get_y() as usize;
    16 * shift + 4 * bases.get_basis_1() as usize + bases.get_basis_7() as usize
}

/// A native's number: its place in the original's `all()`.
pub fn number(native: &NativeMeasurement) -> u16 {
    NUMBERS[place(native.automorphism, native.logical)]
}
