//! Safe functions over the proved static library: build, check, lookups, expansions, text.
//!
//! Names are those of the Rattle crates and of the original. A call that refuses answers `Refused`,
//! with document 01's number, and has written nothing. Strings and natives are numbers: `p` and `q`
//! stand for strings, below `STRINGS`, and `n` for a native, below `NATIVES`. Bit i of a string is
//! X on qubit i, bit 12 + i is Z, both are Y. Matrices are passed as 36 bytes 0 or 1, by rows.
//!
//! A text of twelve letters has qubit 11 first and qubit 0, the pivot, last, in every language. It
//! is data: it is never mirrored, and its letters are not translated. Backwards it is another
//! string, unless it is a palindrome, and it is not refused. In a right-to-left page it is shown as
//! isolated left-to-right text, and it is read without the marks that isolate it: docs/STRINGS.md.

pub mod ffi;
pub mod pair;
mod refused;

pub use pair::{Code, Pair};
pub use refused::Refused;

/// How many bytes a table has, and a queue.
pub const TABLE_LENGTH: usize = 67_108_864;
/// How many strings of twelve letters there are, 4^12.
pub const STRINGS: u32 = 16_777_216;
/// How many native measurements there are.
pub const NATIVES: u32 = 540;
/// How many letters a text has, and a string qubits.
pub const QUBITS: usize = 12;
/// How many rotations a plan on paper has at most.
pub const LISTED_ROTATIONS: usize = 256;
/// How many bytes of a plan on paper decide its listing: those behind change nothing.
pub const LIST_INPUT: usize = 3_418;

/// What a build tells.
#[derive(Debug, Clone, Copy, Default, PartialEq, Eq)]
pub struct Built {
    /// How many entries the table has, the identity's included.
    pub entries: u32,
    /// The greatest depth among them.
    pub depth: u32,
}

/// What a check says of a table.
#[derive(Debug, Clone, Copy, PartialEq, Eq)]
pub enum Checked {
    Accepted,
    /// The lowest index that breaks its rule.
    Rejected(u32),
}

/// A plan whose rotations stand in a lent buffer.
#[derive(Debug, Clone, Copy, Default, PartialEq, Eq)]
pub struct MeasurementImpl {
    /// The string that the plan measures.
    pub measures: u32,
    /// The number of its base, a native.
    pub native: u32,
    /// The string that its base measures.
    pub base: u32,
    /// How many rotations there are.
    pub rotations: u32,
}

/// A plan that holds its rotations.
#[derive(Debug, Clone, PartialEq, Eq)]
pub struct Plan {
    pub measures: u32,
    pub native: u32,
    pub base: u32,
    /// Native numbers, base side first.
    pub rotations: Vec<u16>,
}

/// A letter, as its capital in ASCII.
#[derive(Debug, Clone, Copy, PartialEq, Eq)]
pub struct Letter {
    pub letter: u8,
    /// The two letters that anticommute with it; none for I.
    pub anticommuting: Option<(u8, u8)>,
}

/// A shift automorphism, reduced modulo 6.
#[derive(Debug, Clone, Copy, PartialEq, Eq)]
pub struct Automorphism {
    pub x: u8,
    pub y: u8,
    pub inverse: (u8, u8),
    pub nr_generators: u64,
}

/// Fills table and queue, whatever they held.
pub fn build(table: &mut [u8], queue: &mut [u8], mx: &[u8], my: &[u8]) -> Result<Built, Refused> {
    let ffi::BuildResult {
        number,
        entries,
        depth,
    } = ffi::build(table, queue, mx, my);
    Refused::unless(number, 0)?;
    Ok(Built { entries, depth })
}

/// Says whether every index of a table meets its rule.
pub fn check(table: &[u8], mx: &[u8], my: &[u8]) -> Result<Checked, Refused> {
    let r = ffi::check(table, mx, my);
    Refused::unless(r.number, 0)?;
    Ok(if r.accepted == 1 {
        Checked::Accepted
    } else {
        Checked::Rejected(r.index)
    })
}

/// The plan of string p. Its rotations' native numbers are put in front of `out`, two bytes each,
/// low first, base side first; the bytes behind stay.
pub fn implementation(
    table: &[u8],
    mx: &[u8],
    my: &[u8],
    p: u32,
    out: &mut [u8],
) -> Result<MeasurementImpl, Refused> {
    measurement_impl(ffi::implementation(table, mx, my, p, out))
}

/// The plan of p with the letter on the pivot that needs the fewest rotations; `out` is as in
/// `implementation`.
pub fn min_data(
    table: &[u8],
    mx: &[u8],
    my: &[u8],
    p: u32,
    out: &mut [u8],
) -> Result<MeasurementImpl, Refused> {
    measurement_impl(ffi::min_data(table, mx, my, p, out))
}

fn measurement_impl(r: ffi::LookupResult) -> Result<MeasurementImpl, Refused> {
    Refused::unless(r.number, r.needed)?;
    let ffi::LookupResult {
        measures,
        native,
        base,
        rotations,
        ..
    } = r;
    Ok(MeasurementImpl {
        measures,
        native,
        base,
        rotations,
    })
}

/// As `implementation`, in a buffer of the length needed.
pub fn implementation_plan(table: &[u8], mx: &[u8], my: &[u8], p: u32) -> Result<Plan, Refused> {
    plan(|out| implementation(table, mx, my, p, out))
}

/// As `min_data`, in a buffer of the length needed.
pub fn min_data_plan(table: &[u8], mx: &[u8], my: &[u8], p: u32) -> Result<Plan, Refused> {
    plan(|out| min_data(table, mx, my, p, out))
}

fn plan(call: impl FnMut(&mut [u8]) -> Result<MeasurementImpl, Refused>) -> Result<Plan, Refused> {
    let (found, out) = grown(call)?;
    let MeasurementImpl {
        measures,
        native,
        base,
        ..
    } = found;
    let rotations = out
        .chunks_exact(2)
        .map(|b| u16::from_le_bytes([b[0], b[1]]))
        .collect();
    Ok(Plan {
        measures,
        native,
        base,
        rotations,
    })
}

/// Whether every value of a table is 0.
pub fn is_empty(table: &[u8]) -> Result<bool, Refused> {
    Ok(value(ffi::is_empty(table))? == 1)
}

/// How many values of a table are not 0.
pub fn len(table: &[u8]) -> Result<u32, Refused> {
    value(ffi::len(table))
}

/// The original's cost of string p: 1 + 2·depth, the identity's 0.
pub fn cost(table: &[u8], p: u32) -> Result<u32, Refused> {
    value(ffi::cost(table, p))
}

/// The string that native n measures.
pub fn measures(mx: &[u8], my: &[u8], n: u32) -> Result<u32, Refused> {
    value(ffi::measures(mx, my, n))
}

/// Writes the three instructions of native n, and answers how many bytes these are. In `meas(X,Z)`
/// the first letter is that of qubit 0, the second that of qubit 6.
pub fn native_instructions(n: u32, out: &mut [u8]) -> Result<usize, Refused> {
    length(ffi::native_instructions(n, out))
}

/// Writes the five instructions of native n as a rotation, and answers how many bytes these are;
/// their letters are as in `native_instructions`.
pub fn rotation_instructions(
    mx: &[u8],
    my: &[u8],
    n: u32,
    out: &mut [u8],
) -> Result<usize, Refused> {
    length(ffi::rotation_instructions(mx, my, n, out))
}

/// The string that twelve letters spell, qubit 11 first and qubit 0 last, in either case. A text
/// that was mirrored is read too, as another string: compare its number with the one meant.
pub fn from_text(text: &[u8]) -> Result<u32, Refused> {
    value(ffi::from_text(text))
}

/// Writes the twelve letters of string p, qubit 11 first and qubit 0 last, in capitals. They are
/// data, and are never mirrored.
pub fn display(p: u32, out: &mut [u8]) -> Result<usize, Refused> {
    length(ffi::display(p, out))
}

/// Whether two strings commute.
pub fn commutes_with(p: u32, q: u32) -> Result<bool, Refused> {
    Ok(value(ffi::commutes_with(p, q))? == 1)
}

/// String p, multiplied by q if the two anticommute.
pub fn conjugate_with(p: u32, q: u32) -> Result<u32, Refused> {
    value(ffi::conjugate_with(p, q))
}

/// Writes all that the program `plan` prints for a plan on paper, a line `refused=N` too, and
/// answers how many bytes these are. Its line `measures=` has a text, qubit 11 first.
pub fn list(input: &[u8], out: &mut [u8]) -> Result<usize, Refused> {
    length(ffi::list(input, out))
}

/// The letter that a byte stands for, in either case.
pub fn letter(byte: u8) -> Result<Letter, Refused> {
    let r = ffi::letter(byte);
    Refused::unless(r.number, 0)?;
    let both = (r.first as u8, r.second as u8);
    Ok(Letter {
        letter: r.letter as u8,
        anticommuting: (r.first != 0).then_some(both),
    })
}

/// The automorphism (x, y), its inverse, and how many generators make it.
pub fn automorphism(x: u8, y: u8) -> Automorphism {
    ffi::automorphism(x, y).into()
}

/// The product of (x, y) and (x2, y2).
pub fn automorphism_mul(x: u8, y: u8, x2: u8, y2: u8) -> Automorphism {
    ffi::automorphism_mul(x, y, x2, y2).into()
}

impl From<ffi::AutomorphismResult> for Automorphism {
    fn from(r: ffi::AutomorphismResult) -> Self {
        Automorphism {
            x: r.x as u8,
            y: r.y as u8,
            inverse: (r.inverse_x as u8, r.inverse_y as u8),
            nr_generators: r.generators,
        }
    }
}

/// What a call writes, in a buffer of the length needed: `written(|out| bicycle::display(p, out))`.
pub fn written(call: impl FnMut(&mut [u8]) -> Result<usize, Refused>) -> Result<String, Refused> {
    let (length, mut out) = grown(call)?;
    out.truncate(length);
    Ok(String::from_utf8(out).expect("the library writes ASCII"))
}

/// Calls with an empty buffer, and again with one of the length that refusal 9 asks for.
fn grown<T>(
    mut call: impl FnMut(&mut [u8]) -> Result<T, Refused>,
) -> Result<(T, Vec<u8>), Refused> {
    let mut out = match call(&mut []) {
        Err(Refused {
            number: Refused::ROOM,
            needed,
        }) => vec![0; needed],
        answer => return answer.map(|a| (a, Vec::new())),
    };
    call(&mut out).map(|answer| (answer, out))
}

fn value(r: ffi::ValueResult) -> Result<u32, Refused> {
    Refused::unless(r.number, 0)?;
    Ok(r.value)
}

fn length(r: ffi::TextResult) -> Result<usize, Refused> {
    Refused::unless(r.number, r.needed)?;
    Ok(r.length)
}
