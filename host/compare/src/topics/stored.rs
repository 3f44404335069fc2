//! The stored answers of crates/vectors: made anew from its inputs, by the original and by document
//! 01 where the original has no such call, and compared with the stored ones byte for byte. The
//! library has no part in this.

use std::fs;
use std::path::PathBuf;

use bicycle::{Code, Pair};
use bicycle_cliffords::decomposition::access::behind;
use bicycle_cliffords::native_measurement::NativeMeasurement;
use bicycle_cliffords::pauli_string::PauliString;
use bicycle_common::Pauli;

use super::{Extent, Summary};
use crate::original::{self, unless_panic};
use crate::pairs::{IDENTITY_PAIR, PLAN_PAIR, ZERO_PAIR};
use crate::paper::{self, Natives};
use crate::report::{Difference, Tally};

const HEAD: &str = "\
O: by the original; refused=N stands where it panics, with document 01's number.
O1: letters, strings and expansions by the original, the rest by document 01.
1: by document 01; the original has no such call.
strings p q bits: text letters commutes conjugated product blanked pivot logical supports rotation
";

pub fn run(_: Extent, tally: &mut Tally) -> Result<Summary, Difference> {
    let (made, stored) = (made(), read("stdout"));
    let lines = |bytes: &[u8]| {
        let lines = bytes.split_inclusive(|&byte| byte == 10);
        lines
            .map(|line| line.escape_ascii().to_string())
            .collect::<Vec<_>>()
    };
    let (ours, theirs) = (lines(&stored), lines(&made));
    for (i, (our, their)) in ours.iter().zip(&theirs).enumerate() {
        tally.same(our, their, || {
            format!("line {} of crates/vectors/stdout", i + 1)
        })?;
    }
    let count = ours.len();
    tally.same(count, theirs.len(), || {
        "the number of lines of crates/vectors/stdout".into()
    })?;
    Ok(format!("{count} stored lines made anew"))
}

/// Writes the stored answers anew, and answers where.
pub fn write() -> std::io::Result<PathBuf> {
    let path = file("stdout");
    fs::write(&path, made())?;
    Ok(path)
}

fn file(name: &str) -> PathBuf {
    PathBuf::from(concat!(env!("CARGO_MANIFEST_DIR"), "/../../crates/vectors")).join(name)
}

fn read(name: &str) -> Vec<u8> {
    let path = file(name);
    fs::read(&path).unwrap_or_else(|e| panic!("cannot read {}: {e}", path.display()))
}

fn made() -> Vec<u8> {
    let mut made = HEAD.to_string();
    let strings = String::from_utf8(read("data/strings")).expect("numbers");
    strings.lines().for_each(|line| made += &string_row(line));
    made += "letters of the bytes from 0 on, - where there is none\nO1 ";
    made.extend((0..=255).map(letter));
    made += "\ntexts\n";
    made += &cases(&read("data/texts"), spelt);
    made += "expansions\n";
    numbers().for_each(|n| made += &format!("O {n} {}\n", expansion(n)));
    let named = [
        ("identity", IDENTITY_PAIR),
        ("zero", ZERO_PAIR),
        ("plan", PLAN_PAIR),
    ];
    for (name, pair) in Code::ALL
        .map(|code| (code.name(), code.pair()))
        .into_iter()
        .chain(named)
    {
        made += &format!("{name} pair: string text rotation\n");
        numbers().for_each(|n| made += &format!("O {n} {}\n", native(&pair, n)));
    }
    made += "plans\n";
    for name in ["data/plans", "data/limits"] {
        made += &cases(&read(name), |case| paper::list(case, &Original));
    }
    made.into_bytes()
}

/// Each case is a line that begins with its length, so many bytes, and byte 10. The line stands
/// before the answer.
fn cases(mut data: &[u8], answer: impl Fn(&[u8]) -> String) -> String {
    let mut made = String::new();
    while let Some(end) = data.iter().position(|&b| b == 10) {
        let (line, rest) = data.split_at(end + 1);
        let line = std::str::from_utf8(line).expect("a line of text");
        let length = line
            .split(' ')
            .next()
            .and_then(|word| word.parse().ok())
            .expect("a length");
        made += line;
        made += &answer(&rest[..length]);
        data = &rest[length + 1..];
    }
    made
}

// ---- strings

fn string_row(line: &str) -> String {
    let numbers: Vec<u32> = line
        .split(' ')
        .map(|word| word.parse().expect("a number"))
        .collect();
    let (p, q) = (PauliString(numbers[0]), PauliString(numbers[1]));
    let letters: [Pauli; 12] = p.into();
    let letters: String = letters.iter().map(Pauli::to_string).collect();
    let flag = u32::from;
    format!(
        "O {} {} {}: {p} {letters} {} {} {} {} {} {} {}{}{} {}\n",
        p.0,
        q.0,
        numbers[2],
        flag(p.commutes_with(q)),
        p.conjugate_with(q).0,
        (p * q).0,
        p.zero_pivot().0,
        p.pivot_bits().0,
        p.logical_bits().0,
        flag(p.has_pivot_support()),
        flag(p.has_logical_support()),
        flag(p.non_trivial_support()),
        PauliString::rotation(numbers[2]).0,
    )
}

fn letter(byte: u8) -> String {
    original::letter(byte).map_or("-".into(), |letter| letter.to_string())
}

fn spelt(text: &[u8]) -> String {
    original::spelt(text).map_or("refused=13\n".into(), |p| format!("{} {p}\n", p.0))
}

// ---- natives

/// All natives, and two numbers that are none.
fn numbers() -> impl Iterator<Item = usize> {
    (0..540).chain([540, 65535])
}

fn by_number(n: usize) -> Option<NativeMeasurement> {
    unless_panic(|| NativeMeasurement::all()[n]).ok()
}

fn expansion(n: usize) -> String {
    by_number(n).map_or("refused=11".into(), |native| original::native_text(&native))
}

fn native(pair: &Pair, n: usize) -> String {
    let Some(native) = by_number(n) else {
        return "refused=11 refused=11".into();
    };
    let p = original::code(pair).measures(&native);
    let rotation = original::rotation_text(native, p).unwrap_or("refused=10".into());
    format!("{} {p} {rotation}", p.0)
}

struct Original;

impl Natives for Original {
    fn string(&self, pair: &Pair, n: usize) -> u32 {
        original::code(pair)
            .measures(&NativeMeasurement::all()[n])
            .0
    }

    fn behind(&self, p: u32, rotation: u32) -> u32 {
        behind(PauliString(p), PauliString(rotation)).0
    }

    fn text(&self, p: u32) -> String {
        PauliString(p).to_string()
    }

    fn expansion(&self, n: usize) -> String {
        expansion(n)
    }

    fn rotation_expansion(&self, pair: &Pair, n: usize) -> Option<String> {
        original::rotation_text(
            NativeMeasurement::all()[n],
            PauliString(self.string(pair, n)),
        )
    }
}
