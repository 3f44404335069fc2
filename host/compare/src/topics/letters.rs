//! Letters, the text of every string, and automorphisms, over their whole domains.

use bicycle::ffi::{self, AutomorphismResult, LetterResult};
use bicycle_cliffords::pauli_string::PauliString;
use bicycle_common::{AutomorphismData, Pauli};

use super::{Extent, Summary};
use crate::flat;
use crate::model::STRINGS;
use crate::original;
use crate::report::{Difference, Outcome, Tally};
use crate::rng::Rng;

pub fn run(_: Extent, tally: &mut Tally) -> Result<Summary, Difference> {
    for byte in 0..=255 {
        tally.same(ffi::letter(byte), letter(byte), || {
            format!("letter of byte {byte}")
        })?;
    }
    automorphisms(tally)?;
    tally.share(0..STRINGS, texts)?;
    Ok(format!(
        "256 bytes as letters, 65536 automorphisms and their products, {STRINGS} texts"
    ))
}

fn shown(pauli: Pauli) -> u32 {
    u32::from(pauli.to_string().as_bytes()[0])
}

fn letter(byte: u8) -> LetterResult {
    let Some(pauli) = original::letter(byte) else {
        return LetterResult {
            number: 13,
            letter: 0,
            first: 0,
            second: 0,
        };
    };
    let (first, second) = pauli
        .anticommuting()
        .map_or((0, 0), |(a, b)| (shown(a), shown(b)));
    LetterResult {
        number: 0,
        letter: shown(pauli),
        first,
        second,
    }
}

// ---- automorphisms

fn automorphisms(tally: &mut Tally) -> Outcome {
    for (x, y) in bytes().flat_map(|x| bytes().map(move |y| (x, y))) {
        let due = told(AutomorphismData::new(x, y));
        tally.same(ffi::automorphism(x, y), due, || {
            format!("automorphism ({x},{y})")
        })?;
        // each with the 36 reduced ones, on either side
        for (a, b) in (0..6).flat_map(|a| (0..6).map(move |b| (a, b))) {
            product((x, y), (a, b), tally)?;
            product((a, b), (x, y), tally)?;
        }
    }
    Ok(())
}

fn bytes() -> impl Iterator<Item = u8> {
    0..=255
}

fn product((x, y): (u8, u8), (x2, y2): (u8, u8), tally: &mut Tally) -> Outcome {
    let due = told(AutomorphismData::new(x, y) * AutomorphismData::new(x2, y2));
    let what = || format!("product of ({x},{y}) and ({x2},{y2})");
    tally.same(ffi::automorphism_mul(x, y, x2, y2), due, what)
}

fn told(aut: AutomorphismData) -> AutomorphismResult {
    let inverse = aut.inv();
    AutomorphismResult {
        generators: aut.nr_generators(),
        x: aut.get_x().into(),
        y: aut.get_y().into(),
        inverse_x: inverse.get_x().into(),
        inverse_y: inverse.get_y().into(),
    }
}

// ---- texts

fn texts(range: std::ops::Range<u32>, tally: &mut Tally) -> Outcome {
    let mut rng = Rng::new(range.start.into());
    for p in range {
        let text = PauliString(p).to_string();
        let (mut ours, mut theirs) = ([0xa5; 14], [0xa5; 14]);
        let told = ffi::display(p, &mut ours);
        let due = flat::text(Ok(&text), &mut theirs);
        tally.same((told, ours), (due, theirs), || format!("text of {p}"))?;

        let mixed = mixed_case(text.as_bytes(), rng.draw());
        let lower = text.to_ascii_lowercase();
        for text in [text.as_bytes(), lower.as_bytes(), &mixed] {
            let what = || format!("string of {}", String::from_utf8_lossy(text));
            tally.same(
                ffi::from_text(text),
                flat::value(original::spelt(text).map(|p| p.0).ok_or(13)),
                what,
            )?;
        }
    }
    Ok(())
}

/// A letter whose bit is set stands in lower case.
fn mixed_case(text: &[u8], bits: u64) -> Vec<u8> {
    let letters = text.iter().enumerate();
    letters
        .map(|(i, b)| {
            if bits >> i & 1 == 1 {
                b.to_ascii_lowercase()
            } else {
                *b
            }
        })
        .collect()
}
