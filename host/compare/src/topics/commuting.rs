//! Commutation and conjugation of pseudo-random pairs of strings, with the original and by the
//! textbook's rule.

use bicycle::ffi;
use bicycle_cliffords::pauli_string::PauliString;

use super::{Extent, Summary};
use crate::flat;
use crate::model::{self, STRINGS};
use crate::report::{Difference, Outcome, Tally};
use crate::rng::Rng;

pub fn run(extent: Extent, tally: &mut Tally) -> Result<Summary, Difference> {
    let pairs = extent.of(2_000_000, 100_000_000);
    tally.share(0..pairs, |mut range, tally| {
        let mut rng = Rng::new(6 << 32 | u64::from(range.start));
        range.try_for_each(|_| {
            let p = string(&mut rng);
            // now and then the two have most letters in common
            let q = if rng.one_in(4) {
                p ^ few_digits(&mut rng)
            } else {
                string(&mut rng)
            };
            compare(p, q, tally)
        })
    })?;
    Ok(format!(
        "commutation and conjugation of {pairs} pairs of strings"
    ))
}

fn string(rng: &mut Rng) -> u32 {
    match rng.below(8) {
        0 => few_digits(rng),
        1 => (STRINGS - 1) ^ few_digits(rng),
        _ => rng.below(STRINGS.into()) as u32,
    }
}

fn few_digits(rng: &mut Rng) -> u32 {
    (0..=rng.below(4)).fold(0, |p, _| p | 1 << rng.below(24))
}

fn compare(p: u32, q: u32, tally: &mut Tally) -> Outcome {
    let commutes = PauliString(p).commutes_with(PauliString(q));
    let told = ffi::commutes_with(p, q);
    tally.same(told, flat::value(Ok(commutes.into())), || {
        format!("commutation of {p} and {q}")
    })?;
    let textbook = flat::value(Ok(model::commute_by_qubit(p, q).into()));
    tally.same(told, textbook, || {
        format!("commutation of {p} and {q}, qubit by qubit")
    })?;

    let conjugated = PauliString(p).conjugate_with(PauliString(q)).0;
    let told = ffi::conjugate_with(p, q);
    tally.same(told, flat::value(Ok(conjugated)), || {
        format!("{p} conjugated with {q}")
    })?;
    let textbook = if model::commute_by_qubit(p, q) {
        p
    } else {
        p ^ q
    };
    tally.same(told, flat::value(Ok(textbook)), || {
        format!("{p} conjugated with {q}, by qubit")
    })
}
