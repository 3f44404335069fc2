//! Pseudo-random pairs of matrices, of several kinds.

use bicycle::Pair;
use bicycle::pair::{Matrix, digits};

use crate::rng::Rng;

pub const ZERO: Matrix = [0; 36];
pub const IDENTITY: Matrix = {
    let mut m = ZERO;
    let mut i = 0;
    while i < 6 {
        m[7 * i] = 1;
        i += 1;
    }
    m
};

pub const IDENTITY_PAIR: Pair = Pair {
    mx: IDENTITY,
    my: IDENTITY,
};
pub const ZERO_PAIR: Pair = Pair { mx: ZERO, my: ZERO };

/// The pair of document 01's plan.
pub const PLAN_PAIR: Pair = {
    let mut mx = IDENTITY;
    mx[6] = 1;
    Pair { mx, my: IDENTITY }
};

/// A pair that mixes the first k qubits of either six with one another and leaves the others: its
/// table has 4^2k entries.
pub fn chained(k: usize) -> Pair {
    Pair {
        mx: beside_diagonal(k, true, false),
        my: beside_diagonal(k, false, true),
    }
}

/// The identity, with ones right above and right below the diagonal, as is said, of the first k
/// rows and columns.
pub fn beside_diagonal(k: usize, above: bool, below: bool) -> Matrix {
    let mut m = IDENTITY;
    for i in 1..k {
        m[7 * i - 6] = above.into();
        m[7 * i - 1] = below.into();
    }
    m
}

/// A pair as a person would give it to the command.
pub fn named(pair: &Pair) -> String {
    format!("--mx {} --my {}", digits(&pair.mx), digits(&pair.my))
}

/// Each matrix of a kind of its own, or the second a power of the first, so that the two commute.
pub fn random_pair(rng: &mut Rng) -> Pair {
    let mx = random_matrix(rng);
    let my = if rng.one_in(4) {
        power(&mx, rng.below(6))
    } else {
        random_matrix(rng)
    };
    Pair { mx, my }
}

fn random_matrix(rng: &mut Rng) -> Matrix {
    match rng.below(10) {
        0 => ZERO,
        1 => IDENTITY,
        2 | 3 => permutation(rng),
        4 | 5 => invertible(rng),
        6 | 7 => sparse(rng),
        _ => uniform(rng),
    }
}

fn uniform(rng: &mut Rng) -> Matrix {
    std::array::from_fn(|_| rng.below(2) as u8)
}

fn sparse(rng: &mut Rng) -> Matrix {
    let mut m = if rng.one_in(2) { IDENTITY } else { ZERO };
    for _ in 0..=rng.below(6) {
        m[rng.index(36)] = 1;
    }
    m
}

fn permutation(rng: &mut Rng) -> Matrix {
    let mut columns = [0, 1, 2, 3, 4, 5];
    for i in 1..6 {
        columns.swap(i, rng.index(i + 1));
    }
    let mut m = ZERO;
    for (row, column) in columns.iter().enumerate() {
        m[6 * row + column] = 1;
    }
    m
}

/// A permutation of the rows, then some rows added to others.
fn invertible(rng: &mut Rng) -> Matrix {
    let mut m = permutation(rng);
    for _ in 0..24 {
        let (from, to) = (rng.index(6), rng.index(6));
        if from != to {
            for column in 0..6 {
                m[6 * to + column] ^= m[6 * from + column];
            }
        }
    }
    m
}

fn power(m: &Matrix, exponent: u64) -> Matrix {
    (0..exponent).fold(IDENTITY, |p, _| product(&p, m))
}

fn product(a: &Matrix, b: &Matrix) -> Matrix {
    std::array::from_fn(|i| (0..6).fold(0, |sum, k| sum ^ (a[i / 6 * 6 + k] & b[6 * k + i % 6])))
}
