//! What is timed beside the original, each in a child process.

use std::collections::HashMap;
use std::hint::black_box;

use bicycle::pair::digits;
use bicycle::{Code, NATIVES, Pair, TABLE_LENGTH, ffi};
use bicycle_cliffords::native_measurement::NativeMeasurement;
use bicycle_cliffords::pauli_string::PauliString;
use compare::model::{STRINGS, blank_pivot, has_pivot};
use compare::original::{self, Unpatched};
use compare::pairs::{PLAN_PAIR, random_pair};
use compare::rng::Rng;

use crate::clock::{peak_memory, round, timed};
use crate::inner;

/// How many lookups a round has.
const LOOKUPS: usize = 1_000_000;
/// How many calls without a table a round has, most often.
const CALLS: usize = 200_000;

fn pair(code: &str) -> Pair {
    code.parse::<Code>().expect("a code").pair()
}

/// Our build, from nothing, and the check of its table.
pub fn ours(code: &str) {
    let pair = pair(code);
    let table = timed("ours-build", || built(&pair));
    peak_memory("ours-memory");
    let checked = timed("ours-check", || ffi::check(&table, &pair.mx, &pair.my));
    assert_eq!(checked.accepted, 1);
}

fn built(pair: &Pair) -> Vec<u8> {
    let (mut table, mut queue) = (vec![0; TABLE_LENGTH], vec![0; TABLE_LENGTH]);
    black_box(ffi::build(&mut table, &mut queue, &pair.mx, &pair.my));
    table
}

/// The original's `new` and `build`.
pub fn original(code: &str) {
    built_by_original(&pair(code));
}

fn built_by_original(pair: &Pair) -> Unpatched {
    let builder = timed("original-build", || original::built::<Unpatched>(pair));
    peak_memory("original-memory");
    builder
}

/// The original's build, and then lookups of pseudo-random strings, ours and the original's in
/// turn.
pub fn lookups(code: &str, rounds: usize) {
    let original = built_by_original(&pair(code))
        .complete()
        .expect("the table is complete");
    look_up(code, rounds, |exact, blank| {
        round("original-exact", exact, |p| {
            original.implementation(PauliString(p))
        });
        round("original-free", blank, |p| {
            original.min_data(PauliString(p))
        });
    });
}

/// Our lookups alone.
pub fn our_lookups(code: &str, rounds: usize) {
    look_up(code, rounds, |_, _| ());
}

fn look_up(code: &str, rounds: usize, theirs: impl Fn(&[u32], &[u32])) {
    let pair = pair(code);
    let table = built(&pair);
    let (mx, my) = (&pair.mx, &pair.my);
    let mut rng = Rng::new(10);
    let mut string = || 1 + rng.below(u64::from(STRINGS) - 1) as u32;
    let exact: Vec<u32> = (0..LOOKUPS).map(|_| string()).collect();
    let blank: Vec<u32> = exact.iter().map(|&p| blank_pivot(p)).collect();
    let mut out = [0; 32];
    for _ in 0..rounds {
        round("ours-exact", &exact, |p| {
            ffi::implementation(&table, mx, my, p, &mut out)
        });
        round("ours-free", &blank, |p| {
            ffi::min_data(&table, mx, my, p, &mut out)
        });
        theirs(&exact, &blank);
    }
}

fn numbers() -> Vec<u32> {
    (0..NATIVES).cycle().take(CALLS).collect()
}

/// Calls that need a pair and no table, ours and the original's in turn.
pub fn of_pair(code: &str, rounds: usize) {
    let pair = pair(code);
    let (mx, my, code) = (&pair.mx, &pair.my, original::code(&pair));
    let (all, numbers) = (NativeMeasurement::all(), numbers());
    let native = |n: u32| &all[n as usize];
    let pivotal = |n: &u32| has_pivot(ffi::measures(mx, my, *n).value);
    let rotations: Vec<u32> = numbers.iter().copied().filter(pivotal).collect();
    let mut out = [0; 64];
    for _ in 0..rounds {
        round("ours-measures", &numbers, |n| ffi::measures(mx, my, n));
        round("original-measures", &numbers, |n| code.measures(native(n)));
        inner::timed_in_turn("ours", &[pair], &numbers);
        round("original-natives", &[0; 1_000], |_| {
            let natives = NativeMeasurement::all().into_iter();
            let measured = natives.map(|native| (code.measures(&native), native));
            measured.collect::<HashMap<_, _>>()
        });
        round("ours-rotation", &rotations, |n| {
            ffi::rotation_instructions(mx, my, n, &mut out)
        });
        round("original-rotation", &rotations, |n| {
            original::rotation_text(*native(n), code.measures(native(n)))
        });
    }
}

/// Calls that need neither pair nor table, and the natives of many pairs in turn, which no branch
/// predictor learns.
pub fn of_none(rounds: usize) {
    let (all, numbers) = (NativeMeasurement::all(), numbers());
    let mut rng = Rng::new(540);
    let pairs: Vec<Pair> = (0..1_000).map(|_| random_pair(&mut rng)).collect();
    let (one, most) = (plan(1), plan(256));
    let mut out = vec![0; 32_768];
    for _ in 0..rounds {
        inner::timed_in_turn("many", &pairs, &numbers);
        round("ours-native", &numbers, |n| {
            ffi::native_instructions(n, &mut out)
        });
        round("original-native", &numbers, |n| {
            original::native_text(&all[n as usize])
        });
        round("list-1", &numbers, |_| ffi::list(&one, &mut out));
        round("list-256", &numbers[..CALLS / 20], |_| {
            ffi::list(&most, &mut out)
        });
    }
}

/// Document 01's plan, with its rotation as often as is said.
fn plan(count: usize) -> Vec<u8> {
    let Pair { mx, my } = PLAN_PAIR;
    let head = format!("mx={}\nmy={}\nbase=440\n", digits(&mx), digits(&my));
    (head + &"rotation=533\n".repeat(count)).into_bytes()
}
