//! The original's answers, in the form of ours.

use std::any::Any;
use std::cell::Cell;
use std::panic::{self, UnwindSafe};
use std::sync::Once;

use bicycle::Pair;
pub use bicycle_cliffords::decomposition::MeasurementTableBuilder as Unpatched;
use bicycle_cliffords::decomposition::NativeMeasurementImpl;
use bicycle_cliffords::measurement::CodeMeasurement;
use bicycle_cliffords::native_measurement::NativeMeasurement;
use bicycle_cliffords::pauli_string::PauliString;
use bicycle_cliffords::plain::{self, Builder, Entry};
pub use bicycle_cliffords_sorted::decomposition::MeasurementTableBuilder as Sorted;
use bicycle_common::{BicycleISA, Pauli};
use bicycle_compiler::compile::access::rotation_instructions;

use crate::model::{self, STRINGS, TABLE_LENGTH};
use crate::report::Difference;

pub fn code(pair: &Pair) -> CodeMeasurement {
    plain::code(&pair.mx, &pair.my)
}

pub fn built<B: Builder>(pair: &Pair) -> B {
    let mut builder = B::start(code(pair));
    builder.build();
    builder
}

// ---- tables

/// A table of the original, written as document 01's entries.
pub fn written(builder: &impl Builder) -> Result<Vec<u8>, Difference> {
    let mut fields = vec![0; STRINGS as usize];
    for native in builder.kept() {
        fields[native.string as usize] = u32::from(native.number) + 1;
    }
    let mut table = vec![0; TABLE_LENGTH];
    for p in 0..STRINGS {
        let Some(entry) = builder.entry(p) else {
            continue;
        };
        let value = value(p, &entry, &fields).ok_or_else(|| Difference {
            what: format!("an entry at string {p}, which document 01 cannot write"),
            ours: "none".into(),
            theirs: format!("{entry:?}"),
        })?;
        model::put(&mut table, p, value);
    }
    Ok(table)
}

fn value(p: u32, entry: &Entry, fields: &[u32]) -> Option<u32> {
    let Entry {
        measurement,
        conjugated_with,
        cost,
        implements,
    } = *entry;
    let field = fields[conjugated_with.unwrap_or(measurement) as usize];
    match (conjugated_with, cost) {
        _ if implements != p => None,
        (None, 0) => (p == 0).then_some(541),
        (None, 1) if field > 0 => Some(field),
        (Some(_), 3..) if cost % 2 == 1 && field > 0 => Some(1024 * (cost / 2) + field),
        _ => None,
    }
}

impl From<plain::Plan> for model::Plan {
    fn from(plan: plain::Plan) -> Self {
        model::Plan {
            measures: plan.measures,
            native: plan.base.number,
            base: plan.base.string,
            rotations: plan.rotations.iter().map(|native| native.number).collect(),
        }
    }
}

// ---- letters

/// The letter of a byte.
pub fn letter(byte: u8) -> Option<Pauli> {
    Pauli::try_from(&char::from(byte)).ok()
}

/// The string of a text: the original reads each letter, and takes twelve with qubit 0 first.
pub fn spelt(text: &[u8]) -> Option<PauliString> {
    let letters: Option<Vec<Pauli>> = text.iter().rev().map(|&byte| letter(byte)).collect();
    PauliString::try_from(&letters?[..]).ok()
}

// ---- instructions

pub fn native_text(native: &NativeMeasurement) -> String {
    joined(&native.implementation())
}

/// The five instructions of a rotation; none where the original panics.
pub fn rotation_text(native: NativeMeasurement, string: PauliString) -> Option<String> {
    let rotation = NativeMeasurementImpl::new(native, string);
    unless_panic(move || joined(&rotation_instructions(&rotation))).ok()
}

fn joined(instructions: &[BicycleISA]) -> String {
    let texts: Vec<String> = instructions.iter().map(BicycleISA::to_string).collect();
    texts.join(" ")
}

// ---- panics

thread_local! {
    static QUIET: Cell<bool> = const { Cell::new(false) };
}

/// Runs something of the original that may panic, without a word on standard error.
pub fn unless_panic<T>(run: impl FnOnce() -> T + UnwindSafe) -> Result<T, Box<dyn Any + Send>> {
    static HOOK: Once = Once::new();
    HOOK.call_once(|| {
        let loud = panic::take_hook();
        panic::set_hook(Box::new(move |info| {
            if !QUIET.get() {
                loud(info);
            }
        }));
    });
    QUIET.set(true);
    let answer = panic::catch_unwind(run);
    QUIET.set(false);
    answer
}
