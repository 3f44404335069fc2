//! Gross and two-gross: whole tables, queues, costs, and every plan, with the sorted copy and with
//! the original as it is.

use bicycle::{Code, NATIVES, Pair, ffi};
use bicycle_cliffords::measurement::MeasurementChoices;
use bicycle_cliffords::pauli_string::PauliString;
use bicycle_cliffords::plain::{self, Builder, Table};

use super::{Extent, Summary, tables};
use crate::flat::{self, Lookup};
use crate::lent::Lent;
use crate::model::{STRINGS, depth, entry};
use crate::original::{self, Sorted, Unpatched};
use crate::report::{Difference, Outcome, Tally, both};

/// How many strings have a blank pivot, 4^11.
const BLANK: u32 = STRINGS / 4;

pub fn gross(_: Extent, tally: &mut Tally) -> Result<Summary, Difference> {
    run(Code::Gross, MeasurementChoices::Gross, tally)
}

pub fn two_gross(_: Extent, tally: &mut Tally) -> Result<Summary, Difference> {
    run(Code::TwoGross, MeasurementChoices::TwoGross, tally)
}

fn run(code: Code, choice: MeasurementChoices, tally: &mut Tally) -> Result<Summary, Difference> {
    let pair = code.pair();
    tally.same(code.to_string(), choice.to_string(), || {
        "the name of a code".into()
    })?;
    let matrices = || format!("the matrices of {code}");
    tally.same(original::code(&pair), choice.measurement(), matrices)?;

    let (sorted, unpatched) = both(
        || original::built::<Sorted>(&pair),
        || original::built::<Unpatched>(&pair),
    );
    let ours = Lent::built(&pair);
    tables::same(&pair, &ours, &sorted, tally)?;
    let theirs = original::written(&unpatched)?;
    any_order(&pair, &ours, &theirs, tally)?;

    let measures = |n| ffi::measures(&pair.mx, &pair.my, n).value;
    let strings: Vec<u32> = (0..NATIVES).map(measures).collect();
    let sorted = Looked::new(&pair, &strings, &ours.table, complete(sorted)?);
    let unsorted = Looked::new(&pair, &strings, &theirs, complete(unpatched)?);
    plans(&sorted, &unsorted, tally)?;
    let ffi::BuildResult { entries, depth, .. } = ours.told;
    Ok(format!(
        "{entries} entries, greatest depth {depth}; table, queue, costs, {} exact and {BLANK} \
         pivot-free plans; and the same of a table with the original's maps in their own order",
        STRINGS - 1
    ))
}

fn plans<A, B>(sorted: &Looked<A>, unsorted: &Looked<B>, tally: &mut Tally) -> Outcome
where
    A: Table + Sync,
    B: Table + Sync,
{
    tally.share(0..STRINGS, |mut range, tally| {
        range.try_for_each(|p| exact(p, sorted, unsorted, tally))
    })?;
    tally.share(0..BLANK, |mut range, tally| {
        range.try_for_each(|bits| pivot_free(bits, sorted, unsorted, tally))
    })
}

fn complete<B: Builder>(builder: B) -> Result<B::Table, Difference> {
    builder.complete().map_err(|text| Difference {
        what: "the original's `complete`".into(),
        ours: "a complete table".into(),
        theirs: text,
    })
}

/// A table with the original's maps in their own order is accepted, and has our depth at every
/// string.
fn any_order(pair: &Pair, ours: &Lent, theirs: &[u8], tally: &mut Tally) -> Outcome {
    let told = ffi::check(theirs, &pair.mx, &pair.my);
    tally.same(told, flat::check(None), || {
        "check of the original's table".into()
    })?;
    for p in 0..STRINGS {
        let depths = (depth(entry(&ours.table, p)), depth(entry(theirs, p)));
        tally.same(depths.0, depths.1, || format!("depth of string {p}"))?;
    }
    Ok(())
}

fn exact(
    p: u32,
    sorted: &Looked<impl Table>,
    unsorted: &Looked<impl Table>,
    tally: &mut Tally,
) -> Outcome {
    let cost = ffi::cost(sorted.table, p);
    tally.same(cost, flat::value(Ok(sorted.original.cost(p))), || {
        format!("cost of {p}")
    })?;
    let theirs = flat::value(Ok(unsorted.original.cost(p)));
    tally.same(cost, theirs, || format!("cost of {p} in any order"))?;
    if p == 0 {
        return Ok(()); // refusal 5; the original panics
    }
    let a = sorted.same(
        p,
        ffi::implementation,
        sorted.original.implementation(p),
        tally,
    )?;
    let b = unsorted.same(
        p,
        ffi::implementation,
        unsorted.original.implementation(p),
        tally,
    )?;
    tally.same(a, b, || format!("length of the plan of {p} in any order"))
}

fn pivot_free(
    bits: u32,
    sorted: &Looked<impl Table>,
    unsorted: &Looked<impl Table>,
    tally: &mut Tally,
) -> Outcome {
    let p = PauliString::rotation(bits).0;
    let a = sorted.same(p, ffi::min_data, sorted.original.min_data(p), tally)?;
    let b = unsorted.same(p, ffi::min_data, unsorted.original.min_data(p), tally)?;
    tally.same(a, b, || {
        format!("length of the pivot-free plan of {p} in any order")
    })
}

/// A table of the original, in our form and in its own.
struct Looked<'a, T> {
    pair: &'a Pair,
    /// What each native measures.
    strings: &'a [u32],
    table: &'a [u8],
    original: T,
}

impl<'a, T> Looked<'a, T> {
    fn new(pair: &'a Pair, strings: &'a [u32], table: &'a [u8], original: T) -> Self {
        Looked {
            pair,
            strings,
            table,
            original,
        }
    }

    /// One lookup with theirs: the answer, the buffer, and the string of each rotation. Answers how
    /// many these are.
    fn same(
        &self,
        p: u32,
        call: Lookup,
        plan: plain::Plan,
        tally: &mut Tally,
    ) -> Result<u32, Difference> {
        for rotation in &plan.rotations {
            let string = self.strings[usize::from(rotation.number)];
            tally.same(string, rotation.string, || {
                format!("{rotation:?}, for string {p}")
            })?;
        }
        let (mut ours, mut theirs) = ([0xa5; 32], [0xa5; 32]);
        let told = call(self.table, &self.pair.mx, &self.pair.my, p, &mut ours);
        let due = flat::lookup(Ok(plan.into()), &mut theirs);
        tally.same((told, ours), (due, theirs), || format!("lookup of {p}"))?;
        Ok(told.rotations)
    }
}
