//! A table of any bytes through the check and both lookups, held against the model; and texts in
//! lent buffers.

use bicycle::Pair;
use bicycle::ffi::{self, TextResult};

use crate::flat::{self, Lookup};
use crate::model::{self, Code, Plan, Refusal};
use crate::report::{Outcome, Tally};
use crate::rng::Rng;

pub struct Held<'a> {
    pub pair: &'a Pair,
    pub code: &'a Code,
    pub table: &'a [u8],
    /// Says which table it is, for a difference.
    pub name: &'a dyn Fn() -> String,
}

impl Held<'_> {
    pub fn check(&self, tally: &mut Tally) -> Outcome {
        let told = ffi::check(self.table, &self.pair.mx, &self.pair.my);
        let broken = self.code.check(self.table);
        tally.same(told, flat::check(broken), || {
            format!("check, {}", (self.name)())
        })
    }

    /// Whether it is empty, and how many entries it has.
    pub fn counts(&self, tally: &mut Tally) -> Outcome {
        let entries = model::len(self.table);
        let told = (ffi::len(self.table), ffi::is_empty(self.table));
        let due = (
            flat::value(Ok(entries)),
            flat::value(Ok((entries == 0).into())),
        );
        tally.same(told, due, || format!("len and is_empty, {}", (self.name)()))
    }

    pub fn cost(&self, p: u32, tally: &mut Tally) -> Outcome {
        let due = flat::value(model::cost(self.table, p));
        tally.same(ffi::cost(self.table, p), due, || {
            format!("cost of {p}, {}", (self.name)())
        })
    }

    /// Both lookups of a string: the answer, and every byte of a buffer that held others before.
    pub fn lookups(&self, p: u32, rng: &mut Rng, tally: &mut Tally) -> Outcome {
        let exact = self.code.implementation(self.table, p);
        self.lookup("exact lookup", ffi::implementation, exact, p, rng, tally)?;
        let free = self.code.min_data(self.table, p);
        self.lookup("pivot-free lookup", ffi::min_data, free, p, rng, tally)
    }

    /// One lookup, with buffers too short, just long enough and longer.
    fn lookup(
        &self,
        kind: &str,
        call: Lookup,
        answer: Result<Plan, Refusal>,
        p: u32,
        rng: &mut Rng,
        tally: &mut Tally,
    ) -> Outcome {
        let needed = answer.as_ref().map_or(4, |plan| 2 * plan.rotations.len());
        for room in [0, needed.saturating_sub(1), needed, needed + 7] {
            let mut theirs = vec![0; room];
            rng.fill(&mut theirs);
            let mut ours = theirs.clone();
            let told = call(self.table, &self.pair.mx, &self.pair.my, p, &mut ours);
            let due = flat::lookup(answer.clone(), &mut theirs);
            let what = || format!("{kind} of {p} into {room} bytes, {}", (self.name)());
            tally.same((told, ours), (due, theirs), what)?;
        }
        Ok(())
    }
}

/// A call that writes text: its answer, and every byte of buffers of several lengths that held
/// others before.
pub fn text(
    call: impl Fn(&mut [u8]) -> TextResult,
    due: Result<&str, u32>,
    rng: &mut Rng,
    what: &dyn Fn() -> String,
    tally: &mut Tally,
) -> Outcome {
    let length = due.map_or(0, str::len);
    for room in [0, length.saturating_sub(1), length, length + 5] {
        let mut theirs = vec![0; room];
        rng.fill(&mut theirs);
        let mut ours = theirs.clone();
        let told = call(&mut ours);
        let due = flat::text(due, &mut theirs);
        tally.same((told, ours), (due, theirs), || {
            format!("{} into {room} bytes", what())
        })?;
    }
    Ok(())
}
