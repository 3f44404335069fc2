//! A table of ours held against one of the sorted copy: every byte of table and queue, and what is
//! told of them.

use bicycle::{Pair, ffi};
use bicycle_cliffords::plain::Builder;

use crate::flat;
use crate::lent::Lent;
use crate::model::{self, Built, STRINGS, TABLE_LENGTH};
use crate::original::{self, Sorted};
use crate::pairs::named;
use crate::report::{Outcome, Tally};

pub fn same(pair: &Pair, ours: &Lent, sorted: &Sorted, tally: &mut Tally) -> Outcome {
    let name = named(pair);
    let costs = (0..STRINGS)
        .filter_map(|p| sorted.entry(p))
        .map(|entry| entry.cost);
    let built = Built {
        entries: sorted.len() as u32,
        depth: costs.max().map_or(0, |cost| cost / 2),
    };
    let entries = built.entries;
    tally.same(ours.told, flat::build(built), || format!("build of {name}"))?;
    tally.same_values(
        &ours.table,
        &original::written(sorted)?,
        &format!("table of {name}"),
    )?;
    tally.same_values(&ours.queue, &queue(sorted), &format!("queue of {name}"))?;

    let len = ffi::len(&ours.table);
    tally.same(len, flat::value(Ok(entries)), || format!("len of {name}"))?;
    // the original's slip: its `is_empty` answers true exactly when there are entries
    let empty = flat::value(Ok((!sorted.is_empty()).into()));
    tally.same(ffi::is_empty(&ours.table), empty, || {
        format!("is_empty of {name}")
    })?;
    let told = ffi::check(&ours.table, &pair.mx, &pair.my);
    tally.same(told, flat::check(None), || format!("check of {name}"))
}

/// All discovered nonzero strings in order, then zeros.
fn queue(sorted: &Sorted) -> Vec<u8> {
    let mut queue = vec![0; TABLE_LENGTH];
    let nonzero = sorted.discovered().iter().filter(|&&p| p != 0);
    for (i, &p) in nonzero.enumerate() {
        model::put(&mut queue, i as u32, p);
    }
    queue
}
