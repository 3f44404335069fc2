//! Pairs whose tables are incomplete: tables and queues with the sorted copy; lookups, which the
//! original does not have there, with the model.

use bicycle::ffi;
use bicycle_cliffords::plain::Builder;

use super::{Extent, Summary, tables};
use crate::flat;
use crate::held::Held;
use crate::lent::Lent;
use crate::model::{self, STRINGS, blank_pivot};
use crate::original::{self, Sorted};
use crate::pairs::{named, random_pair};
use crate::report::{Difference, Outcome, Tally};
use crate::rng::Rng;

/// Seeds of pairs with incomplete tables, from 16 to 7,340,020 entries. The quick part takes the
/// first three; each half has about the same work.
const SEEDS: [u64; 24] = [
    103, 107, 136, 108, 106, 151, 148, 101, 118, 127, 126, 139, //
    156, 121, 115, 143, 142, 111, 163, 144, 132, 110, 124, 150,
];

pub fn run(extent: Extent, tally: &mut Tally) -> Result<Summary, Difference> {
    let seeds = &SEEDS[..extent.of(3, SEEDS.len())];
    tally.share(0..seeds.len() as u32, |mut range, tally| {
        range.try_for_each(|i| compare(seeds[i as usize], tally))
    })?;
    Ok(format!(
        "tables, queues, costs and lookups of {} pairs",
        seeds.len()
    ))
}

fn compare(seed: u64, tally: &mut Tally) -> Outcome {
    let mut rng = Rng::new(seed);
    let pair = random_pair(&mut rng);
    let sorted: Sorted = original::built(&pair);
    let ours = Lent::built(&pair);
    tables::same(&pair, &ours, &sorted, tally)?;
    for p in 0..STRINGS {
        let due = sorted.entry(p).map(|entry| entry.cost).ok_or(7);
        tally.same(ffi::cost(&ours.table, p), flat::value(due), || {
            format!("cost of {p}, {}", named(&pair))
        })?;
    }
    let is_complete = sorted.complete().is_ok();
    tally.same(false, is_complete, || {
        format!("whether {} is complete", named(&pair))
    })?;

    let code = model::Code::new(&pair);
    let name = || named(&pair);
    let held = Held {
        pair: &pair,
        code: &code,
        table: &ours.table,
        name: &name,
    };
    let found = ours.found();
    for _ in 0..20_000 {
        let (entry, any) = (rng.pick(&found), rng.below(STRINGS.into()) as u32);
        for p in [entry, blank_pivot(entry), any, blank_pivot(any)] {
            held.lookups(p, &mut rng, tally)?;
        }
    }
    Ok(())
}
