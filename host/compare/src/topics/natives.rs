//! All natives of many pairs: their strings, which are kept, and their expansions.

use std::collections::HashMap;

use bicycle::{Code, Pair, ffi};
use bicycle_cliffords::native_measurement::NativeMeasurement;
use bicycle_cliffords::plain::Builder;

use super::{Extent, Summary};
use crate::model::{Plan, TABLE_LENGTH, put, refuse};
use crate::original::{self, Unpatched};
use crate::pairs::{self, named, random_pair};
use crate::report::{Difference, Outcome, Tally};
use crate::rng::Rng;
use crate::{flat, held};

const NAMED: [Pair; 3] = [pairs::IDENTITY_PAIR, pairs::ZERO_PAIR, pairs::PLAN_PAIR];

pub fn run(extent: Extent, tally: &mut Tally) -> Result<Summary, Difference> {
    let random = extent.of(60, 1_000);
    expansions(tally)?;
    let mut pairs: Vec<Pair> = Code::ALL
        .iter()
        .map(|code| code.pair())
        .chain(NAMED)
        .collect();
    let mut rng = Rng::new(3);
    pairs.extend((0..random).map(|_| random_pair(&mut rng)));
    tally.share(0..pairs.len() as u32, |mut range, tally| {
        let mut natives = Natives::new();
        range.try_for_each(|i| natives.of_pair(&pairs[i as usize], tally))
    })?;
    Ok(format!(
        "strings, kept numbers and expansions of 540 natives for {} pairs",
        pairs.len()
    ))
}

/// A native's own expansion asks for no pair.
fn expansions(tally: &mut Tally) -> Outcome {
    let mut rng = Rng::new(4);
    for (n, native) in NativeMeasurement::all().iter().enumerate() {
        let due = original::native_text(native);
        let call = |out: &mut [u8]| ffi::native_instructions(n as u32, out);
        held::text(
            call,
            Ok(&due),
            &mut rng,
            &|| format!("expansion of native {n}"),
            tally,
        )?;
    }
    Ok(())
}

struct Natives {
    all: Vec<NativeMeasurement>,
    /// All zero, except for one value while a lookup tries it.
    table: Vec<u8>,
    rng: Rng,
}

impl Natives {
    fn new() -> Self {
        let (all, table) = (NativeMeasurement::all(), vec![0; TABLE_LENGTH]);
        Natives {
            all,
            table,
            rng: Rng::new(5),
        }
    }

    fn of_pair(&mut self, pair: &Pair, tally: &mut Tally) -> Outcome {
        let code = original::code(pair);
        let kept = Unpatched::start(code).kept();
        let kept: HashMap<u32, u16> = kept.iter().map(|n| (n.string, n.number)).collect();
        for n in 0..self.all.len() as u16 {
            let name = || format!("native {n} of {}", named(pair));
            let native = self.all[usize::from(n)];
            let p = code.measures(&native);
            let told = ffi::measures(&pair.mx, &pair.my, n.into());
            tally.same(told, flat::value(Ok(p.0)), || {
                format!("string of {}", name())
            })?;

            let is_kept = kept[&p.0] == n;
            let told = self.as_entry(pair, p.0, n);
            tally.same(told, due(p.0, n, is_kept), || {
                format!("kept flag of {}", name())
            })?;

            let text = original::rotation_text(native, p);
            let call =
                |out: &mut [u8]| ffi::rotation_instructions(&pair.mx, &pair.my, n.into(), out);
            let name = || format!("expansion as a rotation of {}", name());
            held::text(call, text.as_deref().ok_or(10), &mut self.rng, &name, tally)?;
        }
        Ok(())
    }

    /// The exact lookup of a string whose entry says that native n measures it.
    fn as_entry(&mut self, pair: &Pair, p: u32, n: u16) -> ffi::LookupResult {
        put(&mut self.table, p, u32::from(n) + 1);
        let told = ffi::implementation(&self.table, &pair.mx, &pair.my, p, &mut []);
        put(&mut self.table, p, 0);
        told
    }
}

/// Such an entry is valid exactly when n is kept. The identity is never looked up.
fn due(p: u32, n: u16, is_kept: bool) -> ffi::LookupResult {
    let answer = match (p, is_kept) {
        (0, _) => refuse(5),
        (_, true) => Ok(Plan {
            measures: p,
            native: n,
            base: p,
            rotations: vec![],
        }),
        (_, false) => refuse(8),
    };
    flat::lookup(answer, &mut [])
}
