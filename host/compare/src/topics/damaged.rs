//! Tables with damages of many kinds: the check, both lookups and the bytes they write, held
//! against the model.

use bicycle::{Code, Pair};

use super::{Extent, Summary};
use crate::flat;
use crate::held::Held;
use crate::lent::Lent;
use crate::model::{self, NATIVES, STRINGS, TABLE_LENGTH, depth, entry, field, put};
use crate::pairs::{self, named};
use crate::report::{Difference, Outcome, Tally};
use crate::rng::Rng;

/// A pair, and its table as built.
struct Case {
    pair: Pair,
    code: model::Code,
    table: Vec<u8>,
    /// The strings with an entry, in order of discovery.
    found: Vec<u32>,
}

/// Few rotations and few entries, so that a check takes well under a second: 16, 16, 54, 691, 1,765
/// and 458,734 entries.
const SMALL: [(&str, &str); 3] = [
    (
        "110000110010101100000110000010000001",
        "000000010000000000001000000000000100",
    ),
    (
        "000000000000000000000000000000000000",
        "001000000100000010100000010000000001",
    ),
    (
        "011001010101000010011111101110001001",
        "000000000000000000000000000000000000",
    ),
];

pub fn run(extent: Extent, tally: &mut Tally) -> Result<Summary, Difference> {
    let (small, large) = extent.of((112, 2), (1_008, 20));
    let digits = |d: &(&str, &str)| Pair::from_digits(d.0.as_bytes(), d.1.as_bytes()).unwrap();
    let named = [pairs::IDENTITY_PAIR, pairs::ZERO_PAIR, pairs::PLAN_PAIR];
    let pairs = named.into_iter().chain(SMALL.iter().map(digits));
    let cases: Vec<Case> = pairs
        .map(|pair| built(pair, true, tally))
        .collect::<Result<_, _>>()?;
    many(&cases, small, 1, tally)?;
    drop(cases);
    // the model takes more than a minute for gross
    let gross = built(Code::Gross.pair(), extent == Extent::Whole, tally)?;
    many(&[gross], large, 2, tally)?;
    Ok(format!(
        "check, costs and both lookups of {small} damages of small tables, {large} of gross"
    ))
}

/// Builds by the library, and holds that against the model's build where it is said.
fn built(pair: Pair, by_model: bool, tally: &mut Tally) -> Result<Case, Difference> {
    let code = model::Code::new(&pair);
    let lent = Lent::built(&pair);
    if by_model {
        let (mut table, mut queue) = (vec![0; TABLE_LENGTH], vec![0; TABLE_LENGTH]);
        let built = code.build(&mut table, &mut queue);
        let name = named(&pair);
        tally.same(lent.told, flat::build(built), || format!("build of {name}"))?;
        tally.same_values(&lent.table, &table, &format!("table of {name}"))?;
        tally.same_values(&lent.queue, &queue, &format!("queue of {name}"))?;
    }
    Ok(Case {
        pair,
        code,
        found: lent.found(),
        table: lent.table,
    })
}

fn many(cases: &[Case], damages: u32, seed: u64, tally: &mut Tally) -> Outcome {
    tally.share(0..damages, |range, tally| {
        let mut table = vec![0; TABLE_LENGTH];
        for i in range {
            let mut rng = Rng::new(seed << 32 | u64::from(i));
            let (round, which) = (i as usize / cases.len(), i as usize % cases.len());
            let case = &cases[which];
            // each pair begins with other kinds, so that few damages go through all of them
            let (kind, damage) = KINDS[(round + 4 * which) % KINDS.len()];
            // now and then it is another pair's table
            let other = if rng.one_in(12) {
                rng.index(cases.len())
            } else {
                which
            };
            table.copy_from_slice(&cases[other].table);
            let touched = damage(case, &mut table, &mut rng);
            let name = || {
                let (pair, built_for) = (named(&case.pair), named(&cases[other].pair));
                format!("{pair}, the table of {built_for} with damage {i}, {kind}")
            };
            let Case { pair, code, .. } = case;
            let held = Held {
                pair,
                code,
                table: &table,
                name: &name,
            };
            held.check(tally)?;
            held.counts(tally)?;
            for p in worth_looking_up(case, &touched, &mut rng) {
                held.cost(p, tally)?;
                held.lookups(p, &mut rng, tally)?;
            }
        }
        Ok(())
    })
}

/// Edges, the places of the damage, their neighbours, strings with an entry, and others.
fn worth_looking_up(case: &Case, touched: &[u32], rng: &mut Rng) -> Vec<u32> {
    let mut strings = vec![0, 1, 4096, 4097, STRINGS - 1, STRINGS, u32::MAX];
    for &p in touched.iter().take(24) {
        strings.extend([p, model::blank_pivot(p)]);
        strings.extend((0..4).map(|_| case.neighbour(p, rng)));
    }
    for _ in 0..24 {
        let p = rng.pick(&case.found);
        strings.extend([p, model::blank_pivot(p), rng.below(STRINGS.into()) as u32]);
    }
    strings
}

impl Case {
    fn rotation(&self, rng: &mut Rng) -> u16 {
        rng.pick(&self.code.rotations)
    }

    fn neighbour(&self, p: u32, rng: &mut Rng) -> u32 {
        self.code.leads(p, self.rotation(rng))
    }

    /// A string with an entry, or now and then any string.
    fn some(&self, rng: &mut Rng) -> u32 {
        match rng.below(4) {
            0 => any(rng),
            1 => self.neighbour(rng.pick(&self.found), rng),
            _ => rng.pick(&self.found),
        }
    }
}

/// Any string. Low ones are frequent, because there a check ends early.
fn any(rng: &mut Rng) -> u32 {
    (rng.below(STRINGS.into()) >> rng.below(16)) as u32
}

/// A way to damage a table. It answers strings that are worth looking up.
type Damage = fn(&Case, &mut [u8], &mut Rng) -> Vec<u32>;

const KINDS: [(&str, Damage); 28] = [
    ("a longer way down", |case, t, rng| {
        way_down(case, t, rng, true, true)
    }),
    ("a way as long by no rotation", |case, t, rng| {
        way_down(case, t, rng, false, false)
    }),
    ("a way as long", |case, t, rng| {
        way_down(case, t, rng, false, true)
    }),
    ("a longer way by no rotation", |case, t, rng| {
        way_down(case, t, rng, true, false)
    }),
    ("a native that is not kept", not_kept),
    ("a chain of rotations", chain),
    ("a random value", |_, t, rng| {
        one(any(rng), t, |_| rng.draw() as u32)
    }),
    ("a random value at an entry", |case, t, rng| {
        one(rng.pick(&case.found), t, |_| rng.draw() as u32)
    }),
    ("a random field at an entry", |case, t, rng| {
        one(rng.pick(&case.found), t, |v| {
            v - field(v) + rng.below(1024) as u32
        })
    }),
    ("a likely entry", |case, t, rng| {
        let value = 1024 * rng.below(4) as u32 + u32::from(case.rotation(rng)) + 1;
        one(case.some(rng), t, |_| value)
    }),
    ("a bit flipped", |case, t, rng| {
        one(case.some(rng), t, |v| v ^ 1 << rng.below(32))
    }),
    ("an entry taken out", |case, t, rng| {
        one(rng.pick(&case.found), t, |_| 0)
    }),
    ("a depth truncated", |case, t, rng| {
        one(case.some(rng), t, field)
    }),
    ("one deeper", |case, t, rng| {
        one(case.some(rng), t, |v| v + 1024)
    }),
    ("one less deep", |case, t, rng| {
        one(case.some(rng), t, |v| v.saturating_sub(1024))
    }),
    ("two fields swapped", |case, t, rng| {
        swap(case, t, rng, field)
    }),
    ("two entries swapped", |case, t, rng| {
        swap(case, t, rng, |v| v)
    }),
    ("many random values", |_, t, rng| {
        several(t, rng, |_, rng| rng.draw() as u32)
    }),
    ("many bits flipped", |_, t, rng| {
        several(t, rng, |v, rng| v ^ 1 << rng.below(32))
    }),
    ("likely entries everywhere but at natives", likely),
    ("all depths truncated", |case, t, rng| {
        all(case, t, rng, |_, v| field(v))
    }),
    ("all entries one deeper", |case, t, rng| {
        all(case, t, rng, |_, v| if v == 0 { 0 } else { v + 1024 })
    }),
    ("the natives alone", |case, t, rng| {
        all(case, t, rng, |_, v| if depth(v) == 0 { v } else { 0 })
    }),
    ("all zero but the identity's", |case, t, rng| {
        all(case, t, rng, |p, v| if p == 0 { v } else { 0 })
    }),
    ("all zero", |case, t, rng| all(case, t, rng, |_, _| 0)),
    ("all bytes random", |case, t, rng| {
        rng.fill(t);
        vec![case.some(rng), any(rng)]
    }),
    ("moved by one byte", |case, t, rng| {
        t.rotate_right(1);
        vec![case.some(rng), any(rng)]
    }),
    ("none", |case, _, rng| vec![case.some(rng)]),
];

fn one(p: u32, table: &mut [u8], change: impl FnOnce(u32) -> u32) -> Vec<u32> {
    put(table, p, change(entry(table, p)));
    vec![p]
}

fn several(table: &mut [u8], rng: &mut Rng, change: fn(u32, &mut Rng) -> u32) -> Vec<u32> {
    let count = 2 << rng.below(13);
    let places: Vec<u32> = (0..count).map(|_| any(rng)).collect();
    for &p in &places {
        put(table, p, change(entry(table, p), rng));
    }
    places
}

fn all(case: &Case, table: &mut [u8], rng: &mut Rng, change: fn(u32, u32) -> u32) -> Vec<u32> {
    for p in 0..STRINGS {
        put(table, p, change(p, entry(table, p)));
    }
    (0..8).map(|_| case.some(rng)).collect()
}

/// Swaps a part of two values.
fn swap(case: &Case, table: &mut [u8], rng: &mut Rng, part: fn(u32) -> u32) -> Vec<u32> {
    let (p, q) = (rng.pick(&case.found), case.some(rng));
    let (v, w) = (entry(table, p), entry(table, q));
    put(table, p, v - part(v) + part(w));
    put(table, q, w - part(w) + part(v));
    vec![p, q]
}

/// Another way down, as long as the shortest or longer, by a native that is a rotation or by one
/// that is none.
fn way_down(
    case: &Case,
    table: &mut [u8],
    rng: &mut Rng,
    is_longer: bool,
    by_rotation: bool,
) -> Vec<u32> {
    for _ in 0..10_000 {
        let (p, n) = (case.some(rng), rng.index(NATIVES) as u16);
        let q = case.code.leads(p, n);
        let (value, next) = (entry(table, p), entry(table, q));
        let (old, new) = (depth(value), depth(next) + 1);
        let fits = if is_longer { new > old } else { new == old };
        if p != q && next != 0 && fits && case.code.rotations.contains(&n) == by_rotation {
            put(table, p, 1024 * new + u32::from(n) + 1);
            return vec![p];
        }
    }
    vec![]
}

/// A native that is not kept, at its own string.
fn not_kept(case: &Case, table: &mut [u8], rng: &mut Rng) -> Vec<u32> {
    let n = rng.index(NATIVES);
    let p = case.code.strings[n];
    one(p, table, |_| n as u32 + 1)
}

/// From a native's string on, entries that lead back to it one by one, over strings not met before.
fn chain(case: &Case, table: &mut [u8], rng: &mut Rng) -> Vec<u32> {
    let mut p = rng.pick(&case.code.strings);
    let mut met = vec![p];
    for _ in 0..20_000 {
        let n = case.rotation(rng);
        let q = case.code.leads(p, n);
        if case.code.kept(q).is_none() && !met.contains(&q) {
            put(table, q, 1024 * met.len() as u32 + u32::from(n) + 1);
            met.push(q);
            p = q;
        }
        if met.len() > 3_000 {
            break;
        }
    }
    met.reverse();
    met
}

/// Identity and natives as they were; any other string has an entry of a small depth that names a
/// rotation.
fn likely(case: &Case, table: &mut [u8], rng: &mut Rng) -> Vec<u32> {
    for p in 1..STRINGS {
        if case.code.kept(p).is_none() {
            let depth = 1 + rng.below(3) as u32;
            put(table, p, 1024 * depth + u32::from(case.rotation(rng)) + 1);
        }
    }
    (0..8).map(|_| any(rng)).collect()
}
