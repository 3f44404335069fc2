//! Refusals, alone and together, on every call: document 01's number, zeros, and nothing written.

use bicycle::ffi::{self, BuildResult, CheckResult};
use bicycle::pair::Matrix;

use super::{Extent, Summary};
use crate::model::{self, NATIVES, STRINGS, TABLE_LENGTH, put, refuse};
use crate::pairs;
use crate::paper::{Natives, Sentences};
use crate::report::{Difference, Outcome, Tally};
use crate::rng::Rng;
use crate::{flat, held};

const LENGTHS: [usize; 5] = [0, 1, TABLE_LENGTH - 1, TABLE_LENGTH, TABLE_LENGTH + 1];
const STRING_EDGES: [u32; 7] = [0, 1, 2, 4096, STRINGS - 1, STRINGS, u32::MAX];
const NATIVE_EDGES: [u32; 9] = [0, 3, 300, 539, 540, 541, 1023, 65_536, u32::MAX];

/// Matrices that are one, and that are none.
struct Matrices {
    over: Matrix,
    long: [u8; 37],
}

impl Matrices {
    fn all(&self) -> [&[u8]; 6] {
        [
            &pairs::IDENTITY,
            &pairs::PLAN_PAIR.mx,
            &self.over,
            &self.long,
            &self.over[1..],
            &[],
        ]
    }

    fn pairs(&self) -> impl Iterator<Item = (&[u8], &[u8])> {
        self.all()
            .into_iter()
            .flat_map(|mx| self.all().into_iter().map(move |my| (mx, my)))
    }
}

pub fn run(_: Extent, tally: &mut Tally) -> Result<Summary, Difference> {
    let mut over = pairs::IDENTITY;
    over[35] = 2;
    let matrices = Matrices {
        over,
        long: [1; 37],
    };
    tables(&matrices, tally)?;
    builds(&matrices, tally)?;
    natives(&matrices, tally)?;
    strings(tally)?;
    texts(tally)?;
    Ok("every call, with the edges of each argument".into())
}

/// Calls that read a table, on a table of zeros but for one value.
fn tables(matrices: &Matrices, tally: &mut Tally) -> Outcome {
    let mut bytes = vec![0; TABLE_LENGTH + 1];
    for value in [0, 541, 4, u32::MAX] {
        put(&mut bytes, 1, value);
        for table in LENGTHS.map(|length| &bytes[..length]) {
            reads(table, tally)?;
            for (mx, my) in matrices.pairs() {
                if let Some(number) = model::given(table, mx, my) {
                    refused(table, mx, my, number, tally)?;
                }
            }
        }
    }
    Ok(())
}

fn reads(table: &[u8], tally: &mut Tally) -> Outcome {
    let is_table = table.len() == TABLE_LENGTH;
    let name = || format!("a table of {} bytes", table.len());
    let entries = if is_table {
        Ok(model::len(table))
    } else {
        Err(1)
    };
    tally.same(ffi::len(table), flat::value(entries), || {
        format!("len, {}", name())
    })?;
    let empty = entries.map(|n| u32::from(n == 0));
    tally.same(ffi::is_empty(table), flat::value(empty), || {
        format!("is_empty, {}", name())
    })?;
    for p in STRING_EDGES {
        let due = if is_table {
            model::cost(table, p)
        } else {
            Err(1)
        };
        tally.same(ffi::cost(table, p), flat::value(due), || {
            format!("cost of {p}, {}", name())
        })?;
    }
    Ok(())
}

/// Check and lookups of a table and matrices that are refused, whatever the string.
fn refused(table: &[u8], mx: &[u8], my: &[u8], number: u32, tally: &mut Tally) -> Outcome {
    let name = || format!("a table of {} bytes, mx {mx:?}, my {my:?}", table.len());
    let due = CheckResult {
        number,
        accepted: 0,
        index: 0,
    };
    tally.same(ffi::check(table, mx, my), due, || {
        format!("check, {}", name())
    })?;
    for p in STRING_EDGES {
        for call in [ffi::implementation, ffi::min_data] {
            let mut out = [0xa5; 4];
            let told = call(table, mx, my, p, &mut out);
            let due = flat::lookup(refuse(number), &mut []);
            tally.same((told, out), (due, [0xa5; 4]), || {
                format!("lookup of {p}, {}", name())
            })?;
        }
    }
    Ok(())
}

fn builds(matrices: &Matrices, tally: &mut Tally) -> Outcome {
    let mut bytes = (vec![0xa5; TABLE_LENGTH + 1], vec![0x5a; TABLE_LENGTH + 1]);
    for (t, q) in LENGTHS
        .iter()
        .flat_map(|t| LENGTHS.iter().map(move |q| (*t, *q)))
    {
        for (mx, my) in matrices.pairs() {
            let (table, queue) = (&mut bytes.0[..t], &mut bytes.1[..q]);
            let number = match model::given(table, mx, my) {
                Some(3) | None if q != TABLE_LENGTH => 2,
                Some(number) => number,
                None => continue,
            };
            let told = ffi::build(table, queue, mx, my);
            let due = BuildResult {
                number,
                entries: 0,
                depth: 0,
            };
            let what = || format!("build in {t} and {q} bytes, mx {mx:?}, my {my:?}");
            tally.same(told, due, what)?;
        }
    }
    // nothing was written by any of them
    let written = bytes.0.iter().any(|&b| b != 0xa5) || bytes.1.iter().any(|&b| b != 0x5a);
    tally.same(written, false, || {
        "whether a refused build has written".into()
    })
}

fn natives(matrices: &Matrices, tally: &mut Tally) -> Outcome {
    let mut rng = Rng::new(8);
    for n in NATIVE_EDGES {
        let known = if n < NATIVES as u32 {
            Ok(n as usize)
        } else {
            Err(11)
        };
        let text = known.map(|n| Sentences.expansion(n));
        let call = |out: &mut [u8]| ffi::native_instructions(n, out);
        let due = text.as_deref().map_err(|number| *number);
        held::text(
            call,
            due,
            &mut rng,
            &|| format!("expansion of native {n}"),
            tally,
        )?;
        for (mx, my) in matrices.pairs() {
            let name = || format!("native {n}, mx {mx:?}, my {my:?}");
            let known = model::pair(mx, my).and_then(|pair| Ok((pair, known?)));
            let string = known.map(|(pair, n)| model::measures(&pair, n));
            tally.same(ffi::measures(mx, my, n), flat::value(string), || {
                format!("measures, {}", name())
            })?;
            let text = known.and_then(|(pair, n)| Sentences.rotation_expansion(&pair, n).ok_or(10));
            let call = |out: &mut [u8]| ffi::rotation_instructions(mx, my, n, out);
            let due = text.as_deref().map_err(|number| *number);
            held::text(
                call,
                due,
                &mut rng,
                &|| format!("rotation, {}", name()),
                tally,
            )?;
        }
    }
    Ok(())
}

fn strings(tally: &mut Tally) -> Outcome {
    let mut rng = Rng::new(9);
    for p in STRING_EDGES {
        let known = |p: u32| if p < STRINGS { Ok(p) } else { Err(4) };
        let text = known(p).map(|p| Sentences.text(p));
        let call = |out: &mut [u8]| ffi::display(p, out);
        let due = text.as_deref().map_err(|number| *number);
        held::text(call, due, &mut rng, &|| format!("text of {p}"), tally)?;
        for q in STRING_EDGES {
            let both = known(p).and_then(|p| Ok((p, known(q)?)));
            let commutes = both.map(|(p, q)| model::commute(p, q).into());
            let told = ffi::commutes_with(p, q);
            tally.same(told, flat::value(commutes), || {
                format!("commutation of {p} and {q}")
            })?;
            let conjugated = both.map(|(p, q)| model::conjugate(p, q));
            let told = ffi::conjugate_with(p, q);
            tally.same(told, flat::value(conjugated), || {
                format!("{p} conjugated with {q}")
            })?;
        }
    }
    Ok(())
}

/// Every length up to 13, and every byte in every place.
fn texts(tally: &mut Tally) -> Outcome {
    let text = *b"XIZYIIXYZIYXI";
    let mut same = |text: &[u8]| {
        let due = flat::value(Sentences::spelt(text).ok_or(13));
        tally.same(ffi::from_text(text), due, || {
            format!("string of {}", text.escape_ascii())
        })
    };
    (0..=13).try_for_each(|length| same(&text[..length]))?;
    for place in 0..12 {
        for byte in 0..=255 {
            let mut changed = text;
            changed[place] = byte;
            same(&changed[..12])?;
        }
    }
    Ok(())
}
