//! Plans on paper: pseudo-random inputs, good ones and spoiled ones, held against the model of
//! document 01's text.

use std::collections::BTreeMap;
use std::sync::Mutex;

use bicycle::ffi;
use bicycle::pair::digits;

use super::{Extent, Summary};
use crate::held;
use crate::model::{self, NATIVES};
use crate::pairs::random_pair;
use crate::paper::{Sentences, list};
use crate::report::{Difference, Tally};
use crate::rng::Rng;

/// Numbers on the edges of what may stand in a line.
const WORDS: [&str; 12] = [
    "0", "00", "007", "539", "540", "999", "1000", "", "-1", "+1", " 1", "1 ",
];

pub fn run(extent: Extent, tally: &mut Tally) -> Result<Summary, Difference> {
    let inputs = extent.of(3_000, 100_000);
    let answers = Mutex::new(BTreeMap::new());
    tally.share(0..inputs, |range, tally| {
        for i in range {
            let mut rng = Rng::new(7 << 32 | u64::from(i));
            let input = input(&mut rng);
            let due = list(&input, &Sentences);
            let what = || format!("listing of {}", input.escape_ascii());
            held::text(
                |out| ffi::list(&input, out),
                Ok(&due),
                &mut rng,
                &what,
                tally,
            )?;
            let kind = if due.starts_with("refused") {
                due.trim_end()
            } else {
                "listed"
            };
            *answers.lock().unwrap().entry(kind.to_string()).or_insert(0) += 1;
        }
        Ok(())
    })?;
    let answers = answers.into_inner().unwrap();
    let counts: Vec<String> = answers
        .iter()
        .map(|(kind, n)| format!("{kind} {n}"))
        .collect();
    Ok(format!(
        "listings of {inputs} inputs ({})",
        counts.join(", ")
    ))
}

fn input(rng: &mut Rng) -> Vec<u8> {
    let mut lines = plan(rng);
    if rng.one_in(3) {
        return lines.concat();
    }
    for _ in 0..rng.below(3) {
        spoil_lines(&mut lines, rng);
    }
    let mut input = lines.concat();
    for _ in 0..rng.below(3) {
        spoil_bytes(&mut input, rng);
    }
    input
}

/// The lines of a plan, most of whose rotations have a letter on the pivot.
fn plan(rng: &mut Rng) -> Vec<Vec<u8>> {
    let pair = random_pair(rng);
    let pivotal = |n: &usize| model::has_pivot(model::measures(&pair, *n));
    let rotations: Vec<usize> = (0..NATIVES).filter(pivotal).collect();
    let count = match rng.below(40) {
        0 => 254 + rng.below(4),
        1..10 => 0,
        _ => rng.below(6),
    };
    let mut lines = vec![
        format!("mx={}\n", digits(&pair.mx)),
        format!("my={}\n", digits(&pair.my)),
        format!("base={}\n", rng.index(NATIVES)),
    ];
    for _ in 0..count {
        let any = rng.one_in(200);
        let n = if any {
            rng.index(NATIVES)
        } else {
            rng.pick(&rotations)
        };
        lines.push(format!("rotation={n}\n"));
    }
    lines.into_iter().map(String::into_bytes).collect()
}

fn spoil_lines(lines: &mut Vec<Vec<u8>>, rng: &mut Rng) {
    let (i, j) = (rng.index(lines.len()), rng.index(lines.len()));
    match rng.below(6) {
        0 => lines.swap(i, j),
        1 => lines.insert(i, lines[j].clone()),
        2 if lines.len() > 1 => drop(lines.remove(i)),
        3 => lines[i] = format!("rotation={}\n", rng.pick(&WORDS)).into_bytes(),
        4 => lines[i] = format!("base={}\n", rng.pick(&WORDS)).into_bytes(),
        _ => lines[i] = [&lines[i][..], b"\n"].concat(),
    }
}

fn spoil_bytes(input: &mut Vec<u8>, rng: &mut Rng) {
    let byte = match rng.below(3) {
        0 => rng.pick(b"0123456789"),
        1 => rng.pick(b"\n\r =mxybase"),
        _ => rng.draw() as u8,
    };
    if input.is_empty() {
        return input.push(byte);
    }
    let at = rng.index(input.len());
    match rng.below(6) {
        0 => input.truncate(at),
        1 => drop(input.remove(at)),
        2 => input.insert(at, byte),
        3 => input.push(byte),
        4 => drop(input.pop()),
        _ => input[at] = byte,
    }
}
