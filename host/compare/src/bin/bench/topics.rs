//! What is printed, a table for each topic.

use bicycle::{Code, TABLE_LENGTH};

use crate::growth;
use crate::said::Said;
use crate::table::{self, Row, Shown};

pub fn print(said: &Said) {
    let by_code = Code::ALL.map(|code| (format!("{code}, "), format!("{code}-")));
    let by_code = by_code
        .each_ref()
        .map(|(head, prefix)| (head.as_str(), prefix.clone()));
    let by_call = [("build, ", "build-".into()), ("check, ", "check-".into())];
    let one = [("", String::new())];
    table::print("build and check", &by_code, said, &builds());
    table::print("lookups of random strings", &by_code, said, &lookups());
    table::print("calls without a table", &by_code, said, &of_pair());
    table::print("calls of no code", &one, said, &of_none());
    table::print("growth", &by_call, said, &growth(said));
    table::print("memory", &one, said, &memory());
    table::print("stack", &one, said, &stack());
    println!("{NOTE}");
    let waiting = said.waiting();
    println!("Wall time was at most {waiting:.2} of CPU time, medians compared.\n");
}

/// Ours, the original's, and how often ours goes into it.
fn beside(what: &str, name: &str) -> [Row; 3] {
    let (ours, theirs) = (format!("ours-{name}"), format!("original-{name}"));
    [
        Row::measured(format!("{what}, ours"), &ours),
        Row::measured(format!("{what}, original"), &theirs),
        Row::ratio("original by ours", theirs, ours),
    ]
}

fn builds() -> Vec<Row> {
    let mut rows = Vec::from(beside("build", "build"));
    rows.extend([
        Row::measured("check, accepting, ours", "ours-check"),
        Row::ratio(
            "the original's build by our check",
            "original-build",
            "ours-check",
        ),
        Row::ratio("our check by our build", "ours-check", "ours-build"),
    ]);
    rows.extend(beside("peak memory of a build", "memory"));
    rows
}

fn lookups() -> Vec<Row> {
    [
        beside("exact lookup", "exact"),
        beside("pivot-free lookup", "free"),
    ]
    .into_iter()
    .flatten()
    .collect()
}

fn of_pair() -> Vec<Row> {
    let mut rows = Vec::from(beside("string of one native", "measures"));
    rows.extend(beside("all natives, and which are kept", "natives"));
    rows.push(Row::measured(
        "strings of all natives, ours",
        "ours-strings",
    ));
    rows.extend(beside("expansion of a rotation, as text", "rotation"));
    rows
}

fn of_none() -> Vec<Row> {
    let mut rows = Vec::from(beside("expansion of a native, as text", "native"));
    rows.extend([
        Row::measured("listing of a plan with one rotation, ours", "list-1"),
        Row::measured("listing of a plan with 256 rotations, ours", "list-256"),
        Row::measured(
            "all natives of 1,000 pairs in turn, and which are kept, ours",
            "many-natives",
        ),
        Row::measured("strings of all natives of these, ours", "many-strings"),
    ]);
    rows
}

/// A row for each table, named by its size, and at the end what neither call can be faster than.
fn growth(said: &Said) -> Vec<Row> {
    let count = |name: String| said.summary(&name).map_or(f64::NAN, |s| s.median);
    let row = |name| {
        let entries = count(format!("entries-{name}"));
        let depth = count(format!("depth-{name}"));
        Row::measured(format!("{entries} entries, greatest depth {depth}"), name)
    };
    let mut rows: Vec<Row> = growth::NAMES.map(row).into();
    rows.push(Row::measured("floor", "floor"));
    rows.push(Row::ratio(
        "the fewest entries by the floor",
        growth::NAMES[0],
        "floor",
    ));
    rows
}

fn memory() -> [Row; 3] {
    let rate = |what: &str, name: &str, bytes| Row::new(what, Shown::Rate(name.into(), bytes));
    [
        rate(
            "clearing both buffers, 128 MiB",
            "build-floor",
            2 * TABLE_LENGTH,
        ),
        rate(
            "reading one from front to end, 64 MiB",
            "check-floor",
            TABLE_LENGTH,
        ),
        Row::measured("reading four bytes anywhere in it", "read-anywhere"),
    ]
}

fn stack() -> [Row; 4] {
    [
        Row::measured("build of gross", "stack-build"),
        Row::measured("check of gross", "stack-check"),
        Row::measured("exact lookup in gross", "stack-exact"),
        Row::measured("pivot-free lookup in gross", "stack-free"),
    ]
}

const NOTE: &str = "\
Times are CPU time of the thread, best and median of the rounds; a ratio is of the bests and of the
medians. Peak memory is what the kernel says of a process with one build (VmHWM). The original's
files are compiled unchanged, optimised, over stand-ins for its matrix library and for logging,
which writes nothing. Our lookups form the natives from the pair in each call, where the original
has them in its map: that is what it forms in \"all natives\". The floor of a build is clearing both
lent buffers, and that of a check reading the table once, all in memory that was used before.
Reads anywhere do not wait for one another. Stack is what a call wrote to, measured once.";
