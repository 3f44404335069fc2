//! What is wanted, and whether it was measured.

use crate::said::{Said, Summary};
use crate::table::number;

const MICROSECOND: f64 = 1e-6;
const STACK: Limit = Below(512.0 * 1024.0);

/// What a median has to stay below.
enum Limit {
    Below(f64),
    /// So many times less than another median.
    Times(f64, &'static str),
}

use Limit::{Below, Times};

/// What, the name of the number, and its limit.
#[rustfmt::skip]
const TARGETS: [(&str, &str, Limit); 18] = [
    ("build of gross, 15 times faster than the original", "gross-ours-build", Times(15.0, "gross-original-build")),
    ("build of two-gross, likewise", "two-gross-ours-build", Times(15.0, "two-gross-original-build")),
    ("check of gross, a twentieth of the original's build", "gross-ours-check", Times(20.0, "gross-original-build")),
    ("check of two-gross, likewise", "two-gross-ours-check", Times(20.0, "two-gross-original-build")),
    ("exact lookup, gross", "gross-ours-exact", Below(0.8 * MICROSECOND)),
    ("exact lookup, two-gross", "two-gross-ours-exact", Below(0.8 * MICROSECOND)),
    ("pivot-free lookup, gross", "gross-ours-free", Below(1.35 * MICROSECOND)),
    ("pivot-free lookup, two-gross", "two-gross-ours-free", Below(1.35 * MICROSECOND)),
    ("all natives of gross, and which are kept", "gross-ours-natives", Below(3.0 * MICROSECOND)),
    ("all natives of two-gross, and which are kept", "two-gross-ours-natives", Below(3.0 * MICROSECOND)),
    ("all natives of 1,000 pairs in turn, and which are kept", "many-natives", Below(3.0 * MICROSECOND)),
    ("strings of all natives of gross", "gross-ours-strings", Below(0.6 * MICROSECOND)),
    ("strings of all natives of two-gross", "two-gross-ours-strings", Below(0.6 * MICROSECOND)),
    ("strings of all natives of 1,000 pairs in turn", "many-strings", Below(0.6 * MICROSECOND)),
    ("stack of a build", "stack-build", STACK),
    ("stack of a check", "stack-check", STACK),
    ("stack of an exact lookup", "stack-exact", STACK),
    ("stack of a pivot-free lookup", "stack-free", STACK),
];

pub fn print(said: &Said) {
    println!("| target | below | median | |\n|---|---|---|---|");
    for (what, name, limit) in TARGETS {
        match said.summary(name).zip(limit.among(said)) {
            Some((summary, limit)) => judge(what, &summary, limit),
            None => println!("| {what} | | - | not measured |"),
        }
    }
}

fn judge(what: &str, summary: &Summary, limit: f64) {
    let met = if summary.median < limit {
        "met"
    } else {
        "not met"
    };
    let number = |value| number(value, &summary.unit);
    let (limit, median) = (number(limit), number(summary.median));
    println!("| {what} | {limit} | {median} | {met} |");
}

impl Limit {
    fn among(self, said: &Said) -> Option<f64> {
        match self {
            Below(limit) => Some(limit),
            Times(times, other) => said.summary(other).map(|s| s.median / times),
        }
    }
}
