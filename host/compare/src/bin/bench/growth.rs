//! How build and check grow with the number of entries, beside what the memory alone takes.

use bicycle::{Pair, TABLE_LENGTH, ffi};
use compare::pairs::{IDENTITY, beside_diagonal, chained};

use crate::clock::{say, timed};
use crate::memory;

/// Pairs whose tables have ever more entries: 16, 256, .. 4^12, and between the last two one whose
/// strings are no subgroup.
pub const NAMES: [&str; 7] = ["1", "2", "3", "4", "5", "both", "6"];

fn pair(name: &str) -> Pair {
    match name.parse() {
        Ok(k) => chained(k),
        Err(_) => Pair {
            mx: beside_diagonal(6, true, true),
            my: IDENTITY,
        },
    }
}

/// Everything in buffers that were written before, so that no page is new to the process.
pub fn child(rounds: usize) {
    let (mut table, mut queue) = (vec![1; TABLE_LENGTH], vec![1; TABLE_LENGTH]);
    for _ in 0..rounds {
        memory::clear(&mut table, &mut queue);
        memory::read(&table);
        memory::read_anywhere(&table);
        for name in NAMES {
            grow(name, &mut table, &mut queue);
        }
    }
}

fn grow(name: &str, table: &mut [u8], queue: &mut [u8]) {
    let Pair { mx, my } = pair(name);
    let built = timed(&format!("build-{name}"), || {
        ffi::build(table, queue, &mx, &my)
    });
    let checked = timed(&format!("check-{name}"), || ffi::check(table, &mx, &my));
    assert_eq!(checked.accepted, 1);
    say(&format!("entries-{name}"), built.entries.into(), "");
    say(&format!("depth-{name}"), built.depth.into(), "");
}
