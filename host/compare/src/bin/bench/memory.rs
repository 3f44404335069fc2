//! What the memory alone takes: a build has to clear both lent buffers, and a check to read one.

use std::hint::black_box;

use compare::model::STRINGS;
use compare::rng::Rng;

use crate::clock::{timed, timed_by_the_call};

const RANDOM_READS: usize = 4_000_000;

/// Both buffers are filled with zeros.
pub fn clear(table: &mut [u8], queue: &mut [u8]) {
    timed("build-floor", || {
        black_box(&mut *table).fill(0);
        black_box(&mut *queue).fill(0);
    });
}

/// One buffer is read from front to end.
pub fn read(table: &[u8]) {
    let (words, _) = table.as_chunks();
    timed("check-floor", || {
        let words = black_box(words)
            .iter()
            .map(|&word| u64::from_le_bytes(word));
        black_box(words.fold(0, u64::wrapping_add))
    });
}

/// Entries are read anywhere in it, none waiting for another's value. Where is drawn beforehand:
/// a processor sees the fewer reads ahead the more there is to do between them.
pub fn read_anywhere(table: &[u8]) {
    let (entries, _) = table.as_chunks();
    let mut rng = Rng::new(64);
    let string = |_| rng.below(u64::from(STRINGS)) as usize;
    let strings: Vec<usize> = (0..RANDOM_READS).map(string).collect();
    timed_by_the_call("read-anywhere", RANDOM_READS, || {
        let entries = strings.iter().map(|&p| u32::from_le_bytes(entries[p]));
        black_box(entries.fold(0, u32::wrapping_add))
    });
}
