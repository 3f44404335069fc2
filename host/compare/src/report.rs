//! Counts comparisons, keeps the first difference in full, and shares work between the cores.

use std::fmt::{self, Debug};
use std::ops::Range;
use std::thread;

/// The first thing that differed in a topic.
#[derive(Debug)]
pub struct Difference {
    pub what: String,
    pub ours: String,
    pub theirs: String,
}

impl fmt::Display for Difference {
    fn fmt(&self, f: &mut fmt::Formatter<'_>) -> fmt::Result {
        writeln!(f, "{}", self.what)?;
        writeln!(f, "  ours:   {}", self.ours)?;
        write!(f, "  theirs: {}", self.theirs)
    }
}

/// How many comparisons were made without a difference.
#[derive(Debug, Default)]
pub struct Tally {
    pub compared: u64,
}

pub type Outcome = Result<(), Difference>;

impl Tally {
    /// Compares one answer of ours with theirs; `what` says of which input.
    pub fn same<T: PartialEq + Debug>(
        &mut self,
        ours: T,
        theirs: T,
        what: impl FnOnce() -> String,
    ) -> Outcome {
        self.compared += 1;
        if ours == theirs {
            return Ok(());
        }
        let (ours, theirs) = (format!("{ours:?}"), format!("{theirs:?}"));
        Err(Difference {
            what: what(),
            ours,
            theirs,
        })
    }

    /// Compares two buffers by their values of four bytes each.
    pub fn same_values(&mut self, ours: &[u8], theirs: &[u8], what: &str) -> Outcome {
        self.same(ours.len(), theirs.len(), || format!("{what}: length"))?;
        let differs = |(our, their): (&[u8], &[u8])| our != their;
        let Some(index) = ours.chunks(4).zip(theirs.chunks(4)).position(differs) else {
            self.compared += ours.len() as u64 / 4;
            return Ok(());
        };
        let four = 4 * index..ours.len().min(4 * index + 4);
        let what = || format!("{what}: the four bytes at index {index}");
        self.same(&ours[four.clone()], &theirs[four], what)
    }

    /// Runs a comparison over the parts of a range at once, one part for each core. The lowest
    /// part's difference is told.
    pub fn share<F>(&mut self, range: Range<u32>, compare: F) -> Outcome
    where
        F: Fn(Range<u32>, &mut Tally) -> Outcome + Sync,
    {
        let parts = cores() as u64;
        let length = (range.end - range.start) as u64;
        let edge = |i: u64| range.start + (length * i / parts) as u32;
        thread::scope(|scope| {
            let part = |i| {
                let compare = &compare;
                scope.spawn(move || {
                    let mut tally = Tally::default();
                    compare(edge(i)..edge(i + 1), &mut tally).map(|()| tally.compared)
                })
            };
            let running: Vec<_> = (0..parts).map(part).collect();
            for part in running {
                self.compared += part.join().expect("no comparison panics")?;
            }
            Ok(())
        })
    }
}

/// Four at most: a part may need a gigabyte.
fn cores() -> usize {
    thread::available_parallelism()
        .map_or(1, usize::from)
        .min(4)
}

/// Does two things at once.
pub fn both<A: Send, B: Send>(
    a: impl FnOnce() -> A + Send,
    b: impl FnOnce() -> B + Send,
) -> (A, B) {
    thread::scope(|scope| {
        let other = scope.spawn(b);
        (a(), other.join().expect("no comparison panics"))
    })
}
