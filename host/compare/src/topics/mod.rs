//! What is compared, a file for each topic.

use crate::report::{Difference, Tally};

#[cfg(feature = "original")]
mod codes;
#[cfg(feature = "original")]
mod commuting;
mod damaged;
#[cfg(feature = "original")]
mod incomplete;
#[cfg(feature = "original")]
mod letters;
mod listings;
#[cfg(feature = "original")]
mod natives;
mod refusals;
#[cfg(feature = "original")]
pub mod stored;
#[cfg(feature = "original")]
mod tables;

/// How much is compared.
#[derive(Debug, Clone, Copy, PartialEq, Eq)]
pub enum Extent {
    Quick,
    Whole,
}

impl Extent {
    pub fn of<T>(self, quick: T, whole: T) -> T {
        match self {
            Extent::Quick => quick,
            Extent::Whole => whole,
        }
    }
}

/// What a topic went through, for its line.
pub type Summary = String;

pub struct Topic {
    pub name: &'static str,
    /// Whether the quick part has it.
    pub quick: bool,
    pub run: fn(Extent, &mut Tally) -> Result<Summary, Difference>,
}

const fn topic(
    name: &'static str,
    run: fn(Extent, &mut Tally) -> Result<Summary, Difference>,
) -> Topic {
    Topic {
        name,
        quick: true,
        run,
    }
}

/// In the order in which they are run. Those in front need no original.
pub const TOPICS: &[Topic] = &[
    topic("refusals", refusals::run),
    topic("listings", listings::run),
    topic("damaged", damaged::run),
    #[cfg(feature = "original")]
    topic("stored", stored::run),
    #[cfg(feature = "original")]
    topic("letters", letters::run),
    #[cfg(feature = "original")]
    topic("commuting", commuting::run),
    #[cfg(feature = "original")]
    topic("natives", natives::run),
    #[cfg(feature = "original")]
    topic("incomplete", incomplete::run),
    #[cfg(feature = "original")]
    topic("gross", codes::gross),
    #[cfg(feature = "original")]
    Topic {
        name: "two-gross",
        quick: false,
        run: codes::two_gross,
    },
];
