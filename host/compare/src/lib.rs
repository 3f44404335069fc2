//! Holds the library against the original, and against document 01 written out once more.

pub mod flat;
pub mod held;
pub mod lent;
pub mod model;
#[cfg(feature = "original")]
pub mod original;
pub mod pairs;
pub mod paper;
pub mod report;
pub mod rng;
pub mod topics;
