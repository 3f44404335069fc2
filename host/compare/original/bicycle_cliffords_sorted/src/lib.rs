//! The original's decomposition.rs with its map walks in order, so that its answers are decided;
//! the rest is the original's own crate.

mod order;

pub mod decomposition {
    include!(concat!(env!("OUT_DIR"), "/decomposition.rs"));
    include!("../../bicycle_cliffords/src/access.rs");

    impl MeasurementTableBuilder {
        /// All strings with an entry, in order of discovery.
        pub fn discovered(&self) -> &[u32] {
            &self.discovered
        }
    }
}

pub use bicycle_cliffords::{measurement, native_measurement, pauli_string, plain};
