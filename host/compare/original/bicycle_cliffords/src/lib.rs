//! The part of the original's crate of this name that was ported: its files, unchanged.

pub mod decomposition {
    include!(concat!(env!("ORIGINAL"), "/decomposition.rs"));
    include!("access.rs");
}

pub mod measurement {
    include!(concat!(env!("ORIGINAL"), "/measurement.rs"));
}

pub mod native_measurement {
    include!(concat!(env!("ORIGINAL"), "/native_measurement.rs"));
}

pub mod pauli_string {
    include!(concat!(env!("ORIGINAL"), "/pauli_string.rs"));
}

pub mod plain;

pub use decomposition::CompleteMeasurementTable;
pub use pauli_string::PauliString;
