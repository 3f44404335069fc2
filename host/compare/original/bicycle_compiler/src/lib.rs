//! The part of the original's crate of this name that was ported: compile.rs and what it imports,
//! unchanged. Angles are not synthesized, so `language` and `small_angle` are stand-ins.

pub mod architecture {
    include!(concat!(env!("ORIGINAL"), "/architecture.rs"));
}

pub mod basis_changer {
    include!(concat!(env!("ORIGINAL"), "/basis_changer.rs"));
}

pub mod compile {
    include!(concat!(env!("ORIGINAL"), "/compile.rs"));

    /// A child module sees what its parent keeps private.
    pub mod access {
        use super::{BicycleISA, NativeMeasurementImpl};

        pub fn rotation_instructions(native: &NativeMeasurementImpl) -> [BicycleISA; 5] {
            super::rotation_instructions(native)
        }
    }
}

pub mod language {
    pub struct AnglePrecision;
}

pub mod operation {
    include!(concat!(env!("ORIGINAL"), "/operation.rs"));
}

pub mod small_angle {
    use crate::language::AnglePrecision;

    pub enum SingleRotation {
        Z { dagger: bool },
        X { dagger: bool },
    }

    pub fn synthesize_angle_x(
        _theta: AnglePrecision,
        _accuracy: AnglePrecision,
    ) -> (Vec<SingleRotation>, Vec<()>) {
        unimplemented!("angles are not synthesized")
    }
}
