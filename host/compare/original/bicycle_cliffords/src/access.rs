// Included behind the text of decomposition.rs, the original's or the sorted copy's: a child module
// sees what its parent keeps private, and tells it in plain numbers.

pub mod access {
    use super::*;
    use crate::plain::{self, Entry, Native, Plan};

    fn told(native: &NativeMeasurementImpl) -> Native {
        let number = plain::number(&native.native);
        Native {
            number,
            string: native.measures.0,
        }
    }

    impl From<&MeasurementTableEntry> for Entry {
        fn from(entry: &MeasurementTableEntry) -> Self {
            Entry {
                measurement: entry.measurement.0,
                conjugated_with: entry.conjugated_with.map(|p| p.0),
                cost: entry.cost(),
                implements: entry.implements().0,
            }
        }
    }

    impl From<MeasurementImpl> for Plan {
        fn from(plan: MeasurementImpl) -> Self {
            Plan {
                measures: plan.measures().0,
                base: told(plan.base_measurement()),
                rotations: plan.rotations().iter().map(told).collect(),
            }
        }
    }

    impl plain::Builder for MeasurementTableBuilder {
        type Table = CompleteMeasurementTable;

        fn start(code: CodeMeasurement) -> Self {
            MeasurementTableBuilder::new(NativeMeasurement::all(), code)
        }

        fn build(&mut self) {
            self.build();
        }

        fn len(&self) -> usize {
            self.len()
        }

        fn is_empty(&self) -> bool {
            self.is_empty()
        }

        fn entry(&self, p: u32) -> Option<Entry> {
            self.get(PauliString(p)).map(Entry::from)
        }

        fn kept(&self) -> Vec<Native> {
            let natives = self.native_measurements.iter();
            natives
                .map(|(p, native)| told(&NativeMeasurementImpl::new(*native, *p)))
                .collect()
        }

        fn complete(self) -> Result<Self::Table, String> {
            self.complete()
        }
    }

    impl plain::Table for CompleteMeasurementTable {
        fn implementation(&self, p: u32) -> Plan {
            self.implementation(PauliString(p)).into()
        }

        fn min_data(&self, p: u32) -> Plan {
            self.min_data(PauliString(p)).into()
        }

        fn cost(&self, p: u32) -> u32 {
            self.get(PauliString(p)).unwrap().cost()
        }
    }

    /// What a measurement measures behind one rotation, by the original's `implements`.
    pub fn behind(measurement: PauliString, rotation: PauliString) -> PauliString {
        let entry = MeasurementTableEntry {
            measurement,
            conjugated_with: Some(rotation),
            cost: 3,
        };
        entry.implements()
    }
}
