//! The orders in which the sorted copy walks the original's maps.

use std::collections::{HashMap, HashSet};

use crate::measurement::CodeMeasurement;
use crate::native_measurement::NativeMeasurement;
use crate::pauli_string::PauliString;
use crate::plain;

type Natives = HashMap<PauliString, NativeMeasurement>;

/// The strings of a map of natives, in the order in which they first appear among all natives.
pub fn by_first_appearance<'a>(
    natives: &'a Natives,
    code: &CodeMeasurement,
) -> impl Iterator<Item = &'a PauliString> {
    let mut seen = HashSet::new();
    let all = NativeMeasurement::all();
    let strings: Vec<_> = all.iter().map(|native| code.measures(native)).collect();
    let first = strings.into_iter().filter(move |p| seen.insert(*p));
    first.map(|p| {
        natives
            .get_key_value(&p)
            .expect("every native's string is in the map")
            .0
    })
}

/// Something that stands under a native's string.
pub trait Keyed {
    fn string(&self) -> PauliString;
}

impl Keyed for &PauliString {
    fn string(&self) -> PauliString {
        **self
    }
}

impl<T> Keyed for (PauliString, T) {
    fn string(&self) -> PauliString {
        self.0
    }
}

/// What a walk of a map gives, by ascending number of the native that is kept for each string.
pub fn by_kept_number<T: Keyed>(walk: impl IntoIterator<Item = T>, kept: &Natives) -> Vec<T> {
    let mut items: Vec<T> = walk.into_iter().collect();
    items.sort_by_key(|item| plain::number(&kept[&item.string()]));
    items
}
