//! Table and queue, lent to the library and built.

use bicycle::Pair;
use bicycle::ffi::{self, BuildResult};

use crate::model::{TABLE_LENGTH, entry};

pub struct Lent {
    pub table: Vec<u8>,
    pub queue: Vec<u8>,
    pub told: BuildResult,
}

impl Lent {
    /// In buffers that held other bytes before.
    pub fn built(pair: &Pair) -> Lent {
        let (mut table, mut queue) = (vec![0xa5; TABLE_LENGTH], vec![0x5a; TABLE_LENGTH]);
        let told = ffi::build(&mut table, &mut queue, &pair.mx, &pair.my);
        Lent { table, queue, told }
    }

    /// The nonzero strings with an entry, in order of discovery.
    pub fn found(&self) -> Vec<u32> {
        (1..self.told.entries)
            .map(|i| entry(&self.queue, i - 1))
            .collect()
    }
}
