//! The traits of rand that the original's samplers name. Nothing here draws a number: samplers are
//! not compared.

use std::ops::RangeBounds;

pub trait Rng {
    fn random<T>(&mut self) -> T {
        unimplemented!("samplers are not compared")
    }

    fn random_range<T, R: RangeBounds<T>>(&mut self, _range: R) -> T {
        self.random()
    }
}

pub mod distr {
    use super::Rng;

    pub struct StandardUniform;

    pub trait Distribution<T> {
        fn sample<R: Rng + ?Sized>(&self, rng: &mut R) -> T;
    }
}
