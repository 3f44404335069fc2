//! Small matrices under nalgebra's names: what the original's measurement.rs uses, and no more.

use std::ops::Mul;

/// A matrix by rows.
#[derive(Debug, Clone, Copy, PartialEq, Eq)]
pub struct SMatrix<T, const R: usize, const C: usize>(pub [[T; C]; R]);

pub type Vector6<T> = SMatrix<T, 6, 1>;

impl<const R: usize, const C: usize> SMatrix<u32, R, C> {
    pub fn zeros() -> Self {
        SMatrix([[0; C]; R])
    }

    /// Ones on the diagonal; of a single column, the first unit vector.
    pub fn identity() -> Self {
        let mut result = Self::zeros();
        for i in 0..R.min(C) {
            result.0[i][i] = 1;
        }
        result
    }

    pub fn map(self, f: impl Fn(u32) -> u32) -> Self {
        SMatrix(self.0.map(|row| row.map(&f)))
    }

    pub fn transpose(self) -> SMatrix<u32, C, R> {
        let mut result = SMatrix::zeros();
        for (i, row) in self.0.iter().enumerate() {
            for (j, value) in row.iter().enumerate() {
                result.0[j][i] = *value;
            }
        }
        result
    }
}

impl<const N: usize> SMatrix<u32, N, N> {
    /// By squaring, as nalgebra does it; the power 0 is the identity.
    pub fn pow(self, mut exponent: u32) -> Self {
        let mut result = Self::identity();
        let mut square = self;
        while exponent > 0 {
            if exponent % 2 == 1 {
                result = result * square;
            }
            exponent /= 2;
            if exponent > 0 {
                square = square * square;
            }
        }
        result
    }
}

impl<const R: usize, const N: usize, const C: usize> Mul<SMatrix<u32, N, C>>
    for SMatrix<u32, R, N>
{
    type Output = SMatrix<u32, R, C>;

    fn mul(self, rhs: SMatrix<u32, N, C>) -> Self::Output {
        let mut result = SMatrix::zeros();
        for i in 0..R {
            for j in 0..C {
                result.0[i][j] = (0..N).map(|k| self.0[i][k] * rhs.0[k][j]).sum();
            }
        }
        result
    }
}

impl<const R: usize> From<SMatrix<u32, R, 1>> for [u32; R] {
    fn from(column: SMatrix<u32, R, 1>) -> Self {
        column.0.map(|[value]| value)
    }
}

/// Four columns of six, one under the other.
pub fn stack_four(columns: [Vector6<u32>; 4]) -> SMatrix<u32, 24, 1> {
    SMatrix(std::array::from_fn(|i| columns[i / 6].0[i % 6]))
}

#[macro_export]
macro_rules! matrix {
    ($($($value:expr),+);+ $(;)?) => {
        $crate::SMatrix([$([$($value),+]),+])
    };
}

#[macro_export]
macro_rules! stack {
    ($a:expr; $b:expr; $c:expr; $d:expr) => {
        $crate::stack_four([$a, $b, $c, $d])
    };
}
