//! Named by the original, never reached from `drop_set` or `validate`: types only.

use crate::{RealField, SMatrix, SVector};

pub struct Svd<T, const N: usize> {
    pub singular_values: SVector<T, N>,
}

pub struct SymmetricEigen<T, const N: usize> {
    pub eigenvalues: SVector<T, N>,
    pub eigenvectors: SMatrix<T, N, N>,
}

impl<T: RealField, const N: usize> SMatrix<T, N, N> {
    pub fn svd(&self, _left: bool, _right: bool) -> Svd<T, N> {
        unimplemented!("singular values are no part of the filters")
    }
    pub fn symmetric_eigen(&self) -> SymmetricEigen<T, N> {
        unimplemented!("eigenvectors are no part of the filters")
    }
    pub fn column(&self, _k: usize) -> SVector<T, N> {
        unimplemented!("eigenvectors are no part of the filters")
    }
}
