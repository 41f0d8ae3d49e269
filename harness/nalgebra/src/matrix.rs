//! Matrices of fixed size, held row by row.

use crate::RealField;
use std::ops::{AddAssign, Div, Index, IndexMut, Mul};

/// R rows of C entries.
#[derive(Clone, Copy, Debug, PartialEq)]
pub struct SMatrix<T, const R: usize, const C: usize> {
    pub rows: [[T; C]; R],
}

pub type SVector<T, const N: usize> = SMatrix<T, N, 1>;
pub type Matrix3<T> = SMatrix<T, 3, 3>;
pub type Vector3<T> = SVector<T, 3>;

impl<T: RealField, const R: usize, const C: usize> SMatrix<T, R, C> {
    pub fn zeros() -> Self {
        Self {
            rows: [[T::zero(); C]; R],
        }
    }

    pub fn from_row_slice(entries: &[T]) -> Self {
        let mut out = Self::zeros();
        for r in 0..R {
            for c in 0..C {
                out.rows[r][c] = entries[r * C + c];
            }
        }
        out
    }

    pub fn transpose(&self) -> SMatrix<T, C, R> {
        let mut out = SMatrix::zeros();
        for r in 0..R {
            for c in 0..C {
                out.rows[c][r] = self.rows[r][c];
            }
        }
        out
    }
}

impl<T: RealField, const N: usize> SVector<T, N> {
    pub fn from_column_slice(entries: &[T]) -> Self {
        Self::from_row_slice(entries)
    }
}

impl<T: RealField> Vector3<T> {
    pub fn new(a: T, b: T, c: T) -> Self {
        Self {
            rows: [[a], [b], [c]],
        }
    }
}

impl<T: RealField> Matrix3<T> {
    #[allow(clippy::too_many_arguments)]
    pub fn new(m11: T, m12: T, m13: T, m21: T, m22: T, m23: T, m31: T, m32: T, m33: T) -> Self {
        Self {
            rows: [[m11, m12, m13], [m21, m22, m23], [m31, m32, m33]],
        }
    }

    /// The determinant by the cofactors of the first row.
    pub fn determinant(&self) -> T {
        let [[m11, m12, m13], [m21, m22, m23], [m31, m32, m33]] = self.rows;
        m11 * (m22 * m33 - m32 * m23) - m12 * (m21 * m33 - m31 * m23)
            + m13 * (m21 * m32 - m31 * m22)
    }

    /// The inverse by cofactors, none for a determinant of zero.
    pub fn try_inverse(&self) -> Option<Self> {
        let [[m11, m12, m13], [m21, m22, m23], [m31, m32, m33]] = self.rows;
        let det = self.determinant();
        if det == T::zero() {
            return None;
        }
        Some(Self::new(
            (m22 * m33 - m32 * m23) / det,
            (m13 * m32 - m33 * m12) / det,
            (m12 * m23 - m22 * m13) / det,
            -(m21 * m33 - m31 * m23) / det,
            (m11 * m33 - m31 * m13) / det,
            (m13 * m21 - m23 * m11) / det,
            (m21 * m32 - m31 * m22) / det,
            (m12 * m31 - m32 * m11) / det,
            (m11 * m22 - m21 * m12) / det,
        ))
    }
}

impl<T, const R: usize, const C: usize> Index<(usize, usize)> for SMatrix<T, R, C> {
    type Output = T;
    fn index(&self, (r, c): (usize, usize)) -> &T {
        &self.rows[r][c]
    }
}

impl<T, const R: usize, const C: usize> IndexMut<(usize, usize)> for SMatrix<T, R, C> {
    fn index_mut(&mut self, (r, c): (usize, usize)) -> &mut T {
        &mut self.rows[r][c]
    }
}

impl<T, const N: usize> Index<usize> for SVector<T, N> {
    type Output = T;
    fn index(&self, k: usize) -> &T {
        &self.rows[k][0]
    }
}

impl<T, const N: usize> IndexMut<usize> for SVector<T, N> {
    fn index_mut(&mut self, k: usize) -> &mut T {
        &mut self.rows[k][0]
    }
}

/// Each entry is a sum of products from left to right.
impl<T: RealField, const R: usize, const K: usize, const C: usize> Mul<SMatrix<T, K, C>>
    for SMatrix<T, R, K>
{
    type Output = SMatrix<T, R, C>;
    fn mul(self, other: SMatrix<T, K, C>) -> SMatrix<T, R, C> {
        let mut out = SMatrix::zeros();
        for r in 0..R {
            for c in 0..C {
                let mut sum = self.rows[r][0] * other.rows[0][c];
                for k in 1..K {
                    sum += self.rows[r][k] * other.rows[k][c];
                }
                out.rows[r][c] = sum;
            }
        }
        out
    }
}

impl<T: RealField, const R: usize, const C: usize> Div<T> for SMatrix<T, R, C> {
    type Output = Self;
    fn div(mut self, by: T) -> Self {
        for row in &mut self.rows {
            for entry in row {
                *entry /= by;
            }
        }
        self
    }
}

impl<T: RealField, const R: usize, const C: usize> AddAssign for SMatrix<T, R, C> {
    fn add_assign(&mut self, other: Self) {
        for (row, add) in self.rows.iter_mut().zip(other.rows) {
            for (entry, more) in row.iter_mut().zip(add) {
                *entry += more;
            }
        }
    }
}
