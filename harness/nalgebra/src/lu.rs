//! Elimination with row exchanges, and the solution of a square system.

use crate::{RealField, SMatrix, SVector};

/// A matrix after elimination: the upper triangle, below it the multipliers, and the
/// row exchanges in the order in which they were made.
pub struct Lu<T, const N: usize> {
    factors: SMatrix<T, N, N>,
    exchanges: Vec<(usize, usize)>,
}

impl<T: RealField, const N: usize> SMatrix<T, N, N> {
    /// Pivot of largest magnitude, first of equals; an all-zero column is passed over;
    /// multiplier = entry times 1/pivot.
    pub fn lu(self) -> Lu<T, N> {
        let mut m = self.rows;
        let mut exchanges = Vec::new();
        for i in 0..N {
            let mut pivot = i;
            for r in i + 1..N {
                if m[r][i].abs() > m[pivot][i].abs() {
                    pivot = r;
                }
            }
            if m[pivot][i] == T::zero() {
                continue;
            }
            if pivot != i {
                m.swap(pivot, i);
                exchanges.push((pivot, i));
            }
            let inverse = T::one() / m[i][i];
            let (upper, lower) = m.split_at_mut(i + 1);
            let pivot_row = &upper[i];
            for row in lower {
                row[i] *= inverse;
                for c in i + 1..N {
                    row[c] -= pivot_row[c] * row[i];
                }
            }
        }
        Lu {
            factors: SMatrix { rows: m },
            exchanges,
        }
    }
}

impl<T: RealField, const N: usize> Lu<T, N> {
    /// Columnwise substitution, downwards and then upwards; none for a zero diagonal.
    pub fn solve(&self, right: &SVector<T, N>) -> Option<SVector<T, N>> {
        let m = &self.factors.rows;
        let mut b = *right;
        for &(r, s) in &self.exchanges {
            b.rows.swap(r, s);
        }
        for i in 0..N {
            for r in i + 1..N {
                b[r] = b[r] - b[i] * m[r][i];
            }
        }
        for i in (0..N).rev() {
            if m[i][i] == T::zero() {
                return None;
            }
            b[i] = b[i] / m[i][i];
            for r in 0..i {
                b[r] = b[r] - b[i] * m[r][i];
            }
        }
        Some(b)
    }
}
