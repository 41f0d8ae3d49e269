//! Stand-in for the parts of nalgebra that the Rust original names, and no others.
//!
//! Written for this harness: nalgebra itself is not at hand. Each f32 operation is
//! rounded once, in the order that document 01 lays down under "Residuals"
//! (elimination, multipliers, columnwise substitution, cofactors, inner sums left to
//! right). Parts that the original names but never reaches from `drop_set` or
//! `validate` (singular values, eigenvectors) have their types only and panic.

mod lu;
mod matrix;
mod real;
mod unreached;
mod vector;

pub use lu::Lu;
pub use matrix::{Matrix3, SMatrix, SVector, Vector3};
pub use real::RealField;
pub use unreached::{Svd, SymmetricEigen};
pub use vector::{Point2, Vector2};
