//! The numeric bound of the original's generic functions.

use std::fmt::Debug;
use std::ops::{Add, AddAssign, Div, DivAssign, Mul, MulAssign, Neg, Sub, SubAssign};

/// What the original asks of its number type. f32 is the one instance that it uses.
pub trait RealField:
    Copy
    + Debug
    + PartialEq
    + PartialOrd
    + Neg<Output = Self>
    + Add<Output = Self>
    + Sub<Output = Self>
    + Mul<Output = Self>
    + Div<Output = Self>
    + AddAssign
    + SubAssign
    + MulAssign
    + DivAssign
{
    fn zero() -> Self;
    fn one() -> Self;
    fn sqrt(self) -> Self;
    fn abs(self) -> Self;
    fn max_value() -> Option<Self>;
    fn default_epsilon() -> Self;
    /// The number nearest to one of f64.
    fn from_subset(number: &f64) -> Self;
}

impl RealField for f32 {
    fn zero() -> f32 {
        0.0
    }
    fn one() -> f32 {
        1.0
    }
    fn sqrt(self) -> f32 {
        f32::sqrt(self)
    }
    fn abs(self) -> f32 {
        f32::abs(self)
    }
    fn max_value() -> Option<f32> {
        Some(f32::MAX)
    }
    fn default_epsilon() -> f32 {
        f32::EPSILON
    }
    fn from_subset(number: &f64) -> f32 {
        *number as f32
    }
}
