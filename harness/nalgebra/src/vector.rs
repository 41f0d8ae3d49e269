//! Points and vectors of the plane.

use crate::RealField;
use std::ops::{AddAssign, Div, Sub};

/// A position in the plane.
#[derive(Clone, Copy, Debug, PartialEq)]
pub struct Point2<T> {
    pub x: T,
    pub y: T,
}

impl<T> Point2<T> {
    pub const fn new(x: T, y: T) -> Self {
        Self { x, y }
    }
}

impl<T: RealField> Sub for Point2<T> {
    type Output = Vector2<T>;
    fn sub(self, other: Self) -> Vector2<T> {
        Vector2::new(self.x - other.x, self.y - other.y)
    }
}

/// A difference of two positions.
#[derive(Clone, Copy, Debug, PartialEq)]
pub struct Vector2<T> {
    pub x: T,
    pub y: T,
}

impl<T> Vector2<T> {
    pub const fn new(x: T, y: T) -> Self {
        Self { x, y }
    }
}

impl<T: RealField> Vector2<T> {
    pub fn zeros() -> Self {
        Self::new(T::zero(), T::zero())
    }
    pub fn dot(&self, other: &Self) -> T {
        self.x * other.x + self.y * other.y
    }
    pub fn norm_squared(&self) -> T {
        self.dot(self)
    }
    pub fn norm(&self) -> T {
        self.norm_squared().sqrt()
    }
    /// Each part divided by the norm.
    pub fn normalize(&self) -> Self {
        *self / self.norm()
    }
}

impl<T: RealField> Div<T> for Vector2<T> {
    type Output = Self;
    fn div(self, by: T) -> Self {
        Self::new(self.x / by, self.y / by)
    }
}

impl<T: RealField> AddAssign for Vector2<T> {
    fn add_assign(&mut self, other: Self) {
        self.x += other.x;
        self.y += other.y;
    }
}
