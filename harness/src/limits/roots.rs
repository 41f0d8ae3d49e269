//! What sheets can meet of residuals and their remainders.

use super::{Limit, Limits};
use crate::second::Distance;
use std::collections::HashSet;

/// The residuals of an accepted sheet, and whether some index repeats.
pub struct Seen {
    residuals: Vec<Distance>,
    repeated: bool,
}

impl Seen {
    /// Of a sheet with residuals.
    pub fn new(residuals: &[Option<Distance>], indices: &[u32]) -> Option<Seen> {
        let residuals: Vec<Distance> = residuals.iter().flatten().copied().collect();
        let different: HashSet<&u32> = indices.iter().collect();
        (!residuals.is_empty()).then_some(Seen {
            residuals,
            repeated: different.len() < indices.len(),
        })
    }

    fn any(&self, holds: impl Fn(&Distance) -> bool) -> bool {
        self.residuals.iter().any(holds)
    }
    /// A residual above 0 with such a remainder.
    fn remainder(&self, holds: impl Fn(i32) -> bool) -> bool {
        self.any(|d| d.value > 0.0 && d.remainder.is_some_and(&holds))
    }
    /// A residual whose square is another number than that of which it is the root.
    fn root_of_another(&self, holds: impl Fn(f32, f32) -> bool) -> bool {
        self.any(|d| d.remainder.is_some_and(|r| r != 0) && holds(d.value, d.square))
    }
}

/// Whether the square of a number is an f32.
fn has_square(value: f32) -> bool {
    let square = f64::from(value) * f64::from(value);
    f64::from(square as f32) == square
}

impl Limits for Seen {
    const LIMITS: &'static [Limit<Seen>] = &[
        ("a residual of 0", |s| s.any(|d| d.square == 0.0)),
        ("an exact residual above 0", |s| s.remainder(|r| r == 0)),
        ("a residual below its root", |s| s.remainder(|r| r > 0)),
        ("a residual above its root", |s| s.remainder(|r| r < 0)),
        (
            "a residual r where r r is the number once it is rounded",
            |s| s.root_of_another(|r, square| r * r == square),
        ),
        ("a residual of 12 digits that is not exact", |s| {
            s.root_of_another(|r, _| has_square(r))
        }),
        ("an exact residual with an index that repeats", |s| {
            s.repeated && s.remainder(|r| r == 0)
        }),
        ("a subnormal sum of squares, exact", |s| {
            s.any(|d| d.square.is_subnormal() && d.remainder == Some(0))
        }),
        ("a subnormal sum of squares, not exact", |s| {
            s.root_of_another(|_, square| square.is_subnormal())
        }),
        ("the least sum of squares above 0", |s| {
            s.any(|d| d.square.to_bits() == 1)
        }),
        ("an infinite residual", |s| {
            s.any(|d| d.value == f32::INFINITY)
        }),
        ("an infinite residual beside an exact one", |s| {
            s.any(|d| d.value == f32::INFINITY) && s.any(|d| d.remainder == Some(0))
        }),
        ("a residual that is NaN", |s| s.any(|d| d.value.is_nan())),
    ];
}
