//! Positions of the plane and the f32 formulas on them, each operation rounded once.

use super::fault::Fault;
use super::root::Distance;

#[derive(Clone, Copy, Debug, PartialEq)]
pub struct Vector {
    pub x: f32,
    pub y: f32,
}

impl Vector {
    pub fn minus(self, other: Vector) -> Vector {
        Vector {
            x: self.x - other.x,
            y: self.y - other.y,
        }
    }

    pub fn plus(self, other: Vector) -> Vector {
        Vector {
            x: self.x + other.x,
            y: self.y + other.y,
        }
    }

    pub fn over(self, by: f32) -> Vector {
        Vector {
            x: self.x / by,
            y: self.y / by,
        }
    }

    pub fn dot(self, other: Vector) -> f32 {
        self.x * other.x + self.y * other.y
    }

    pub fn cross(self, other: Vector) -> f32 {
        self.x * other.y - self.y * other.x
    }

    pub fn length(self) -> f32 {
        self.dot(self).sqrt()
    }

    /// The length with its remainder: that of x² + y² as rounded.
    pub fn distance(self, fault: Fault) -> Distance {
        let found = Distance::of(self.dot(self), fault);
        if fault != Fault::EqualOfSum || found.remainder.is_none() {
            return found;
        }
        let [x, y, value] = [self.x, self.y, found.value].map(f64::from);
        Distance {
            remainder: Some(i32::from(x * x + y * y != value * value)),
            ..found
        }
    }
}

/// "A median of n is entry n/2, rounded down, from 0 in rising order."
pub fn median(mut numbers: Vec<f32>, fault: Fault) -> f32 {
    numbers.sort_by(f32::total_cmp);
    match fault {
        Fault::LowerMedian => numbers[(numbers.len() - 1) / 2],
        _ => numbers[numbers.len() / 2],
    }
}

/// "Over 30 degrees" means: cosine c below 0, or 4c² < 3 exactly. The square of an f32 is
/// exact in f64.
pub fn over_30_degrees(c: f32) -> bool {
    let exact = f64::from(c);
    c < 0.0 || 4.0 * exact * exact < 3.0
}
