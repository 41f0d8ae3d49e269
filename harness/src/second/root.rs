//! The root with its remainder, from document 02, A.8, over whole numbers: by hand, a binary digit of the root for
//! each two of the number.

use super::fault::Fault;

/// "the whole number S nearest that root and the exact signed remainder R − S², where R is the scaled number"
#[derive(Clone, Copy, Debug, PartialEq, Eq)]
pub struct WholeRoot {
    /// S.
    pub root: i32,
    /// R is the number times two to this power.
    pub power: i32,
    pub remainder: i32,
}

/// "Zero of either sign has S = 0 and remainder 0."
const OF_ZERO: WholeRoot = WholeRoot {
    root: 0,
    power: 0,
    remainder: 0,
};

/// A positive number's own digits: a whole number, and the power of two that it is to be multiplied by.
fn digits(x: f32, fault: Fault) -> (u64, i32) {
    let bits = x.to_bits() & 0x7FFF_FFFF;
    let low = u64::from(bits & 0x007F_FFFF);
    match bits >> 23 {
        0 if fault == Fault::RootSubnormal => (low | 1 << 23, -150),
        0 => (low, -149),
        exponent => (low | 1 << 23, exponent as i32 - 150),
    }
}

/// "scaled by an even power of two so that its root lies from 2^23 up to below 2^24": the whole number, from 2^46 up
/// to below 2^48, and the power.
fn scaled(x: f32, fault: Fault) -> (u64, i32) {
    let (mut number, exponent) = digits(x, fault);
    let mut power = -exponent;
    if fault == Fault::RootUnscaled {
        return (number, power);
    }
    if power % 2 != 0 && fault != Fault::RootOddPower {
        number *= 2;
        power += 1;
    }
    while number < 1 << 46 {
        number *= 4;
        power += 2;
    }
    (number, power)
}

/// The largest s with s · s at most a number below 2^48, and what is left of the number.
fn by_hand(number: u64) -> (u64, u64) {
    let (mut root, mut rest) = (0, 0);
    for place in (0..24).rev() {
        rest = rest << 2 | number >> (2 * place) & 3;
        let taken = root << 2 | 1;
        root <<= 1;
        if taken <= rest {
            rest -= taken;
            root |= 1;
        }
    }
    (root, rest)
}

/// The whole number nearest a root, and the number less its square: no whole number's root is s + 1/2.
fn nearest(number: u64, fault: Fault) -> (i32, i32) {
    let (root, rest) = by_hand(number);
    let (root, rest) = (root as i32, rest as i32);
    let up = match fault {
        Fault::RootRoundedDown => false,
        Fault::RootRoundedUp => rest > 0,
        _ => rest > root,
    };
    if up {
        (root + 1, rest - (2 * root + 1))
    } else {
        (root, rest)
    }
}

/// Of a positive finite number; under a fault of others too.
fn found(x: f32, fault: Fault) -> WholeRoot {
    let (number, power) = scaled(x, fault);
    let (root, remainder) = nearest(number, fault);
    let power = match fault {
        Fault::RootPowerTurned => -power,
        Fault::RootPowerHalved => power / 2,
        _ => power,
    };
    let remainder = match fault {
        Fault::RemainderTurned => -remainder,
        Fault::RemainderUnsigned => remainder.abs(),
        _ => remainder,
    };
    WholeRoot {
        root,
        power,
        remainder,
    }
}

/// "For negatives, infinity and NaN there is neither, and this is said."
pub fn whole_root(x: f32, fault: Fault) -> Option<WholeRoot> {
    let neither = match fault {
        Fault::ZeroNeither => x == 0.0,
        Fault::MinusZeroNeither => x.to_bits() == 0x8000_0000,
        _ => false,
    };
    let also = match fault {
        Fault::NegativeFound => x < 0.0 && x.is_finite(),
        Fault::InfinityFound => x == f32::INFINITY,
        Fault::NanFound => x.is_nan(),
        _ => false,
    };
    if neither {
        None
    } else if x == 0.0 {
        Some(OF_ZERO)
    } else if x > 0.0 && x.is_finite() || also {
        Some(found(x, fault))
    } else {
        None
    }
}

impl WholeRoot {
    /// In the order in which a call hands them back.
    pub fn numbers(&self) -> [i32; 3] {
        [self.root, self.power, self.remainder]
    }

    /// S at half of the power: "The root is the nearest f32, ties to even, specified over whole numbers".
    pub fn value(&self) -> f32 {
        if *self == OF_ZERO {
            return 0.0;
        }
        // The hidden bit of S goes into the exponent.
        let exponent = (149 - self.power / 2) as u32;
        f32::from_bits((exponent << 23) + self.root as u32)
    }

    /// Whether this is the root of a positive finite number with its remainder, in 128-bit whole numbers: S is nearest
    /// where (2 S − 1)² < 4 R < (2 S + 1)².
    pub fn is_of(&self, x: f32) -> bool {
        let (number, exponent) = digits(x, Fault::None);
        let shift = self.power + exponent;
        if self.power % 2 != 0 || !(0..64).contains(&shift) {
            return false;
        }
        let (scaled, root) = (i128::from(number) << shift, i128::from(self.root));
        let square = |n: i128| n * n;
        (1 << 46..1 << 48).contains(&scaled)
            && square(2 * root - 1) < 4 * scaled
            && 4 * scaled < square(2 * root + 1)
            && scaled - square(root) == i128::from(self.remainder)
    }
}

/// The root as f32: "sqrt(−0) is −0, a negative gives NaN, +infinity itself".
pub fn root(x: f32, fault: Fault) -> f32 {
    if x == 0.0 || x == f32::INFINITY {
        return x;
    }
    let nan = f32::from_bits(0x7FC0_0000);
    whole_root(x, fault).map_or(nan, |found| found.value())
}

/// "Every distance carries this along": a length, the number whose root it is, and that root's remainder, if there is
/// one.
#[derive(Clone, Copy, Debug, PartialEq)]
pub struct Distance {
    pub square: f32,
    pub value: f32,
    pub remainder: Option<i32>,
}

impl Distance {
    /// The root of a sum of two squares that was rounded to f32.
    pub fn of(square: f32, fault: Fault) -> Distance {
        let of_root = match fault {
            // The digits go on as they are.
            Fault::RootUnscaled => Fault::None,
            _ => fault,
        };
        Distance {
            square,
            value: root(square, of_root),
            remainder: whole_root(square, fault).map(|found| found.remainder),
        }
    }

    /// "whose remainder is 0"
    pub fn is_exact(&self, fault: Fault) -> bool {
        let Distance { square, value, .. } = *self;
        let exact = self.remainder == Some(0);
        match fault {
            Fault::EqualOfInfinite => exact || value == f32::INFINITY,
            Fault::EqualOfNan => exact || value.is_nan(),
            Fault::EqualNotOfZero => exact && value != 0.0,
            Fault::EqualByProduct => value.is_finite() && value * value == square,
            Fault::EqualByValue => value.is_finite() && in_24_digits(value),
            Fault::EqualOfAll => value.is_finite(),
            Fault::EqualOfNone => false,
            _ => exact,
        }
    }
}

/// Whether the square of a number is an f32.
fn in_24_digits(value: f32) -> bool {
    let square = f64::from(value) * f64::from(value);
    f64::from(square as f32) == square
}
