//! Bit patterns of f32 and what `float_vectors` must write of each: the pattern, its root, whether a cosine
//! with that pattern is over 30 degrees, and S, power and remainder of its root or that it has neither.
//!
//! The root is the machine's, and 4c², the scaled number and S² are exact in f64: nothing is shared with
//! crate `float` or the second program.

use super::{next, Vectors};
use std::collections::HashSet;
use std::fmt::Write;

/// Zeros, infinities, NaNs of both signs, the least and the largest of each kind, and ones.
const SPECIAL: [u32; 21] = [
    0,
    0x8000_0000,
    0x7F80_0000,
    0xFF80_0000,
    0x7FC0_0000,
    0xFFC0_0000,
    0x7F80_0001,
    0xFF80_0001,
    0x7FFF_FFFF,
    0xFFFF_FFFF,
    1,
    0x8000_0001,
    0x007F_FFFF,
    0x807F_FFFF,
    0x0080_0000,
    0x8080_0000,
    0x7F7F_FFFF,
    0xFF7F_FFFF,
    0x3F80_0000,
    0xBF80_0000,
    0x4000_0000,
];

/// 14,529,495 / 2^24, the largest f32 that is over 30 degrees.
const LIMIT: u32 = 0x3F5D_B3D7;

/// The nearest f32 to a number and its two neighbours.
fn around(number: f64) -> [u32; 3] {
    let bits = (number as f32).to_bits();
    [bits - 1, bits, bits + 1]
}

/// Both ends of each binade, and what lies about each power of two among the subnormals.
fn ends() -> Vec<u32> {
    let binades = (1..255).flat_map(|exponent| [exponent << 23, (exponent << 23) + 0x7F_FFFF]);
    let powers = (1..23).flat_map(|place| [(1 << place) - 1, 1 << place, (1 << place) + 1]);
    binades.chain(powers).collect()
}

/// Subnormals, squares, what lies beside squares, and any patterns, most of them above 0.
fn drawn(state: &mut u64) -> Vec<u32> {
    let mut list = Vec::new();
    for _ in 0..200 {
        list.push(1 + next(state) as u32 % 0x7F_FFFF);
    }
    // Squares of whole numbers that f32 holds, and of their multiples by powers of two.
    for _ in 0..200 {
        let root = (1 + next(state) % 4095) as f64;
        let scale = 2f64.powi((next(state) % 100) as i32 - 60);
        list.push((((root * scale) * (root * scale)) as f32).to_bits());
    }
    // Beside the squares of odd significands, and of what lies halfway between two significands.
    for _ in 0..150 {
        let root = ((0x80_0000 + next(state) % 0x80_0000) | 1) as f64;
        let scale = 4f64.powi((next(state) % 100) as i32 - 70);
        list.extend(around(root * root * scale));
        list.extend(around((root + 0.5) * (root + 0.5) * scale));
    }
    for _ in 0..600 {
        list.push(next(state) as u32 & 0x7FFF_FFFF);
    }
    for _ in 0..50 {
        list.push(next(state) as u32 | 0x8000_0000);
    }
    list
}

/// All patterns, each once.
fn patterns() -> Vec<u32> {
    let mut list = SPECIAL.to_vec();
    list.extend(ends());
    list.extend(drawn(&mut 20_240_229));
    list.extend((LIMIT - 40..=LIMIT + 40).flat_map(|bits| [bits, bits | 0x8000_0000]));
    let mut seen = HashSet::new();
    list.retain(|bits| seen.insert(*bits));
    list
}

/// The machine's root of a pattern; NaN is 7FC00000. The test for NaN is on the bits: with `is_nan`
/// rustc 1.95 -O drops the branch and keeps the NaN that the machine made.
fn root(bits: u32) -> u32 {
    let root = f32::from_bits(bits).sqrt().to_bits();
    if root & 0x7FFF_FFFF > 0x7F80_0000 {
        0x7FC0_0000
    } else {
        root
    }
}

/// S, power and remainder in decimal, or `neither`. The root of a whole number below 2^48 lies more than 2^-27 from any
/// s + 1/2, and f64 has it to 2^-29, so it is rounded to the nearest s.
fn whole_root(bits: u32) -> String {
    let x = f64::from(f32::from_bits(bits));
    if x == 0.0 {
        return "0 0 0".into();
    }
    if !(x > 0.0 && x.is_finite()) {
        return "neither".into();
    }
    let (mut scaled, mut power) = (x, 0);
    while scaled < 2f64.powi(46) {
        (scaled, power) = (4.0 * scaled, power + 2);
    }
    while scaled >= 2f64.powi(48) {
        (scaled, power) = (scaled / 4.0, power - 2);
    }
    let root = scaled.sqrt().round();
    format!("{root} {power} {}", scaled - root * root)
}

pub fn float() -> Vectors {
    let (mut stdin, mut stdout) = (Vec::new(), String::new());
    for bits in patterns() {
        let c = f64::from(f32::from_bits(bits));
        let over = if c < 0.0 || 4.0 * c * c < 3.0 {
            "over"
        } else {
            "-"
        };
        stdin.extend(bits.to_le_bytes());
        let (root, whole) = (root(bits), whole_root(bits));
        writeln!(stdout, "{bits:08x} {root:08x} {over} {whole}").unwrap();
    }
    Vectors {
        stdin,
        stdout: stdout.into_bytes(),
    }
}
