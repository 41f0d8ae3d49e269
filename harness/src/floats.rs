//! Crate `float` against Rust's own functions and, its root with the remainder, against the second
//! program, through the static library of `float_c`.
//!
//! With the feature `float-library`, `libfloat_c.a` is linked from the folder that
//! HIGLAUPTH_FLOAT_LIBRARY names.

use crate::random::Random;
use crate::roots;
use crate::second::{self, Fault};
use std::fmt::Debug;
use std::hint::black_box;
use std::time::Instant;

type One = extern "C" fn(f32) -> f32;
type Two = extern "C" fn(f32, f32) -> f32;
/// From bits to S, power and remainder, and whether there are such.
type Whole = extern "C" fn(u32, &mut [i32; 3]) -> i32;

/// The functions of `float_c`.
struct Functions {
    sqrt: One,
    abs: One,
    clamp: One,
    norm: Two,
    max: Two,
    min: Two,
    over_30_degrees: extern "C" fn(f32) -> bool,
    whole_root: Whole,
}

#[cfg(feature = "float-library")]
fn functions() -> Option<Functions> {
    unsafe extern "C" {
        safe fn float_sqrt(x: f32) -> f32;
        safe fn float_abs(x: f32) -> f32;
        safe fn float_clamp(x: f32) -> f32;
        safe fn float_norm(x: f32, y: f32) -> f32;
        safe fn float_max(a: f32, b: f32) -> f32;
        safe fn float_min(a: f32, b: f32) -> f32;
        safe fn float_over_30_degrees(c: f32) -> bool;
        safe fn float_whole_root(bits: u32, root: &mut [i32; 3]) -> i32;
    }
    Some(Functions {
        sqrt: float_sqrt,
        abs: float_abs,
        clamp: float_clamp,
        norm: float_norm,
        max: float_max,
        min: float_min,
        over_30_degrees: float_over_30_degrees,
        whole_root: float_whole_root,
    })
}

#[cfg(not(feature = "float-library"))]
fn functions() -> Option<Functions> {
    None
}

/// Values at and beside limits.
const SPECIAL: [u32; 12] = [
    0,
    0x8000_0000,
    1,
    0x8000_0001,
    0x3F80_0000,
    0xBF80_0000,
    0x7F7F_FFFF,
    0xFF7F_FFFF,
    0x7F80_0000,
    0xFF80_0000,
    0x7FC0_0000,
    0xFFC0_0000,
];

/// The same bits, or two NaNs.
pub fn same(a: f32, b: f32) -> bool {
    a.to_bits() == b.to_bits() || (a.is_nan() && b.is_nan())
}

/// Counts what was tried and what differs; the first ten that differ are listed.
#[derive(Default)]
struct Tried {
    count: u64,
    differences: u64,
}

impl Tried {
    fn add(&mut self, alike: bool, what: impl Fn() -> String) {
        self.count += 1;
        if !alike {
            self.differences += 1;
            if self.differences <= 10 {
                println!("  {}", what());
            }
        }
    }

    fn join(&mut self, other: &Tried) {
        self.count += other.count;
        self.differences += other.differences;
    }

    /// True if nothing differs.
    fn print(&self, name: &str, what: &str) -> bool {
        let Tried { count, differences } = self;
        println!("{name}: {what} {count}, differences {differences}");
        *differences == 0
    }
}

/// Every `step`-th bit pattern, in a thread for each processor; true if nothing differs.
pub fn every_bits(name: &str, step: usize, differs: impl Fn(u32) -> Option<String> + Sync) -> bool {
    let threads = std::thread::available_parallelism().map_or(1, usize::from);
    let part = &|first: usize| {
        let mut tried = Tried::default();
        for bits in (first as u32..=u32::MAX).step_by(threads * step) {
            let text = differs(bits);
            tried.add(text.is_none(), || text.clone().unwrap());
        }
        tried
    };
    let mut all = Tried::default();
    std::thread::scope(|scope| {
        let parts: Vec<_> = (0..threads)
            .map(|k| scope.spawn(move || part(k * step)))
            .collect();
        let parts = parts.into_iter().map(|part| part.join().unwrap());
        parts.for_each(|part| all.join(&part));
    });
    all.print(name, "patterns")
}

/// Both functions at all 2^32 bit patterns.
fn every_pattern<T: Debug>(
    name: &str,
    ours: extern "C" fn(f32) -> T,
    rusts: impl Fn(f32) -> T + Sync,
    alike: impl Fn(&T, &T) -> bool + Sync,
) -> bool {
    every_bits(name, 1, |bits| {
        let x = f32::from_bits(bits);
        let (a, b) = (ours(x), rusts(x));
        (!alike(&a, &b)).then(|| format!("{name} {bits:08X}: {a:?}, Rust {b:?}"))
    })
}

/// Both functions at every pair of special values, and at ten million pairs of any bit patterns.
fn pairs(name: &str, ours: Two, rusts: impl Fn(f32, f32) -> f32) -> bool {
    let mut tried = Tried::default();
    let mut at = |a: u32, b: u32| {
        let (x, y) = (f32::from_bits(black_box(a)), f32::from_bits(black_box(b)));
        let (p, q) = (ours(x, y), rusts(x, y));
        tried.add(same(p, q), || {
            format!("{name} {a:08X} {b:08X}: {p:?}, Rust {q:?}")
        });
    };
    for a in SPECIAL {
        for b in SPECIAL {
            at(a, b);
        }
    }
    let mut r = Random::new(1);
    for _ in 0..10_000_000 {
        let both = r.bits();
        at(both as u32, (both >> 32) as u32);
    }
    tried.print(name, "pairs")
}

/// What is wrong with the root of a number, or with that of the second program, if anything.
fn root_differs(call: Whole, bits: u32) -> Option<String> {
    let x = f32::from_bits(bits);
    let right = second::whole_root(x, Fault::None);
    // Nothing is written where there is no root.
    const BEFORE: [i32; 3] = [i32::MIN, 0x0123_4567, -1];
    let mut written = BEFORE;
    let returned = call(bits, &mut written);
    let numbers = right.map_or(BEFORE, |found| found.numbers());
    if (returned, written) != (i32::from(right.is_some()), numbers) {
        return Some(format!(
            "whole_root {bits:08X}: {returned} {written:?}, second program {right:?}"
        ));
    }
    let wrong = roots::wrong(x, right)?;
    Some(format!("second program {bits:08X}: {right:?}: {wrong}"))
}

/// Nanoseconds a call in a loop of a million, taken in parts of 10,000 calls so that other work on
/// the machine falls on few of them.
fn time(name: &str, inputs: &[f32], call: impl Fn(f32, f32) -> f32) {
    let mut parts = Vec::new();
    for part in inputs.chunks(10_000) {
        let start = Instant::now();
        for pair in part.windows(2) {
            black_box(call(pair[0], pair[1]));
        }
        parts.push(start.elapsed().as_nanos() as f64 / part.len() as f64);
    }
    parts.sort_by(f64::total_cmp);
    let (median, count, least) = (parts[parts.len() / 2], parts.len(), parts[0]);
    println!("{name}: {median:.1} ns a call, the median of {count} parts; least {least:.1}");
}

fn times(float: &Functions) {
    let mut r = Random::new(7);
    let mut million = |number: fn(&mut Random) -> f32| -> Vec<f32> {
        (0..1_000_000).map(|_| number(&mut r)).collect()
    };
    let lengths = million(|r| r.between(0.0, 16384.0));
    let patterns = million(|r| f32::from_bits(1 + r.below(0x7F7F_FFFF) as u32));
    let whole_root = |x: f32, _| {
        let mut found = [0; 3];
        let returned = (float.whole_root)(x.to_bits(), &mut found);
        black_box(found);
        returned as f32
    };
    time("sqrt, 0 to 16,384", &lengths, |x, _| (float.sqrt)(x));
    time("sqrt, any finite above 0", &patterns, |x, _| {
        (float.sqrt)(x)
    });
    time("whole_root, 0 to 16,384", &lengths, whole_root);
    time("whole_root, any finite above 0", &patterns, whole_root);
    time("norm, 0 to 16,384", &lengths, |x, y| (float.norm)(x, y));
    time("abs", &lengths, |x, _| (float.abs)(x));
    time("max", &lengths, |x, y| (float.max)(x, y));
}

fn agree(float: &Functions) -> bool {
    let alike = |a: &f32, b: &f32| same(*a, *b);
    let over = |x: f32| x.clamp(-1.0, 1.0).acos().to_degrees() > 30.0;
    let all = [
        pairs("max", float.max, f32::max),
        pairs("min", float.min, f32::min),
        pairs("norm", float.norm, |a, b| (a * a + b * b).sqrt()),
        every_pattern("sqrt", float.sqrt, f32::sqrt, alike),
        every_pattern("abs", float.abs, f32::abs, alike),
        every_pattern("clamp", float.clamp, |x| x.clamp(-1.0, 1.0), alike),
        every_pattern("over_30_degrees", float.over_30_degrees, over, bool::eq),
        every_bits("whole_root", 1, |bits| root_differs(float.whole_root, bits)),
    ];
    all.iter().all(|holds| *holds)
}

/// Times the functions and, unless only the times are asked for, holds each against Rust's own or the
/// second program's; true if all agree.
pub fn check(only_times: bool) -> bool {
    let Some(float) = functions() else {
        println!("built without the static library of float_c");
        return false;
    };
    times(&float);
    only_times || agree(&float)
}
