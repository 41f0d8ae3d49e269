//! Roots with their remainders: the second program's beside the machine's root and 128-bit whole numbers, and the
//! library's beside the second program's; of numbers, and of the sums of squares behind a sheet's residuals.

use crate::floats::{every_bits, same};
use crate::generate;
use crate::library;
use crate::random::Random;
use crate::second::{self, Distance, Fault, WholeRoot};

/// A product of two f32s is exact in f64.
fn is_square_of(value: f32, square: f32) -> bool {
    f64::from(value) * f64::from(value) == f64::from(square)
}

/// What is wrong with the root of a number, if anything: "For negatives, infinity and NaN there is neither", zero has
/// zeros, else S is nearest, at half of the power it is the machine's root, "The remainder lies from 1 − S to S", and
/// it is 0 where the machine's root is exact.
pub fn wrong(x: f32, found: Option<WholeRoot>) -> Option<&'static str> {
    let some = x == 0.0 || x > 0.0 && x.is_finite();
    let Some(found) = found.filter(|_| some) else {
        return (some || found.is_some()).then_some("whether there is a root");
    };
    let WholeRoot {
        root, remainder, ..
    } = found;
    if x == 0.0 {
        return (found.numbers() != [0; 3]).then_some("zero");
    }
    let machine = x.sqrt();
    if found.value().to_bits() != machine.to_bits() {
        Some("another root")
    } else if !found.is_of(x) {
        Some("in 128-bit whole numbers")
    } else if !(1 - root..=root).contains(&remainder) {
        Some("the remainder's bounds")
    } else if (remainder == 0) != is_square_of(machine, x) {
        Some("whether it is exact")
    } else {
        None
    }
}

/// What is wrong with a number's root or with the library's, if anything.
fn fault(x: f32) -> Option<String> {
    let found = second::whole_root(x, Fault::None);
    let text = wrong(x, found).map(|what| format!("{:08X}: {found:?}: {what}", x.to_bits()));
    text.or_else(|| library::root_difference(x, found))
}

/// What is wrong with the residuals of a sheet, if anything: each is the machine's root of its square, and exact where
/// this is; and with the library's root of each square.
pub fn residual_fault(residuals: &[Option<Distance>]) -> Option<String> {
    residuals.iter().flatten().find_map(|residual| {
        let Distance { square, value, .. } = *residual;
        let exact = square.is_finite() && is_square_of(square.sqrt(), square);
        if !same(value, square.sqrt()) || residual.is_exact(Fault::None) != exact {
            return Some(format!("the root of {square:?}: {residual:?}"));
        }
        fault(square)
    })
}

/// Every `step`-th f32: whether its root is the machine's, and all that it should be.
pub fn every(step: usize) -> bool {
    every_bits("roots", step, |bits| {
        let x = f32::from_bits(bits);
        let root = same(x.sqrt(), second::root(x, Fault::None));
        let text = (!root).then(|| format!("{bits:08X}: another root"));
        text.or_else(|| fault(x))
    })
}

/// How many numbers there were, those with a root, and those of them whose root is exact; and what was wrong first.
#[derive(Default)]
pub struct Report {
    pub numbers: usize,
    pub found: usize,
    pub exact: usize,
    pub failure: Option<String>,
}

impl Report {
    fn add(&mut self, bits: u32) {
        let x = f32::from_bits(bits);
        let found = second::whole_root(x, Fault::None);
        self.numbers += 1;
        self.found += usize::from(found.is_some());
        self.exact += usize::from(found.is_some_and(|found| found.remainder == 0));
        if self.failure.is_none() {
            self.failure = fault(x);
        }
    }

    pub fn print(&self) {
        let Report {
            numbers,
            found,
            exact,
            failure,
        } = self;
        println!("{numbers} numbers, {found} with a root, {exact} of these exact");
        let wrong = failure.iter();
        wrong.for_each(|text| println!("differs: {text}"));
    }
}

/// Special numbers and so many others.
pub fn numbers(count: usize, seed: u64) -> Report {
    let mut report = Report::default();
    generate::SPECIAL.iter().for_each(|bits| report.add(*bits));
    let mut r = Random::new(seed);
    for _ in 0..count {
        report.add(generate::number(&mut r));
    }
    report
}
