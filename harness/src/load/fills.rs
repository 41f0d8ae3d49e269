//! Files with dropped points: generated, changed and large ones.

use super::files::{self, Form, Load};
use super::peels::changed;
use crate::generate::{self, Kind};
use crate::random::Random;
use crate::second::MAX_POINTS;
use crate::shapes;

/// A generated file of any kind with dropped points.
fn generated(r: &mut Random) -> Vec<u8> {
    let kind = r.pick(Kind::for_fills()).0;
    generate::case(kind, r.bits() >> 16).file
}

/// Every other point of a board dropped, or half of it mirrored; of many points, or any number.
fn full(r: &mut Random) -> Vec<u8> {
    let points = match r.below(3) {
        0 => r.whole(2, MAX_POINTS as i32) as usize,
        _ => MAX_POINTS,
    };
    let height = r.pick(&[1, 2, 3, 7, 48, 60]);
    let sheet = match r.below(2) {
        0 => shapes::checkered(points, height),
        _ => shapes::half_mirrored(points, height),
    };
    sheet.to_file()
}

/// The file of a seed.
pub fn nth(seed: u64) -> Load {
    let mut random = Random::new(seed ^ 0xF111 << 40);
    let r = &mut random;
    let (form, file) = match r.below(20) {
        0..11 => (Form::Fills, generated(r)),
        11..19 => {
            let file = generated(r);
            (Form::FillsChanged, changed(r, file))
        }
        _ => (Form::FillsFull, full(r)),
    };
    let buffer = files::buffer(r, &file);
    Load { form, file, buffer }
}
