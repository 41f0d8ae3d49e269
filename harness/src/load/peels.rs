//! Files with strengths: generated, changed, framed and large ones, and sheets that take longest.

use super::files::{self, Form, Load, LONGEST_FILE};
use crate::generate::{self, Kind};
use crate::random::Random;
use crate::second::{self, MAX_POINTS};
use crate::shapes::{self, any_bits};
use crate::sheet::{field, Sheet, Strengths};

/// A generated file of any kind with strengths.
fn generated(r: &mut Random) -> Vec<u8> {
    let kind = r.pick(Kind::for_peels()).0;
    generate::case(kind, r.bits() >> 16).file
}

/// Bytes of a file, at times of its end alone, where tag 4 is.
fn flipped(r: &mut Random, file: &mut [u8]) {
    for _ in 0..r.whole(1, 8) {
        let last = if r.one_in(2) {
            file.len().min(40)
        } else {
            file.len()
        };
        if last > 0 {
            let at = file.len() - 1 - r.below(last);
            file[at] ^= r.whole(1, 255) as u8;
        }
    }
}

/// The fields of a sheet with tag 4 cut, prolonged, repeated, moved, renamed or put in.
fn fields(r: &mut Random, sheet: &Sheet) -> Vec<u8> {
    let mut fields = vec![
        sheet.settings_field(),
        sheet.gate_field(),
        sheet.points_field(),
        sheet.strengths_field(),
    ];
    fields.retain(|field| !field.is_empty());
    let last = fields.len() - 1;
    match r.below(7) {
        0 => fields.swap(last, r.below(last)),
        1 => fields.insert(r.below(last + 1), fields[last].clone()),
        2 => fields[last][0] = r.pick(&[0, 1, 2, 3, 5, 255]),
        3 => {
            let length = r.pick(&[0, 1, 3, 4, 5, 8, 12, 200, usize::from(u16::MAX)]);
            fields[last] = field(4, &files::random_bytes(r, length));
        }
        4 => {
            let cut = r.below(fields[last].len() + 1);
            fields[last].truncate(cut);
        }
        5 => {
            let more = r.whole(1, 60) as usize;
            fields.push(files::random_bytes(r, more));
        }
        _ => {
            let (place, bit) = (1 + r.below(2), r.below(8));
            fields[last][place] ^= 1 << bit;
        }
    }
    fields.concat()
}

/// A file with bytes or fields changed.
pub fn changed(r: &mut Random, mut file: Vec<u8>) -> Vec<u8> {
    match Sheet::from_file(&file) {
        Some(sheet) if r.one_in(2) => file = fields(r, &sheet),
        _ => flipped(r, &mut file),
    }
    file.truncate(LONGEST_FILE);
    file
}

/// A right frame with a tag 4 of its length, at times another; strengths of any bits, or those that a
/// sheet may have, by index.
fn framed(r: &mut Random) -> Vec<u8> {
    let mut sheet = files::framed(r);
    let bounded = !r.one_in(3);
    let by_index = r.one_in(2);
    let of = |from: &mut Random| match bounded {
        true => any_bits(from),
        false => f32::from_bits(from.bits() as u32),
    };
    sheet.strengths = Strengths::Given(of(r));
    for p in &mut sheet.points {
        let mut own = Random::new(!u64::from(p.index));
        p.strength = of(if by_index { &mut own } else { &mut *r });
    }
    if r.one_in(6) {
        let length = match r.below(3) {
            0 => r.below(60),
            1 => usize::from(u16::MAX),
            _ => 4 * sheet.points.len(),
        };
        sheet.strengths = Strengths::Misfit(files::random_bytes(r, length));
    }
    sheet.to_file()
}

/// A large sheet: any shape, or one that the peel takes apart; most of it weak, or some of it, or nothing.
fn full(r: &mut Random) -> Vec<u8> {
    let points = match r.below(3) {
        0 => r.whole(1, MAX_POINTS as i32) as usize,
        _ => MAX_POINTS,
    };
    let sheet = match r.below(3) {
        0 => shapes::any(r, points).sheet(),
        1 => shapes::peeled(r, points),
        _ => return shapes::chain(points).to_file(),
    };
    let (fraction, weak) = (r.pick(&[0.5, 1.0, 2.0, 16384.0]), r.pick(&[1, 2, 10, 1000]));
    let salt = r.bits();
    let strength = |index: u32| {
        let mut own = Random::new(salt ^ u64::from(index));
        if own.one_in(weak) {
            0.25
        } else {
            own.between(1.0, 1.5)
        }
    };
    let indices: Vec<u32> = sheet.points.iter().map(|p| p.index).collect();
    shapes::with_strengths(sheet, fraction, |k| strength(indices[k])).to_file()
}

/// A sheet that takes longest, as it is, as a generator changed it, or with bytes or fields changed.
fn worst(r: &mut Random) -> (Form, Vec<u8>) {
    let n = match r.below(3) {
        0 => r.whole(2, 40),
        1 => r.whole(2, 400),
        _ => r.whole(2, MAX_POINTS as i32),
    };
    let file = second::worst_of(n as usize);
    match r.below(4) {
        0 | 1 => (Form::Worst, file),
        2 => (Form::WorstChanged, changed(r, file)),
        _ => {
            let kind = r.pick(&[Kind::NearWorst, Kind::DamagedWorst]);
            (
                Form::WorstChanged,
                generate::case(kind, r.bits() >> 16).file,
            )
        }
    }
}

/// The file of a seed.
pub fn nth(seed: u64) -> Load {
    let mut random = Random::new(seed ^ 0x5EED << 40);
    let r = &mut random;
    // Drawn apart: the other files are those that they were without these.
    let (form, file) = match r.below(20) {
        _ if Random::new(!seed).one_in(16) => worst(r),
        0..9 => (Form::Peels, generated(r)),
        9..15 => {
            let file = generated(r);
            (Form::PeelsChanged, changed(r, file))
        }
        15..19 => (Form::PeelsFramed, framed(r)),
        _ => (Form::PeelsFull, full(r)),
    };
    let buffer = files::buffer(r, &file);
    Load { form, file, buffer }
}
