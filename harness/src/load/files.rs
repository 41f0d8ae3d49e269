//! The files of the load: random, framed, generated, damaged and large ones.

use crate::generate::{self, Kind};
use crate::library::MAP_SIZE;
use crate::random::Random;
use crate::second::{FILL, MAX_POINTS, ROW};
use crate::shapes::{self, any_bits};
use crate::sheet::{field, Gate, Point, Rest, Settings, Sheet, Strengths, MOST_RECORDS};

#[derive(Clone, Copy, Debug, PartialEq)]
pub enum Form {
    Noise,
    Framed,
    Whole,
    Flipped,
    Resized,
    Fields,
    Full,
    Fixed,
    Peels,
    PeelsChanged,
    PeelsFramed,
    PeelsFull,
    Worst,
    WorstChanged,
    Fills,
    FillsChanged,
    FillsFull,
}

impl Form {
    /// Every form with what it holds and its share in a hundred files without strengths; the fixed ones are in
    /// every run, and those with strengths and with dropped points have seeds of their own (`peels.rs`,
    /// `fills.rs`).
    pub const ALL: [(Form, &'static str, usize); 17] = [
        (Form::Noise, "random bytes, 0 to 66,000", 15),
        (Form::Framed, "right frame, the rest random", 15),
        (Form::Whole, "generated sheets of every kind", 27),
        (Form::Flipped, "the same, 1 to 8 bytes changed", 15),
        (Form::Resized, "the same, cut or prolonged", 10),
        (Form::Fields, "the same, fields swapped, repeated, lost", 15),
        (Form::Full, "large sheets of any shape", 3),
        (Form::Fixed, "fixed ones about the most points", 0),
        (Form::Peels, "generated sheets with strengths", 0),
        (
            Form::PeelsChanged,
            "the same, bytes, fields or the length of tag 4 changed",
            0,
        ),
        (
            Form::PeelsFramed,
            "right frame, a tag 4, the rest random",
            0,
        ),
        (Form::PeelsFull, "large sheets with strengths", 0),
        (
            Form::Worst,
            "sheets that take longest, of any number of points",
            0,
        ),
        (
            Form::WorstChanged,
            "the same, points, strengths, bytes, fields or the length of tag 4 changed",
            0,
        ),
        (Form::Fills, "generated sheets with dropped points", 0),
        (Form::FillsChanged, "the same, bytes or fields changed", 0),
        (Form::FillsFull, "large sheets with dropped points", 0),
    ];
}

/// A file with the length of the buffer that it is called with.
pub struct Load {
    pub form: Form,
    pub file: Vec<u8>,
    pub buffer: usize,
}

/// No file and no buffer is longer.
pub const LONGEST_FILE: usize = 140_000;
pub const LONGEST_BUFFER: usize = 1 << 20;

pub fn random_bytes(r: &mut Random, length: usize) -> Vec<u8> {
    let words = (0..length.div_ceil(8)).flat_map(|_| r.bits().to_le_bytes());
    words.take(length).collect()
}

fn float(r: &mut Random, bounded: bool) -> f32 {
    if bounded {
        any_bits(r)
    } else {
        f32::from_bits(r.bits() as u32)
    }
}

/// A number of points, at times about the most of a sheet or of a field.
fn any_count(r: &mut Random) -> usize {
    match r.below(8) {
        0..4 => r.below(9),
        4 | 5 => r.below(300),
        6 => r.pick(&[
            MAX_POINTS - 2,
            MAX_POINTS - 1,
            MAX_POINTS,
            MAX_POINTS + 1,
            MOST_RECORDS - 1,
            MOST_RECORDS,
        ]),
        _ => r.below(MOST_RECORDS + 1),
    }
}

fn any_settings(r: &mut Random, right: usize) -> Settings {
    let flag = |r: &mut Random| r.bits() as u8 & if right >= 1 { 1 } else { 255 };
    let rest = |r: &mut Random| Rest {
        line_tolerance: float(r, right >= 2),
        line_minimum: r.bits() as u16 >> r.below(17).min(15),
        local_tolerance: float(r, right >= 2),
        step_flag: flag(r),
        step_threshold: float(r, right >= 2),
        wrong_label: flag(r),
        largest_patch: flag(r),
    };
    Settings {
        cell_size: float(r, right >= 2),
        rest: r.one_in(2).then(|| rest(r)),
    }
}

/// From 3 on a cell is in range; from 5 on, cells lie close together and are distinct.
fn any_points(r: &mut Random, right: usize, count: usize) -> Vec<Point> {
    let height = r.whole(1, 50);
    let indices = r.pick(&[2, count + 1, 1 << 32, 1 << 32, 1 << 32]);
    let points = (0..count as i32).map(|k| {
        let any = |r: &mut Random| match right {
            0..3 => r.bits() as i32,
            _ => r.whole(-8000, 8000),
        };
        let (u, v) = if right >= 5 {
            (k / height, k % height)
        } else {
            (any(r), any(r))
        };
        let index = r.below(indices) as u32;
        // With every condition right, a position goes by its index.
        let mut from = Random::new(index.into());
        let from = if right == 6 { &mut from } else { &mut *r };
        Point::new(
            u,
            v,
            index,
            float(from, right >= 4),
            float(from, right >= 4),
        )
    });
    points.collect()
}

/// A right frame. Of the rest, a number of conditions holds from the first on; beyond that all is
/// random.
pub fn framed(r: &mut Random) -> Sheet {
    let count = any_count(r);
    let right = r.below(7);
    let settings = any_settings(r, right);
    let gate = r.one_in(2).then(|| Gate {
        minimum_degree: r.bits() as u8,
        floats: [(); 4].map(|()| float(r, right >= 2)),
    });
    Sheet {
        settings,
        gate,
        points: any_points(r, right, count),
        strengths: Strengths::Missing,
    }
}

/// A generated file of any kind without strengths.
fn generated(r: &mut Random) -> Vec<u8> {
    let kind = r.pick(Kind::without_strengths()).0;
    generate::case(kind, r.bits() >> 16).file
}

fn flipped(r: &mut Random) -> Vec<u8> {
    let mut file = generated(r);
    for _ in 0..r.whole(1, 8) {
        if !file.is_empty() {
            let at = r.below(file.len());
            file[at] ^= r.whole(1, 255) as u8;
        }
    }
    file
}

fn resized(r: &mut Random) -> Vec<u8> {
    let mut file = generated(r);
    match r.below(4) {
        0 => file.truncate(r.below(file.len() + 1)),
        1 => file.truncate(file.len().saturating_sub(r.whole(1, 40) as usize)),
        2 => {
            let more = r.whole(1, 60) as usize;
            file.extend(random_bytes(r, more));
        }
        _ => {
            let more = r.below(66_000);
            file.extend(random_bytes(r, more));
        }
    }
    file
}

/// Fields swapped, repeated, left out, put in or named otherwise.
fn fields(r: &mut Random) -> Vec<u8> {
    let file = generated(r);
    let Some(sheet) = Sheet::from_file(&file) else {
        return file;
    };
    let mut fields = vec![sheet.settings_field(), sheet.points_field()];
    if sheet.gate.is_some() {
        fields.insert(1, sheet.gate_field());
    }
    for _ in 0..r.whole(1, 3) {
        let (a, b) = (r.below(fields.len()), r.below(fields.len()));
        match r.below(6) {
            0 | 1 => fields.swap(a, b),
            2 => fields.insert(b, fields[a].clone()),
            3 if fields.len() > 1 => drop(fields.remove(a)),
            4 => {
                let (tag, length) = (r.below(5) as u8, r.pick(&[0, 1, 4, 16, 17, 18, 20, 21]));
                fields.insert(a, field(tag, &random_bytes(r, length)));
            }
            _ => fields[a][0] = r.pick(&[0, 1, 2, 3, 4, 255]),
        }
    }
    let mut file = fields.concat();
    file.truncate(LONGEST_FILE);
    file
}

fn full(r: &mut Random) -> Vec<u8> {
    let points = match r.below(3) {
        0 => r.whole(1, MAX_POINTS as i32) as usize,
        _ => MAX_POINTS,
    };
    shapes::any(r, points).sheet().to_file()
}

/// How many points the file claims, if its frame is right up to there.
pub fn claimed(file: &[u8]) -> Option<usize> {
    let mut at = 0;
    while *file.get(at)? != 3 {
        at += 3 + usize::from(u16::from_le_bytes([*file.get(at + 1)?, *file.get(at + 2)?]));
    }
    Some(usize::from(u16::from_le_bytes([*file.get(at + 1)?, *file.get(at + 2)?])) / 20)
}

/// The length of the buffer that a map's text of some length is asked for with.
pub fn map_buffer(r: &mut Random, length: usize) -> usize {
    match r.below(20) {
        0 | 1 => 0,
        2..5 => length.saturating_sub(1),
        5 => r.below(length + 1),
        6..8 => length + r.below(100),
        8..11 => MAP_SIZE,
        11 => r.below(70_000),
        _ => length,
    }
}

/// A form by the shares.
fn any_form(r: &mut Random) -> Form {
    let mut left = r.below(100);
    for (form, _, share) in Form::ALL {
        if left < share {
            return form;
        }
        left -= share;
    }
    unreachable!("the shares add up to a hundred")
}

/// The file of a seed.
pub fn nth(seed: u64) -> Load {
    let mut random = Random::new(seed);
    let r = &mut random;
    let form = any_form(r);
    let file = match form {
        Form::Noise => {
            let most = r.pick(&[4, 60, 500, 66_000]);
            let length = r.below(most + 1);
            random_bytes(r, length)
        }
        Form::Framed => framed(r).to_file(),
        // Drawn apart: the other files of this form are those that they were without it.
        Form::Whole if Random::new(!seed).one_in(12) => generate::few_indices(r).to_file(),
        Form::Whole => generated(r),
        Form::Flipped => flipped(r),
        Form::Resized => resized(r),
        Form::Fields => fields(r),
        Form::Full => full(r),
        _ => unreachable!("their share is 0"),
    };
    let buffer = buffer(r, &file);
    Load { form, file, buffer }
}

/// The length of the buffer that a file is called with.
pub fn buffer(r: &mut Random, file: &[u8]) -> usize {
    buffer_for(r, file, ROW)
}

/// The length of the buffer that the fills of a file are asked for with.
pub fn fills_buffer(r: &mut Random, file: &[u8]) -> usize {
    buffer_for(r, file, FILL)
}

/// A length about that of so many bytes a point.
fn buffer_for(r: &mut Random, file: &[u8], each: usize) -> usize {
    let exact = each * claimed(file).unwrap_or_else(|| r.below(100));
    match r.below(20) {
        0 | 1 => 0,
        2 | 3 => exact.saturating_sub(1),
        4..7 => r.below(70_000),
        7..9 => exact + r.below(100),
        9 => LONGEST_BUFFER - r.below(5000) * r.below(2),
        _ => exact,
    }
}
