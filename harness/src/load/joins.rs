//! Two files for the call that joins them: halves of the file under way, or this file and a partner.

use super::files::{claimed, Load, LONGEST_BUFFER};
use super::fixed::Origin;
use super::peels::changed;
use crate::generate::{self, Expected, JoinKind, Kind, Pair};
use crate::joined;
use crate::random::Random;
use crate::second::{Shift, RIGHT_INDICES, ROW};
use crate::sheet::{Point, Settings, Sheet, Strengths};

type Two = [Vec<u8>; 2];

/// An offset and a shift: small ones, any that are taken, at times any at all.
fn shift(r: &mut Random) -> Shift {
    let offset = |r: &mut Random| match r.below(16) {
        0..10 => r.whole(-60, 60),
        10..12 => r.whole(-16_000, 16_000),
        12 | 13 => 0,
        14 => r.pick(&[16_000, -16_000, 16_001, -16_001]),
        _ => r.bits() as i32,
    };
    let slide = |r: &mut Random| match r.below(16) {
        0..10 => r.between(-500.0, 500.0),
        10..13 => r.pick(&[0.0, -0.0]),
        13 => r.pick(&[16384.0, -16384.0, 16384.002, f32::NAN, f32::INFINITY]),
        14 => f32::from_bits(r.bits() as u32),
        _ => r.between(-16384.0, 16384.0),
    };
    Shift {
        du: offset(r),
        dv: offset(r),
        dx: slide(r),
        dy: slide(r),
    }
}

/// A sheet without points.
fn empty() -> Vec<u8> {
    let sheet = Sheet {
        settings: Settings {
            cell_size: 100.0,
            rest: None,
        },
        gate: None,
        points: Vec::new(),
        strengths: Strengths::Missing,
    };
    sheet.to_file()
}

/// A file with its indices below the limit of a join.
fn with_small_indices(file: &[u8]) -> Vec<u8> {
    match Sheet::from_file(file) {
        Some(mut sheet) => {
            let points = sheet.points.iter_mut();
            points.for_each(|p| p.index &= RIGHT_INDICES - 1);
            sheet.to_file()
        }
        None => file.to_vec(),
    }
}

/// The points of a file in two, at times some in both, the right ones where they come from; the file twice if it is not
/// well framed.
fn halves(r: &mut Random, file: &[u8], shift: &Shift) -> Two {
    let file = with_small_indices(file);
    let Some(mut left) = Sheet::from_file(&file) else {
        return [file.clone(), file];
    };
    let cut = match left.points.len() {
        0 => 0,
        count => left.points[r.below(count)].u,
    };
    let both = r.below(3) as i32;
    let mut right = left.clone();
    left.points.retain(|p| p.u <= cut);
    right.points.retain(|p| p.u > cut.wrapping_sub(both));
    let back = |p: &Point| Point {
        u: p.u.wrapping_sub(shift.du),
        v: p.v.wrapping_sub(shift.dv),
        x: p.x - shift.dx,
        y: p.y - shift.dy,
        ..*p
    };
    right.points = right.points.iter().map(back).collect();
    [left.to_file(), right.to_file()]
}

/// A small generated sheet, with strengths if the file has a tag 4.
fn partner(r: &mut Random, file: &[u8]) -> Vec<u8> {
    let weighed = Sheet::from_file(file).is_some_and(|s| s.strengths != Strengths::Missing);
    let kinds = match weighed {
        true => [Kind::Chains, Kind::Weighed, Kind::Ends],
        false => [Kind::Small, Kind::Noise, Kind::Repeated],
    };
    let case = generate::case(r.pick(&kinds), r.bits() >> 16);
    with_small_indices(&case.file)
}

/// The joined list's points, or about as many as the files claim.
fn points(files: &Two, shift: &Shift) -> usize {
    let sheets = files.each_ref().map(|file| Sheet::from_file(file));
    match sheets {
        [Some(left), Some(right)] => joined::join(&left, &right, shift).0.points.len(),
        _ => files.iter().filter_map(|file| claimed(file)).sum(),
    }
}

/// The length of a buffer about that of the joined rows.
fn buffer(r: &mut Random, points: usize) -> usize {
    let exact = ROW * points;
    match r.below(20) {
        0 => 0,
        1 | 2 => exact.saturating_sub(1),
        3 => r.below(exact + 1),
        4 | 5 => exact + r.below(100),
        6 => LONGEST_BUFFER - r.below(5000),
        _ => exact,
    }
}

/// Of a fixed file: the file twice, in halves, or beside itself.
fn of_fixed(r: &mut Random, file: &[u8], room: usize) -> (Two, Shift) {
    let twice = || [file.to_vec(), file.to_vec()];
    let mut shift = Shift::default();
    match room {
        0 => (twice(), shift),
        1 => (halves(r, file, &shift), shift),
        _ => {
            shift.dv = 100;
            (twice(), shift)
        }
    }
}

/// Of any other file.
fn of_any(r: &mut Random, file: &[u8]) -> (Two, Shift) {
    let shift = shift(r);
    let own = || with_small_indices(file);
    let files = match r.below(8) {
        0..3 => halves(r, file, &shift),
        3 => [own(), own()],
        4 => [own(), partner(r, file)],
        5 => [partner(r, file), own()],
        6 => {
            let other = changed(r, own());
            match r.below(2) {
                0 => [own(), other],
                _ => [other, own()],
            }
        }
        _ => match r.below(3) {
            0 => [file.to_vec(), empty()],
            1 => [empty(), file.to_vec()],
            _ => [file.to_vec(), file.to_vec()],
        },
    };
    (files, shift)
}

/// The two files of a call beside a file, one time in four generated ones.
pub fn pair(r: &mut Random, load: &Load, origin: Origin) -> Pair {
    let kind = r.pick(JoinKind::ALL).0;
    let seed = r.bits() >> 16;
    let (files, shift) = match origin.which_room() {
        Some(room) => of_fixed(r, &load.file, room),
        None if r.one_in(4) => return generate::pair(kind, seed),
        None => of_any(r, &load.file),
    };
    let points = points(&files, &shift);
    let [left, right] = files;
    Pair {
        kind,
        seed,
        left,
        right,
        shift,
        buffer: origin
            .join_buffer(points)
            .unwrap_or_else(|| buffer(r, points)),
        expected: Expected::Unknown,
        conditions: None,
    }
}
