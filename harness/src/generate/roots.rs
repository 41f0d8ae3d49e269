//! Numbers to take roots of, and sheets whose residuals are such roots: a corner amid four neighbours, off by chosen
//! steps from where these place it, which is at the origin, so that the steps are its position.

use super::small::sheet;
use super::{accepted, changes, settings, Case, Kind};
use crate::random::Random;
use crate::shapes::any_bits;
use crate::sheet::{Point, Rest, Sheet};

/// Bits of f32: zeros, infinities, NaNs, and the least and the largest of each kind.
pub const SPECIAL: [u32; 24] = [
    0,
    0x8000_0000,
    0x7F80_0000,
    0xFF80_0000,
    0x7FC0_0000,
    0xFFC0_0000,
    0x7F80_0001,
    0xFF80_0001,
    0x7FFF_FFFF,
    0xFFFF_FFFF,
    1,
    2,
    4,
    0x8000_0001,
    0x007F_FFFF,
    0x807F_FFFF,
    0x0080_0000,
    0x8080_0000,
    0x7F7F_FFFF,
    0xFF7F_FFFF,
    0x3F80_0000,
    0xBF80_0000,
    0x4000_0000,
    0x4080_0000,
];

/// A power of two.
fn power(r: &mut Random, least: i32, most: i32) -> f32 {
    2f32.powi(r.whole(least, most))
}

/// The bits of a number: special ones, subnormals, squares, what lies beside squares and beside those of halves, ends
/// of binades, and any.
pub fn number(r: &mut Random) -> u32 {
    let beside = |r: &mut Random, number: f64| {
        let bits = (number as f32).to_bits();
        bits.wrapping_add_signed(r.whole(-2, 2))
    };
    match r.below(8) {
        0 => r.pick(&SPECIAL),
        1 => 1 + r.below(0x007F_FFFF) as u32,
        2 => {
            let root = r.whole(1, 4095) as f32 * power(r, -74, 51);
            (root * root).to_bits()
        }
        3 | 4 => {
            let odd = r.whole(0x80_0000, 0xFF_FFFF) | 1;
            let root = f64::from(odd) + r.pick(&[0.0, 0.5]);
            let scale = f64::from(power(r, -97, 40));
            beside(r, root * scale * (root * scale))
        }
        5 => {
            let end = r.pick(&[0, 0x007F_FFFF]);
            (1 + r.below(254) as u32) << 23 | end
        }
        6 => r.below(0x7F80_0000) as u32,
        _ => r.bits() as u32,
    }
}

/// Sides of a triangle about a right angle, the third of most of them whole; some of them 0.
const SIDES: [(i32, i32); 14] = [
    (0, 0),
    (1, 0),
    (3, 4),
    (6, 8),
    (5, 12),
    (8, 15),
    (7, 24),
    (20, 21),
    (9, 40),
    (12, 35),
    (28, 45),
    (1, 1),
    (1, 2),
    (2, 3),
];

/// Steps along x and y.
type Steps = (f32, f32);

/// Exchanges the two at times, and gives them signs.
fn turned(r: &mut Random, (a, b): Steps) -> Steps {
    let (a, b) = if r.one_in(2) { (b, a) } else { (a, b) };
    (a * r.pick(&[1.0, -1.0]), b * r.pick(&[1.0, -1.0]))
}

/// Whole triangles, of any scale.
fn triangle(r: &mut Random) -> Steps {
    let (a, b) = r.pick(&SIDES);
    let scale = r.pick(&[1.0, 1.0, 2.0, 0.5, 0.015625]);
    turned(r, (a as f32 * scale, b as f32 * scale))
}

/// Two steps whose sum of squares, rounded, is a square or lies beside one.
fn beside_square(r: &mut Random) -> Steps {
    let most = r.pick(&[7, 63, 1023, 4095]);
    let step = r.whole(1, most) as f32 * power(r, -20, 1);
    let other = step * r.between(0.0, 3.0) / 4096.0;
    turned(r, (step, other))
}

/// One step: the root of its square is the step itself, whether the square is rounded or not.
fn straight(r: &mut Random) -> Steps {
    let step = match r.below(3) {
        0 => any_bits(r),
        1 => r.whole(1, 4095) as f32 * power(r, -60, 2),
        _ => r.between(-300.0, 300.0),
    };
    turned(r, (step, 0.0))
}

/// Steps whose squares are subnormal or 0.
fn smallest(r: &mut Random) -> Steps {
    // The square of 2^-75 is halfway between 0 and the least number.
    let (least, most) = r.pick(&[(-77, -62), (-76, -75)]);
    let unit = power(r, least, most);
    let mut step = || match r.below(4) {
        0 => 0.0,
        1 => unit * r.between(0.0, 16.0),
        _ => unit * r.whole(0, 40) as f32,
    };
    (step(), step())
}

/// Any of these.
fn steps(r: &mut Random) -> Steps {
    r.pick(&[
        triangle as fn(&mut Random) -> Steps,
        beside_square,
        straight,
        smallest,
    ])(r)
}

/// A distance between neighbours.
fn spacing(r: &mut Random) -> f32 {
    r.pick(&[1.0, 2.0, 7.0, 10.0, 16.0, 32.0, 64.0, 100.0, 512.0])
}

/// Four neighbours of a cell, from an index on, about a place.
fn about(r: &mut Random, (u, v): (i32, i32), (x, y): Steps, index: u32) -> Vec<Point> {
    let (a, b) = (spacing(r), spacing(r));
    vec![
        Point::new(u - 1, v, index, x - a, y),
        Point::new(u + 1, v, index + 1, x + a, y),
        Point::new(u, v - 1, index + 2, x, y - b),
        Point::new(u, v + 1, index + 3, x, y + b),
    ]
}

/// A corner amid four neighbours, and at times one at the corners of its cell.
fn amid(r: &mut Random, (dx, dy): Steps) -> Sheet {
    let mut points = about(r, (0, 0), (0.0, 0.0), 1);
    points.push(Point::new(0, 0, 0, dx, dy));
    if r.one_in(4) {
        let (u, v) = r.pick(&[(1, 1), (1, -1), (-1, 1), (-1, -1)]);
        let (x, y) = (points[1].x * u as f32, points[3].y * v as f32);
        points.push(Point::new(u, v, 9, x, y));
    }
    sheet(points[1].x, points)
}

/// A corner whose neighbours lie on two parallel lines, or on one, so that no place or a far one is theirs.
fn parallel(r: &mut Random) -> Sheet {
    let mut whole = |most: i32| r.whole(-most, most) as f32;
    let (along, across) = ((whole(4), whole(4)), (whole(9), whole(9)));
    let on = |t: f32| (along.0 * t, along.1 * t);
    let ends = [whole(6), whole(6), whole(6), whole(6)].map(on);
    let (dx, dy) = (whole(20), whole(20));
    let other = |(x, y): Steps| (x + across.0, y + across.1);
    let places = [ends[0], ends[1], other(ends[2]), other(ends[3]), (dx, dy)];
    let cells = [(-1, 0), (1, 0), (0, -1), (0, 1), (0, 0)];
    let scale = r.pick(&[1.0, 8.0, 10.0, 0.1]);
    let point = |(k, ((u, v), (x, y))): (usize, ((i32, i32), Steps))| {
        Point::new(u, v, k as u32, x * scale, y * scale)
    };
    let all = cells.into_iter().zip(places).enumerate();
    sheet(10.0, all.map(point).collect())
}

/// An index at two cells or three, each with neighbours of its own or without.
fn last_cells(r: &mut Random) -> Sheet {
    let (dx, dy) = steps(r);
    let mut points = Vec::new();
    for k in 0..r.whole(2, 3) {
        let cell = (r.pick(&[0, 7, -7]), 7 * k);
        points.push(Point::new(cell.0, cell.1, 0, dx, dy));
        let (x, y) = steps(r);
        // About the origin, about the index's place, or such a step off from there.
        let place = match r.below(4) {
            0 => (0.0, 0.0),
            1 => (dx, dy),
            2 => (dx + x, dy + y),
            _ => continue,
        };
        points.extend(about(r, cell, place, 10 * k as u32 + 10));
    }
    sheet(10.0, points)
}

/// A board of even spacing with its middle at the origin, some points off by whole triangles.
fn board(r: &mut Random) -> Sheet {
    let (width, height) = (r.whole(2, 7), r.whole(2, 7));
    let (a, b) = (spacing(r), spacing(r));
    let (left_out, off) = (r.pick(&[5, 20, 1000]), r.pick(&[3, 8, 30]));
    let mut points = Vec::new();
    for (u, v) in (0..width).flat_map(|u| (0..height).map(move |v| (u, v))) {
        let (dx, dy) = match r.one_in(off) {
            true => triangle(r),
            false => (0.0, 0.0),
        };
        let (x, y) = ((u - width / 2) as f32, (v - height / 2) as f32);
        if !r.one_in(left_out) {
            let index = points.len() as u32;
            points.push(Point::new(u, v, index, a * x + dx, b * y + dy));
        }
    }
    sheet(a, points)
}

/// The case of one of these kinds.
pub fn case(kind: Kind, r: &mut Random, seed: u64) -> Case {
    let mut s = match kind {
        Kind::Triangles => {
            let off = triangle(r);
            amid(r, off)
        }
        Kind::BesideSquares => {
            let off = beside_square(r);
            amid(r, off)
        }
        Kind::Straight => {
            let off = straight(r);
            amid(r, off)
        }
        Kind::Smallest => {
            let off = smallest(r);
            amid(r, off)
        }
        Kind::Parallel => parallel(r),
        Kind::LastCells => last_cells(r),
        _ => board(r),
    };
    match r.below(4) {
        0 => settings::varied(r, &mut s),
        1 => {}
        _ => {
            s.settings.rest = Some(Rest {
                wrong_label: r.whole(0, 1) as u8,
                largest_patch: r.whole(0, 1) as u8,
                ..Rest::with_three()
            });
        }
    }
    changes::settle(r, &mut s);
    accepted(kind, r, seed, &s)
}
