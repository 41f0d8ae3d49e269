//! Small sheets: few points, small whole positions, degenerate and tiny ones.

use crate::random::Random;
use crate::sheet::{Gate, Point, Rest, Settings, Sheet, Strengths};

/// Of points alone, with short settings.
pub(super) fn sheet(cell_size: f32, points: Vec<Point>) -> Sheet {
    Sheet {
        settings: Settings {
            cell_size,
            rest: None,
        },
        gate: None,
        points,
        strengths: Strengths::Missing,
    }
}

/// Cells of a block, some left out, at positions given by a function.
fn block(
    r: &mut Random,
    most: (i32, i32),
    left_out: usize,
    at: &mut dyn FnMut(&mut Random, i32, i32) -> (f32, f32),
) -> Vec<Point> {
    let (width, height) = (r.whole(1, most.0), r.whole(1, most.1));
    let mut points = Vec::new();
    for u in 0..width {
        for v in 0..height {
            if !r.one_in(left_out) {
                let (x, y) = at(r, u, v);
                points.push(Point::new(u, v, points.len() as u32, x, y));
            }
        }
    }
    points
}

/// 0 to 6 points: cells within a small square, positions near their cell or anywhere.
pub fn shapes(r: &mut Random) -> Sheet {
    let span = r.whole(1, 4);
    let loose = r.one_in(3);
    let mut points: Vec<Point> = Vec::new();
    for index in 0..r.below(7) as u32 {
        let (u, v) = (r.whole(0, span), r.whole(0, span));
        let (x, y) = if loose {
            (r.whole(-3, 3) as f32 * 50.0, r.whole(-3, 3) as f32 * 50.0)
        } else {
            let off = r.pick(&[0.0, 0.0, 30.0, 50.0, 100.0]);
            (100.0 * u as f32 + off, 100.0 * v as f32)
        };
        points.push(Point::new(u, v, index, x, y));
    }
    let mut s = sheet(r.pick(&[100.0, 100.0, 50.0, 0.0, -1.0, 1.0]), points);
    if r.one_in(3) {
        s.settings.rest = Some(Rest {
            line_minimum: r.pick(&[0, 1, 2, 3]),
            line_tolerance: r.pick(&[0.15, 0.0, -1.0]),
            ..Rest::with_three()
        });
    }
    s
}

/// Whole positions from a small range, so that sums, pivots and cosines are often equal.
pub fn wild(r: &mut Random) -> Sheet {
    let range = r.pick(&[1, 2, 4, 10, 100, 16384]);
    let left_out = r.pick(&[3, 6, 1000]);
    let mut at =
        |r: &mut Random, _: i32, _: i32| (r.whole(-range, range) as f32, r.whole(0, range) as f32);
    let points = block(r, (6, 6), left_out, &mut at);
    sheet(r.pick(&[1.0, 2.0, 0.5, 10.0, 0.0]), points)
}

/// Positions on one line, on few spots, or on a lattice with rows drawn together.
pub fn degenerate(r: &mut Random) -> Sheet {
    let form = r.below(5);
    let (a, b) = (r.whole(-3, 3) as f32, r.whole(-3, 3) as f32);
    let mut at = |r: &mut Random, u: i32, v: i32| {
        let (x, y) = (10.0 * u as f32, 10.0 * v as f32);
        match form {
            0 => (x, 0.0),
            1 => (a * (x + y), b * (x + y)),
            2 => (10.0 * r.whole(0, 1) as f32, 10.0 * r.whole(0, 1) as f32),
            3 => (x, 10.0 * (v / 2) as f32),
            _ => (x - x % 20.0, y + a),
        }
    };
    let points = block(r, (5, 5), 8, &mut at);
    sheet(10.0, points)
}

/// Positions of the smallest magnitudes, zeros of either sign among them.
pub fn tiny(r: &mut Random) -> Sheet {
    let unit = r.pick(&[
        1e-45, 3e-42, 1e-40, 1e-38, 1e-30, 1e-23, 1e-19, 1e-13, 1e-12, 1e-7, 1e-6,
    ]);
    let mixed = r.one_in(3);
    let mut at = |r: &mut Random, u: i32, v: i32| {
        let mut part = |k: i32| match r.below(8) {
            0 => r.pick(&[0.0, -0.0]),
            1 if mixed => unit * 1e6 * k as f32,
            2 => unit * r.whole(-3, 3) as f32,
            3 => -unit * k as f32,
            _ => unit * k as f32,
        };
        (part(u), part(v))
    };
    let points = block(r, (5, 5), 8, &mut at);
    let cell_size = r.pick(&[unit, unit * 5.0, 1.0, 0.0, 100.0]);
    sheet(cell_size, points)
}

/// Points joined by sides along the axes of the plane, many of them at right angles.
pub fn perpendicular(r: &mut Random) -> Sheet {
    let mut at =
        |r: &mut Random, _: i32, _: i32| (r.whole(0, 2) as f32 * 10.0, r.whole(0, 2) as f32 * 10.0);
    let mut points = block(r, (3, 3), 1000, &mut at);
    if r.one_in(2) {
        // A corner with its four neighbours, a turn at it along either axis.
        let turn = |r: &mut Random| {
            let (a, b) = (r.pick(&[-10.0, 10.0]), r.pick(&[-10.0, 10.0]));
            if r.one_in(2) {
                [(-a, 0.0), (0.0, b)]
            } else {
                [(0.0, -b), (a, 0.0)]
            }
        };
        let [left, right] = turn(r);
        let [up, down] = turn(r);
        let cells = [
            (0, 1, left),
            (2, 1, right),
            (1, 0, up),
            (1, 2, down),
            (1, 1, (0.0, 0.0)),
        ];
        let point =
            |(k, (u, v, (x, y))): (usize, (i32, i32, (f32, f32)))| Point::new(u, v, k as u32, x, y);
        points = cells.into_iter().enumerate().map(point).collect();
    }
    let mut s = sheet(10.0, points);
    let floats = [
        r.pick(&[0.0, -0.0, 0.5, -1.0]),
        1.5,
        r.pick(&[0.0, -0.0, 0.5, -1.0]),
        1.5,
    ];
    s.gate = Some(Gate {
        minimum_degree: r.pick(&[0, 1, 2]),
        floats,
    });
    s
}

/// Three or four points of a row at whole positions, bent at will.
pub fn bent(r: &mut Random) -> Sheet {
    let mut points = Vec::new();
    for k in 0..r.pick(&[3, 3, 4]) {
        let (x, y) = (r.whole(-20, 20) as f32, r.whole(-20, 20) as f32);
        points.push(Point::new(k, 0, k as u32, x, y));
    }
    sheet(1.0, points)
}

/// One or two rows or columns, their edges in a few lengths about the limits of 1.5 and 1.6.
pub fn rows(r: &mut Random) -> Sheet {
    let (length, count) = (r.whole(4, 14), r.pick(&[1, 1, 2, 3]));
    let factors: &[f32] = r.pick(&[
        &[1.0, 1.0, 1.0, 1.5, 1.6, 1.55, 1.7][..],
        &[1.0, 1.0, 1.0, 1.0, 1.0, 1.0, 1.6, 1.5, 1.3, 1.25],
        &[1.0, 1.3, 1.31, 0.9, 0.5],
    ]);
    let across = r.one_in(2);
    let gaps = r.one_in(4);
    let mut points: Vec<Point> = Vec::new();
    for row in 0..count {
        let mut x = 0.0;
        for k in 0..length {
            let (u, v, along, other) = (k, row, x, 100.0 * row as f32);
            let index = points.len() as u32;
            let p = Point::new(u, v, index, along, other);
            let turned = Point::new(v, u, index, other, along);
            if !(gaps && r.one_in(8)) {
                points.push(if across { turned } else { p });
            }
            x += 100.0 * r.pick(factors);
        }
    }
    sheet(100.0, points)
}

/// A block and a bent row apart from it, with a point of the block again beside the row.
pub fn shared(r: &mut Random) -> Sheet {
    let noise = r.pick(&[0.0, 0.1, 1.0, 20.0]);
    let mut at = |r: &mut Random, u: i32, v: i32| {
        (
            100.0 * u as f32 + r.between(-noise, noise),
            100.0 * v as f32,
        )
    };
    let mut points = block(r, (4, 4), 20, &mut at);
    let n = points.len();
    let (from, length) = (6 + r.whole(0, 2), r.whole(1, 4));
    for k in 0..length {
        let bend = r.pick(&[0.0, 0.0, 60.0, 200.0]);
        let (x, y) = (100.0 * (from + k) as f32, bend);
        points.push(Point::new(from + k, 0, points.len() as u32, x, y));
    }
    for _ in 0..r.whole(1, 5) {
        if n > 0 {
            let one = points[r.below(n)];
            points.push(Point {
                u: from + r.whole(-1, length),
                v: r.whole(0, 2),
                ..one
            });
        }
    }
    let mut s = sheet(r.pick(&[100.0, 100.0, 0.0]), points);
    s.settings.rest = Some(Rest {
        wrong_label: u8::from(r.one_in(4)),
        line_tolerance: r.pick(&[0.15, 1.0, 100.0]),
        line_minimum: r.pick(&[2, 3, 3, 4]),
        local_tolerance: r.pick(&[0.0, 1e-6, 0.2, 100.0]),
        ..Rest::with_three()
    });
    s
}

/// Three points of which only two have a step, one twice the other, and a line that rounding
/// flags.
pub fn two_steps(r: &mut Random) -> Sheet {
    let (x, y) = (r.between(-50.0, 50.0), r.between(-50.0, 50.0));
    let (dx, dy) = (r.between(1.0, 50.0), r.between(1.0, 50.0));
    let cells = [(0, 0, x, y), (0, 1, x, y), (1, 0, x + dx, y + dy)];
    let point = |(k, (u, v, x, y)): (usize, (i32, i32, f32, f32))| Point::new(u, v, k as u32, x, y);
    let mut s = sheet(dx, cells.into_iter().enumerate().map(point).collect());
    s.settings.rest = Some(Rest {
        line_tolerance: 0.0,
        line_minimum: 2,
        step_flag: 1,
        step_threshold: r.pick(&[0.25, 0.5, 2.0]),
        ..Rest::with_three()
    });
    s
}
