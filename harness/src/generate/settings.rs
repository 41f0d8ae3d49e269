//! Settings and gates.

use crate::random::Random;
use crate::sheet::{Gate, Rest, Sheet};

/// Floats at and beside limits, of either sign.
const EXTREME: [f32; 16] = [
    0.0, -0.0, 1.0, -1.0, 16384.0, -16384.0, 16383.999, 1e-45, -1e-45, 1e-38, 1e-30, 1e-20, 1e-12,
    1e-6, 0.5, 1000.0,
];

fn rest(s: &mut Sheet) -> &mut Rest {
    s.settings.rest.get_or_insert_with(Rest::with_three)
}

/// A tolerance in use, or one so small that rounding decides.
fn tolerance(r: &mut Random) -> f32 {
    if r.one_in(2) {
        r.between(0.0, 0.4)
    } else {
        r.pick(&[0.0, 1e-7, 1e-6, 1e-5, -0.1])
    }
}

/// The full form with some fields other than the defaults.
pub fn varied(r: &mut Random, s: &mut Sheet) {
    let cell = s.settings.cell_size;
    let rest = rest(s);
    match r.below(7) {
        0 => rest.line_tolerance = tolerance(r),
        1 => rest.line_minimum = r.pick(&[0, 1, 2, 3, 4, 5, 6, 7, 65535]),
        2 => rest.local_tolerance = tolerance(r),
        3 => rest.step_flag = 1,
        4 => rest.wrong_label = 0,
        5 => rest.largest_patch = 0,
        _ => s.settings.cell_size = cell * r.pick(&[0.0, -1.0, 0.5, 2.0, 0.1]),
    }
}

/// Tolerances about the size of the rounding errors.
pub fn rounding(r: &mut Random, s: &mut Sheet) {
    let rest = rest(s);
    rest.line_tolerance = r.pick(&[0.0, 1e-8, 1e-7, 3e-7, 1e-6]);
    rest.local_tolerance = r.pick(&[0.0, 0.0, 1e-7, 1e-6, 1e-5]);
    rest.line_minimum = r.pick(&[2, 3, 3, 4]);
}

pub fn steps(r: &mut Random, s: &mut Sheet) {
    s.settings.cell_size *= r.pick(&[1.0, 1.0, 10.0, 0.1]);
    let rest = rest(s);
    rest.step_flag = 1;
    rest.local_tolerance = r.pick(&[0.2, 0.2, 0.1, 0.03]);
    rest.step_threshold = r.pick(&[0.0, -1.0, 0.05, 0.1, 0.25, 0.5, 1.0, 16384.0, -0.5]);
    rest.line_tolerance = r.pick(&[0.15, 0.05, 0.01, 0.0]);
    rest.line_minimum = r.pick(&[2, 3, 3, 4]);
}

pub fn extreme(r: &mut Random, s: &mut Sheet) {
    if r.one_in(2) {
        s.settings.cell_size = r.pick(&EXTREME);
    }
    let rest = rest(s);
    for float in [
        &mut rest.line_tolerance,
        &mut rest.local_tolerance,
        &mut rest.step_threshold,
    ] {
        if r.one_in(2) {
            *float = r.pick(&EXTREME);
        }
    }
    rest.line_minimum = r.pick(&[0, 1, 2, 3, 4, 5, 6, 65535]);
    rest.step_flag = r.below(2) as u8;
    rest.wrong_label = u8::from(!r.one_in(4));
    rest.largest_patch = u8::from(!r.one_in(4));
    if r.one_in(3) {
        let floats = [(); 4].map(|()| r.pick(&EXTREME));
        s.gate = Some(Gate {
            minimum_degree: r.pick(&[0, 1, 2, 5, 255]),
            floats,
        });
    }
}

fn cosine(r: &mut Random) -> f32 {
    match r.below(8) {
        0 => r.pick(&[1.0, -1.0, 0.0, -0.0, 0.6, 0.8]),
        1 => r.pick(&[1.0000001, 2.0, 16384.0]),
        2 => r.pick(&[-1.0000001, -2.0, -16384.0]),
        3 => r.between(-1.0, 1.0),
        4 => 1.0 - r.unit() * 1e-5,
        // Eight degrees, the default.
        5 => 16_613_942.0 / 16_777_216.0,
        _ => r.between(0.9, 1.0),
    }
}

fn ratio(r: &mut Random) -> f32 {
    match r.below(4) {
        0 => r.pick(&[0.0, 1.0, -1.0, 16384.0]),
        1 => r.pick(&[1.18, 1.10]),
        _ => r.between(1.0, 1.5),
    }
}

pub fn gate(r: &mut Random, s: &mut Sheet) {
    s.gate = Some(Gate {
        minimum_degree: r.pick(&[0, 1, 2, 2, 3, 4, 5]),
        floats: [cosine(r), ratio(r), cosine(r), ratio(r)],
    });
}

/// The cosine of the angle between two sides, as anyone would compute it.
fn between(a: (f32, f32), b: (f32, f32)) -> (f32, f32) {
    let length = |v: (f32, f32)| (v.0 * v.0 + v.1 * v.1).sqrt();
    let (an, bn) = (length(a), length(b));
    ((a.0 * b.0 + a.1 * b.1) / (an * bn), an.max(bn) / an.min(bn))
}

/// A float or one of its neighbours.
fn beside(r: &mut Random, float: f32) -> f32 {
    match r.below(4) {
        0 => float.next_up(),
        1 => float.next_down(),
        _ => float,
    }
}

/// A gate whose limits lie at or beside the figures of some corner.
pub fn gate_at_limit(r: &mut Random, s: &mut Sheet) {
    gate(r, s);
    let at = |u: i32, v: i32| {
        s.points
            .iter()
            .find(|p| (p.u, p.v) == (u, v))
            .map(|p| (p.x, p.y))
    };
    let side = |a: (f32, f32), b: (f32, f32)| (b.0 - a.0, b.1 - a.1);
    let mut floats = s.gate.as_ref().unwrap().floats;
    for _ in 0..10 {
        if s.points.is_empty() {
            break;
        }
        let p = s.points[r.below(s.points.len())];
        let (du, dv) = r.pick(&[(1, 0), (0, 1)]);
        let here = (p.x, p.y);
        if let (Some(before), Some(after)) = (at(p.u - du, p.v - dv), at(p.u + du, p.v + dv)) {
            let (c, q) = between(side(before, here), side(here, after));
            floats[0] = beside(r, c);
            floats[1] = beside(r, q);
        }
        let cell = (
            at(p.u + du, p.v + dv),
            at(p.u + dv, p.v + du),
            at(p.u + 1, p.v + 1),
        );
        if let (Some(along), Some(across), Some(far)) = cell {
            let (c, q) = between(side(here, along), side(across, far));
            floats[2] = beside(r, c);
            floats[3] = beside(r, q);
        }
    }
    let usable = |f: f32| {
        if f.is_finite() && f.abs() <= 16384.0 {
            f
        } else {
            1.0
        }
    };
    s.gate.as_mut().unwrap().floats = floats.map(usable);
}
