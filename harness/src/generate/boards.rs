//! Boards seen in perspective, whole or in several patches.

use crate::random::Random;
use crate::second::MAX_POINTS;
use crate::shapes::SIDE;
use crate::sheet::{Point, Settings, Sheet, Strengths};

/// A map from cells to positions that a camera might give.
struct View {
    cell: f32,
    along_u: (f32, f32),
    along_v: (f32, f32),
    weight: (f32, f32),
    origin: (f32, f32),
    whole: bool,
}

impl View {
    fn new(r: &mut Random, width: i32, height: i32) -> View {
        let size = width.max(height) as f32;
        let cell = if r.one_in(3) {
            100.0
        } else {
            r.between(5.0, 300.0)
        };
        let cell = cell.min(8000.0 / size);
        let straight = r.one_in(3);
        let lean = |r: &mut Random| if straight { 0.0 } else { r.between(-0.3, 0.3) };
        let weight = if straight { 0.0 } else { 0.3 / size };
        View {
            cell,
            along_u: (cell, cell * lean(r)),
            along_v: (cell * lean(r), cell),
            weight: (r.between(-weight, weight), r.between(-weight, weight)),
            origin: if straight {
                (0.0, 0.0)
            } else {
                (r.between(-99.0, 999.0), 50.0)
            },
            whole: straight && r.one_in(2) || r.one_in(6),
        }
    }

    fn at(&self, i: f32, j: f32) -> (f32, f32) {
        let w = 1.0 + self.weight.0 * i + self.weight.1 * j;
        let x = (self.along_u.0 * i + self.along_v.0 * j + self.origin.0) / w;
        let y = (self.along_u.1 * i + self.along_v.1 * j + self.origin.1) / w;
        if self.whole {
            (x.round(), y.round())
        } else {
            (x, y)
        }
    }
}

/// A board of width by height cells from (0,0), indices rising.
pub fn board(r: &mut Random, width: i32, height: i32) -> Sheet {
    let view = View::new(r, width, height);
    let mut points = Vec::new();
    for u in 0..width {
        for v in 0..height {
            let (x, y) = view.at(u as f32, v as f32);
            points.push(Point::new(u, v, points.len() as u32, x, y));
        }
    }
    Sheet {
        settings: Settings {
            cell_size: view.cell,
            rest: None,
        },
        gate: None,
        points,
        strengths: Strengths::Missing,
    }
}

pub fn clean(r: &mut Random) -> Sheet {
    let most = if r.one_in(40) { 20 } else { 8 };
    let (width, height) = (r.whole(1, most), r.whole(1, most));
    board(r, width, height)
}

/// A board with or without holes, for the changes of other kinds.
pub fn varied(r: &mut Random) -> Sheet {
    let mut s = clean(r);
    if r.one_in(3) {
        super::changes::remove_some(r, &mut s);
    }
    s
}

pub fn large(r: &mut Random) -> Sheet {
    match r.below(40) {
        0 => board(r, SIDE, SIDE),
        1 => full(r),
        2 => board(r, 1, MAX_POINTS as i32),
        _ => {
            let (width, height) = (r.whole(6, 16), r.whole(6, 16));
            let mut s = board(r, width, height);
            super::changes::any(r, &mut s);
            s
        }
    }
}

/// A board of the most points.
pub fn full(r: &mut Random) -> Sheet {
    let mut s = board(r, (MAX_POINTS as i32 - 1) / SIDE + 1, SIDE);
    s.points.truncate(MAX_POINTS);
    s
}

/// Blocks of a board with gaps between them, some of one size.
pub fn patches(r: &mut Random) -> Sheet {
    let count = r.whole(2, 5);
    let (width, height) = (r.whole(1, 4), r.whole(1, 4));
    let same = r.one_in(2);
    let mut s = board(r, 24, 5);
    let mut spans = Vec::new();
    let mut start = 0;
    for _ in 0..count {
        let (w, h) = if same {
            (width, height)
        } else {
            (r.whole(1, 4), r.whole(1, 5))
        };
        spans.push((start, start + w, h));
        // No gap at times, and at times cells that touch by a corner only.
        start += w + r.pick(&[1, 1, 1, 2, 0]);
    }
    let corners_only = r.one_in(3);
    s.points.retain(|p| {
        spans.iter().enumerate().any(|(k, &(from, to, h))| {
            let low = if corners_only && k % 2 == 1 { 5 - h } else { 0 };
            (from..to).contains(&p.u) && (low..low + h).contains(&p.v)
        })
    });
    s
}
