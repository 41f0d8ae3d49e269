//! Changes to a board that bring the filters into play.

use crate::random::Random;
use crate::sheet::{Point, Sheet};
use std::collections::{BTreeSet, HashMap, HashSet};

/// One of the changes.
pub fn any(r: &mut Random, s: &mut Sheet) {
    let change = r.pick(&[
        noise as fn(&mut Random, &mut Sheet),
        too_far,
        remove_some,
        mirror,
        repeat_indices,
        ragged,
        close,
        turn,
        stretch,
    ]);
    change(r, s);
}

fn some_point<'a>(r: &mut Random, s: &'a mut Sheet) -> Option<&'a mut Point> {
    let n = s.points.len();
    if n == 0 {
        return None;
    }
    s.points.get_mut(r.below(n))
}

/// Noise on all points or a large displacement of a few.
pub fn noise(r: &mut Random, s: &mut Sheet) {
    let size = s.settings.cell_size.abs();
    if r.one_in(2) {
        let amount = size * r.pick(&[0.001, 0.01, 0.05, 0.1, 0.2]);
        for p in &mut s.points {
            p.x += r.between(-amount, amount);
            p.y += r.between(-amount, amount);
        }
    } else {
        for _ in 0..r.whole(1, 3) {
            let (dx, dy) = (r.between(-0.8, 0.8), r.between(-0.8, 0.8));
            if let Some(p) = some_point(r, s) {
                p.x += size * dx;
                p.y += size * dy;
            }
        }
    }
}

/// Labels moved one cell: all beyond some row or column, or single corners.
pub fn too_far(r: &mut Random, s: &mut Sheet) {
    let Some(&mut Point { u, v, .. }) = some_point(r, s) else {
        return;
    };
    match r.below(4) {
        0 => s
            .points
            .iter_mut()
            .filter(|p| p.u > u)
            .for_each(|p| p.u += 1),
        1 => s
            .points
            .iter_mut()
            .filter(|p| p.v > v)
            .for_each(|p| p.v += 1),
        2 => s
            .points
            .iter_mut()
            .filter(|p| p.v == v && p.u >= u)
            .for_each(|p| p.u += 1),
        _ => {
            let (du, dv) = (r.whole(-1, 1), r.whole(-1, 1));
            s.points.retain(|p| (p.u, p.v) != (u + du, v + dv));
            if let Some(p) = s.points.iter_mut().find(|p| (p.u, p.v) == (u, v)) {
                p.u += du;
                p.v += dv;
            }
        }
    }
}

pub fn remove_some(r: &mut Random, s: &mut Sheet) {
    let one_in = r.pick(&[2, 4, 8, 20]);
    s.points.retain(|_| !r.one_in(one_in));
}

/// A block beyond some column reflected, or the two halves exchanged in sign exactly.
pub fn mirror(r: &mut Random, s: &mut Sheet) {
    let Some(&mut Point { u, v, x, y, .. }) = some_point(r, s) else {
        return;
    };
    match r.below(4) {
        0 => s
            .points
            .iter_mut()
            .filter(|p| p.u > u)
            .for_each(|p| p.y = y + y - p.y),
        1 => s
            .points
            .iter_mut()
            .filter(|p| p.v > v)
            .for_each(|p| p.x = x + x - p.x),
        2 => {
            // A copy of the board, reflected, beside it: as many votes on either side.
            let width = s.points.iter().map(|p| p.u).max().unwrap_or(0) + r.whole(1, 2);
            let first = s.points.len() as u32;
            let copy = s.points.iter().map(|p| Point {
                u: p.u + width,
                index: p.index.wrapping_add(first),
                y: -p.y - 10.0,
                ..*p
            });
            let copies: Vec<Point> = copy.collect();
            s.points.extend(copies);
        }
        _ => {
            if let Some(p) = some_point(r, s) {
                (p.x, p.y) = (p.y, p.x);
            }
        }
    }
}

/// Some points take the index and the position of another.
pub fn repeat_indices(r: &mut Random, s: &mut Sheet) {
    let n = s.points.len();
    if n == 0 {
        return;
    }
    let near = r.one_in(2);
    for _ in 0..r.whole(1, 4) {
        let from = s.points[r.below(n)];
        let close = |p: &Point| (p.u - from.u).abs() <= 2 && (p.v - from.v).abs() <= 2;
        let to: Vec<usize> = (0..n).filter(|&k| !near || close(&s.points[k])).collect();
        let p = &mut s.points[r.pick(&to)];
        (p.index, p.x, p.y) = (from.index, from.x, from.y);
    }
}

/// Rows of uneven length whose outermost points are pushed outward.
pub fn ragged(r: &mut Random, s: &mut Sheet) {
    let first = s.points.iter().map(|p| p.u).min().unwrap_or(0);
    let last = s.points.iter().map(|p| p.u).max().unwrap_or(0);
    let rows: BTreeSet<i32> = s.points.iter().map(|p| p.v).collect();
    let mut end = || r.whole(0, 1 + (last - first) / 3);
    let ends: HashMap<i32, (i32, i32)> = rows
        .into_iter()
        .map(|v| (v, (first + end(), last - end())))
        .collect();
    s.points
        .retain(|p| (ends[&p.v].0..=ends[&p.v].1).contains(&p.u));
    let size = s.settings.cell_size;
    for p in &mut s.points {
        let (first, last) = ends[&p.v];
        if (p.u == first || p.u == last) && r.one_in(2) {
            let out = size * r.pick(&[0.25, 0.29, 0.3, 0.31, 0.4, 0.5, 0.6, 1.0, -0.4]);
            p.x += if p.u == first { -out } else { out };
        }
    }
}

/// Points on one spot, or at and beside 0.2 cell sizes.
pub fn close(r: &mut Random, s: &mut Sheet) {
    let limit = 0.2 * s.settings.cell_size;
    for _ in 0..r.whole(1, 3) {
        let Some(&mut Point { x, y, .. }) = some_point(r, s) else {
            return;
        };
        let apart = r.pick(&[0.0, limit, limit.next_down(), limit.next_up(), limit * 0.7]);
        if let Some(p) = some_point(r, s) {
            (p.x, p.y) = if r.one_in(2) {
                (x + apart, y)
            } else {
                (x, y - apart)
            };
        }
    }
}

/// A point turned about its neighbour by some 30 degrees, or any angle.
pub fn turn(r: &mut Random, s: &mut Sheet) {
    for _ in 0..r.whole(1, 3) {
        let Some(&mut Point { u, v, x, y, .. }) = some_point(r, s) else {
            return;
        };
        let angle = if r.one_in(3) {
            r.between(0.0, 6.3)
        } else {
            r.between(0.50, 0.55)
        };
        let angle = if r.one_in(2) { angle } else { -angle };
        if let Some(p) = s.points.iter_mut().find(|p| (p.u, p.v) == (u + 1, v)) {
            let (dx, dy) = (p.x - x, p.y - y);
            p.x = x + dx * angle.cos() - dy * angle.sin();
            p.y = y + dx * angle.sin() + dy * angle.cos();
        }
    }
}

/// Uneven spacing: each coordinate drawn out with the cell, and a few single points off.
pub fn stretch(r: &mut Random, s: &mut Sheet) {
    let (a, b) = (r.between(0.0, 0.2), r.between(0.0, 0.2));
    for p in &mut s.points {
        p.x *= 1.0 + a * p.u as f32 * 0.1;
        p.y *= 1.0 + b * p.v as f32 * 0.1;
    }
    noise(r, s);
}

/// The board moved so that a corner of its box is at or beside a limit.
pub fn far_cells(r: &mut Random, s: &mut Sheet) {
    let (us, vs) = (|p: &Point| p.u, |p: &Point| p.v);
    let low = |f: fn(&Point) -> i32| s.points.iter().map(f).min().unwrap_or(0);
    let high = |f: fn(&Point) -> i32| s.points.iter().map(f).max().unwrap_or(0);
    let mut move_by = |low: i32, high: i32| match r.below(3) {
        0 => -8000 - low,
        1 => 8000 - high,
        _ => r.whole(-8000 - low, 8000 - high),
    };
    let du = move_by(low(us), high(us));
    let dv = move_by(low(vs), high(vs));
    for p in &mut s.points {
        p.u += du;
        p.v += dv;
    }
}

/// Makes the sheet one that is accepted: one point a cell, bounded positions, equal bits for
/// an index; then other indices, another origin and another order.
pub fn settle(r: &mut Random, s: &mut Sheet) {
    let mut cells = HashSet::new();
    let in_range = |p: &Point| p.u.abs() <= 8000 && p.v.abs() <= 8000;
    s.points.retain(|p| in_range(p) && cells.insert((p.u, p.v)));
    s.points.truncate(crate::second::MAX_POINTS);
    let bound = |f: f32| {
        if f.is_finite() {
            f.clamp(-16384.0, 16384.0)
        } else {
            0.0
        }
    };
    s.settings.cell_size = bound(s.settings.cell_size);
    let mut first: HashMap<u32, (f32, f32)> = HashMap::new();
    for p in &mut s.points {
        (p.x, p.y) = *first.entry(p.index).or_insert((bound(p.x), bound(p.y)));
    }
    relabel(r, s);
    let small = s
        .points
        .iter()
        .all(|p| p.u.abs() < 3000 && p.v.abs() < 3000);
    if small && r.one_in(2) {
        let most = r.pick(&[5, 5, 100, 4000]);
        let (du, dv) = (r.whole(-most, most), r.whole(-most, most));
        s.points
            .iter_mut()
            .for_each(|p| (p.u, p.v) = (p.u + du, p.v + dv));
    }
    if !r.one_in(4) {
        r.shuffle(&mut s.points);
    }
}

/// Indices in another order, with gaps, or to the end of their range.
fn relabel(r: &mut Random, s: &mut Sheet) {
    let (factor, offset) = match r.below(4) {
        0 => (1, 0),
        1 => (u32::MAX, 0),
        2 => (2_654_435_761, r.bits() as u32),
        _ => (7, r.below(1000) as u32),
    };
    for p in &mut s.points {
        p.index = p.index.wrapping_mul(factor).wrapping_add(offset);
    }
}
