//! Sheets with dropped points of every pattern, by every filter: boards that are smudged, and sheets of
//! which just the chosen cells are dropped, whatever the positions of the others.

use super::{accepted, boards, changes, damage, peels, Case, Expected, Kind};
use crate::random::Random;
use crate::second::{FILL, MAX_POINTS, ROW};
use crate::shapes::{any_bits, SIDE};
use crate::sheet::{Gate, Point, Rest, Sheet, Strengths};
use std::collections::{HashMap, HashSet};

type Cell = (i32, i32);

/// Cells of a block: one, the middle, some of the rim, the corners, two or three side by side, every
/// other one as on a chessboard, every other column or row, or some at random.
fn pattern(r: &mut Random, width: i32, height: i32) -> HashSet<Cell> {
    let (u, v) = (r.whole(0, width - 1), r.whole(0, height - 1));
    let (even, apart, way) = (r.whole(0, 1), r.pick(&[2, 3, 5, 8]), r.below(9));
    let middle = (width / 2, height / 2);
    let beside = [(u, v), (u + 1, v), (u, v + r.whole(0, 1))];
    let chosen = |&(a, b): &Cell| {
        let (end_u, end_v) = (a == 0 || a == width - 1, b == 0 || b == height - 1);
        match way {
            0 => (a, b) == (u, v),
            1 => (a, b) == middle,
            2 => (end_u || end_v) && r.one_in(apart),
            3 => end_u && end_v,
            4 => beside.contains(&(a, b)),
            5 => (a + b) % 2 == even,
            6 => a % 2 == even,
            7 => b % 2 == even,
            _ => r.one_in(apart),
        }
    };
    let all = (0..width).flat_map(|u| (0..height).map(move |v| (u, v)));
    all.filter(chosen).collect()
}

/// Moves the chosen points by some part of a cell, or onto others.
fn smudge(r: &mut Random, s: &mut Sheet, chosen: &HashSet<Cell>) {
    let size = s.settings.cell_size;
    let onto = s.points[r.below(s.points.len())];
    let (most, close) = (r.pick(&[0.3, 0.5, 0.9, 3.0]), r.one_in(5));
    let hit = s.points.iter_mut().filter(|p| chosen.contains(&(p.u, p.v)));
    for p in hit {
        if close {
            (p.x, p.y) = (onto.x + size * r.between(0.0, 0.1), onto.y);
        } else {
            p.x += size * r.between(-most, most);
            p.y += size * r.between(-most, most);
        }
    }
}

/// The indices of the points that are to be dropped begin here.
const DROPPED: u32 = 1 << 20;

/// Gives the chosen points indices that also stand apart from all others: one for all of them, a few, or
/// one each, if as many points are left. The points apart come first, their cells last.
fn stand_apart(r: &mut Random, s: &mut Sheet, chosen: &HashSet<Cell>, own: bool) {
    let places: Vec<usize> = (0..s.points.len())
        .filter(|k| chosen.contains(&(s.points[*k].u, s.points[*k].v)))
        .collect();
    let few = match own {
        true => places.len(),
        false => places.len().min(r.whole(1, 3) as usize),
    };
    let few = few.min(MAX_POINTS - s.points.len().min(MAX_POINTS));
    if few == 0 {
        return;
    }
    let end = |value: fn(&Point) -> i32| s.points.iter().map(value).max().unwrap_or(0) + 3;
    let (end_u, end_v) = (end(|p| p.u), end(|p| p.v));
    let column = s.points.iter().all(|p| p.u == end_u - 3);
    let mut apart: Vec<Point> = Vec::new();
    for (k, place) in places.into_iter().enumerate() {
        let group = k % few;
        s.points[place].index = DROPPED + group as u32;
        if k == group {
            let k = 2 * k as i32;
            let (u, v) = match column {
                true => (end_u - 3, end_v + k),
                false => (end_u + k / 40 * 2, k % 40),
            };
            let from = s.points[place];
            apart.push(Point { u, v, ..from });
        }
    }
    s.points.splice(0..0, apart);
}

/// Nothing marks a point by its place.
fn lenient(largest_patch: u8) -> Rest {
    Rest {
        line_minimum: u16::MAX,
        wrong_label: 0,
        largest_patch,
        ..Rest::with_three()
    }
}

/// Makes the points that are to be dropped weak, and no others. If they are most of all points the median is
/// their strength.
fn weaken(s: &mut Sheet) {
    let weak = s.points.iter().filter(|p| p.index >= DROPPED).count();
    for p in &mut s.points {
        p.strength = if p.index >= DROPPED { 0.25 } else { 1.0 };
    }
    let most = s.points.len() / 2 < weak;
    s.strengths = Strengths::Given(if most { 2.0 } else { 0.5 });
}

/// Drops just the chosen cells, by one filter of three: their indices have a point in another patch, or one
/// that is a weak end, or, as their last one, one that has too few neighbours.
fn drop_just(r: &mut Random, s: &mut Sheet, chosen: &HashSet<Cell>, own: bool) {
    stand_apart(r, s, chosen, own);
    s.settings.rest = Some(lenient(1));
    // Sides of no length would fail the gate.
    let near = |p: &Point| p.x.abs() < 1e-6 && p.y.abs() < 1e-6;
    let ways = if s.points.iter().all(near) { 2 } else { 3 };
    match r.below(ways) {
        0 => {}
        1 => {
            weaken(s);
            s.settings.rest = Some(lenient(r.whole(0, 1) as u8));
        }
        _ => {
            s.gate = Some(Gate {
                minimum_degree: 1,
                floats: [-2.0, 16384.0, -2.0, 16384.0],
            });
            s.settings.rest = Some(lenient(r.whole(0, 1) as u8));
        }
    }
}

/// A zero of either sign, or one of the two least numbers, most of them negative.
fn least(r: &mut Random) -> f32 {
    f32::from_bits(r.pick(&[0, 0, 1, 2]) | r.pick(&[0, 0x8000_0000, 0x8000_0000]))
}

/// The same, or another number whose half or whose sum may be subnormal.
fn tiny(r: &mut Random) -> f32 {
    let sign = r.pick(&[0, 0x8000_0000]);
    let bits = match r.below(8) {
        0..4 => r.below(7) as u32,
        4 | 5 => 0,
        6 => 0x0080_0000 - 3 + r.below(6) as u32,
        _ => r.below(0x0100_0000) as u32,
    };
    f32::from_bits(bits | sign)
}

/// A number at or beside the largest that a position may have.
fn outermost(r: &mut Random) -> f32 {
    r.pick(&[
        16384.0, 16384.0, 16384.0, -16384.0, 16383.999, -16383.999, 16383.998, 8192.0, 8191.9995,
        0.0,
    ])
}

/// A number of any size, or of one size with all its digits.
fn uneven(r: &mut Random) -> f32 {
    match r.below(3) {
        0 => any_bits(r),
        1 => r.between(1.0, 2.0),
        _ => r.between(-16384.0, 16384.0),
    }
}

/// Lays the points on one line, where no cross product votes, each at a number drawn for it; at times
/// anywhere.
fn lay(r: &mut Random, s: &mut Sheet, number: fn(&mut Random) -> f32) {
    let (way, other) = (r.below(9), number(r));
    for p in &mut s.points {
        let x = number(r);
        (p.x, p.y) = match way {
            0 | 1 => (x, other),
            2 | 3 => (other, x),
            4 | 5 => (x, x),
            6 | 7 => (x, -x),
            _ => (x, number(r)),
        };
    }
}

/// A block's sides, mostly small.
fn sides(r: &mut Random) -> Cell {
    let most = r.pick(&[3, 3, 4, 5, 5, 9]);
    (r.whole(most - 2, most), r.whole(most - 2, most))
}

/// A board with some cells smudged.
fn smudged(r: &mut Random, (width, height): Cell) -> Sheet {
    let mut s = boards::board(r, width, height);
    let cells = pattern(r, width, height);
    smudge(r, &mut s, &cells);
    s
}

/// A block of which just some cells are dropped, at positions drawn from some numbers, or as on a board.
fn chosen(r: &mut Random, (width, height): Cell, number: Option<fn(&mut Random) -> f32>) -> Sheet {
    let mut s = boards::board(r, width, height);
    // Room for points apart.
    s.points.truncate(MAX_POINTS - 3);
    if let Some(number) = number {
        lay(r, &mut s, number);
    }
    let cells = pattern(r, width, height);
    drop_just(r, &mut s, &cells, number.is_none());
    s
}

/// The same with cells missing beside the dropped ones.
fn gaps(r: &mut Random) -> Sheet {
    let (width, height) = (r.whole(3, 7), r.whole(2, 7));
    let mut s = boards::board(r, width, height);
    let dropped = pattern(r, width, height);
    let mut missing = pattern(r, width, height);
    if let Some(&(u, v)) = dropped.iter().min() {
        missing.insert(r.pick(&[(u + 1, v), (u - 1, v), (u, v + 1), (u, v - 1)]));
    }
    s.points
        .retain(|p| !missing.contains(&(p.u, p.v)) || dropped.contains(&(p.u, p.v)));
    match r.below(3) {
        0 => smudge(r, &mut s, &dropped),
        way => {
            if way == 1 {
                lay(r, &mut s, uneven);
            }
            drop_just(r, &mut s, &dropped, way == 2);
        }
    }
    s
}

/// Repeated indices: of dropped points, as those of `drop_just` are, and of kept ones.
fn twice(r: &mut Random) -> Sheet {
    let size = sides(r);
    let mut s = chosen(r, size, Some(uneven));
    let kept = |p: &&mut Point| p.index < DROPPED;
    let few = r.whole(1, 4) as u32;
    let some = r.pick(&[1, 2, 4]);
    for p in s.points.iter_mut().filter(kept) {
        if r.one_in(some) {
            p.index %= few;
        }
    }
    if r.one_in(3) {
        changes::repeat_indices(r, &mut s);
    }
    s
}

/// Points that the filters drop as they come, on boards, patches and mirrored blocks, or by strengths.
fn letters(r: &mut Random) -> Sheet {
    if r.one_in(3) {
        let kind = r.pick(&[
            Kind::Weighed,
            Kind::Weighed,
            Kind::Ends,
            Kind::Combs,
            Kind::Rings,
        ]);
        return peels::weighed(kind, r);
    }
    let mut s = match r.below(3) {
        0 => boards::patches(r),
        _ => boards::varied(r),
    };
    for _ in 0..r.whole(1, 2) {
        changes::any(r, &mut s);
    }
    if r.one_in(3) {
        let (wrong_label, largest_patch) = r.pick(&[(0, 0), (0, 1), (1, 0)]);
        s.settings.rest = Some(Rest {
            wrong_label,
            largest_patch,
            ..Rest::with_three()
        });
    }
    s
}

/// A row or a column.
fn line(r: &mut Random) -> Sheet {
    let length = r.whole(1, 12);
    let size = r.pick(&[(length, 1), (1, length)]);
    match r.below(3) {
        0 => smudged(r, size),
        1 => chosen(r, size, None),
        _ => chosen(r, size, Some(uneven)),
    }
}

/// Many points, to the most of a sheet.
fn many(r: &mut Random) -> Sheet {
    let size = match r.below(150) {
        0 => (SIDE, SIDE),
        1 => (1, MAX_POINTS as i32),
        2..20 => (r.whole(15, 30), r.whole(15, 30)),
        _ => (r.whole(8, 15), r.whole(8, 15)),
    };
    match r.below(3) {
        0 => smudged(r, size),
        _ => chosen(r, size, Some(uneven)),
    }
}

/// A sheet of which nothing is dropped, or everything: by lines that flag all, by strengths, by closeness, or
/// since one index stands in two patches.
fn all_or_none(r: &mut Random) -> Sheet {
    let (width, height) = sides(r);
    let mut s = boards::board(r, width, height);
    match r.below(6) {
        0 => {
            s.settings.rest = Some(Rest {
                line_tolerance: -1.0,
                line_minimum: 1,
                ..Rest::with_three()
            });
        }
        1 => {
            s.points.retain(|p| p.v == 0);
            s.points.iter_mut().for_each(|p| p.strength = 1.0);
            s.strengths = Strengths::Given(2.0);
        }
        2 => s.settings.cell_size = 16384.0,
        3 => {
            let all = s.points.iter().map(|p| (p.u, p.v)).collect();
            drop_just(r, &mut s, &all, false);
        }
        4 => {
            lay(r, &mut s, uneven);
            s.settings.rest = Some(lenient(r.whole(0, 1) as u8));
        }
        _ => {}
    }
    s
}

/// An accepted sheet of a kind.
fn sheet(kind: Kind, r: &mut Random) -> Sheet {
    let size = sides(r);
    let mut s = match kind {
        Kind::Smudged => {
            let size = (r.whole(2, 9), r.whole(2, 9));
            let mut s = smudged(r, size);
            if r.one_in(4) {
                changes::remove_some(r, &mut s);
            }
            s
        }
        Kind::Gaps => gaps(r),
        Kind::Zeros => {
            let number = r.pick(&[tiny as fn(&mut Random) -> f32, least]);
            chosen(r, size, Some(number))
        }
        Kind::Outermost => chosen(r, size, Some(outermost)),
        Kind::Uneven => chosen(r, size, Some(uneven)),
        Kind::Twice => twice(r),
        Kind::Letters => letters(r),
        Kind::Lines => line(r),
        Kind::Many => many(r),
        Kind::AllOrNone => all_or_none(r),
        _ => chosen(r, size, None),
    };
    changes::settle(r, &mut s);
    let mut strengths = HashMap::new();
    for p in &mut s.points {
        p.strength = *strengths.entry(p.index).or_insert(p.strength);
    }
    s
}

/// A small sheet of two points or more, as it is or damaged, with a buffer about 20 or 28 bytes a point.
fn short_buffers(r: &mut Random, seed: u64) -> Case {
    let mut s = loop {
        let kind = r.pick(&[Kind::Smudged, Kind::Checkered, Kind::Uneven]);
        let mut s = sheet(kind, r);
        s.points.truncate(40);
        if s.points.len() >= 2 {
            break s;
        }
    };
    let mut chosen = vec![3];
    while r.one_in(3) {
        chosen.push(r.pick(&[4, 5, 6, 7, 8, 9]));
    }
    damage::in_order(&mut chosen);
    damage::put_in(r, &mut s, &chosen);
    let points = s.points.len();
    let (fills, rows) = (FILL * points, ROW * points);
    Case {
        kind: Kind::ShortBuffers,
        seed,
        buffer: r.pick(&[
            0,
            FILL,
            fills / 2,
            fills - 1,
            fills - 1,
            fills,
            fills + 1,
            rows - 1,
        ]),
        file: s.to_file(),
        expected: Expected::Refused(3),
        map: damage::map_number(&s, &chosen),
    }
}

/// The case of one of these kinds.
pub fn case(kind: Kind, r: &mut Random, seed: u64) -> Case {
    match kind {
        Kind::ShortBuffers => short_buffers(r, seed),
        _ => {
            let s = sheet(kind, r);
            accepted(kind, r, seed, &s)
        }
    }
}
