//! Sheets for the map: spans at its limits, holes, full lines, points with several marks.

use super::{accepted, boards, changes, damage, settings, Case, Expected, Kind};
use crate::random::Random;
use crate::second::MAX_POINTS;
use crate::sheet::{Point, Rest, Sheet};
use std::collections::HashSet;

/// The most values of u and of v on a map.
const WIDTH: i32 = 72;
const HEIGHT: i32 = 60;

/// What the map of an accepted sheet must be: drawn, or refused with 10.
pub fn expected(s: &Sheet) -> Expected {
    let beyond = |value: fn(&Point) -> i32, most: i32| {
        let high = s.points.iter().map(value).max();
        s.points.iter().any(|p| value(p) <= high.unwrap() - most)
    };
    if beyond(|p| p.u, WIDTH) || beyond(|p| p.v, HEIGHT) {
        Expected::Refused(10)
    } else {
        Expected::Accepted
    }
}

/// Values at and beside a limit, most of them within it.
fn span(r: &mut Random, limit: i32) -> i32 {
    match r.below(8) {
        0 => limit + 1,
        1 => limit - 1,
        2..5 => limit,
        _ => r.whole(1, limit),
    }
}

/// A few cells of a board or many, one at each end of both spans among them; at times none or one.
fn spread(r: &mut Random) -> Sheet {
    let (width, height) = (span(r, WIDTH), span(r, HEIGHT));
    let mut s = boards::board(r, width, height);
    let (u, v) = (width - 1, height - 1);
    let mut cells = HashSet::from([(0, r.whole(0, v)), (u, r.whole(0, v))]);
    cells.extend([(r.whole(0, u), 0), (r.whole(0, u), v)]);
    let most = r.pick(&[0, 0, 3, 10, 40, 40, 150, 150, 600, 1900]);
    for _ in 0..r.below(most + 1) {
        cells.insert((r.whole(0, u), r.whole(0, v)));
    }
    s.points.retain(|p| cells.contains(&(p.u, p.v)));
    match r.below(24) {
        0 => s.points.clear(),
        1 => s.points.truncate(1),
        _ => {}
    }
    s
}

/// Some rows and columns of a board, the outermost among them.
fn holes(r: &mut Random) -> Sheet {
    let (width, height) = (span(r, WIDTH), span(r, HEIGHT));
    let mut s = boards::board(r, width, height);
    let mut some = |count: i32| {
        let one_in = r.pick(&[2, 3, 10]);
        let mut taken: HashSet<i32> = (0..count).filter(|_| r.one_in(one_in)).collect();
        taken.extend([0, count - 1]);
        taken
    };
    let (us, vs) = (some(width), some(height));
    let left_out = r.pick(&[2, 4, 1000]);
    let corner = |p: &Point| (p.u, p.v) == (0, 0) || (p.u, p.v) == (width - 1, height - 1);
    s.points
        .retain(|p| corner(p) || us.contains(&p.u) && vs.contains(&p.v) && !r.one_in(left_out));
    while s.points.len() > MAX_POINTS {
        s.points.retain(|p| corner(p) || !r.one_in(4));
    }
    s
}

/// Lines without a gap: a board as wide or as tall as a map may be, at times as large as a sheet may.
fn full_lines(r: &mut Random) -> Sheet {
    let (width, height) = match r.below(10) {
        0 => (WIDTH, MAX_POINTS as i32 / WIDTH),
        1 => (MAX_POINTS as i32 / HEIGHT, HEIGHT),
        2..5 => (WIDTH, r.whole(1, 5)),
        5..8 => (r.whole(1, 5), HEIGHT),
        8 => (WIDTH, r.whole(6, 12)),
        _ => (r.whole(6, 12), HEIGHT),
    };
    boards::board(r, width, height)
}

/// Boards with reflected, turned and coincident parts, and lines that flag all their members if
/// they are long enough.
fn several(r: &mut Random) -> Sheet {
    let (width, height) = (r.whole(2, 16), r.whole(2, 12));
    let mut s = boards::board(r, width, height);
    if r.one_in(2) {
        changes::remove_some(r, &mut s);
    }
    for _ in 0..r.whole(1, 4) {
        let change = r.pick(&[
            changes::mirror as fn(&mut Random, &mut Sheet),
            changes::mirror,
            changes::turn,
            changes::close,
            changes::noise,
        ]);
        change(r, &mut s);
    }
    s.settings.rest = Some(Rest {
        line_tolerance: r.pick(&[-1.0, 0.0, 0.05, 0.15]),
        line_minimum: r.pick(&[2, 3, 5, 8, 10]),
        ..Rest::with_three()
    });
    s
}

/// Moves the cells so that the lines' numbers have up to five digits and a sign, or change it.
fn number(r: &mut Random, s: &mut Sheet) {
    let mut origin = || match r.below(8) {
        0 => 0,
        1 => -r.whole(0, HEIGHT),
        2 => -r.pick(&[9, 10, 11, 99, 100, 101, 999, 1000, 1001]),
        3 => r.pick(&[9, 10, 90, 99, 100, 950, 999, 1000]),
        4 => r.whole(-4000, 4000),
        _ => r.whole(-70, 10),
    };
    let (du, dv) = (origin(), origin());
    for p in &mut s.points {
        (p.u, p.v) = (p.u + du, p.v + dv);
    }
}

/// An accepted sheet of a kind.
fn sheet(kind: Kind, r: &mut Random) -> Sheet {
    let mut s = match kind {
        Kind::Holes => holes(r),
        Kind::FullLines => full_lines(r),
        Kind::Several => several(r),
        _ => spread(r),
    };
    if kind != Kind::Several && r.one_in(3) {
        changes::any(r, &mut s);
    }
    if r.one_in(5) {
        settings::gate(r, &mut s);
    }
    if r.one_in(5) {
        settings::varied(r, &mut s);
    }
    match kind {
        Kind::FarPages => changes::far_cells(r, &mut s),
        _ => number(r, &mut s),
    }
    changes::settle(r, &mut s);
    s
}

/// A sheet with one damage or several, too wide for a map at times.
fn damaged(r: &mut Random, seed: u64) -> Case {
    let mut s = sheet(Kind::Spans, r);
    while s.points.len() < 2 {
        s = sheet(Kind::Spans, r);
    }
    s.points.truncate(60);
    let (u, v) = (s.points[0].u + WIDTH + r.whole(0, 20), s.points[0].v);
    if r.one_in(2) && u <= 8000 && s.points.iter().all(|p| (p.u, p.v) != (u, v)) {
        (s.points[1].u, s.points[1].v) = (u, v);
    }
    let mut chosen = vec![r.whole(3, 9) as u8];
    if r.one_in(4) {
        chosen.push(r.whole(3, 9) as u8);
    }
    chosen.sort_unstable();
    chosen.dedup();
    let buffer = damage::put_in(r, &mut s, &chosen);
    Case {
        kind: Kind::DamagedPages,
        seed,
        buffer,
        file: s.to_file(),
        expected: Expected::Refused(chosen[0]),
        map: damage::map_number(&s, &chosen),
    }
}

/// The case of one of these kinds.
pub fn case(kind: Kind, r: &mut Random, seed: u64) -> Case {
    if kind == Kind::DamagedPages {
        return damaged(r, seed);
    }
    let s = sheet(kind, r);
    accepted(kind, r, seed, &s)
}
