//! The sheet that two sheets make together, made apart from the second program.

use crate::second::{Shift, FARTHEST, MAX_POINTS, RIGHT_INDICES, ROW};
use crate::sheet::{Point, Sheet, Strengths};
use std::collections::HashSet;

/// A right point in the joined list. Its cell is right where the offset is one that is taken.
pub fn moved(p: &Point, shift: &Shift) -> Point {
    Point {
        u: p.u.saturating_add(shift.du),
        v: p.v.saturating_add(shift.dv),
        index: p.index | RIGHT_INDICES,
        x: p.x + shift.dx,
        y: p.y + shift.dy,
        strength: p.strength,
    }
}

/// The joined sheet, its points as the two files list them, the left file first; and the right points that are gone, as
/// they would stand in it.
pub fn join(left: &Sheet, right: &Sheet, shift: &Shift) -> (Sheet, Vec<Point>) {
    let held: HashSet<(i32, i32)> = left.points.iter().map(|p| (p.u, p.v)).collect();
    let moved = right.points.iter().map(|p| moved(p, shift));
    let (gone, stay): (Vec<Point>, Vec<Point>) = moved.partition(|p| held.contains(&(p.u, p.v)));
    let mut sheet = left.clone();
    sheet.points.extend(stay);
    (sheet, gone)
}

fn bounded(x: f32) -> bool {
    (-16384.0..=16384.0).contains(&x)
}

/// Whether the condition of 16 applies.
pub fn too_far(shift: &Shift) -> bool {
    let near = |offset: i32| (-FARTHEST..=FARTHEST).contains(&offset);
    !(near(shift.du) && near(shift.dv) && bounded(shift.dx) && bounded(shift.dy))
}

/// Whether that of 15 applies to one of two sheets.
pub fn index_too_large(sheets: [&Sheet; 2]) -> bool {
    let mut points = sheets.into_iter().flat_map(|sheet| &sheet.points);
    points.any(|p| p.index & RIGHT_INDICES > 0)
}

/// Whether that of 17 applies to two sheets.
pub fn one_weighed(sheets: [&Sheet; 2]) -> bool {
    let [left, right] = sheets.map(|sheet| sheet.strengths == Strengths::Missing);
    left != right
}

/// Whether that of a number that may still arise applies to a joined sheet.
pub fn applies(number: u8, sheet: &Sheet, buffer: usize) -> bool {
    let points = || sheet.points.iter();
    match number {
        2 => sheet.points.len() > MAX_POINTS,
        3 => ROW * sheet.points.len() > buffer,
        6 => points().any(|p| p.u.unsigned_abs().max(p.v.unsigned_abs()) > 8000),
        7 => points().any(|p| !bounded(p.x) || !bounded(p.y)),
        _ => unreachable!("{number} cannot arise"),
    }
}

/// The numbers that may still arise of a joined list, in the order of a sheet.
pub const OF_LIST: [u8; 4] = [2, 3, 6, 7];

/// The first number of a joined sheet.
pub fn refusal(sheet: &Sheet, buffer: usize) -> Option<u8> {
    OF_LIST
        .into_iter()
        .find(|number| applies(*number, sheet, buffer))
}
