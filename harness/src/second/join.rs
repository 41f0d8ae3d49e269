//! Two cameras, one sheet, from document 02, A.10: two files to the list of points that they make together, or to the
//! first number. The list is then judged as a file's is.

use super::fault::Fault;
use super::file::{self, out_of_bounds, Buffer, Point, Sheet};
use super::plane::Vector;
use std::collections::HashSet;

/// "a given whole offset in u and v" and "a given dx and dy"
#[derive(Clone, Copy, Debug, Default, PartialEq)]
pub struct Shift {
    pub du: i32,
    pub dv: i32,
    pub dx: f32,
    pub dy: f32,
}

/// "right indices gain 2^31"; "with 15 an index of 2^31 or more in either file"
pub const RIGHT_INDICES: u32 = 1 << 31;

/// "an offset outside −16,000 to 16,000"
pub const FARTHEST: i32 = 16_000;

/// The accepted files, or their own numbers, the left one first.
type Own = [Result<Sheet, u8>; 2];

/// What is looked at before the files are joined.
#[derive(Clone, Copy)]
enum Look {
    Left,
    Right,
    Indices,
    Shift,
    Strengths,
}

/// "after both files' own numbers, before joining and in this order"
fn looks(fault: Fault) -> [Look; 5] {
    use Look::*;
    match fault {
        Fault::JoinRightFirst => [Right, Left, Indices, Shift, Strengths],
        Fault::JoinIndexBeforeRight => [Left, Indices, Right, Shift, Strengths],
        Fault::JoinOffsetBeforeRight => [Left, Shift, Right, Indices, Strengths],
        Fault::JoinOffsetFirst => [Shift, Left, Right, Indices, Strengths],
        Fault::JoinOffsetBeforeIndex => [Left, Right, Shift, Indices, Strengths],
        Fault::JoinTagsBeforeOffset => [Left, Right, Indices, Strengths, Shift],
        Fault::JoinTagsBeforeIndex => [Left, Right, Strengths, Indices, Shift],
        _ => [Left, Right, Indices, Shift, Strengths],
    }
}

/// Whether a file has "an index of 2^31 or more".
fn index_too_large(sheet: &Sheet, fault: Fault) -> bool {
    let limit = match fault {
        Fault::JoinLargestIndex => RIGHT_INDICES - 1,
        Fault::JoinIndexTaken => RIGHT_INDICES + 1,
        _ => RIGHT_INDICES,
    };
    sheet.points.iter().any(|p| p.index >= limit)
}

fn offset_too_far(offset: i32, fault: Fault) -> bool {
    let farthest = match fault {
        Fault::JoinFarthestRefused => FARTHEST - 1,
        Fault::JoinFartherTaken => FARTHEST + 1,
        _ => FARTHEST,
    };
    offset < -farthest || offset > farthest
}

fn shift_too_far(shift: f32, fault: Fault) -> bool {
    match fault {
        Fault::JoinShiftRefused => out_of_bounds(shift) || shift.abs() == 16384.0,
        Fault::JoinShiftTaken => out_of_bounds(shift) && shift.abs() != 16384f32.next_up(),
        Fault::JoinNanTaken => out_of_bounds(shift) && !shift.is_nan(),
        _ => out_of_bounds(shift),
    }
}

impl Shift {
    /// "an offset outside −16,000 to 16,000, or a dx or dy not finite or over 16,384 in magnitude"
    fn too_far(&self, fault: Fault) -> bool {
        let along_v = fault != Fault::JoinOffsetOfU && offset_too_far(self.dv, fault);
        let along_y = fault != Fault::JoinShiftOfX && shift_too_far(self.dy, fault);
        offset_too_far(self.du, fault) || along_v || shift_too_far(self.dx, fault) || along_y
    }
}

impl Look {
    /// The number that it gives, if any.
    fn number(self, own: &Own, shift: &Shift, fault: Fault) -> Option<u8> {
        let [left, right] = own.each_ref().map(|one| one.as_ref().ok());
        let too_large = |sheet: Option<&Sheet>| sheet.is_some_and(|s| index_too_large(s, fault));
        let weighed = |sheet: Option<&Sheet>| sheet.is_some_and(|s| s.fraction.is_some());
        let (of_left, of_right) = (weighed(left), weighed(right));
        match self {
            Look::Left => own[0].as_ref().err().copied(),
            Look::Right => own[1].as_ref().err().copied(),
            Look::Indices => {
                let of_left = fault != Fault::JoinIndexOfRight && too_large(left);
                let of_right = fault != Fault::JoinIndexOfLeft && too_large(right);
                (of_left || of_right).then_some(15)
            }
            Look::Shift => shift.too_far(fault).then_some(16),
            Look::Strengths => match fault {
                Fault::JoinTagsOfLeft => of_left && !of_right,
                Fault::JoinTagsOfRight => of_right && !of_left,
                _ => of_left != of_right,
            }
            .then_some(17),
        }
    }
}

/// A coordinate plus the shift: "one addition each".
fn shifted(x: f32, by: f32, fault: Fault) -> f32 {
    match fault {
        Fault::JoinShiftHalved => x + by / 2.0 + by / 2.0,
        Fault::JoinZeroNotAdded if by == 0.0 => x,
        _ => x + by,
    }
}

/// The point at its cell plus the offset.
fn at_other_cell(p: &Point, shift: &Shift, fault: Fault) -> Point {
    let (du, dv) = match fault {
        Fault::JoinOffsetExchanged => (shift.dv, shift.du),
        _ => (shift.du, shift.dv),
    };
    // Without a fault both are in range, and so no sum wraps.
    Point {
        u: p.u.wrapping_add(du),
        v: p.v.wrapping_add(dv),
        ..*p
    }
}

/// The point at its position plus the shift.
fn at_other_position(p: &Point, shift: &Shift, fault: Fault) -> Point {
    let (dx, dy) = match fault {
        Fault::JoinShiftExchanged => (shift.dy, shift.dx),
        _ => (shift.dx, shift.dy),
    };
    Point {
        at: Vector {
            x: shifted(p.at.x, dx, fault),
            y: shifted(p.at.y, dy, fault),
        },
        ..*p
    }
}

/// The point with an index that gains 2^31.
fn with_other_index(p: &Point) -> Point {
    Point {
        index: p.index.wrapping_add(RIGHT_INDICES),
        ..*p
    }
}

/// The left points, which change under a fault alone.
fn left_points(left: &Sheet, shift: &Shift, fault: Fault) -> Vec<Point> {
    let point = |p: &Point| match fault {
        Fault::JoinMovesLeft => at_other_cell(p, shift, fault),
        Fault::JoinShiftsLeft => at_other_position(p, shift, fault),
        Fault::JoinLeftGains => with_other_index(p),
        _ => *p,
    };
    left.points.iter().map(point).collect()
}

/// "Right cells move by a given whole offset in u and v, right positions by a given dx and dy, one addition each, and
/// right indices gain 2^31."
fn right_points(right: &Sheet, left: &Sheet, shift: &Shift, fault: Fault) -> Vec<Point> {
    let point = |(k, p): (usize, &Point)| {
        let mut p = *p;
        if fault != Fault::JoinMovesLeft {
            p = at_other_cell(&p, shift, fault);
        }
        if fault != Fault::JoinShiftsLeft {
            p = at_other_position(&p, shift, fault);
        }
        if !matches!(fault, Fault::JoinIndexKept | Fault::JoinLeftGains) {
            p = with_other_index(&p);
        }
        match (fault, left.points.len()) {
            (Fault::JoinStrengthsLost, _) => p.strength = 0.0,
            (Fault::JoinStrengthsOfLeft, 1..) => {
                p.strength = left.points[k % left.points.len()].strength
            }
            _ => {}
        }
        p.place += left.points.len();
        p
    };
    right.points.iter().enumerate().map(point).collect()
}

/// The joined list, and the points that are gone: "Where both hold a cell, the left point is taken. Tags 1 and 2 and
/// the fraction come from the left."
fn list(left: &Sheet, right: &Sheet, shift: &Shift, fault: Fault) -> (Sheet, Vec<Point>) {
    let mut points = left_points(left, shift, fault);
    let mut others = right_points(right, left, shift, fault);
    if fault == Fault::JoinRightWins {
        std::mem::swap(&mut points, &mut others);
    }
    let held: HashSet<(i32, i32)> = points.iter().map(|p| (p.u, p.v)).collect();
    let (gone, stay): (Vec<Point>, Vec<Point>) =
        others.into_iter().partition(|p| held.contains(&(p.u, p.v)));
    points.extend(stay);
    points.sort_by_key(|p| (p.u, p.v));
    let of = |wrong| if fault == wrong { right } else { left };
    let list = Sheet {
        settings: of(Fault::JoinSettingsOfRight).settings,
        gate: of(Fault::JoinGateOfRight).gate,
        points,
        fraction: of(Fault::JoinFractionOfRight).fraction,
    };
    (list, gone)
}

/// The first number of the joined list, which "is then read as a sheet with all its refusals".
fn refusal(list: &Sheet, gone: &[Point], buffer: Buffer, fault: Fault) -> Option<u8> {
    let order = match fault {
        Fault::JoinRoomFirst => file::exchanged(2, 3),
        Fault::JoinCellsBeforeRoom => file::exchanged(3, 6),
        Fault::JoinPositionsFirst => file::exchanged(6, 7),
        _ => file::order(fault),
    };
    let mut all = list.clone();
    all.points.extend(gone);
    let with_gone = |number: u8| match fault {
        Fault::JoinMostWithGone => number == 2,
        Fault::JoinRoomForGone => number == 3,
        Fault::JoinGoneLookedAt => number == 7,
        _ => false,
    };
    let applies = |number: &u8| {
        let list = if with_gone(*number) { &all } else { list };
        list.applies(*number, buffer, fault)
    };
    order.into_iter().find(applies)
}

/// The right file, whose "own number" is given though of its tags 1 and 2 nothing is used.
fn read_right(file: &[u8], buffer: Buffer, fault: Fault) -> Result<Sheet, u8> {
    let read = file::read(file, buffer, fault);
    match (fault, &read) {
        (Fault::JoinRightUnsound, Err(4 | 5)) => {
            file::framed(file, fault).map(|f| f.sheet).ok_or(1)
        }
        _ => read,
    }
}

/// The joined list of a left and a right file that both are accepted with the buffer, or the first number.
pub fn joined(
    [left, right]: [&[u8]; 2],
    shift: &Shift,
    buffer: Buffer,
    fault: Fault,
) -> Result<Sheet, u8> {
    let own = [
        file::read(left, buffer, fault),
        read_right(right, buffer, fault),
    ];
    let mut numbers = looks(fault).into_iter();
    if let Some(number) = numbers.find_map(|look| look.number(&own, shift, fault)) {
        return Err(number);
    }
    let [Ok(left), Ok(right)] = own else {
        unreachable!("a file's own number is given before")
    };
    let (list, gone) = list(&left, &right, shift, fault);
    match refusal(&list, &gone, buffer, fault) {
        Some(number) => Err(number),
        None => Ok(list),
    }
}
