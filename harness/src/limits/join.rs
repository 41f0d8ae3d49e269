//! The limits of a join, and the kinds of halves.

use super::{Limit, Limits};
use crate::generate::Pair;
use crate::joined::{self, moved};
use crate::second::{Answer, Shift, FARTHEST, FILTERS, MAX_POINTS, RIGHT_INDICES, ROW};
use crate::sheet::{Point, Sheet, Strengths, MOST_RECORDS};
use std::collections::{HashMap, HashSet};

/// A pair of well-framed files with its answer.
pub struct Seen {
    left: Sheet,
    right: Sheet,
    shift: Shift,
    buffer: usize,
    /// The right points as they stand in the joined list, or would stand, and whether each is gone.
    moved: Vec<(Point, bool)>,
    /// How many points the joined list has.
    list: usize,
    /// The refusal number, or byte 0 of each row by cell.
    number: Option<u8>,
    marks: HashMap<(i32, i32), u8>,
}

/// Byte 0 of each row, by the cells of a sheet.
fn marks(sheet: &Sheet, rows: &[u8]) -> HashMap<(i32, i32), u8> {
    let mut cells: Vec<(i32, i32)> = sheet.points.iter().map(|p| (p.u, p.v)).collect();
    cells.sort_unstable();
    cells
        .into_iter()
        .zip(rows.chunks(ROW).map(|row| row[0]))
        .collect()
}

impl Seen {
    /// None where one of the files is not well framed.
    pub fn new(pair: &Pair, answer: &Answer) -> Option<Seen> {
        let left = Sheet::from_file(&pair.left)?;
        let right = Sheet::from_file(&pair.right)?;
        let held: HashSet<(i32, i32)> = left.points.iter().map(|p| (p.u, p.v)).collect();
        let to_place = |p: &Point| {
            let p = moved(p, &pair.shift);
            (p, held.contains(&(p.u, p.v)))
        };
        let (sheet, _) = joined::join(&left, &right, &pair.shift);
        Some(Seen {
            moved: right.points.iter().map(to_place).collect(),
            list: sheet.points.len(),
            number: match answer {
                Answer::Refused(number) => Some(*number),
                Answer::Accepted { .. } => None,
            },
            marks: marks(&sheet, answer.rows()),
            left,
            right,
            shift: pair.shift,
            buffer: pair.buffer,
        })
    }

    fn accepted(&self) -> bool {
        self.number.is_none()
    }
    fn refused(&self, number: u8) -> bool {
        self.number == Some(number)
    }
    fn halves(&self) -> [&Sheet; 2] {
        [&self.left, &self.right]
    }
    /// How many points each half has.
    fn sizes(&self) -> [usize; 2] {
        self.halves().map(|half| half.points.len())
    }
    fn gone(&self) -> usize {
        self.moved.iter().filter(|(_, gone)| *gone).count()
    }
    /// Whether so many points make so many.
    fn make(&self, sizes: [usize; 2], list: usize) -> bool {
        self.sizes() == sizes && self.list == list
    }
    /// Whether a right point that stays lies beside a left one.
    fn touch(&self) -> bool {
        let held: HashSet<(i32, i32)> = self.left.points.iter().map(|p| (p.u, p.v)).collect();
        let beside = |p: &Point| {
            let (u, v) = (p.u, p.v);
            [(u + 1, v), (u - 1, v), (u, v + 1), (u, v - 1)]
        };
        self.stay(|_, p| beside(p).iter().any(|cell| held.contains(cell)))
    }
    /// Whether some right point that stays is such, as it was and as it is.
    fn stay(&self, is: impl Fn(&Point, &Point) -> bool) -> bool {
        let points = self.right.points.iter().zip(&self.moved);
        points
            .filter(|(_, (_, gone))| !gone)
            .any(|(was, (now, _))| is(was, now))
    }
    /// Whether an accepted pair moves a cell to a number.
    fn cell(&self, to: i32) -> bool {
        self.accepted() && self.stay(|_, p| p.u == to || p.v == to)
    }
    /// Whether a coordinate of a point that stays comes from one to another, by a shift.
    fn coordinate(&self, is: impl Fn(f32, f32, f32) -> bool) -> bool {
        let Shift { dx, dy, .. } = self.shift;
        let number = |was: &Point, now: &Point| is(was.x, dx, now.x) || is(was.y, dy, now.y);
        self.accepted() && self.stay(number)
    }
    /// Whether an accepted pair has a right point that is gone whose position is too far.
    fn gone_too_far(&self) -> bool {
        let far = |p: &Point| p.x.abs().max(p.y.abs()) > 16384.0;
        self.accepted() && self.moved.iter().any(|(p, gone)| *gone && far(p))
    }
    fn has_index(half: &Sheet, index: u32) -> bool {
        half.points.iter().any(|p| p.index == index)
    }
    /// Whether the halves have an index of 2^31 or more.
    fn large_indices(&self) -> [bool; 2] {
        let large = |half: &Sheet| half.points.iter().any(|p| p.index >= RIGHT_INDICES);
        self.halves().map(large)
    }
    fn shared_index(&self) -> bool {
        let mut points = self.left.points.iter();
        points.any(|p| Seen::has_index(&self.right, p.index))
    }
    fn offset(&self, to: i32) -> bool {
        [self.shift.du, self.shift.dv].contains(&to)
    }
    fn by(&self, is: impl Fn(f32) -> bool) -> bool {
        [self.shift.dx, self.shift.dy].into_iter().any(is)
    }
    fn weighed(&self) -> [bool; 2] {
        self.halves()
            .map(|half| matches!(half.strengths, Strengths::Given(_)))
    }
    fn short(&self) -> [bool; 2] {
        self.halves().map(|half| half.settings.rest.is_none())
    }
    fn gates(&self) -> [bool; 2] {
        self.halves().map(|half| half.gate.is_some())
    }
    fn minimums(&self) -> [u16; 2] {
        let minimum = |half: &Sheet| half.settings.rest.as_ref().map(|rest| rest.line_minimum);
        self.halves().map(|half| minimum(half).unwrap_or(4))
    }
    /// Whether the cells of some right index are gone and stay.
    fn torn_apart(&self) -> bool {
        let indices = |wanted: bool| -> HashSet<u32> {
            let points = self.moved.iter().filter(|(_, gone)| *gone == wanted);
            points.map(|(p, _)| p.index).collect()
        };
        self.accepted() && !indices(true).is_disjoint(&indices(false))
    }
    /// Whether a point that stays has the mark of a letter.
    fn marked(&self, letter: char) -> bool {
        let filter = FILTERS.iter().find(|filter| filter.letter == letter);
        let marks = |p: &Point| self.marks.get(&(p.u, p.v)).copied().unwrap_or(0);
        self.stay(|_, p| filter.is_some_and(|filter| filter.marks(marks(p))))
    }
    /// Whether points of both halves are kept.
    fn kept_of_both(&self) -> bool {
        let kept = |p: &Point| self.marks.get(&(p.u, p.v)) == Some(&0);
        self.left.points.iter().any(kept) && self.stay(|_, p| kept(p))
    }
    fn room(&self, points: usize) -> bool {
        self.buffer >= ROW * points
    }
}

const HALF: usize = MAX_POINTS / 2;
const MOST: usize = MAX_POINTS;
const ABOVE: f32 = 16384.002;

impl Limits for Seen {
    const LIMITS: &'static [Limit<Seen>] = &[
        ("points that are gone and points that stay", |s| {
            s.accepted() && s.gone() > 0 && s.gone() < s.moved.len()
        }),
        ("a right half that is wholly gone", |s| {
            s.accepted() && s.gone() == s.moved.len() && s.gone() > 0
        }),
        ("halves edge to edge", |s| {
            s.accepted() && s.gone() == 0 && s.touch()
        }),
        ("a gap between halves", |s| {
            s.accepted() && s.gone() == 0 && !s.touch() && !s.sizes().contains(&0)
        }),
        ("a left half without points", |s| {
            s.accepted() && s.sizes()[0] == 0 && s.sizes()[1] > 0
        }),
        ("a right half without points", |s| {
            s.accepted() && s.sizes()[1] == 0 && s.sizes()[0] > 0
        }),
        ("no points at all", |s| s.accepted() && s.sizes() == [0; 2]),
        ("two halves of half the most points", |s| {
            s.accepted() && s.make([HALF, HALF], MOST)
        }),
        ("one point more than two such, 2", |s| {
            s.refused(2) && s.make([HALF + 1, HALF], MOST + 1)
        }),
        ("one point more than two such, one gone", |s| {
            s.accepted() && s.make([HALF + 1, HALF], MOST)
        }),
        ("the most points and one more, 2", |s| {
            s.refused(2) && s.make([MOST, 1], MOST + 1)
        }),
        ("the most points and one that is gone", |s| {
            s.accepted() && s.make([MOST, 1], MOST)
        }),
        ("the most points twice, all gone", |s| {
            s.accepted() && s.make([MOST, MOST], MOST)
        }),
        ("the most points twice, all but one gone, 2", |s| {
            s.refused(2) && s.make([MOST, MOST], MOST + 1)
        }),
        ("as many points as a field holds, 2", |s| {
            s.refused(2) && s.list == MOST_RECORDS
        }),
        ("one more than a field holds, 2", |s| {
            s.refused(2) && s.list == MOST_RECORDS + 1
        }),
        ("a cell moved to 8,000", |s| s.cell(8000)),
        ("a cell moved to -8,000", |s| s.cell(-8000)),
        ("a cell moved to 8,001, 6", |s| {
            s.refused(6) && s.stay(|_, p| p.u == 8001 || p.v == 8001)
        }),
        ("a cell moved to -8,001, 6", |s| {
            s.refused(6) && s.stay(|_, p| p.u == -8001 || p.v == -8001)
        }),
        ("a position shifted to 16,384", |s| {
            s.coordinate(|was, _, now| now == 16384.0 && was != now)
        }),
        ("a position shifted to -16,384", |s| {
            s.coordinate(|was, _, now| now == -16384.0 && was != now)
        }),
        ("a sum above 16,384 that is rounded to it", |s| {
            s.coordinate(|was, by, now| f64::from(was) + f64::from(by) > 16384.0 && now == 16384.0)
        }),
        ("a position shifted just above 16,384, 7", |s| {
            s.refused(7) && s.stay(|_, p| p.x == ABOVE || p.y == ABOVE)
        }),
        ("a position shifted just below -16,384, 7", |s| {
            s.refused(7) && s.stay(|_, p| p.x == -ABOVE || p.y == -ABOVE)
        }),
        ("a point that is gone beyond 16,384", Seen::gone_too_far),
        ("a position shifted onto 0", |s| {
            s.coordinate(|was, _, now| was != 0.0 && now == 0.0)
        }),
        ("-0 to which +0 is added", |s| {
            s.coordinate(|was, by, now| {
                was.to_bits() == 1 << 31 && by.to_bits() == 0 && now.to_bits() == 0
            })
        }),
        ("-0 to which -0 is added", |s| {
            s.coordinate(|_, by, now| by.to_bits() == 1 << 31 && now.to_bits() == 1 << 31)
        }),
        ("a sum that is rounded", |s| {
            s.coordinate(|was, by, now| f64::from(was) + f64::from(by) != f64::from(now))
        }),
        ("a sum that is another by two halves", |s| {
            s.coordinate(|was, by, now| was + by / 2.0 + by / 2.0 != now)
        }),
        ("a left index of 2^31 - 1", |s| {
            s.accepted() && Seen::has_index(&s.left, RIGHT_INDICES - 1)
        }),
        ("a right index of 2^31 - 1", |s| {
            s.accepted() && Seen::has_index(&s.right, RIGHT_INDICES - 1)
        }),
        ("an index in both halves", |s| {
            s.accepted() && s.shared_index()
        }),
        ("an index of 2^31 or more in the left half alone, 15", |s| {
            s.refused(15) && s.large_indices() == [true, false]
        }),
        (
            "an index of 2^31 or more in the right half alone, 15",
            |s| s.refused(15) && s.large_indices() == [false, true],
        ),
        ("an index of 2^31 itself, 15", |s| {
            s.refused(15) && s.halves().into_iter().any(|h| Seen::has_index(h, 1 << 31))
        }),
        ("an offset of 16,000", |s| {
            s.accepted() && s.offset(FARTHEST)
        }),
        ("an offset of -16,000", |s| {
            s.accepted() && s.offset(-FARTHEST)
        }),
        ("an offset of 16,001, 16", |s| {
            s.refused(16) && s.offset(FARTHEST + 1)
        }),
        ("an offset of -16,001, 16", |s| {
            s.refused(16) && s.offset(-FARTHEST - 1)
        }),
        ("an offset of 2^31 - 1, 16", |s| {
            s.refused(16) && s.offset(i32::MAX)
        }),
        ("an offset of -2^31, 16", |s| {
            s.refused(16) && s.offset(i32::MIN)
        }),
        ("a shift of 16,384", |s| {
            s.accepted() && s.by(|by| by == 16384.0)
        }),
        ("a shift of -16,384", |s| {
            s.accepted() && s.by(|by| by == -16384.0)
        }),
        ("a shift just above 16,384, 16", |s| {
            s.refused(16) && s.by(|by| by == ABOVE)
        }),
        ("a shift just below -16,384, 16", |s| {
            s.refused(16) && s.by(|by| by == -ABOVE)
        }),
        ("a shift that is NaN, 16", |s| {
            s.refused(16) && s.by(f32::is_nan)
        }),
        ("an infinite shift, 16", |s| {
            s.refused(16) && s.by(f32::is_infinite)
        }),
        ("strengths in both halves", |s| {
            s.accepted() && s.weighed() == [true; 2]
        }),
        ("strengths in the left half alone, 17", |s| {
            s.refused(17) && s.weighed() == [true, false]
        }),
        ("strengths in the right half alone, 17", |s| {
            s.refused(17) && s.weighed() == [false, true]
        }),
        ("short settings in the left half alone", |s| {
            s.accepted() && s.short() == [true, false]
        }),
        ("short settings in the right half alone", |s| {
            s.accepted() && s.short() == [false, true]
        }),
        ("different line minimums", |s| {
            s.accepted() && s.minimums()[0] != s.minimums()[1]
        }),
        ("a gate in the left half alone", |s| {
            s.accepted() && s.gates() == [true, false]
        }),
        ("a gate in the right half alone", |s| {
            s.accepted() && s.gates() == [false, true]
        }),
        ("a repeated index in the left half", |s| {
            s.accepted() && s.left.repeats_index()
        }),
        ("a repeated index in the right half", |s| {
            s.accepted() && s.right.repeats_index()
        }),
        ("a repeated index of which a cell is gone", Seen::torn_apart),
        ("a buffer of just the joined rows", |s| {
            s.accepted() && s.buffer == ROW * s.list
        }),
        ("a buffer one byte shorter, 3", |s| {
            s.refused(3) && s.buffer + 1 == ROW * s.list
        }),
        ("room for each half, not for both, 3", |s| {
            s.refused(3) && s.sizes().into_iter().all(|points| s.room(points))
        }),
        ("room for the joined rows, not for those of both", |s| {
            s.accepted() && s.gone() > 0 && !s.room(s.sizes()[0] + s.sizes()[1])
        }),
        ("V at a right point", |s| s.marked('V')),
        ("O at a right point", |s| s.marked('O')),
        ("W at a right point", |s| s.marked('W')),
        ("L at a right point", |s| s.marked('L')),
        ("C at a right point", |s| s.marked('C')),
        ("kept points of both halves", Seen::kept_of_both),
    ];
}
