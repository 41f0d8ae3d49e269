//! The limits of the map.

use super::{Limit, Limits};
use crate::second::{MAX_POINTS, ROW};
use crate::sheet::{Point, Sheet};

const MOST: i32 = MAX_POINTS as i32;

/// An accepted sheet that has points.
pub struct Seen {
    points: Vec<Point>,
    /// Byte 0 of each row.
    marks: Vec<u8>,
    /// Least and largest values.
    us: (i32, i32),
    vs: (i32, i32),
}

impl Seen {
    /// An accepted sheet, if it has points, with its rows.
    pub fn new(sheet: &Sheet, rows: &[u8]) -> Option<Seen> {
        let ends = |value: fn(&Point) -> i32| {
            let values = || sheet.points.iter().map(value);
            Some((values().min()?, values().max()?))
        };
        Some(Seen {
            points: sheet.points.clone(),
            marks: rows.chunks(ROW).map(|row| row[0]).collect(),
            us: ends(|p| p.u)?,
            vs: ends(|p| p.v)?,
        })
    }

    fn width(&self) -> i32 {
        self.us.1 - self.us.0 + 1
    }
    fn height(&self) -> i32 {
        self.vs.1 - self.vs.0 + 1
    }
    fn few(&self) -> bool {
        self.points.len() < 20
    }
    fn many(&self) -> bool {
        self.points.len() >= 500
    }
    fn fits(&self) -> bool {
        self.width() <= 72 && self.height() <= 60
    }
    fn at(&self, limit: i32) -> bool {
        self.fits() && [self.us.0, self.us.1, self.vs.0, self.vs.1].contains(&limit)
    }
    /// Some value between the ends that no point has.
    fn hole(&self, ends: (i32, i32), value: fn(&Point) -> i32) -> bool {
        self.fits() && !(ends.0..=ends.1).all(|k| self.points.iter().any(|p| value(p) == k))
    }
    fn full(&self, width: i32, height: i32) -> bool {
        (self.width(), self.height()) == (width, height)
            && self.points.len() == (width * height) as usize
    }
    fn marked(&self, bits: u8) -> bool {
        self.fits() && self.marks.iter().any(|m| m & bits == bits)
    }
}

impl Limits for Seen {
    const LIMITS: &'static [Limit<Seen>] = &[
        ("72 values of u, few points", |s| s.width() == 72 && s.few()),
        ("72 values of u, many", |s| s.width() == 72 && s.many()),
        ("73 values of u, few", |s| s.width() == 73 && s.few()),
        ("73 values of u, many", |s| s.width() == 73 && s.many()),
        ("60 values of v, few", |s| s.height() == 60 && s.few()),
        ("60 values of v, many", |s| s.height() == 60 && s.many()),
        ("61 values of v, few", |s| s.height() == 61 && s.few()),
        ("61 values of v, many", |s| s.height() == 61 && s.many()),
        ("72 by 60", |s| s.width() == 72 && s.height() == 60),
        ("a cell of -8,000", |s| s.at(-8000)),
        ("a cell of 8,000", |s| s.at(8000)),
        ("lines below and above 0", |s| s.vs.0 < 0 && s.vs.1 > 0),
        ("a row without points", |s| s.hole(s.vs, |p| p.v)),
        ("a column without points", |s| s.hole(s.us, |p| p.u)),
        ("full lines of 72 cells, as many as may be", |s| {
            s.full(72, MOST / 72)
        }),
        ("60 full lines, as wide as may be", |s| {
            s.full(MOST / 60, 60)
        }),
        ("V and O at a point", |s| s.marked(3)),
        ("V and W at a point", |s| s.marked(5)),
        ("O and W at a point", |s| s.marked(6)),
        ("V, O and W at a point", |s| s.marked(7)),
    ];
}
