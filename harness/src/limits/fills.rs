//! What sheets with dropped points can meet.

use super::{Limit, Limits};
use crate::second::{Fill, FILTERS, MAX_POINTS, ROW};
use crate::sheet::{Point, Sheet, Strengths};
use std::collections::{HashMap, HashSet};

type Cell = (i32, i32);

/// An accepted sheet with points.
pub struct Seen {
    /// The points with byte 0 of their rows.
    by_cell: HashMap<Cell, (Point, u8)>,
    /// The fills with the marks of their points.
    fills: Vec<(Fill, u8)>,
    /// Least and largest cells.
    us: Cell,
    vs: Cell,
    repeated: HashSet<u32>,
    strengths: bool,
    largest_patch: bool,
    wrong_label: bool,
}

const ALONG_U: Cell = (1, 0);
const ALONG_V: Cell = (0, 1);
const MINUS_ZERO: u32 = 0x8000_0000;

/// The least and the largest of some numbers.
fn ends(values: impl Iterator<Item = i32> + Clone) -> Option<Cell> {
    Some((values.clone().min()?, values.max()?))
}

impl Seen {
    /// The sheet with its rows and fills, if it has points.
    pub fn new(sheet: &Sheet, rows: &[u8], fills: &[Fill]) -> Option<Seen> {
        let mut points = sheet.points.clone();
        points.sort_by_key(|p| (p.u, p.v));
        let marks = rows.chunks(ROW).map(|row| row[0]);
        let all = points.iter().zip(marks);
        let by_cell: HashMap<_, _> = all.map(|(p, m)| ((p.u, p.v), (*p, m))).collect();
        let mut seen = HashSet::new();
        let again = points.iter().filter(|p| !seen.insert(p.index));
        let rest = sheet.settings.rest.as_ref();
        Some(Seen {
            repeated: again.map(|p| p.index).collect(),
            us: ends(points.iter().map(|p| p.u))?,
            vs: ends(points.iter().map(|p| p.v))?,
            fills: fills
                .iter()
                .map(|fill| (*fill, by_cell[&(fill.u, fill.v)].1))
                .collect(),
            by_cell,
            strengths: sheet.strengths != Strengths::Missing,
            largest_patch: rest.is_none_or(|rest| rest.largest_patch == 1),
            wrong_label: rest.is_none_or(|rest| rest.wrong_label == 1),
        })
    }

    fn any(&self, holds: impl Fn(&Fill) -> bool) -> bool {
        self.fills.iter().any(|(fill, _)| holds(fill))
    }
    /// The points of a pair.
    fn pair(&self, fill: &Fill, (du, dv): Cell) -> Option<[Point; 2]> {
        let cells = [(fill.u + du, fill.v + dv), (fill.u - du, fill.v - dv)];
        let [a, b] = cells.map(|cell| self.by_cell.get(&cell).filter(|(_, marks)| *marks == 0));
        Some([a?.0, b?.0])
    }
    /// The points of both pairs, of a fill that has both.
    fn both(&self, fill: &Fill) -> Option<[Point; 4]> {
        let ([a, b], [c, d]) = (self.pair(fill, ALONG_U)?, self.pair(fill, ALONG_V)?);
        Some([a, b, c, d])
    }
    fn pairs(&self, along_u: bool, along_v: bool) -> bool {
        let has = |fill: &Fill, along| self.pair(fill, along).is_some();
        self.any(|fill| (has(fill, ALONG_U), has(fill, ALONG_V)) == (along_u, along_v))
    }
    fn bits(&self, holds: impl Fn(u32) -> bool) -> bool {
        self.any(|fill| fill.pairs > 0 && fill.bits.into_iter().any(&holds))
    }
    /// Some pair, x first and then y.
    fn some_pair(&self, holds: impl Fn(f32, f32) -> bool) -> bool {
        let met = |[a, b]: [Point; 2]| holds(a.x, b.x) || holds(a.y, b.y);
        let of = |fill: &Fill, along| self.pair(fill, along).is_some_and(met);
        self.any(|fill| of(fill, ALONG_U) || of(fill, ALONG_V))
    }
    /// A fill with both pairs, their four numbers first along u; x, then y, each with the bits found.
    fn some_both(&self, holds: impl Fn([f32; 4], u32) -> bool) -> bool {
        let met = |fill: &Fill, four: [Point; 4]| {
            let [x, y] = fill.bits;
            holds(four.map(|p| p.x), x) || holds(four.map(|p| p.y), y)
        };
        self.any(|fill| self.both(fill).is_some_and(|four| met(fill, four)))
    }
    /// A fill whose neighbour at some side is in some state: none for a cell without a point within the box.
    fn beside(&self, holds: impl Fn(Option<u8>) -> bool) -> bool {
        let within = |(u, v): Cell| {
            (self.us.0..=self.us.1).contains(&u) && (self.vs.0..=self.vs.1).contains(&v)
        };
        self.any(|fill| {
            let cells = [(1, 0), (-1, 0), (0, 1), (0, -1)].map(|(a, b)| (fill.u + a, fill.v + b));
            let mut states = cells.into_iter().filter(|cell| within(*cell));
            states.any(|cell| holds(self.by_cell.get(&cell).map(|(_, marks)| *marks)))
        })
    }
    fn at_end(&self, fill: &Fill) -> [bool; 2] {
        let Seen { us, vs, .. } = self;
        [
            fill.u == us.0 || fill.u == us.1,
            fill.v == vs.0 || fill.v == vs.1,
        ]
    }
    /// A fill, with a pair or without, of a point that the filter of a letter marks.
    fn letter(&self, letter: char, with_pair: bool) -> bool {
        let filter = FILTERS
            .iter()
            .find(|filter| filter.letter == letter)
            .unwrap();
        let of = |(fill, marks): &(Fill, u8)| filter.marks(*marks) && (fill.pairs > 0) == with_pair;
        self.fills.iter().any(of)
    }
    fn with_pairs(&self) -> usize {
        self.fills.iter().filter(|(fill, _)| fill.pairs > 0).count()
    }
    fn index(&self, fill: &Fill) -> u32 {
        self.by_cell[&(fill.u, fill.v)].0.index
    }
    /// A repeated index whose cells have different fills.
    fn torn(&self) -> bool {
        let mut found = HashMap::new();
        self.any(|_| true)
            && self.fills.iter().any(|(fill, _)| {
                let own = (fill.pairs, fill.bits);
                *found.entry(self.index(fill)).or_insert(own) != own
            })
    }
    /// A kept index at several cells, one of them in a pair.
    fn repeated_pair(&self) -> bool {
        let repeated = |[a, b]: [Point; 2]| [a, b].iter().any(|p| self.repeated.contains(&p.index));
        let of = |fill: &Fill, along| self.pair(fill, along).is_some_and(repeated);
        self.any(|fill| of(fill, ALONG_U) || of(fill, ALONG_V))
    }
}

fn largest(number: f32) -> bool {
    number.abs() == 16384.0
}

/// The midpoint of two numbers.
fn middle(a: f32, b: f32) -> f32 {
    0.5 * (a + b)
}

impl Limits for Seen {
    const LIMITS: &'static [Limit<Seen>] = &[
        ("points and none dropped", |s| s.fills.is_empty()),
        ("all points dropped", |s| s.fills.len() == s.by_cell.len()),
        ("a fill without a pair", |s| s.pairs(false, false)),
        ("a fill of one pair, along u", |s| s.pairs(true, false)),
        ("a fill of one pair, along v", |s| s.pairs(false, true)),
        ("a fill of two pairs", |s| s.pairs(true, true)),
        ("a fill at -0", |s| s.bits(|bits| bits == MINUS_ZERO)),
        ("a fill at +0", |s| s.bits(|bits| bits == 0)),
        ("a pair of two -0, whose sum is +0", |s| {
            s.some_pair(|a, b| [a, b].iter().all(|one| one.to_bits() == MINUS_ZERO))
        }),
        ("a subnormal position", |s| {
            s.bits(|bits| f32::from_bits(bits).is_subnormal())
        }),
        ("a midpoint that underflows", |s| {
            s.some_pair(|a, b| a + b != 0.0 && middle(a, b) == 0.0)
        }),
        ("a sum of midpoints whose half underflows", |s| {
            s.some_both(|[a, b, c, d], bits| {
                middle(a, b) + middle(c, d) != 0.0 && bits & !MINUS_ZERO == 0
            })
        }),
        (
            "halves of a subnormal pair that are not its midpoint",
            |s| s.some_pair(|a, b| 0.5 * a + 0.5 * b != middle(a, b)),
        ),
        ("two numbers of 16,384 added", |s| {
            s.some_pair(|a, b| largest(a) && a == b)
        }),
        ("four numbers of 16,384 added", |s| {
            s.some_both(|four, _| largest(four[0]) && four.iter().all(|one| *one == four[0]))
        }),
        ("16,384 and -16,384 added", |s| {
            s.some_pair(|a, b| largest(a) && a == -b)
        }),
        ("a midpoint that is rounded", |s| {
            s.some_pair(|a, b| f64::from(a) + f64::from(b) != f64::from(a + b))
        }),
        (
            "four numbers whose sum is another than that of the midpoints",
            |s| s.some_both(|[a, b, c, d], bits| ((a + b + c + d) / 4.0).to_bits() != bits),
        ),
        ("midpoints whose sum is rounded", |s| {
            s.some_both(|[a, b, c, d], _| {
                let [m, n] = [middle(a, b), middle(c, d)];
                f64::from(m) + f64::from(n) != f64::from(m + n)
            })
        }),
        ("a dropped point beside a cell without one", |s| {
            s.beside(|state| state.is_none())
        }),
        ("a dropped point beside another", |s| {
            s.beside(|state| state.is_some_and(|marks| marks > 0))
        }),
        ("a dropped point within the box", |s| {
            s.any(|fill| s.at_end(fill) == [false; 2])
        }),
        ("a dropped point at the rim, with a pair", |s| {
            s.any(|fill| fill.pairs > 0 && s.at_end(fill) != [false; 2])
        }),
        ("a dropped point at a corner of the box", |s| {
            s.any(|fill| s.at_end(fill) == [true; 2])
        }),
        ("one row, a fill of a pair", |s| {
            s.vs.0 == s.vs.1 && s.with_pairs() > 0
        }),
        ("one column, a fill of a pair", |s| {
            s.us.0 == s.us.1 && s.with_pairs() > 0
        }),
        ("a dropped index at several cells", |s| {
            s.any(|fill| s.repeated.contains(&s.index(fill)))
        }),
        (
            "a dropped index at several cells with different fills",
            Seen::torn,
        ),
        (
            "a pair with a kept index at several cells",
            Seen::repeated_pair,
        ),
        ("V, no pair", |s| s.letter('V', false)),
        ("V, a pair", |s| s.letter('V', true)),
        ("O, no pair", |s| s.letter('O', false)),
        ("O, a pair", |s| s.letter('O', true)),
        ("W, no pair", |s| s.letter('W', false)),
        ("W, a pair", |s| s.letter('W', true)),
        ("L, no pair", |s| s.letter('L', false)),
        ("L, a pair", |s| s.letter('L', true)),
        ("C, no pair", |s| s.letter('C', false)),
        ("C, a pair", |s| s.letter('C', true)),
        ("strengths, a fill of a pair", |s| {
            s.strengths && s.with_pairs() > 0
        }),
        ("the largest-patch switch off, a fill of a pair", |s| {
            !s.largest_patch && s.with_pairs() > 0
        }),
        ("the wrong-label switch off, a fill of a pair", |s| {
            !s.wrong_label && s.with_pairs() > 0
        }),
        ("both switches on, a fill of a pair", |s| {
            s.largest_patch && s.wrong_label && s.with_pairs() > 0
        }),
        ("a hundred fills of a pair", |s| s.with_pairs() >= 100),
        ("the most points, a fill of a pair", |s| {
            s.by_cell.len() == MAX_POINTS && s.with_pairs() > 0
        }),
    ];
}
