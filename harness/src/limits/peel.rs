//! What sheets with strengths can meet.

use super::{Limit, Limits};
use crate::second::ROW;
use crate::sheet::{Point, Sheet, Strengths};
use std::collections::{HashMap, HashSet};

/// An accepted sheet with strengths.
pub struct Seen {
    fraction: f32,
    median: f32,
    /// The points in cell order, each with byte 0 of its row.
    points: Vec<(Point, u8)>,
    by_cell: HashMap<(i32, i32), u8>,
    rounds: usize,
    largest_patch: bool,
    wrong_label: bool,
}

const EARLIER: u8 = 7;
const COMPONENT: u8 = 8;
const LEAF: u8 = 16;

impl Seen {
    /// The sheet with its rows and rounds, if it has strengths and points.
    pub fn new(sheet: &Sheet, rows: &[u8], rounds: usize) -> Option<Seen> {
        let Strengths::Given(fraction) = sheet.strengths else {
            return None;
        };
        let mut points = sheet.points.clone();
        points.sort_by_key(|p| (p.u, p.v));
        let marks = rows.chunks(ROW).map(|row| row[0]);
        let points: Vec<(Point, u8)> = points.into_iter().zip(marks).collect();
        let mut strengths: Vec<f32> = points.iter().map(|(p, _)| p.strength).collect();
        strengths.sort_by(f32::total_cmp);
        let rest = sheet.settings.rest.as_ref();
        Some(Seen {
            fraction,
            median: *strengths.get(strengths.len() / 2)?,
            by_cell: points.iter().map(|(p, m)| ((p.u, p.v), *m)).collect(),
            points,
            rounds,
            largest_patch: rest.is_none_or(|rest| rest.largest_patch == 1),
            wrong_label: rest.is_none_or(|rest| rest.wrong_label == 1),
        })
    }

    fn threshold(&self) -> f32 {
        self.fraction * self.median
    }
    fn weak(&self, p: &Point) -> bool {
        p.strength < self.threshold()
    }
    fn any(&self, holds: impl Fn(&Point, u8) -> bool) -> bool {
        self.points.iter().any(|(p, marks)| holds(p, *marks))
    }
    fn peeled(&self) -> usize {
        let peeled = self.points.iter().filter(|(_, marks)| marks & LEAF > 0);
        peeled.count()
    }
    /// How many neighbours that the marks of `but` leave.
    fn degree(&self, p: &Point, but: u8) -> usize {
        let beside = [(1, 0), (-1, 0), (0, 1), (0, -1)];
        let near = beside.map(|(du, dv)| self.by_cell.get(&(p.u + du, p.v + dv)));
        near.iter().flatten().filter(|m| **m & but == 0).count()
    }
    /// A peeled index at several cells, one of which had two live neighbours or more before the first round,
    /// or none.
    fn repeated(&self, holds: impl Fn(usize) -> bool) -> bool {
        let mut seen = HashSet::new();
        let peeled = || self.points.iter().filter(|(_, m)| m & LEAF > 0);
        let twice: HashSet<u32> = peeled()
            .filter(|(p, _)| !seen.insert(p.index))
            .map(|(p, _)| p.index)
            .collect();
        let mut of_twice = peeled().filter(|(p, _)| twice.contains(&p.index));
        of_twice.any(|(p, _)| holds(self.degree(p, EARLIER)))
    }
    fn left(&self) -> usize {
        let left = self
            .points
            .iter()
            .filter(|(_, m)| m & (EARLIER | LEAF) == 0);
        left.count()
    }
    fn strengths(&self, holds: impl Fn(f32) -> bool) -> bool {
        self.points.iter().all(|(p, _)| holds(p.strength))
    }
}

impl Limits for Seen {
    const LIMITS: &'static [Limit<Seen>] = &[
        ("strengths and no round", |s| s.rounds == 0),
        ("one round", |s| s.rounds == 1),
        ("ten rounds or more", |s| s.rounds >= 10),
        ("as many rounds as points but one", |s| {
            s.points.len() > 2 && s.rounds == s.points.len() - 1
        }),
        ("a point a round", |s| {
            s.rounds > 3 && s.rounds == s.peeled()
        }),
        ("everything peeled", |s| {
            s.rounds > 1 && s.peeled() == s.points.len()
        }),
        ("one point alone, peeled", |s| {
            s.points.len() == 1 && s.rounds == 1
        }),
        ("a weak point left, two neighbours", |s| {
            s.any(|p, m| m & (EARLIER | LEAF) == 0 && s.weak(p))
        }),
        (
            "a point without neighbours peeled in the first round",
            |s| s.any(|p, m| m & LEAF > 0 && s.degree(p, EARLIER) == 0),
        ),
        ("a point that is peeled after its neighbours", |s| {
            s.any(|p, m| m & LEAF > 0 && s.degree(p, EARLIER) > 1)
        }),
        ("a strong end left", |s| {
            s.any(|p, m| m & (EARLIER | LEAF) == 0 && s.degree(p, EARLIER | LEAF) == 1)
        }),
        ("a strength at the threshold, an end that stays", |s| {
            s.any(|p, m| {
                m & (EARLIER | LEAF) == 0
                    && p.strength == s.threshold()
                    && s.degree(p, EARLIER | LEAF) <= 1
            })
        }),
        ("a strength one float under the threshold, peeled", |s| {
            s.any(|p, m| m & LEAF > 0 && p.strength.next_up() == s.threshold())
        }),
        ("a peeled index at several cells, one of them no end", |s| {
            s.repeated(|degree| degree > 1)
        }),
        ("a peeled index at several cells, one of them alone", |s| {
            s.repeated(|degree| degree == 0)
        }),
        ("leaf and component marks", |s| {
            s.rounds > 0 && s.any(|_, m| m & COMPONENT > 0)
        }),
        ("leaf and validate marks", |s| {
            s.rounds > 0 && s.any(|_, m| m & 1 > 0)
        }),
        ("leaf and orientation marks", |s| {
            s.rounds > 0 && s.any(|_, m| m & 2 > 0)
        }),
        ("leaf and wrong-label marks", |s| {
            s.rounds > 0 && s.any(|_, m| m & 4 > 0)
        }),
        ("an end only by the earlier marks, peeled", |s| {
            s.any(|p, m| m & LEAF > 0 && s.degree(p, 0) > 1 && s.degree(p, EARLIER) <= 1)
        }),
        ("the largest-patch switch off, ends peeled", |s| {
            !s.largest_patch && s.rounds > 0
        }),
        ("the wrong-label switch off, ends peeled", |s| {
            !s.wrong_label && s.rounds > 0
        }),
        ("both switches off, ends peeled", |s| {
            !s.largest_patch && !s.wrong_label && s.rounds > 0
        }),
        ("everything marked before", |s| {
            s.left() + s.peeled() == 0 && s.points.len() > 1
        }),
        ("a negative fraction", |s| s.fraction < 0.0),
        ("a negative fraction, ends peeled", |s| {
            s.fraction < 0.0 && s.rounds > 0
        }),
        ("a fraction of 0, ends peeled", |s| {
            s.fraction == 0.0 && s.rounds > 0
        }),
        ("the least fraction", |s| s.fraction == f32::from_bits(1)),
        ("a fraction of 1, ends peeled", |s| {
            s.fraction == 1.0 && s.rounds > 0
        }),
        ("a fraction of 2, ends peeled", |s| {
            s.fraction == 2.0 && s.rounds > 0
        }),
        ("a fraction of 16,384, ends peeled", |s| {
            s.fraction == 16384.0 && s.rounds > 0
        }),
        ("a fraction of -16,384", |s| s.fraction == -16384.0),
        ("a threshold beyond 16,384", |s| {
            s.threshold().abs() > 16384.0
        }),
        ("a threshold that underflows", |s| {
            s.threshold() == 0.0 && s.fraction != 0.0 && s.median != 0.0
        }),
        ("equal strengths, ends peeled", |s| {
            s.rounds > 0 && s.strengths(|one| one == s.median)
        }),
        ("zeros of either sign alone", |s| {
            s.strengths(|one| one == 0.0)
                && s.any(|p, _| p.strength.is_sign_negative())
                && s.any(|p, _| p.strength.is_sign_positive())
        }),
        ("subnormal strengths alone, ends peeled", |s| {
            s.rounds > 0 && s.strengths(|one| one.is_subnormal() || one == 0.0)
        }),
        ("negative strengths alone, ends peeled", |s| {
            s.rounds > 0 && s.strengths(|one| one < 0.0)
        }),
        ("a strength of 16,384", |s| {
            s.any(|p, _| p.strength == 16384.0)
        }),
        ("hundreds of points, ends peeled", |s| {
            s.rounds > 0 && s.points.len() >= 200
        }),
    ];
}
