//! Pairs of files to be joined: halves of boards and other sheets with an offset and a shift, about every limit, and with
//! every two numbers that can meet.

use super::{boards, changes, damage, peels, settings, sheet, Expected, Kind};
use crate::joined;
use crate::random::Random;
use crate::second::{Shift, FARTHEST, MAX_POINTS, RIGHT_INDICES, ROW};
use crate::sheet::{Point, Rest, Settings, Sheet, Strengths, MOST_RECORDS};
use std::collections::{BTreeSet, HashMap};

kinds! {
    /// What a pair of files is.
    JoinKind;
    Overlap: "halves of a board that share a column or more",
    Edge: "halves edge to edge",
    Gap: "halves with a gap between them",
    Over: "halves wholly over each other",
    Interleaved: "halves of which each has every other line or cell, or any cells",
    Apart: "two sheets of any kinds, put together anyhow",
    Weighed: "halves with strengths, those of one half larger",
    Settings: "halves of different settings",
    Repeated: "halves with repeated indices",
    RepeatedGone: "an overlap that takes a cell of a repeated index",
    Zeros: "positions shifted onto zeros, and zeros of either sign shifted by nothing",
    Rounded: "positions and shifts of any size, whose sums are rounded",
    Empty: "a half without points, or both",
    Full: "halves about the most points",
    FarCells: "cells moved to 8,000 and beyond",
    Outermost: "positions shifted to 16,384 and beyond",
    OffsetLimits: "offsets at and beside 16,000, and any beyond",
    ShiftLimits: "shifts at and beside 16,384, infinite ones and NaN",
    IndexLimits: "indices at and beside 2^31",
    Tag4: "strengths in both halves, in one, in none",
    Buffers: "buffers about the rows of each half and of the joined list",
    Scrambled: "bytes of either file changed at random",
    OwnNumbers: "a number of each file's own",
    OwnAndJoin: "a number of a file's own, and 15, 16 or 17",
    JoinNumbers: "two of 15, 16 and 17",
    JoinAndList: "15, 16 or 17, and a number of the joined list",
    ListNumbers: "two numbers of the joined list",
}

/// The condition of a number, put into a pair on purpose: of the left file alone, of the right, of the two before they are
/// joined, of the joined list.
#[derive(Clone, Copy, Debug, PartialEq, Eq, PartialOrd, Ord)]
pub enum Condition {
    Left(u8),
    Right(u8),
    Join(u8),
    List(u8),
}

impl Condition {
    pub fn number(self) -> u8 {
        match self {
            Condition::Left(number)
            | Condition::Right(number)
            | Condition::Join(number)
            | Condition::List(number) => number,
        }
    }
}

/// Two files with an offset, a shift and the length of the buffer that they are called with.
#[derive(Clone, Debug)]
pub struct Pair {
    pub kind: JoinKind,
    pub seed: u64,
    pub left: Vec<u8>,
    pub right: Vec<u8>,
    pub shift: Shift,
    pub buffer: usize,
    pub expected: Expected,
    /// The two that were put in, in the order in which they are looked for.
    pub conditions: Option<[Condition; 2]>,
}

/// The numbers of a file's own, and those of a join.
const OWN: [u8; 12] = [1, 12, 2, 3, 4, 5, 6, 7, 13, 8, 9, 14];
const OF_JOIN: [u8; 3] = [15, 16, 17];

/// Every two conditions of which a pair of a kind has both.
fn meeting(kind: JoinKind) -> Vec<[Condition; 2]> {
    let own = OWN.map(Condition::Left).into_iter();
    let own = own.chain(OWN.map(Condition::Right));
    let lefts = OWN.map(Condition::Left);
    let rights = OWN.map(Condition::Right);
    let joins = OF_JOIN.map(Condition::Join);
    let lists = joined::OF_LIST.map(Condition::List);
    let each = |ones: &[Condition], others: &[Condition]| {
        let both = ones
            .iter()
            .flat_map(|one| others.iter().map(|other| [*one, *other]));
        // Of a file that is framed wrong nobody can say whether it has a tag 4.
        let framed_wrong = |one: Condition| one == Condition::Left(1) || one == Condition::Right(1);
        both.filter(|[one, other]| one < other)
            .filter(|[one, other]| !(framed_wrong(*one) && *other == Condition::Join(17)))
            .collect()
    };
    match kind {
        JoinKind::OwnNumbers => each(&lefts, &rights),
        JoinKind::OwnAndJoin => each(&own.collect::<Vec<_>>(), &joins),
        JoinKind::JoinNumbers => each(&joins, &joins),
        JoinKind::JoinAndList => each(&joins, &lists),
        JoinKind::ListNumbers => each(&lists, &lists),
        _ => Vec::new(),
    }
}

impl JoinKind {
    /// Whether it is of two numbers that meet.
    pub fn is_of_numbers(self) -> bool {
        !meeting(self).is_empty()
    }
}

/// Every two conditions that can meet, each with the kind that has them and the first seed of that kind that does.
pub fn numbers_that_meet() -> Vec<(JoinKind, u64, [Condition; 2])> {
    let of = |(kind, _): &(JoinKind, _)| {
        let both = meeting(*kind).into_iter().zip(0..);
        let kind = *kind;
        both.map(move |(both, seed)| (kind, seed, both))
    };
    JoinKind::ALL.iter().flat_map(of).collect()
}

/// A pair in the making.
struct Draft {
    left: Sheet,
    right: Sheet,
    shift: Shift,
    /// Nothing for a length with room for the joined rows.
    buffer: Option<usize>,
    /// The first number that was put in.
    number: Option<u8>,
}

/// Nothing moves and nothing is shifted.
const NO_SHIFT: Shift = Shift {
    du: 0,
    dv: 0,
    dx: 0.0,
    dy: 0.0,
};

fn ends<T: PartialOrd + Copy>(values: impl Iterator<Item = T>, none: T) -> (T, T) {
    let all: Vec<T> = values.collect();
    let first = all.first().copied().unwrap_or(none);
    all.iter().fold((first, first), |(low, high), &one| {
        (
            if one < low { one } else { low },
            if one > high { one } else { high },
        )
    })
}

/// An offset by which cells from `low` to `high` can have come from cells in range.
fn offset(r: &mut Random, (low, high): (i32, i32)) -> i32 {
    let (least, most) = (high - 8000, low + 8000);
    let any = match r.below(6) {
        0 => 0,
        1..4 => r.whole(-60, 60),
        4 => r.whole(least, most),
        _ => r.pick(&[least, most]),
    };
    any.clamp(least, most)
}

/// A shift by which positions from `low` to `high` can have come from positions in range.
fn slide(r: &mut Random, (low, high): (f32, f32)) -> f32 {
    let least = (high - 16384.0).max(-16384.0);
    let most = (low + 16384.0).min(16384.0);
    let any = match r.below(8) {
        0 => 0.0,
        1 => -0.0,
        2 | 3 => r.whole(-2000, 2000) as f32,
        4 => r.between(-1.0, 1.0) * r.pick(&[1e-3, 1e-20, 1e-40]),
        5 => r.between(least, most),
        _ => r.between(-2000.0, 2000.0),
    };
    any.clamp(least, most)
}

/// An offset and a shift by which these points can have come to lie where they do.
fn any_shift(r: &mut Random, points: &[Point]) -> Shift {
    let cells = |of: fn(&Point) -> i32| ends(points.iter().map(of), 0);
    let places = |of: fn(&Point) -> f32| ends(points.iter().map(of), 0.0);
    Shift {
        du: offset(r, cells(|p| p.u)),
        dv: offset(r, cells(|p| p.v)),
        dx: slide(r, places(|p| p.x)),
        dy: slide(r, places(|p| p.y)),
    }
}

fn bound(float: f32) -> f32 {
    match float.is_finite() {
        true => float.clamp(-16384.0, 16384.0),
        false => 0.0,
    }
}

/// Positions in range; for each index one position and one strength.
fn unify(s: &mut Sheet) {
    let mut first: HashMap<u32, (f32, f32, f32)> = HashMap::new();
    for p in &mut s.points {
        let own = (bound(p.x), bound(p.y), p.strength);
        (p.x, p.y, p.strength) = *first.entry(p.index).or_insert(own);
    }
}

/// Other indices, below the limit.
fn renumber(r: &mut Random, s: &mut Sheet) {
    let indices: BTreeSet<u32> = s.points.iter().map(|p| p.index).collect();
    let (scheme, from) = (r.below(4), r.below(1000) as u32);
    let number = |k: u32| match scheme {
        0 | 1 => k,
        2 => 7 * k + from,
        _ => RIGHT_INDICES - 1 - from - k,
    };
    let numbers = indices.into_iter().zip((0..).map(number));
    let numbers: HashMap<u32, u32> = numbers.collect();
    s.points
        .iter_mut()
        .for_each(|p| p.index = numbers[&p.index]);
}

/// Puts the points of a right half, which stand where they are to come to lie, back by the shift.
fn put_back(s: &mut Sheet, shift: &Shift) {
    for p in &mut s.points {
        (p.u, p.v) = (p.u - shift.du, p.v - shift.dv);
        (p.x, p.y) = (bound(p.x - shift.dx), bound(p.y - shift.dy));
    }
}

const WITH_STRENGTHS: [Kind; 9] = [
    Kind::Chains,
    Kind::Combs,
    Kind::Rings,
    Kind::Trees,
    Kind::Joined,
    Kind::Ends,
    Kind::Scattered,
    Kind::Weighed,
    Kind::Weighed,
];

const WITHOUT: [Kind; 22] = [
    Kind::Clean,
    Kind::Noise,
    Kind::TooFar,
    Kind::Missing,
    Kind::Patches,
    Kind::Mirrored,
    Kind::Repeated,
    Kind::Shared,
    Kind::Ragged,
    Kind::Rows,
    Kind::Close,
    Kind::Steps,
    Kind::Rounding,
    Kind::Gated,
    Kind::GateLimit,
    Kind::Turned,
    Kind::Extreme,
    Kind::Perpendicular,
    Kind::Degenerate,
    Kind::Tiny,
    Kind::Small,
    Kind::Wild,
];

/// An accepted sheet of any kind, with strengths or without.
fn whole(r: &mut Random, weighed: bool) -> Sheet {
    let mut s = match weighed {
        true => peels::weighed(r.pick(&WITH_STRENGTHS), r),
        false => sheet(r.pick(&WITHOUT), r),
    };
    s.points.truncate(400);
    s
}

/// Whether a point of a sheet is in the left half and in the right.
type Shares = Box<dyn FnMut(&Point) -> [bool; 2]>;

/// How a sheet is shared between halves of some kind.
fn shares(r: &mut Random, kind: JoinKind, s: &Sheet) -> Shares {
    let along_u = !r.one_in(3);
    let line = move |p: &Point| if along_u { p.u } else { p.v };
    let (low, high) = ends(s.points.iter().map(line), 0);
    let cut = r.whole(low, high);
    let (shared, gap) = (r.whole(0, 3), r.whole(1, 3));
    let mut any = r.clone();
    match kind {
        JoinKind::Edge => Box::new(move |p| [line(p) < cut, line(p) >= cut]),
        JoinKind::Gap => Box::new(move |p| [line(p) < cut, line(p) >= cut + gap]),
        JoinKind::Over => {
            let one_in = r.pick(&[1000, 8, 3]);
            Box::new(move |_| [0; 2].map(|_| !any.one_in(one_in)))
        }
        JoinKind::Interleaved => match r.below(3) {
            0 => Box::new(move |p| [line(p) % 2 == 0, line(p) % 2 != 0]),
            1 => Box::new(|p| [(p.u + p.v) % 2 == 0, (p.u + p.v) % 2 != 0]),
            _ => Box::new(move |_| {
                let left = any.one_in(2);
                [left, !left]
            }),
        },
        _ => Box::new(move |p| [line(p) <= cut, line(p) >= cut - shared]),
    }
}

/// Valid settings that may differ from those that a half has.
fn other_settings(r: &mut Random, s: &mut Sheet) {
    match r.below(5) {
        0 => s.settings.rest = None,
        1 => settings::varied(r, s),
        2 => settings::extreme(r, s),
        3 => s.settings.rest = Some(Rest::with_three()),
        _ => {}
    }
    match r.below(4) {
        0 => s.gate = None,
        1 => settings::gate(r, s),
        _ => {}
    }
    s.settings.cell_size = bound(s.settings.cell_size);
    if r.one_in(2) {
        if let Strengths::Given(fraction) = &mut s.strengths {
            *fraction = r.pick(&[0.0, 0.5, 1.0, 2.0, -1.0, 16384.0]);
        }
    }
}

/// A sheet in two: the halves of the kind where they are to come to lie, at times with other positions in the right one.
fn halves(r: &mut Random, kind: JoinKind, s: Sheet) -> [Sheet; 2] {
    let mut shares = shares(r, kind, &s);
    let [mut left, mut right] = [s.clone(), s.clone()];
    (left.points, right.points) = (Vec::new(), Vec::new());
    for p in s.points {
        let [in_left, in_right] = shares(&p);
        left.points.extend(in_left.then_some(p));
        right.points.extend(in_right.then_some(p));
    }
    if r.one_in(3) {
        changes::noise(r, &mut right);
    }
    if r.one_in(2) {
        other_settings(r, &mut right);
    }
    for half in [&mut left, &mut right] {
        unify(half);
        renumber(r, half);
        if r.one_in(2) {
            r.shuffle(&mut half.points);
        }
    }
    [left, right]
}

impl Draft {
    /// Two halves with a shift, after which the right one lies where it does now.
    fn new([left, mut right]: [Sheet; 2], shift: Shift) -> Draft {
        put_back(&mut right, &shift);
        unify(&mut right);
        Draft {
            left,
            right,
            shift,
            buffer: None,
            number: None,
        }
    }

    /// The same with any shift.
    fn any(r: &mut Random, halves: [Sheet; 2]) -> Draft {
        let shift = any_shift(r, &halves[1].points);
        Draft::new(halves, shift)
    }

    /// A sheet of any kind in two halves of some kind.
    fn of(r: &mut Random, kind: JoinKind, weighed: bool) -> Draft {
        let whole = whole(r, weighed);
        let halves = halves(r, kind, whole);
        Draft::any(r, halves)
    }

    /// Halves of any kind, the right one with a point at least.
    fn with_right(r: &mut Random) -> Draft {
        loop {
            let weighed = r.one_in(3);
            let kind = some_halves(r);
            let draft = Draft::of(r, kind, weighed);
            if !draft.right.points.is_empty() {
                return draft;
            }
        }
    }

    fn joined(&self) -> (Sheet, Vec<Point>) {
        joined::join(&self.left, &self.right, &self.shift)
    }

    fn pair(self, r: &mut Random, kind: JoinKind, seed: u64) -> Pair {
        let (list, _) = self.joined();
        let room = ROW * list.points.len();
        let more = r.pick(&[0, 0, 1, 27, 28, 100]);
        let buffer = self.buffer.unwrap_or(room + more);
        let number = self.number.or_else(|| joined::refusal(&list, buffer));
        Pair {
            kind,
            seed,
            left: self.left.to_file(),
            right: self.right.to_file(),
            shift: self.shift,
            buffer,
            expected: number.map_or(Expected::Accepted, Expected::Refused),
            conditions: None,
        }
    }
}

/// A kind of halves of one sheet.
fn some_halves(r: &mut Random) -> JoinKind {
    r.pick(&[
        JoinKind::Overlap,
        JoinKind::Overlap,
        JoinKind::Edge,
        JoinKind::Gap,
        JoinKind::Over,
        JoinKind::Interleaved,
    ])
}

/// Two sheets that have nothing to do with each other, their boxes beside or over each other.
fn apart(r: &mut Random) -> Draft {
    let weighed = r.one_in(3);
    let mut both = [(); 2].map(|()| whole(r, weighed));
    both.iter_mut().for_each(|half| renumber(r, half));
    let [left, right] = &both;
    let mut beside = |of: fn(&Point) -> i32| {
        let (low, high) = ends(left.points.iter().map(of), 0);
        let (own_low, own_high) = ends(right.points.iter().map(of), 0);
        let to = r.whole(low - (own_high - own_low) - 2, high + 2);
        (to - own_low).clamp(-8000 - own_low, 8000 - own_high)
    };
    let (du, dv) = (beside(|p| p.u), beside(|p| p.v));
    let mut slide = |of: fn(&Point) -> f32| {
        let (low, high) = ends(right.points.iter().map(of), 0.0);
        let any = r.between(-2000.0, 2000.0);
        any.clamp(-16384.0 - low, 16384.0 - high)
    };
    let (dx, dy) = (slide(|p| p.x), slide(|p| p.y));
    let [left, right] = both;
    Draft {
        left,
        right,
        shift: Shift { du, dv, dx, dy },
        buffer: None,
        number: None,
    }
}

/// Halves of which one has larger strengths.
fn weighed(r: &mut Random) -> Draft {
    let kind = some_halves(r);
    let mut draft = Draft::of(r, kind, true);
    let by = r.pick(&[4.0, 2.0, 0.5, 0.25]);
    let half = match r.below(2) {
        0 => &mut draft.left,
        _ => &mut draft.right,
    };
    half.points
        .iter_mut()
        .for_each(|p| p.strength = bound(p.strength * by));
    draft
}

fn of_settings(r: &mut Random) -> Draft {
    let mut draft = Draft::with_right(r);
    other_settings(r, &mut draft.left);
    other_settings(r, &mut draft.right);
    draft
}

/// Some points take index, position and strength of another.
fn repeat(r: &mut Random, s: &mut Sheet) {
    if s.points.is_empty() {
        return;
    }
    for _ in 0..r.whole(1, 4) {
        let from = s.points[r.below(s.points.len())];
        let at = r.below(s.points.len());
        let Point { u, v, .. } = s.points[at];
        s.points[at] = Point { u, v, ..from };
    }
}

fn repeated(r: &mut Random) -> Draft {
    let mut draft = Draft::with_right(r);
    if !r.one_in(3) {
        repeat(r, &mut draft.left);
    }
    repeat(r, &mut draft.right);
    draft
}

/// Some point of the right half that is gone, and one that stays, take index, position and strength of either.
fn repeated_gone(r: &mut Random) -> Draft {
    loop {
        let mut draft = Draft::with_right(r);
        let (_, gone) = draft.joined();
        let is_gone = |p: &Point, shift: &Shift| {
            let p = joined::moved(p, shift);
            gone.iter().any(|q| (q.u, q.v) == (p.u, p.v))
        };
        let all = 0..draft.right.points.len();
        let (gone, stay): (Vec<usize>, Vec<usize>) =
            all.partition(|k| is_gone(&draft.right.points[*k], &draft.shift));
        if gone.is_empty() || stay.is_empty() {
            continue;
        }
        let (from, to) = (r.pick(&gone), r.pick(&stay));
        let (from, to) = if r.one_in(2) { (from, to) } else { (to, from) };
        let Point { u, v, .. } = draft.right.points[to];
        draft.right.points[to] = Point {
            u,
            v,
            ..draft.right.points[from]
        };
        return draft;
    }
}

/// Three cells in a row at right angles about a zero, of which only its sign tells what a cosine is.
fn right_angle(r: &mut Random) -> Sheet {
    let size = r.pick(&[5.0, 100.0, 0.25]);
    let mut zero = |usual: f32| if r.one_in(6) { -usual } else { usual };
    let corners = [(0.0, -size), (zero(-0.0), zero(0.0)), (size, zero(-0.0))];
    let (along_u, turned) = (r.one_in(2), r.one_in(3));
    let point = |(k, (x, y)): (u32, (f32, f32))| {
        let along = k as i32;
        let (u, v) = if along_u { (along, 0) } else { (0, along) };
        let (x, y) = if turned { (-y, x) } else { (x, y) };
        Point::new(u, v, k, x, y)
    };
    Sheet {
        settings: Settings {
            cell_size: 1.0,
            rest: None,
        },
        gate: None,
        points: (0..).zip(corners).map(point).collect(),
        strengths: Strengths::Missing,
    }
}

/// These as the right half, shifted by nothing, and a left one apart from them.
fn about_zero(r: &mut Random) -> Draft {
    let right = right_angle(r);
    let mut left = whole(r, false);
    left.points.truncate(r.below(8));
    renumber(r, &mut left);
    settings::gate(r, &mut left);
    let high = ends(left.points.iter().map(|p| p.u), 0).1;
    let zero = |r: &mut Random| r.pick(&[0.0, 0.0, -0.0]);
    Draft {
        left,
        right,
        shift: Shift {
            du: high + r.whole(1, 3),
            dv: r.whole(-3, 3),
            dx: zero(r),
            dy: zero(r),
        },
        buffer: None,
        number: None,
    }
}

/// Halves of which some right points come to lie at zeros.
fn zeros(r: &mut Random) -> Draft {
    if r.one_in(2) {
        return about_zero(r);
    }
    let kind = r.pick(&[Kind::Tiny, Kind::Perpendicular, Kind::Small, Kind::Gated]);
    let how = some_halves(r);
    let whole = sheet(kind, r);
    let mut draft = Draft::new(halves(r, how, whole), NO_SHIFT);
    if r.one_in(2) {
        settings::gate(r, &mut draft.left);
    }
    let points = &mut draft.right.points;
    for p in points.iter_mut().filter(|_| r.one_in(2)) {
        let turn = |x: f32| if x == 0.0 { -x } else { x };
        (p.x, p.y) = (turn(p.x), turn(p.y));
    }
    if !points.is_empty() {
        let to_zero = points[r.below(points.len())];
        draft.shift.dx = r.pick(&[0.0, -0.0, -to_zero.x]);
        draft.shift.dy = r.pick(&[0.0, -0.0, -to_zero.y]);
    }
    unify(&mut draft.right);
    draft
}

/// Positions of all digits, and shifts of all digits.
fn rounded(r: &mut Random) -> Draft {
    let kinds = [
        Kind::Noise,
        Kind::Missing,
        Kind::Gated,
        Kind::Ragged,
        Kind::Clean,
        Kind::Rounding,
    ];
    let whole = sheet(r.pick(&kinds), r);
    let how = some_halves(r);
    let halves = halves(r, how, whole);
    let mut shift = any_shift(r, &halves[1].points);
    let by = r.pick(&[1.0, 30.0, 3000.0]);
    (shift.dx, shift.dy) = (r.between(-by, by), r.between(-by, by));
    Draft::new(halves, shift)
}

fn empty(r: &mut Random) -> Draft {
    let mut draft = Draft::with_right(r);
    let which = r.below(5);
    if which != 1 && which != 2 {
        draft.left.points.clear();
    }
    if which > 0 && which < 4 {
        draft.right.points.clear();
    }
    draft
}

/// Points of the left half, of the right one, and how many of these are gone.
const SIZES: [[usize; 3]; 20] = {
    const HALF: usize = MAX_POINTS / 2;
    const MOST: usize = MAX_POINTS;
    [
        [HALF, HALF, 0],
        [HALF, HALF, 48],
        [HALF, HALF, 1],
        [HALF + 1, HALF, 0],
        [HALF + 1, HALF, 1],
        [HALF, HALF + 1, 0],
        [MOST, 1, 0],
        [MOST, 1, 1],
        [1, MOST, 0],
        [1, MOST, 1],
        [MOST, MOST, MOST],
        [MOST, MOST, MOST - 1],
        [MOST, 0, 0],
        [0, MOST, 0],
        [2000, 500, 500 - (MOST - 2000)],
        [2000, 500, 500 - (MOST - 2000) - 1],
        [2000, 500, 500 - (MOST - 2000) + 1],
        [MOST, MOST_RECORDS - MOST, 0],
        [MOST, MOST_RECORDS - MOST + 1, 0],
        [MOST, MOST, 0],
    ]
};

/// A board in two halves of these sizes.
fn of_sizes(r: &mut Random, [left, right, gone]: [usize; 3]) -> [Sheet; 2] {
    let height = r.pick(&[48, 48, 24, 60]);
    let width = (left + right - gone) as i32 / height + 1;
    let mut s = boards::board(r, width, height);
    if r.one_in(2) {
        changes::noise(r, &mut s);
    }
    unify(&mut s);
    if r.one_in(3) {
        s.strengths = Strengths::Given(r.pick(&[0.5, 1.0, 2.0]));
        let strong = |_: &Point| r.pick(&[1.0, 1.0, 3.0, 0.25]);
        let strengths: Vec<f32> = s.points.iter().map(strong).collect();
        let points = s.points.iter_mut().zip(strengths);
        points.for_each(|(p, strength)| p.strength = strength);
    }
    let [mut one, mut other] = [s.clone(), s];
    one.points.truncate(left);
    other.points.drain(..left - gone);
    other.points.truncate(right);
    if r.one_in(2) {
        other_settings(r, &mut one);
    }
    let mut both = [one, other];
    both.iter_mut().for_each(|half| renumber(r, half));
    both
}

fn full(r: &mut Random, seed: u64) -> Draft {
    let sizes = SIZES[seed as usize % SIZES.len()];
    let halves = of_sizes(r, sizes);
    Draft::any(r, halves)
}

/// Some right cell comes to lie at 8,000 or −8,000, or just beyond.
fn far_cells(r: &mut Random) -> Draft {
    let mut draft = if r.one_in(2) {
        Draft::with_right(r)
    } else {
        let mut whole = whole(r, false);
        changes::far_cells(r, &mut whole);
        let how = some_halves(r);
        let halves = halves(r, how, whole);
        Draft::any(r, halves)
    };
    let beyond = i32::from(r.one_in(2));
    let along_u = r.one_in(2);
    let by = if along_u {
        &mut draft.shift.du
    } else {
        &mut draft.shift.dv
    };
    let line = |p: &Point| if along_u { p.u } else { p.v };
    let (low, high) = ends(draft.right.points.iter().map(line), 0);
    let to = match r.below(2) {
        0 => 8000 + beyond - high,
        _ => -8000 - beyond - low,
    };
    if to.abs() <= FARTHEST {
        *by = to;
    }
    draft
}

/// Some right position, of a point that is gone at times, comes to lie at 16,384 or −16,384, just beyond, or at a number
/// that is rounded to one of these.
fn outermost(r: &mut Random) -> Draft {
    let mut draft = Draft::with_right(r);
    let step = 1.0 / 1024.0;
    let to = 16384.0 + r.pick(&[0.0, 0.0, step, 2.0 * step, 3.0 * step, -step]);
    let by = f64::from(r.whole(1, 8000)) + f64::from(r.below(512) as u16) / 512.0;
    let sign = r.pick(&[1.0, -1.0]);
    let (from, by) = ((sign * (to - by)) as f32, (sign * by) as f32);
    let index = draft.right.points[r.below(draft.right.points.len())].index;
    let along_x = r.one_in(2);
    match along_x {
        true => draft.shift.dx = by,
        false => draft.shift.dy = by,
    }
    for p in &mut draft.right.points {
        let at = if along_x { &mut p.x } else { &mut p.y };
        // The others stay within what the shift allows.
        *at = if p.index == index {
            from
        } else {
            at.clamp(-8000.0, 8000.0)
        };
    }
    draft
}

/// An offset at its limit, with few right columns or rows at the other end of the range, or one beyond.
fn offset_limits(r: &mut Random) -> Draft {
    let mut draft = Draft::with_right(r);
    let sign = r.pick(&[1, -1]);
    let short = r.whole(0, 2);
    let bad = r.one_in(2);
    let beyond = [
        16_001,
        16_001,
        16_002,
        17_000,
        32_000,
        1 << 16,
        1 << 24,
        1 << 30,
        i32::MAX,
    ];
    let by = match bad {
        true => sign * r.pick(&beyond) - i32::from(sign < 0 && r.one_in(9)),
        false => sign * (FARTHEST - short),
    };
    draft.number = bad.then_some(16);
    let along_u = r.one_in(2);
    let points = &mut draft.right.points;
    let line = |p: &Point| if along_u { p.u } else { p.v };
    let low = ends(points.iter().map(line), 0).0;
    points.retain(|p| line(p) - low <= short);
    for p in points {
        let at = if along_u { &mut p.u } else { &mut p.v };
        *at = sign * (*at - low - 8000);
    }
    match along_u {
        true => draft.shift.du = by,
        false => draft.shift.dv = by,
    }
    draft
}

/// Shifts that 16 refuses.
const NO_SHIFTS: [f32; 12] = [
    f32::NAN,
    f32::NAN,
    f32::INFINITY,
    f32::NEG_INFINITY,
    16384.002,
    -16384.002,
    16384.002,
    -16384.002,
    16385.0,
    -20000.0,
    f32::MAX,
    f32::MIN,
];

/// A shift at its limit, with right positions on the other side, or one beyond.
fn shift_limits(r: &mut Random) -> Draft {
    let mut draft = Draft::with_right(r);
    let (along_x, bad) = (r.one_in(2), r.one_in(2));
    let good = [16384.0, -16384.0, 16383.999, -16383.999, 1e-45, -1e-45];
    let by = match bad {
        true => r.pick(&NO_SHIFTS),
        false => r.pick(&good),
    };
    draft.number = bad.then_some(16);
    for p in &mut draft.right.points {
        let at = if along_x { &mut p.x } else { &mut p.y };
        if by.abs() > 1.0 {
            *at = -at.abs().copysign(by);
        }
    }
    match along_x {
        true => draft.shift.dx = by,
        false => draft.shift.dy = by,
    }
    draft
}

/// Gives an index of a half another number, which no other of its points has.
fn put_index(r: &mut Random, s: &mut Sheet, number: u32) {
    let from = s.points[r.below(s.points.len())].index;
    for p in &mut s.points {
        p.index = match p.index {
            index if index == from => number,
            index if index == number => from,
            index => index,
        };
    }
}

const LARGE_INDICES: [u32; 3] = [RIGHT_INDICES, RIGHT_INDICES + 1, u32::MAX];

fn index_limits(r: &mut Random) -> Draft {
    let mut draft = Draft::with_right(r);
    let bad = r.one_in(2);
    let side = r.below(3);
    for (k, half) in [&mut draft.left, &mut draft.right].into_iter().enumerate() {
        if half.points.is_empty() || side == k {
            continue;
        }
        let large = bad && (side < 2 || r.one_in(2));
        draft.number = draft.number.or(large.then_some(15));
        let number = match large {
            true => r.pick(&LARGE_INDICES),
            false => r.pick(&[RIGHT_INDICES - 1, RIGHT_INDICES - 1, RIGHT_INDICES - 2, 0]),
        };
        put_index(r, half, number);
    }
    draft
}

/// Strengths, if a half is to have some and has none.
fn weigh(r: &mut Random, s: &mut Sheet) {
    s.strengths = Strengths::Given(r.pick(&[0.5, 1.0, 1.5]));
    s.points
        .iter_mut()
        .for_each(|p| p.strength = r.pick(&[0.5, 1.0, 2.0]));
    unify(s);
}

fn tag_4(r: &mut Random) -> Draft {
    let mut draft = Draft::with_right(r);
    let each = [(); 2].map(|()| r.one_in(2));
    for (half, weighed) in [&mut draft.left, &mut draft.right].into_iter().zip(each) {
        match weighed {
            true => weigh(r, half),
            false => half.strengths = Strengths::Missing,
        }
    }
    draft.number = (each[0] != each[1]).then_some(17);
    draft
}

fn buffers(r: &mut Random) -> Draft {
    let mut draft = Draft::with_right(r);
    let [left, right] = [&draft.left, &draft.right].map(|half| ROW * half.points.len());
    let list = ROW * draft.joined().0.points.len();
    let exact = r.pick(&[0, left, right, list, list, left + right]);
    draft.buffer = Some(match r.below(4) {
        0 => exact + 1,
        1 | 2 => exact.saturating_sub(1),
        _ => exact,
    });
    draft
}

/// Bytes of either file changed: what becomes of them is for the programs to say.
fn scrambled(r: &mut Random, seed: u64) -> Pair {
    let draft = Draft::with_right(r);
    let mut pair = draft.pair(r, JoinKind::Scrambled, seed);
    for file in [&mut pair.left, &mut pair.right] {
        for _ in 0..r.below(3) {
            let at = r.below(file.len());
            file[at] ^= 1 << r.below(8);
        }
    }
    pair.expected = Expected::Unknown;
    pair
}

/// Whether some of two conditions is one of these.
fn any_of(both: [Condition; 2], asked: impl Fn(Condition) -> bool) -> bool {
    both.into_iter().any(asked)
}

/// Small halves that share a cell at most, the left one the smaller unless the buffer is to be too short for it; or large
/// ones if the joined list is to have too many points.
fn base(r: &mut Random, both: [Condition; 2]) -> Draft {
    let of_strengths = any_of(both, |c| c.number() >= 12 && !matches!(c.number(), 15 | 16));
    let weighed = of_strengths || r.one_in(4);
    let mut halves = match any_of(both, |c| c == Condition::List(2)) {
        true => {
            let right = r.whole(1200, MAX_POINTS as i32) as usize;
            let (left, gone) = (MAX_POINTS - r.below(1000), r.below(3));
            of_sizes(r, [left, right, gone])
        }
        false => {
            let (few, many) = (r.whole(2, 12) as usize, r.whole(16, 30) as usize);
            let gone = r.below(2);
            match both.contains(&Condition::Left(3)) {
                true => of_sizes(r, [many, few, gone]),
                false => of_sizes(r, [few, many, gone]),
            }
        }
    };
    for half in &mut halves {
        match weighed {
            true => weigh(r, half),
            false => half.strengths = Strengths::Missing,
        }
    }
    Draft::any(r, halves)
}

impl Draft {
    fn half(&mut self, left: bool) -> &mut Sheet {
        match left {
            true => &mut self.left,
            false => &mut self.right,
        }
    }

    /// Puts in the condition of 15, 16 or 17; 15 and 17 into a half that has no number of its own, if there is one.
    fn put_join(&mut self, r: &mut Random, number: u8, damaged_left: Option<bool>) {
        let left = damaged_left.map_or_else(|| r.one_in(2), |left| !left);
        match number {
            15 => {
                let index = r.pick(&LARGE_INDICES);
                put_index(r, self.half(left), index);
            }
            16 => match r.below(4) {
                0 => self.shift.du = r.pick(&[16_001, -16_001, i32::MAX, i32::MIN]),
                1 => self.shift.dv = r.pick(&[16_001, -16_001, i32::MAX, i32::MIN]),
                2 => self.shift.dx = r.pick(&NO_SHIFTS),
                _ => self.shift.dy = r.pick(&NO_SHIFTS),
            },
            _ => self.half(left).strengths = Strengths::Missing,
        }
    }

    /// Puts in the condition of 6 or 7 of the joined list; 2 and 3 come with the halves and the buffer.
    fn put_list(&mut self, r: &mut Random, number: u8) {
        let points = &mut self.right.points;
        let up = r.one_in(2);
        match number {
            6 => {
                let (low, high) = ends(points.iter().map(|p| p.u), 0);
                let beyond = r.whole(1, 3);
                self.shift.du = match up {
                    true => 8000 + beyond - high,
                    false => -8000 - beyond - low,
                };
            }
            7 => {
                let at = r.below(points.len());
                let sign = if up { 1.0 } else { -1.0 };
                (points[at].x, self.shift.dx) = (sign * 9000.0, sign * r.between(7500.0, 16384.0));
            }
            _ => {}
        }
    }

    /// A length of buffer with which just these conditions of 3 apply.
    fn length(&self, r: &mut Random, both: [Condition; 2]) -> usize {
        let of = |s: &Sheet| ROW * s.points.len();
        let (left, right, list) = (of(&self.left), of(&self.right), of(&self.joined().0));
        let within = |r: &mut Random, low: usize, high: usize| {
            low + r.below((high.saturating_sub(low)).max(1))
        };
        let has = |condition| any_of(both, |c| c == condition);
        let before_3 = any_of(both, |c| matches!(c, Condition::Left(1 | 2 | 12)));
        if has(Condition::Left(3)) && has(Condition::Right(3)) {
            within(r, 0, left.min(right))
        } else if has(Condition::Left(3)) {
            // The right file's own number is another.
            let low = if right < left { right } else { 0 };
            within(r, low, left)
        } else if has(Condition::Right(3)) {
            let low = if before_3 { 0 } else { left };
            within(r, low, right)
        } else if has(Condition::List(3)) {
            within(r, left.max(right), list)
        } else {
            list.max(left).max(right) + r.below(100)
        }
    }

    /// Whether the conditions of the joined list hold, and that of 16 if it was put in.
    fn holds(&self, both: [Condition; 2]) -> bool {
        let list = self.joined().0;
        let buffer = self.buffer.unwrap_or(0);
        let of_list = both.iter().all(|condition| match condition {
            Condition::List(number) => joined::applies(*number, &list, buffer),
            _ => true,
        });
        of_list && joined::too_far(&self.shift) == both.contains(&Condition::Join(16))
    }
}

/// The bytes of a half: those of a framing that is wrong if that is asked for.
fn bytes(r: &mut Random, s: &Sheet, wrong: bool) -> Vec<u8> {
    match wrong {
        true => damage::framing(r, 0).file,
        false => s.to_file(),
    }
}

/// Puts both conditions into a pair.
fn with_both(r: &mut Random, both: [Condition; 2]) -> Draft {
    let mut draft = base(r, both);
    let damaged_left = both.into_iter().find_map(|condition| match condition {
        Condition::Left(_) => Some(true),
        Condition::Right(_) => Some(false),
        _ => None,
    });
    // Those of the joined list first, so that no later one is undone.
    for condition in both.into_iter().rev() {
        match condition {
            Condition::List(number) => draft.put_list(r, number),
            Condition::Join(number) => draft.put_join(r, number, damaged_left),
            Condition::Left(1 | 3) | Condition::Right(1 | 3) => {}
            Condition::Left(number) => drop(damage::put_in(r, &mut draft.left, &[number])),
            Condition::Right(number) => drop(damage::put_in(r, &mut draft.right, &[number])),
        }
    }
    draft.buffer = Some(draft.length(r, both));
    draft.number = Some(both[0].number());
    draft
}

/// The pair of a seed that has both of two conditions.
fn numbers(r: &mut Random, kind: JoinKind, seed: u64) -> Pair {
    let all = meeting(kind);
    let both = all[seed as usize % all.len()];
    let mut draft = with_both(r, both);
    while !draft.holds(both) {
        draft = with_both(r, both);
    }
    let [left, right] = [Condition::Left(1), Condition::Right(1)].map(|c| both.contains(&c));
    let (left, right) = (bytes(r, &draft.left, left), bytes(r, &draft.right, right));
    Pair {
        left,
        right,
        conditions: Some(both),
        ..draft.pair(r, kind, seed)
    }
}

/// The pair of a kind and a seed.
pub fn pair(kind: JoinKind, seed: u64) -> Pair {
    let mut random = Random::new(seed ^ (kind as u64) << 56 ^ 0x10ED << 40);
    let r = &mut random;
    let draft = match kind {
        JoinKind::Overlap
        | JoinKind::Edge
        | JoinKind::Gap
        | JoinKind::Over
        | JoinKind::Interleaved => {
            let weighed = r.one_in(3);
            Draft::of(r, kind, weighed)
        }
        JoinKind::Apart => apart(r),
        JoinKind::Weighed => weighed(r),
        JoinKind::Settings => of_settings(r),
        JoinKind::Repeated => repeated(r),
        JoinKind::RepeatedGone => repeated_gone(r),
        JoinKind::Zeros => zeros(r),
        JoinKind::Rounded => rounded(r),
        JoinKind::Empty => empty(r),
        JoinKind::Full => full(r, seed),
        JoinKind::FarCells => far_cells(r),
        JoinKind::Outermost => outermost(r),
        JoinKind::OffsetLimits => offset_limits(r),
        JoinKind::ShiftLimits => shift_limits(r),
        JoinKind::IndexLimits => index_limits(r),
        JoinKind::Tag4 => tag_4(r),
        JoinKind::Buffers => buffers(r),
        JoinKind::Scrambled => return scrambled(r, seed),
        _ => return numbers(r, kind, seed),
    };
    draft.pair(r, kind, seed)
}
