//! Large sheets by shape: cells, positions, indices, order and settings, each from a short list.
//! The bench names some of them, the search for the dearest call tries many, the load takes any.

use crate::random::Random;
use crate::second::MAX_POINTS;
use crate::sheet::{Gate, Point, Rest, Settings, Sheet, Strengths, MOST_RECORDS};
use std::collections::HashSet;

/// The side of the largest square board that a sheet has room for.
pub const SIDE: i32 = MAX_POINTS.isqrt() as i32;

/// Which cells are taken.
#[derive(Clone, Copy, Debug, PartialEq)]
pub enum Cells {
    /// A board of this height.
    Board(i32),
    /// A board of this height with a third of its cells missing.
    Ragged(i32),
    /// Blocks of five by five with gaps between them.
    Patches,
    /// Every other cell of every other row: no two within a step.
    Isolated,
    /// Every other cell, as the black ones of a chessboard.
    Checker,
    /// Pairs of neighbours.
    Pairs,
    /// Rows of four, each apart from the others.
    Fours,
    /// One row, along u.
    Row,
    /// One column, along v.
    Column,
    /// A spine with a tooth at every other cell.
    Comb,
    /// One arm, wound with a gap of one cell.
    Spiral,
    /// Steps down a diagonal.
    Stairs,
    /// Cells at random over the whole range.
    Far,
}

/// Where the points lie.
#[derive(Clone, Copy, Debug, PartialEq)]
pub enum Place {
    Perspective,
    Straight,
    /// Straight with noise of this share of the spacing.
    Noisy(f32),
    OneX,
    OneY,
    OneSpot,
    FourSpots,
    OneLine,
    /// Anywhere within some cells of the origin.
    Anywhere,
    /// Anywhere in y, close together in x: all pairs are near in x, some in y.
    Thin,
    /// Any float in range, subnormals included.
    AnyBits,
}

#[derive(Clone, Copy, Debug, PartialEq)]
pub enum Index {
    Rising,
    Falling,
    Mixed,
    /// Only this many indices.
    Few(u32),
    /// Each index twice.
    Twice,
}

#[derive(Clone, Copy, Debug, PartialEq)]
pub enum Order {
    Rising,
    Falling,
    Mixed,
}

#[derive(Clone, Debug, PartialEq)]
pub struct Shape {
    pub points: usize,
    pub cells: Cells,
    pub place: Place,
    /// Pixels from cell to cell.
    pub spacing: f32,
    pub index: Index,
    pub order: Order,
    pub cell_size: f32,
    pub rest: Rest,
    pub gate: Option<Gate>,
    pub seed: u64,
}

/// The gate of the original's defaults.
pub fn default_gate() -> Gate {
    let eight_degrees = 16_613_942.0 / 16_777_216.0;
    Gate {
        minimum_degree: 2,
        floats: [eight_degrees, 1.18, eight_degrees, 1.1],
    }
}

/// Every filter on.
pub fn all_filters() -> Rest {
    Rest {
        step_flag: 1,
        step_threshold: 0.5,
        ..Rest::with_three()
    }
}

impl Shape {
    /// A shape in perspective with every filter on, and with the edge gate.
    pub fn new(cells: Cells, points: usize) -> Shape {
        Shape {
            points,
            cells,
            place: Place::Perspective,
            spacing: 40.0,
            index: Index::Rising,
            order: Order::Rising,
            cell_size: 40.0,
            rest: all_filters(),
            gate: Some(default_gate()),
            seed: 1,
        }
    }

    pub fn sheet(&self) -> Sheet {
        let mut r = Random::new(self.seed);
        let cells = self.cells.list(self.points.min(MAX_POINTS), &mut r);
        let mut indices: Vec<u32> = (0..cells.len() as u32).map(|k| self.index.of(k)).collect();
        if self.index == Index::Mixed {
            r.shuffle(&mut indices);
        }
        let extent = cells.iter().map(|c| c.0.abs().max(c.1.abs())).max();
        let spacing = self.spacing.min(8000.0 / extent.unwrap_or(0).max(1) as f32);
        let mut first = vec![None; cells.len() + 1];
        let mut points = Vec::with_capacity(cells.len());
        for (&(u, v), index) in cells.iter().zip(indices) {
            let held = &mut first[(index as usize).min(cells.len())];
            let (x, y) = *held.get_or_insert_with(|| self.place.at(u, v, spacing, &mut r));
            points.push(Point::new(u, v, index, x, y));
        }
        match self.order {
            Order::Rising => {}
            Order::Falling => points.reverse(),
            Order::Mixed => r.shuffle(&mut points),
        }
        Sheet {
            settings: Settings {
                cell_size: self.cell_size,
                rest: Some(self.rest.clone()),
            },
            gate: self.gate.clone(),
            points,
            strengths: Strengths::Missing,
        }
    }
}

impl Cells {
    /// The first n cells of the shape.
    fn list(self, n: usize, r: &mut Random) -> Vec<(i32, i32)> {
        let side = (n as f32).sqrt().ceil().max(1.0) as i32;
        let (mut u, mut v) = (0, 0);
        let mut out = Vec::with_capacity(n);
        let mut far = HashSet::new();
        let mut arm = (1, 0, 2, 0);
        while out.len() < n {
            let k = out.len() as i32;
            match self {
                Cells::Board(height) => out.push((k / height, k % height)),
                Cells::Row => out.push((k - n as i32 / 2, 0)),
                Cells::Column => out.push((0, k - n as i32 / 2)),
                Cells::Isolated => out.push((k / side * 2, k % side * 2)),
                Cells::Checker => out.push((k / side, k % side * 2 + k / side % 2)),
                Cells::Pairs => out.push((k / side, k % side * 2)),
                Cells::Fours => out.push((k % 4 + k / 4 / side * 5, k / 4 % side * 2)),
                Cells::Stairs => out.push((k / 2, (k + 1) / 2)),
                Cells::Far => {
                    let cell = (r.whole(-8000, 8000), r.whole(-8000, 8000));
                    if far.insert(cell) {
                        out.push(cell);
                    }
                }
                Cells::Ragged(height) => {
                    if !r.one_in(3) {
                        out.push((u, v));
                    }
                    (u, v) = if v + 1 < height {
                        (u, v + 1)
                    } else {
                        (u + 1, 0)
                    };
                }
                Cells::Patches => {
                    if u % 6 < 5 && v % 6 < 5 {
                        out.push((u, v));
                    }
                    (u, v) = if v + 1 < side { (u, v + 1) } else { (u + 1, 0) };
                }
                Cells::Comb => {
                    out.push((u, v));
                    (u, v) = if u % 2 == 0 && v + 1 < side {
                        (u, v + 1)
                    } else {
                        (u + 1, 0)
                    };
                }
                Cells::Spiral => {
                    out.push((u, v));
                    // Direction, length of this arm, steps made on it.
                    let (du, dv, length, made) = arm;
                    (u, v) = (u + du, v + dv);
                    arm = if made + 1 < length {
                        (du, dv, length, made + 1)
                    } else {
                        (-dv, du, length + 2 * i32::from(du == 0), 0)
                    };
                }
            }
        }
        if self == Cells::Pairs {
            // Every third column is left free.
            out.iter_mut().for_each(|c| c.0 += c.0 / 2);
        }
        out
    }
}

impl Place {
    fn at(self, u: i32, v: i32, spacing: f32, r: &mut Random) -> (f32, f32) {
        let (i, j) = (u as f32, v as f32);
        let (x, y) = match self {
            Place::Perspective => {
                let w = 1.0 + 0.002 * i.abs() + 0.001 * j.abs();
                ((i + 0.075 * j + 2.5) / w, (0.05 * i + j + 2.0) / w)
            }
            Place::Straight => (i, j),
            Place::Noisy(share) => (i + r.between(-share, share), j + r.between(-share, share)),
            Place::OneX => (1.0, j + 0.01 * i),
            Place::OneY => (i + 0.01 * j, 1.0),
            Place::OneSpot => (1.0, 1.0),
            Place::FourSpots => ((u & 1) as f32, (v & 1) as f32),
            Place::OneLine => (i + j, i + j),
            Place::Anywhere => (r.between(-50.0, 50.0), r.between(-50.0, 50.0)),
            Place::Thin => {
                let x = 2e-18 * r.between(-0.5, 0.5);
                return (
                    x,
                    (spacing * r.between(-50.0, 50.0)).clamp(-16384.0, 16384.0),
                );
            }
            Place::AnyBits => return (any_bits(r), any_bits(r)),
        };
        let bound = |f: f32| (f * spacing).clamp(-16384.0, 16384.0);
        (bound(x), bound(y))
    }
}

/// A float of at most 16,384 in magnitude, every exponent alike.
pub fn any_bits(r: &mut Random) -> f32 {
    let sign = r.bits() as u32 & 0x8000_0000;
    let bounded = f32::from_bits(sign | r.below(0x4680_0001) as u32);
    if r.one_in(4) {
        f32::from_bits(bounded.to_bits() & 0x807F_FFFF)
    } else {
        bounded
    }
}

impl Index {
    fn of(self, k: u32) -> u32 {
        match self {
            Index::Rising | Index::Mixed => k,
            Index::Falling => MAX_POINTS as u32 - 1 - k,
            Index::Few(count) => k % count,
            Index::Twice => k / 2,
        }
    }
}

const CELLS: [Cells; 16] = [
    Cells::Board(32),
    Cells::Board(SIDE),
    Cells::Board(2),
    Cells::Board(4),
    Cells::Ragged(SIDE),
    Cells::Ragged(4),
    Cells::Patches,
    Cells::Isolated,
    Cells::Checker,
    Cells::Pairs,
    Cells::Fours,
    Cells::Row,
    Cells::Column,
    Cells::Comb,
    Cells::Spiral,
    Cells::Stairs,
];
const PLACES: [Place; 14] = [
    Place::Perspective,
    Place::Perspective,
    Place::Straight,
    Place::Noisy(0.01),
    Place::Noisy(0.3),
    Place::Noisy(2.0),
    Place::OneX,
    Place::OneY,
    Place::OneSpot,
    Place::FourSpots,
    Place::OneLine,
    Place::Anywhere,
    Place::Thin,
    Place::AnyBits,
];
const INDICES: [Index; 8] = [
    Index::Rising,
    Index::Rising,
    Index::Falling,
    Index::Mixed,
    Index::Few(1),
    Index::Few(64),
    Index::Few(1024),
    Index::Twice,
];
const SPACINGS: [f32; 14] = [
    40.0, 40.0, 1.0, 0.1, 1e-5, 1e-10, 1e-15, 1e-19, 1e-20, 1e-22, 1e-30, 1e-38, 1e-40, 1e-43,
];
const TOLERANCES: [f32; 7] = [0.15, 0.15, 0.0, -1.0, 1e-6, 1.0, 16384.0];

/// Draws one part of a shape anew.
pub fn change(r: &mut Random, s: &mut Shape) {
    let sizes = [
        s.spacing,
        s.spacing,
        5.0 * s.spacing,
        16384.0,
        0.0,
        -1.0,
        1e-45,
        1e-20,
    ];
    match r.below(12) {
        0 => s.cells = r.pick(&CELLS),
        1 => s.place = r.pick(&PLACES),
        2 if r.one_in(2) => s.spacing = r.pick(&SPACINGS) * r.between(0.5, 1.0),
        2 => s.spacing = (s.spacing * 10f32.powf(r.between(-1.0, 1.0))).min(100.0),
        3 => s.index = r.pick(&INDICES),
        4 => s.order = r.pick(&[Order::Rising, Order::Falling, Order::Mixed]),
        5 if r.one_in(2) => s.cell_size = r.pick(&sizes),
        5 => s.cell_size = (s.cell_size * 10f32.powf(r.between(-1.0, 1.0))).min(16384.0),
        6 => {
            s.gate = match r.below(4) {
                0 => None,
                1 => Some(default_gate()),
                2 => Some(Gate {
                    minimum_degree: 0,
                    floats: [-2.0, 16384.0, -2.0, 16384.0],
                }),
                _ => Some(Gate {
                    minimum_degree: 0,
                    floats: [2.0, 0.0, 2.0, 0.0],
                }),
            }
        }
        7 => s.rest.line_tolerance = r.pick(&TOLERANCES),
        8 => s.rest.local_tolerance = r.pick(&TOLERANCES),
        9 => s.rest.line_minimum = r.pick(&[0, 2, 3, 3, 65535]),
        10 => {
            s.rest.step_flag = u8::from(!r.one_in(4));
            s.rest.step_threshold = r.pick(&[0.5, 0.0, 1e-6, 16384.0]);
        }
        _ => s.seed = r.bits(),
    }
}

/// A straight board in columns of some height, its cells 100 pixels wide or as wide as they may be, with
/// the short settings and no gate. It may have more points than a sheet.
pub fn columns(count: usize, height: usize) -> Sheet {
    let extent = height.max(count.div_ceil(height));
    let cell_size = 100f32.min(16384.0 / extent as f32);
    let point = |k: usize| {
        let (u, v) = (k / height, k % height);
        Point::new(
            u as i32,
            v as i32,
            k as u32,
            cell_size * u as f32,
            cell_size * v as f32,
        )
    };
    Sheet {
        settings: Settings {
            cell_size,
            rest: None,
        },
        gate: None,
        points: (0..count).map(point).collect(),
        strengths: Strengths::Missing,
    }
}

/// A row of points one pixel apart where a cell is 100 pixels wide: each lies close to others.
pub fn close_row(count: usize) -> Sheet {
    let mut sheet = columns(count, 1);
    sheet.settings.cell_size = 100.0;
    for (k, point) in sheet.points.iter_mut().enumerate() {
        point.x = k as f32;
    }
    sheet
}

/// The board of `columns` with its second half mirrored: the last column stands where the first of that
/// half stood.
pub fn half_mirrored(count: usize, height: usize) -> Sheet {
    let mut sheet = columns(count, height);
    let width = count.div_ceil(height) as i32;
    let half = sheet.points.iter_mut().filter(|p| p.u >= width / 2);
    half.for_each(|p| p.x = sheet.settings.cell_size * (width / 2 + width - 1 - p.u) as f32);
    sheet
}

/// The board of `columns` with every other point dropped, as on a chessboard: these share an index, which the
/// last point, apart from all others, has too.
pub fn checkered(count: usize, height: usize) -> Sheet {
    let mut sheet = columns(count, height);
    sheet.settings.rest = Some(Rest {
        line_minimum: u16::MAX,
        wrong_label: 0,
        ..Rest::with_three()
    });
    if let Some(last) = sheet.points.last_mut() {
        last.u += 2;
        last.v += 2;
    }
    let shared = sheet.points.last().copied();
    let last = count.saturating_sub(1);
    for (k, p) in sheet.points.iter_mut().enumerate() {
        // On one line, where no cross product votes.
        p.y = p.x;
        if (p.u + p.v) % 2 == 0 || k == last {
            let shared = shared.unwrap_or(*p);
            (p.index, p.x, p.y) = (shared.index, shared.x, shared.x);
        }
    }
    sheet
}

/// The same as `columns` with all settings and the gate.
pub fn gated_columns(count: usize, height: usize) -> Sheet {
    let mut sheet = columns(count, height);
    sheet.settings.rest = Some(all_filters());
    sheet.gate = Some(default_gate());
    sheet
}

/// The same sheet with a fraction and strengths, by the points' places in it.
pub fn with_strengths(mut sheet: Sheet, fraction: f32, strength: impl Fn(usize) -> f32) -> Sheet {
    sheet.strengths = Strengths::Given(fraction);
    for (k, point) in sheet.points.iter_mut().enumerate() {
        point.strength = strength(k);
    }
    sheet
}

/// The row of document 02, A.6, of any number of points: seven pixels apart, all weak but the last, so that each
/// round takes the one at the free end.
pub fn chain(count: usize) -> Sheet {
    const APART: f32 = 7.0;
    let mut row = columns(count, 1);
    row.settings = Settings {
        cell_size: APART,
        rest: Some(Rest::with_three()),
    };
    for point in &mut row.points {
        point.x = APART * point.u as f32;
    }
    let last = count.saturating_sub(1);
    with_strengths(row, 2.0, |k| if k == last { 2.0 } else { 1.0 })
}

/// A straight sheet that a peel can take apart: a chain, a comb, a spiral, steps, pairs, patches or a board.
pub fn peeled(r: &mut Random, points: usize) -> Sheet {
    let cells = [
        Cells::Row,
        Cells::Column,
        Cells::Comb,
        Cells::Spiral,
        Cells::Stairs,
        Cells::Pairs,
        Cells::Fours,
        Cells::Isolated,
        Cells::Patches,
        Cells::Ragged(SIDE),
        Cells::Board(SIDE),
    ];
    let mut shape = unmarked(r.pick(&cells), points);
    shape.index = r.pick(&[Index::Rising, Index::Mixed, Index::Twice, Index::Few(64)]);
    if matches!(shape.index, Index::Twice | Index::Few(_)) {
        shape.rest.wrong_label = 0;
    }
    shape.order = r.pick(&[Order::Rising, Order::Mixed]);
    shape.seed = r.bits();
    shape.sheet()
}

/// A shape on a straight lattice, without a gate and without lines, no two points close, on which no earlier
/// filter marks a point unless an index repeats.
pub fn unmarked(cells: Cells, points: usize) -> Shape {
    Shape {
        place: Place::Straight,
        cell_size: 1.0,
        gate: None,
        rest: Rest {
            line_minimum: u16::MAX,
            ..Rest::with_three()
        },
        ..Shape::new(cells, points)
    }
}

/// The longest well-framed file: all settings, the gate, as many points as a field holds, and a tag 4 of
/// as many bytes.
pub fn longest() -> Sheet {
    let mut sheet = gated_columns(MOST_RECORDS, 1);
    sheet.strengths = Strengths::Misfit(vec![0; usize::from(u16::MAX)]);
    sheet
}

/// Any shape of this many points.
pub fn any(r: &mut Random, points: usize) -> Shape {
    let mut shape = Shape::new(r.pick(&CELLS), points);
    if r.one_in(20) {
        shape.cells = Cells::Far;
    }
    shape.place = r.pick(&PLACES);
    shape.seed = r.bits();
    for _ in 0..r.below(12) {
        change(r, &mut shape);
    }
    shape
}
