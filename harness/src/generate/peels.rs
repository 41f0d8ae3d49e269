//! Sheets with strengths: chains, combs, rings, trees, patches joined by one cell, repeated indices;
//! thresholds of every kind, at and beside strengths; damaged files.

use super::{accepted, changes, damage, settings, Case, Expected, Kind};
use crate::random::Random;
use crate::second::{MAX_POINTS, ROW};
use crate::shapes::any_bits;
use crate::sheet::{field, Point, Rest, Settings, Sheet, Strengths};
use std::collections::{HashMap, HashSet};

type Cell = (i32, i32);

const SIDES: [Cell; 4] = [(1, 0), (-1, 0), (0, 1), (0, -1)];

fn beside((u, v): Cell) -> [Cell; 4] {
    SIDES.map(|(du, dv)| (u + du, v + dv))
}

/// Cells, each once, in the order in which they were put in.
#[derive(Default)]
struct Cells {
    list: Vec<Cell>,
    all: HashSet<Cell>,
}

impl Cells {
    fn put(&mut self, cell: Cell) {
        if self.all.insert(cell) {
            self.list.push(cell);
        }
    }

    fn degree(&self, cell: Cell) -> usize {
        beside(cell).iter().filter(|c| self.all.contains(c)).count()
    }

    /// A block of cells from one on.
    fn block(&mut self, (u, v): Cell, width: i32, height: i32) {
        for du in 0..width {
            for dv in 0..height {
                self.put((u + du, v + dv));
            }
        }
    }

    /// Goes on from a cell step by step, each beside the one before and, unless `touching`, beside no
    /// other.
    fn walk(&mut self, r: &mut Random, from: Cell, steps: usize, touching: bool) {
        let mut at = from;
        let mut ahead = r.pick(&SIDES);
        self.put(at);
        for _ in 0..steps {
            let free = |c: &Cell| !self.all.contains(c) && (touching || self.degree(*c) <= 1);
            let next: Vec<Cell> = beside(at).into_iter().filter(free).collect();
            if next.is_empty() {
                return;
            }
            let straight = (at.0 + ahead.0, at.1 + ahead.1);
            let to = if next.contains(&straight) && !r.one_in(4) {
                straight
            } else {
                r.pick(&next)
            };
            ahead = (to.0 - at.0, to.1 - at.1);
            at = to;
            self.put(at);
        }
    }

    fn any(&self, r: &mut Random) -> Cell {
        r.pick(&self.list)
    }
}

/// A chain, straight or bent, at times several.
fn chains(r: &mut Random) -> Cells {
    let mut cells = Cells::default();
    for k in 0..r.pick(&[1, 1, 1, 2, 3]) {
        let length = r.pick(&[1, 2, 3, 4, 5, 8, 12, 25]) + r.below(3);
        let from = (7 * k, 3 * k);
        match r.below(4) {
            0 => cells.block(from, length as i32, 1),
            1 => cells.block(from, 1, length as i32),
            _ => cells.walk(r, from, length - 1, false),
        }
    }
    cells
}

/// A spine with teeth at every cell or every other, of several lengths, on one side or on both.
fn combs(r: &mut Random) -> Cells {
    let mut cells = Cells::default();
    let (length, apart) = (r.whole(2, 12), r.pick(&[1, 2, 2, 2, 3]));
    let (most, both) = (r.whole(1, 6), r.one_in(2));
    cells.block((0, 0), length, 1);
    for u in (0..length).step_by(apart) {
        cells.block((u, 1), 1, r.whole(0, most));
        if both {
            let down = r.whole(0, most);
            cells.block((u, -down), 1, down);
        }
    }
    cells
}

/// The border of a block, with tails outward and chords.
fn rings(r: &mut Random) -> Cells {
    let mut cells = Cells::default();
    let (width, height) = (r.whole(2, 7), r.whole(2, 7));
    for (from, w, h) in [
        ((0, 0), width, 1),
        ((0, height - 1), width, 1),
        ((0, 0), 1, height),
        ((width - 1, 0), 1, height),
    ] {
        cells.block(from, w, h);
    }
    if r.one_in(4) {
        cells.block((width / 2, 0), 1, height);
    }
    for _ in 0..r.below(4) {
        let (from, steps, touching) = (cells.any(r), r.below(6), r.one_in(3));
        cells.walk(r, from, steps, touching);
    }
    if r.one_in(4) {
        // Broken at one cell.
        let gone = cells.any(r);
        cells.list.retain(|cell| *cell != gone);
        cells.all.remove(&gone);
    }
    cells
}

/// Cells put beside one other each.
fn trees(r: &mut Random) -> Cells {
    let mut cells = Cells::default();
    cells.put((0, 0));
    for _ in 0..r.pick(&[3, 10, 30, 60]) {
        let from = cells.any(r);
        let near = r.pick(&beside(from));
        if cells.degree(near) == 1 {
            cells.put(near);
        }
    }
    cells
}

/// Blocks one after the other, each joined to the next by one cell or a few.
fn joined(r: &mut Random) -> Cells {
    let mut cells = Cells::default();
    let mut u = 0;
    for _ in 0..r.whole(2, 4) {
        let (width, height, bridge) = (r.whole(1, 4), r.whole(1, 4), r.pick(&[1, 1, 1, 2, 3]));
        cells.block((u, -r.whole(0, height - 1)), width, height);
        cells.block((u + width, 0), bridge, 1);
        u += width + bridge;
    }
    if r.one_in(2) {
        cells.block((u, 0), r.whole(1, 3), r.whole(1, 3));
    }
    cells
}

/// Cells of a block at random, or of a wide range.
fn scattered(r: &mut Random) -> Cells {
    let mut cells = Cells::default();
    let (width, height) = (r.whole(1, 9), r.whole(1, 9));
    let one_in = r.pick(&[2, 3, 5]);
    let sparse = r.one_in(2);
    for k in 0..width * height {
        if r.one_in(one_in) == sparse {
            cells.put((k / height, k % height));
        }
    }
    if r.one_in(5) {
        for _ in 0..r.below(4) {
            cells.put((r.whole(-500, 500), r.whole(-500, 500)));
        }
    }
    cells
}

/// Many cells: a chain, a comb, steps down a diagonal, a double row with tails, a spiral.
fn long(r: &mut Random) -> Cells {
    let most = match r.below(600) {
        0 => MAX_POINTS,
        1..16 => 300 + r.below(500),
        _ => 60 + r.below(150),
    };
    let mut cells = Cells::default();
    let n = most as i32;
    match r.below(7) {
        0 => cells.block((-n / 2, 0), n, 1),
        1 => cells.block((0, -n / 2), 1, n),
        2 => (0..n).for_each(|k| cells.put((k / 2, (k + 1) / 2))),
        3 => {
            let side = most.isqrt() as i32 + 1;
            (0..side).for_each(|u| cells.block((u, 0), 1, if u % 2 == 0 { side } else { 1 }));
        }
        4 => {
            cells.block((0, 0), n / 3, 2);
            cells.block((n / 3, 0), n / 3, 1);
        }
        5 => spiral(&mut cells, most),
        _ => {
            let touching = r.one_in(2);
            cells.walk(r, (0, 0), most - 1, touching);
        }
    }
    cells.list.truncate(most);
    cells
}

/// One arm, wound with a gap of one cell.
fn spiral(cells: &mut Cells, count: usize) {
    let ((mut u, mut v), (mut du, mut dv)) = ((0, 0), (1, 0));
    let (mut length, mut made) = (2, 0);
    for _ in 0..count {
        cells.put((u, v));
        (u, v) = (u + du, v + dv);
        made += 1;
        if made == length {
            length += 2 * i32::from(du == 0);
            (du, dv, made) = (-dv, du, 0);
        }
    }
}

/// A sheet of cells on a straight lattice, indices rising.
fn straight(cells: &Cells) -> Sheet {
    let extent = cells.list.iter().map(|c| c.0.abs().max(c.1.abs())).max();
    let size = 100f32.min(8000.0 / extent.unwrap_or(0).max(1) as f32);
    let point =
        |(k, &(u, v)): (usize, &Cell)| Point::new(u, v, k as u32, size * u as f32, size * v as f32);
    Sheet {
        settings: Settings {
            cell_size: size,
            rest: None,
        },
        gate: None,
        points: cells.list.iter().enumerate().map(point).collect(),
        strengths: Strengths::Missing,
    }
}

/// Lays all positions on one line and switches off the lines and the wrong-label filter: no earlier filter
/// marks a point, whatever its index.
fn unmarked(r: &mut Random, s: &mut Sheet) {
    for p in &mut s.points {
        (p.x, p.y) = (p.index as f32 % 1000.0, 0.0);
    }
    s.settings.rest = Some(Rest {
        line_minimum: u16::MAX,
        wrong_label: 0,
        largest_patch: u8::from(!r.one_in(5)),
        ..Rest::with_three()
    });
}

/// Some points take the index of another: of an end, of one with several neighbours, or of any.
fn repeat(r: &mut Random, s: &mut Sheet, cells: &Cells) {
    let n = s.points.len();
    if n < 2 {
        return;
    }
    let of_degree = |few: bool| -> Vec<usize> {
        let all = 0..n;
        all.filter(|&k| (cells.degree(cells.list[k]) <= 1) == few)
            .collect()
    };
    let (ends, inner) = (of_degree(true), of_degree(false));
    for _ in 0..r.whole(1, 4) {
        let any = (0..n).collect();
        let from = if inner.is_empty() || r.one_in(3) {
            &any
        } else {
            &inner
        };
        let to = if ends.is_empty() || r.one_in(3) {
            &any
        } else {
            &ends
        };
        let (from, to) = (r.pick(from), r.pick(to));
        s.points[to].index = s.points[from].index;
    }
    if r.one_in(4) {
        let few = r.whole(1, 6) as u32;
        s.points.iter_mut().for_each(|p| p.index %= few);
    }
}

/// Repeated indices, and points apart from the others with the index of one of them.
fn ends(r: &mut Random) -> Sheet {
    let mut cells = match r.below(5) {
        0 => chains(r),
        1 => combs(r),
        2 => rings(r),
        3 => trees(r),
        _ => joined(r),
    };
    let inside = cells.list.len();
    for k in 0..r.below(4) as i32 {
        cells.put((40 + 2 * k, 40));
    }
    let mut s = straight(&cells);
    for k in inside..s.points.len() {
        s.points[k].index = r.below(inside) as u32;
    }
    if inside == s.points.len() || r.one_in(2) {
        repeat(r, &mut s, &cells);
    }
    unmarked(r, &mut s);
    s
}

/// Kinds without strengths, which the earlier filters mark.
const MARKED: [Kind; 14] = [
    Kind::Noise,
    Kind::TooFar,
    Kind::Missing,
    Kind::Patches,
    Kind::Mirrored,
    Kind::Repeated,
    Kind::Shared,
    Kind::Ragged,
    Kind::Rows,
    Kind::Close,
    Kind::Gated,
    Kind::Turned,
    Kind::Small,
    Kind::Wild,
];

/// The sheet of a kind without its strengths.
fn sheet(kind: Kind, r: &mut Random) -> Sheet {
    let cells = match kind {
        Kind::Ends => return ends(r),
        Kind::Weighed => return super::sheet(r.pick(&MARKED), r),
        Kind::Combs => combs(r),
        Kind::Rings => rings(r),
        Kind::Trees => trees(r),
        Kind::Joined => joined(r),
        Kind::Scattered => scattered(r),
        Kind::Long => long(r),
        _ => chains(r),
    };
    let mut s = straight(&cells);
    match r.below(12) {
        0 => unmarked(r, &mut s),
        1 => {
            repeat(r, &mut s, &cells);
            unmarked(r, &mut s);
        }
        2 => changes::noise(r, &mut s),
        3 => changes::close(r, &mut s),
        4 => settings::gate(r, &mut s),
        5 => settings::varied(r, &mut s),
        6 => {
            // Either switch, or both.
            let (wrong_label, largest_patch) = r.pick(&[(0, 0), (0, 1), (1, 0), (1, 1)]);
            s.settings.rest = Some(Rest {
                wrong_label,
                largest_patch,
                ..Rest::with_three()
            });
        }
        _ => {}
    }
    s
}

/// A strength of many kinds.
fn strength(r: &mut Random, pattern: usize, weak: usize) -> f32 {
    match pattern {
        0 => r.between(0.0, 2.0),
        1 => r.whole(0, 4) as f32,
        2 => r.pick(&[0.0, -0.0]),
        3 => f32::from_bits(r.below(6) as u32 | r.pick(&[0, 0, 0x8000_0000])),
        4 => r.between(-2.0, 2.0),
        5 => any_bits(r),
        6 => r.pick(&[16384.0, -16384.0, 16383.999, 1.0, 0.0]),
        7 => r.whole(-2, 2) as f32,
        _ if r.one_in(weak) => 0.1,
        _ => 1.0,
    }
}

/// Gives each index a strength.
fn weigh(r: &mut Random, s: &mut Sheet) {
    let (pattern, weak) = (r.below(14), r.pick(&[2, 3, 10]));
    let equal = r.pick(&[1.0, 0.3, 0.0, -0.0, -1.0, 1e-45, 16384.0]);
    let mut of: HashMap<u32, f32> = HashMap::new();
    for p in &mut s.points {
        let one = of.entry(p.index).or_insert_with(|| match pattern {
            12 | 13 => equal,
            pattern => strength(r, pattern, weak),
        });
        p.strength = *one;
    }
    if pattern == 13 && !s.points.is_empty() {
        // All but one alike.
        let (index, twice) = (s.points[r.below(s.points.len())].index, 2.0 * equal);
        set_strength(s, index, if twice.abs() <= 16384.0 { twice } else { 1.0 });
    }
}

fn set_strength(s: &mut Sheet, index: u32, strength: f32) {
    let of_index = s.points.iter_mut().filter(|p| p.index == index);
    of_index.for_each(|p| p.strength = strength);
}

const FRACTIONS: [f32; 22] = [
    0.5,
    0.25,
    0.1,
    0.9,
    1.0,
    1.0,
    1.0 + f32::EPSILON,
    1.0 - f32::EPSILON / 2.0,
    1.5,
    2.0,
    2.0,
    3.0,
    0.0,
    -0.0,
    1e-45,
    1e-38,
    -1e-45,
    -1.0,
    -0.5,
    16384.0,
    16383.999,
    -16384.0,
];

fn median(s: &Sheet) -> Option<f32> {
    let mut all: Vec<f32> = s.points.iter().map(|p| p.strength).collect();
    all.sort_by(f32::total_cmp);
    all.get(all.len() / 2).copied()
}

/// A float or one of its neighbours, within the limits.
fn near(r: &mut Random, float: f32) -> f32 {
    let float = match r.below(3) {
        0 => float.next_up(),
        1 => float.next_down(),
        _ => float,
    };
    if float.is_finite() {
        float.clamp(-16384.0, 16384.0)
    } else {
        1.0
    }
}

/// A fraction: one of a list, or such that the threshold lies at or beside some strength. At times
/// strengths are then set beside the threshold.
fn fraction(r: &mut Random, s: &mut Sheet) -> f32 {
    let Some(middle) = median(s) else {
        return r.pick(&FRACTIONS);
    };
    let fraction = if r.one_in(3) {
        let strength = s.points[r.below(s.points.len())].strength;
        near(r, strength / middle)
    } else {
        r.pick(&FRACTIONS)
    };
    if r.one_in(5) {
        for _ in 0..r.whole(1, 4) {
            let index = s.points[r.below(s.points.len())].index;
            let strength = near(r, fraction * middle);
            set_strength(s, index, strength);
        }
    }
    fraction
}

/// An accepted sheet of a kind, with strengths.
pub fn weighed(kind: Kind, r: &mut Random) -> Sheet {
    let mut s = sheet(kind, r);
    if kind != Kind::Weighed {
        changes::settle(r, &mut s);
    }
    weigh(r, &mut s);
    s.strengths = Strengths::Given(fraction(r, &mut s));
    s
}

/// A small sheet of any kind, of two points at least.
fn small(r: &mut Random) -> Sheet {
    loop {
        let kind = r.pick(&[Kind::Chains, Kind::Rings, Kind::Ends, Kind::Weighed]);
        let mut s = weighed(kind, r);
        s.points.truncate(40);
        if s.points.len() >= 2 {
            return s;
        }
    }
}

/// Each of the new numbers with any others.
fn damaged(r: &mut Random, seed: u64) -> Case {
    let mut s = small(r);
    let mut chosen = vec![r.pick(&[12, 13, 14])];
    if r.one_in(3) {
        // A number beside it in the list, whose place then shows.
        chosen.push(match chosen[0] {
            12 => 2,
            13 => r.pick(&[7, 8]),
            _ => 9,
        });
    }
    while r.one_in(2) {
        chosen.push(r.pick(&[3, 4, 5, 6, 7, 8, 9, 12, 13, 14]));
    }
    if r.one_in(60) {
        chosen.push(2);
    }
    damage::in_order(&mut chosen);
    let buffer = damage::put_in(r, &mut s, &chosen);
    Case {
        kind: Kind::DamagedPeels,
        seed,
        buffer,
        file: s.to_file(),
        expected: Expected::Refused(chosen[0]),
        map: damage::map_number(&s, &chosen),
    }
}

/// A tag 4 that is cut, doubled, in another place or under another tag, or has something after it.
fn framing(r: &mut Random, seed: u64) -> Case {
    let s = small(r);
    let [first, second, third, fourth] = [
        s.settings_field(),
        s.gate_field(),
        s.points_field(),
        s.strengths_field(),
    ];
    let whole = s.to_file();
    let length_at = whole.len() - fourth.len() + 1;
    let file = match r.below(14) {
        0 => whole[..whole.len() - 1 - r.below(fourth.len() - 1)].to_vec(),
        1 => [whole, vec![r.bits() as u8; r.whole(1, 25) as usize]].concat(),
        2 => [whole, fourth].concat(),
        3 => [whole, field(4, &[])].concat(),
        4 => [first, second, fourth, third].concat(),
        5 => [first, fourth, second, third].concat(),
        6 => [fourth, first, second, third].concat(),
        7 => [first, second, fourth].concat(),
        8 => [whole, third].concat(),
        9 => [first, third, fourth, field(2, &[0; 17])].concat(),
        10 => [
            first,
            second,
            third,
            field(r.pick(&[0, 1, 2, 3, 5, 255]), &fourth[3..]),
        ]
        .concat(),
        11 => [first, second, third, vec![4]].concat(),
        12 => [whole, field(5, &[])].concat(),
        _ => {
            // A length that claims one byte more or fewer, or 256, than stands there.
            let mut file = whole;
            let at = length_at + r.below(2);
            file[at] = file[at].wrapping_add(r.pick(&[1, 255]));
            file
        }
    };
    Case {
        kind: Kind::FramingPeels,
        seed,
        buffer: r.pick(&[0, 1120, 2000]),
        file,
        expected: Expected::Refused(1),
        map: Expected::Refused(1),
    }
}

/// Bytes changed at random, half of them in tag 4.
fn scrambled(r: &mut Random, seed: u64) -> Case {
    let s = small(r);
    let mut file = s.to_file();
    let tail = s.strengths_field().len();
    for _ in 0..r.whole(1, 3) {
        let from = if r.one_in(2) { file.len() - tail } else { 0 };
        let at = from + r.below(file.len() - from);
        file[at] ^= 1 << r.below(8);
    }
    let needed = s.points.len() * ROW;
    Case {
        kind: Kind::ScrambledPeels,
        seed,
        buffer: r.pick(&[needed, needed, needed + 56, needed - 1]),
        file,
        expected: Expected::Unknown,
        map: Expected::Unknown,
    }
}

/// The case of one of these kinds.
pub fn case(kind: Kind, r: &mut Random, seed: u64) -> Case {
    match kind {
        Kind::DamagedPeels => return damaged(r, seed),
        Kind::FramingPeels => return framing(r, seed),
        Kind::ScrambledPeels => return scrambled(r, seed),
        _ => {}
    }
    let s = weighed(kind, r);
    accepted(kind, r, seed, &s)
}
