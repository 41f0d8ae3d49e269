//! Damaged files, with the number that they must be refused with.

use super::{pages, sheet, Case, Expected, Kind};
use crate::random::Random;
use crate::second::{MAX_POINTS, ORDER, ROW};
use crate::sheet::{field, Gate, Point, Rest, Sheet, Strengths, MOST_RECORDS};

/// A sheet of any accepted kind, kept short.
fn whole_sheet(r: &mut Random) -> Sheet {
    let kind = r.pick(&[
        Kind::Clean,
        Kind::Noise,
        Kind::Repeated,
        Kind::Small,
        Kind::Gated,
    ]);
    let mut s = sheet(kind, r);
    s.points.truncate(40);
    s
}

const NOT_BOUNDED: [f32; 7] = [
    f32::NAN,
    f32::INFINITY,
    f32::NEG_INFINITY,
    16384.002,
    -16384.002,
    3e38,
    -1e30,
];

fn bad_flag(r: &mut Random, s: &mut Sheet) {
    let rest = s.settings.rest.get_or_insert_with(Rest::with_three);
    let bad = r.pick(&[2, 3, 128, 255]);
    match r.below(3) {
        0 => rest.step_flag = bad,
        1 => rest.wrong_label = bad,
        _ => rest.largest_patch = bad,
    }
}

fn bad_float(r: &mut Random, s: &mut Sheet) {
    let bad = r.pick(&NOT_BOUNDED);
    match r.below(8) {
        0 => s.settings.cell_size = bad,
        1 => {
            s.settings
                .rest
                .get_or_insert_with(Rest::with_three)
                .line_tolerance = bad
        }
        2 => {
            s.settings
                .rest
                .get_or_insert_with(Rest::with_three)
                .local_tolerance = bad
        }
        3 => {
            s.settings
                .rest
                .get_or_insert_with(Rest::with_three)
                .step_threshold = bad
        }
        k => {
            let floats = [0.99, 1.18, 0.99, 1.1];
            let gate = s.gate.get_or_insert(Gate {
                minimum_degree: 2,
                floats,
            });
            gate.floats[k - 4] = bad;
        }
    }
}

fn bad_cell(r: &mut Random, p: &mut Point) {
    let bad = r.pick(&[8001, -8001, i32::MAX, i32::MIN, 40000, 65536]);
    if r.one_in(2) {
        p.u = bad;
    } else {
        p.v = bad;
    }
}

fn bad_position(r: &mut Random, p: &mut Point) {
    let bad = r.pick(&NOT_BOUNDED);
    if r.one_in(2) {
        p.x = bad;
    } else {
        p.y = bad;
    }
}

/// An index that no point has.
fn fresh_index(s: &Sheet) -> u32 {
    (0..)
        .find(|&index| s.points.iter().all(|p| p.index != index))
        .unwrap()
}

/// A second point at the cell of one.
fn repeat_cell(r: &mut Random, s: &mut Sheet, whole: bool) {
    let mut p = s.points[r.below(s.points.len())];
    if !whole {
        p.index = fresh_index(s);
        p.x = 1.0;
    }
    let at = r.below(s.points.len() + 1);
    s.points.insert(at, p);
}

/// A point like another at a free cell in range, as all cells here are.
fn like(s: &Sheet, from: Point) -> Point {
    let v = s.points.iter().map(|p| p.v).max().unwrap();
    let u = s.points.iter().map(|p| p.u).max().unwrap();
    let mut p = Point {
        u,
        v: if v < 8000 { v + 1 } else { -8000 },
        ..from
    };
    while s.points.iter().any(|q| (q.u, q.v) == (p.u, p.v)) {
        p.v += 1;
    }
    p
}

/// A point with the index of another and a position that differs in its bits.
fn tear_index(r: &mut Random, s: &mut Sheet) {
    let from = s.points[r.below(s.points.len())];
    let mut p = like(s, from);
    if r.one_in(3) && from.x == 0.0 {
        p.x = -from.x;
    } else if r.one_in(2) {
        p.x = if from.x == 5.0 { 6.0 } else { 5.0 };
    } else {
        p.y = if from.y < 1.0 {
            from.y.next_up()
        } else {
            from.y.next_down()
        };
    }
    let at = r.below(s.points.len() + 1);
    s.points.insert(at, p);
}

/// A float of other bits: another zero, a neighbour or a number apart.
fn other_bits(r: &mut Random, float: f32) -> f32 {
    if float == 0.0 && r.one_in(2) {
        return -float;
    }
    match r.below(3) {
        0 if float < 16384.0 => float.next_up(),
        1 if float > -16384.0 => float.next_down(),
        _ if float == 1.0 => 2.0,
        _ => 1.0,
    }
}

/// A point with the index and the position of another and a strength that differs in its bits.
fn tear_strength(r: &mut Random, s: &mut Sheet) {
    let from = s.points[r.below(s.points.len())];
    let mut p = like(s, from);
    p.strength = other_bits(r, from.strength);
    let at = r.below(s.points.len() + 1);
    s.points.insert(at, p);
}

/// A fraction or a strength that is not finite or too large.
fn bad_strength(r: &mut Random, s: &mut Sheet) {
    let bad = r.pick(&NOT_BOUNDED);
    if r.one_in(3) {
        s.strengths = Strengths::Given(bad);
    } else {
        let at = r.below(s.points.len());
        s.points[at].strength = bad;
    }
}

/// A tag 4 that is longer or shorter than its points ask for.
fn misfit(r: &mut Random, s: &mut Sheet) {
    let mut data = s.strengths_field().split_off(3);
    let right = data.len();
    let length = match r.below(8) {
        0 => 0,
        1 => right - 4,
        2 => right + 4,
        3 => right - 1,
        4 => right + 1,
        5 => r.below(right),
        6 => right + 1 + r.below(60),
        _ => r.pick(&[1, 3, 4, 5, 20 * s.points.len(), usize::from(u16::MAX)]),
    };
    data.resize(length, r.bits() as u8);
    if length == right {
        data.pop();
    }
    s.strengths = Strengths::Misfit(data);
}

/// Puts numbers into the order in which they are looked for, each once.
pub fn in_order(numbers: &mut Vec<u8>) {
    let place = |number: &u8| ORDER.iter().position(|one| one == number);
    numbers.sort_by_key(place);
    numbers.dedup();
}

/// More points than are allowed, and at most as many as a field can hold.
fn too_many(r: &mut Random, s: &mut Sheet) {
    let n = r.pick(&[
        MAX_POINTS + 1,
        MAX_POINTS + 2,
        MOST_RECORDS - 1,
        MOST_RECORDS,
    ]);
    let base = s.points[0];
    let first = fresh_index(s).max(100_000);
    for k in s.points.len()..n {
        let cell = (k as i32 % 60, 7000 + k as i32 / 60);
        s.points.push(Point {
            u: cell.0,
            v: cell.1,
            index: first + k as u32,
            ..base
        });
    }
}

/// One damage or several; the expected number is the least.
pub fn several(r: &mut Random, seed: u64) -> Case {
    let mut s = whole_sheet(r);
    while s.points.len() < 2 {
        s = whole_sheet(r);
    }
    let mut chosen: Vec<u8> = vec![r.whole(3, 9) as u8];
    if r.one_in(2) {
        // The number after it, whose place in the list then shows.
        chosen.push(if chosen[0] < 9 { chosen[0] + 1 } else { 8 });
    }
    while r.one_in(3) {
        chosen.push(r.whole(3, 9) as u8);
    }
    if r.one_in(60) {
        chosen.push(2);
    }
    chosen.sort_unstable();
    chosen.dedup();
    let buffer = put_in(r, &mut s, &chosen);
    Case {
        kind: Kind::Damaged,
        seed,
        file: s.to_file(),
        buffer,
        expected: Expected::Refused(chosen[0]),
        map: map_number(&s, &chosen),
    }
}

/// What the map of a damaged sheet must be: it has room for all rows, so 3 does not count.
pub fn map_number(s: &Sheet, chosen: &[u8]) -> Expected {
    let older = chosen.iter().find(|&&number| number != 3);
    older.map_or_else(|| pages::expected(s), |&number| Expected::Refused(number))
}

/// Puts in the damages of these numbers, in the order in which they are looked for, and gives the length
/// of the buffer. A sheet for 12 to 14 has strengths.
pub fn put_in(r: &mut Random, s: &mut Sheet, chosen: &[u8]) -> usize {
    // Later numbers first, so that an earlier damage cannot undo a later one.
    for &number in chosen.iter().rev() {
        let at = r.below(s.points.len());
        match number {
            2 => too_many(r, s),
            4 => bad_flag(r, s),
            5 => bad_float(r, s),
            6 => bad_cell(r, &mut s.points[at]),
            7 => bad_position(r, &mut s.points[at]),
            8 => {
                let whole = r.one_in(4);
                repeat_cell(r, s, whole)
            }
            9 => tear_index(r, s),
            12 => misfit(r, s),
            13 => bad_strength(r, s),
            14 => tear_strength(r, s),
            _ => {}
        }
    }
    let needed = s.points.len() * ROW;
    if chosen.contains(&3) {
        r.pick(&[0, needed / 2, needed - 1])
    } else {
        needed
    }
}

/// Points in as many bytes as a field may have, or one point more than it holds: the length is cut.
fn long_field(r: &mut Random) -> Vec<u8> {
    let length = r.pick(&[usize::from(u16::MAX), 20 * (MOST_RECORDS + 1)]);
    field(3, &vec![0; length])
}

/// A file that differs from the list of fields, at times with other damages too.
pub fn framing(r: &mut Random, seed: u64) -> Case {
    let mut s = whole_sheet(r);
    if r.one_in(3) {
        bad_float(r, &mut s);
    }
    if r.one_in(3) && !s.points.is_empty() {
        bad_cell(r, &mut s.points[0]);
    }
    let (first, second, third) = (s.settings_field(), s.gate_field(), s.points_field());
    let whole = s.to_file();
    let cut = |part: &[u8], tag: u8, by: usize| field(tag, &part[3..part.len() - by]);
    let file = match r.below(16) {
        0 => whole[..r.below(whole.len())].to_vec(),
        1 => [whole, vec![0; r.whole(1, 25) as usize]].concat(),
        2 => [third, first].concat(),
        3 => [second, third].concat(),
        4 => [first, second].concat(),
        5 => [first.clone(), first, third].concat(),
        6 => [first, third.clone(), third].concat(),
        7 => [cut(&first, 1, 1), second, third].concat(),
        8 => [first, field(2, &[0; 16]), third].concat(),
        9 => [first, field(2, &[0; 18]), third].concat(),
        10 => [first, second, field(3, &[0; 7])].concat(),
        11 => [first, second, long_field(r)].concat(),
        12 => Vec::new(),
        13 => [
            field(r.pick(&[0, 2, 3, 4, 255]), &first[3..]),
            second,
            third,
        ]
        .concat(),
        14 => [first, third, field(2, &[0; 17])].concat(),
        _ => {
            // A length that claims one byte more or fewer than stands there.
            let mut file = whole;
            let at = first.len() + second.len() + 1;
            file[at] = file[at].wrapping_add(r.pick(&[1, 255]));
            file
        }
    };
    let buffer = r.pick(&[0, 1120, 2000]);
    Case {
        kind: Kind::Framing,
        seed,
        file,
        buffer,
        expected: Expected::Refused(1),
        map: Expected::Refused(1),
    }
}

/// Bytes changed at random: what becomes of them is for the programs to say.
pub fn scrambled(r: &mut Random, seed: u64) -> Case {
    let s = whole_sheet(r);
    let mut file = s.to_file();
    for _ in 0..r.whole(1, 3) {
        let at = r.below(file.len());
        file[at] ^= 1 << r.below(8);
    }
    let needed = s.points.len() * ROW;
    let buffer = r.pick(&[needed, needed, needed + 56, needed.saturating_sub(1)]);
    Case {
        kind: Kind::Scrambled,
        seed,
        file,
        buffer,
        expected: Expected::Unknown,
        map: Expected::Unknown,
    }
}
