//! Document 02, A.6: the sheet that takes longest, what lies beside it, and the arguments of its program.

use super::{accepted, damage, settings, Case, Expected, Kind};
use crate::random::Random;
use crate::second::{self, MAX_POINTS, ROW};
use crate::sheet::{Point, Rest, Sheet, Strengths};

/// A number of points, mostly small: the original takes a time that grows with its square.
fn any_count(r: &mut Random) -> usize {
    let most = match r.below(40) {
        0..24 => 12,
        24..34 => 60,
        34..39 => 300,
        _ => MAX_POINTS,
    };
    r.whole(2, most as i32) as usize
}

/// The sheet as data, to be changed.
fn sheet(r: &mut Random) -> Sheet {
    Sheet::from_file(&second::worst_of(any_count(r))).unwrap()
}

/// The strong point elsewhere, or one more, or a strength at the threshold or beside it.
fn other_strengths(r: &mut Random, s: &mut Sheet) {
    let (last, any) = (s.points.len() - 1, r.below(s.points.len()));
    match r.below(4) {
        0 => {
            s.points[last].strength = 1.0;
            s.points[any].strength = 2.0;
        }
        1 => s.points[any].strength = 2.0,
        2 => s.points[any].strength = 2f32.next_down(),
        _ => s.points[last].strength = r.pick(&[1.0, 2f32.next_down(), 3.0, 16384.0]),
    }
}

fn other_fraction(r: &mut Random, s: &mut Sheet) {
    let fractions = [
        1.0,
        1f32.next_up(),
        2f32.next_down(),
        2f32.next_up(),
        0.5,
        3.0,
        16384.0,
        -2.0,
        0.0,
    ];
    s.strengths = Strengths::Given(r.pick(&fractions));
}

/// A gap, a point beside the row, at most one, or one off it.
fn other_points(r: &mut Random, s: &mut Sheet) {
    const BESIDE: u32 = 1_000_000;
    let k = r.below(s.points.len());
    match r.below(3) {
        0 if s.points.len() > 2 => drop(s.points.remove(k)),
        1 if s.points.len() < MAX_POINTS && s.points.iter().all(|p| p.index != BESIDE) => {
            s.points.push(Point {
                v: 1,
                y: 7.0,
                index: BESIDE,
                strength: r.pick(&[1.0, 2.0]),
                ..s.points[k]
            });
        }
        _ => s.points[k].y = r.between(-8.0, 8.0),
    }
}

/// Moved, or along v, or both.
fn other_place(r: &mut Random, s: &mut Sheet) {
    let (du, dv) = (r.whole(-5000, 5000), r.whole(-5000, 5000));
    let across = r.one_in(2);
    for p in &mut s.points {
        if across {
            (p.u, p.v, p.x, p.y) = (p.v, p.u, p.y, p.x);
        }
        (p.u, p.v) = (p.u + du, p.v + dv);
    }
}

/// An index at two cells or more, with one position and one strength, and no filter that would mark it for that.
fn repeated_index(r: &mut Random, s: &mut Sheet) {
    for _ in 0..r.whole(1, 3) {
        let (from, to) = (s.points[r.below(s.points.len())], r.below(s.points.len()));
        let Point { u, v, .. } = s.points[to];
        s.points[to] = Point { u, v, ..from };
    }
    s.settings.rest = Some(Rest {
        line_minimum: u16::MAX,
        wrong_label: 0,
        ..Rest::with_three()
    });
}

/// The sheet with one thing changed or several. Indices are repeated last, when each point is what it stays.
fn near(r: &mut Random) -> Sheet {
    let mut s = sheet(r);
    for _ in 0..r.pick(&[1, 1, 1, 2, 3]) {
        match r.below(6) {
            0 => r.shuffle(&mut s.points),
            1 => other_strengths(r, &mut s),
            2 => other_fraction(r, &mut s),
            3 => other_points(r, &mut s),
            4 => settings::varied(r, &mut s),
            _ => {}
        }
    }
    if r.one_in(5) {
        repeated_index(r, &mut s);
    }
    if r.one_in(5) {
        other_place(r, &mut s);
    }
    s
}

/// A file that is cut, goes on, or has bytes changed.
fn other_bytes(r: &mut Random, way: usize, file: &mut Vec<u8>) {
    match way {
        0 => file.truncate(r.below(file.len())),
        1 => file.extend(vec![r.bits() as u8; r.whole(1, 30) as usize]),
        _ => {
            for _ in 0..r.whole(1, 3) {
                let at = r.below(file.len());
                file[at] ^= 1 << r.below(8);
            }
        }
    }
}

/// Damages of several numbers.
fn other_numbers(r: &mut Random, mut s: Sheet, case: &mut Case) {
    let numbers = [3, 4, 5, 6, 7, 8, 9, 12, 13, 14];
    let mut chosen: Vec<u8> = (0..r.whole(1, 3)).map(|_| r.pick(&numbers)).collect();
    damage::in_order(&mut chosen);
    case.buffer = damage::put_in(r, &mut s, &chosen);
    case.file = s.to_file();
    // A point more than the most, which a damage may add, is refused with 2.
    if s.points.len() <= MAX_POINTS {
        case.expected = Expected::Refused(chosen[0]);
        case.map = damage::map_number(&s, &chosen);
    }
}

/// Damages of several numbers, or other bytes.
fn damaged(r: &mut Random, seed: u64) -> Case {
    let s = sheet(r);
    let mut case = Case {
        kind: Kind::DamagedWorst,
        seed,
        file: s.to_file(),
        buffer: s.points.len() * ROW,
        expected: Expected::Unknown,
        map: Expected::Unknown,
    };
    match r.below(6) {
        way @ 0..3 => other_bytes(r, way, &mut case.file),
        _ => other_numbers(r, s, &mut case),
    }
    case
}

/// The case of one of these kinds.
pub fn case(kind: Kind, r: &mut Random, seed: u64) -> Case {
    let s = match kind {
        Kind::DamagedWorst => return damaged(r, seed),
        Kind::NearWorst => near(r),
        _ => sheet(r),
    };
    accepted(kind, r, seed, &s)
}

/// Lists of arguments for which nothing is written.
pub const REFUSED: [&[&[u8]]; 40] = [
    &[],
    &[b""],
    &[b"0"],
    &[b"1"],
    &[b"2305"],
    &[b"2340"],
    &[b"3276"],
    &[b"9999"],
    &[b"23040"],
    &[b"65538"],
    &[b"4294967298"],
    &[b"18446744073709551618"],
    &[b"340282366920938463463374607431768211458"],
    &[b"1234567890123456789012345678901234567890"],
    &[b"00"],
    &[b"02"],
    &[b"0000000000000000000000000000000000000002"],
    &[b"02304"],
    &[b"+2"],
    &[b"-2"],
    &[b"--2"],
    &[b"2x"],
    &[b"x2"],
    &[b"2 "],
    &[b" 2"],
    &[b"2\n"],
    &[b"\t2"],
    &[b"2."],
    &[b"2.0"],
    &[b"2,304"],
    &[b"2_304"],
    &[b"2e3"],
    &[b"0x2"],
    &[b"two"],
    &["٢".as_bytes()],
    &[b"2\xFF"],
    &[b"\x82"],
    &[b"2", b"2"],
    &[b"2", b""],
    &[b"", b"2"],
];

/// Numbers for which a sheet is written, the limits and some beside which a fault shows first.
const WRITTEN: [usize; 12] = [2, 3, 4, 5, 9, 10, 99, 100, 101, 999, 2303, 2304];

/// An n with something done to it.
fn damaged_argument(r: &mut Random) -> Vec<u8> {
    let mut argument = r.below(3000).to_string().into_bytes();
    for _ in 0..r.below(3) {
        let at = r.below(argument.len() + 1);
        argument.insert(at, r.pick(b"0019+- x\n.\xFF"));
    }
    argument
}

/// List i of arguments, from a seed on: those written out here first.
pub fn arguments(seed: u64, i: usize) -> Vec<Vec<u8>> {
    let list = |words: &[&[u8]]| words.iter().map(|word| word.to_vec()).collect();
    let written = |n: usize| vec![n.to_string().into_bytes()];
    if i < WRITTEN.len() {
        return written(WRITTEN[i]);
    }
    if let Some(words) = REFUSED.get(i - WRITTEN.len()) {
        return list(words);
    }
    let mut random = Random::new(seed + i as u64);
    let r = &mut random;
    match r.below(8) {
        0..4 => written(any_count(r)),
        4..7 => vec![damaged_argument(r)],
        _ => (0..r.whole(2, 3)).map(|_| damaged_argument(r)).collect(),
    }
}
