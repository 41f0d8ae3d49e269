//! Sheet files with buffer lengths, and what `sheet_file_vectors` must write of each: the refusal
//! number or 0, and the count and a digest of the points in cell order and of the fraction.
//!
//! The numbers are those of the second program. A case is the file's length and the buffer's, both
//! u32, little-endian, and the file's bytes.

use super::{next, Vectors};
use crate::second::{self, Answer, Fault, MAX_POINTS};
use crate::shapes::{longest, with_strengths, SIDE};
use crate::sheet::{field, Gate, Point, Rest, Settings, Sheet, Strengths, MOST_RECORDS};

/// The numbers that a small sheet without strengths can get, and one with them, in the order in which they
/// are looked for.
const BUT_2: [u32; 8] = [1, 3, 4, 5, 6, 7, 8, 9];
const WITH_STRENGTHS: [u32; 11] = [1, 12, 3, 4, 5, 6, 7, 13, 8, 9, 14];

const LIMIT: u32 = 0x4680_0000;
const INFINITE: u32 = 0x7F80_0000;

/// A sheet with all settings and the gate.
pub fn long(points: usize) -> Sheet {
    // No further than a position may lie.
    let apart = 10f32.min(16384.0 / points as f32);
    let point = |k: usize| {
        Point::new(
            k as i32 / 7,
            k as i32 % 7,
            100 + k as u32,
            k as f32 * apart,
            1.0,
        )
    };
    Sheet {
        settings: Settings {
            cell_size: 100.0,
            rest: Some(Rest {
                step_threshold: 0.5,
                ..Rest::with_three()
            }),
        },
        gate: Some(Gate {
            minimum_degree: 2,
            floats: [0.9, 1.5, 0.8, 1.4],
        }),
        points: (0..points).map(point).collect(),
        strengths: Strengths::Missing,
    }
}

/// A sheet with the short settings and no gate.
pub fn short(points: usize) -> Sheet {
    let mut sheet = long(points);
    sheet.settings.rest = None;
    sheet.gate = None;
    sheet
}

/// A sheet of either form with strengths.
pub fn weighed(sheet: Sheet) -> Sheet {
    with_strengths(sheet, 0.5, |k| 1.0 + k as f32)
}

/// Makes the condition of a number from 4 to 9, of 13 or of 14 hold; the others have to do with more than
/// the sheet.
fn spoil(sheet: &mut Sheet, number: u32) {
    let points = &mut sheet.points;
    match (number, &mut sheet.settings.rest) {
        (4, Some(rest)) => rest.step_flag = 2,
        (5, Some(rest)) => rest.line_tolerance = f32::INFINITY,
        (6, _) => points[0].u = 8001,
        (7, _) => points[1].x = f32::from_bits(LIMIT + 1),
        (8, _) => (points[2].u, points[2].v) = (points[3].u, points[3].v),
        // Not torn in its strength by that.
        (9, _) => {
            (points[4].index, points[4].y) = (points[5].index, -0.0);
            points[4].strength = points[5].strength;
        }
        (13, _) => points[0].strength = f32::NAN,
        (14, _) => {
            let like = points[1];
            points[0].index = like.index;
            (points[0].x, points[0].y) = (like.x, like.y);
        }
        _ => {}
    }
}

/// The points of an accepted file in cell order and the fraction, if there is one, as one number.
fn digest(points: &[Point], strengths: &Strengths) -> u64 {
    let key = |p: &Point| (p.u + 8003) as u32 * 16384 + (p.v + 8003) as u32;
    let floats = |p: &Point| [p.x, p.y, p.strength].map(f32::to_bits);
    let words = points.iter().flat_map(|p| {
        let [x, y, strength] = floats(p);
        [key(p), p.index, x, y, strength]
    });
    let fraction = match strengths {
        Strengths::Given(fraction) => Some(fraction.to_bits()),
        _ => None,
    };
    let mix = |h: u64, word: u32| h.rotate_left(5).wrapping_add(u64::from(word));
    words.chain(fraction).fold(0, mix)
}

#[derive(Default)]
struct Cases {
    stdin: Vec<u8>,
    stdout: String,
}

impl Cases {
    fn add(&mut self, file: &[u8], room: usize) {
        self.stdin.extend((file.len() as u32).to_le_bytes());
        self.stdin.extend((room as u32).to_le_bytes());
        self.stdin.extend(file);
        let (number, count, digest) = match second::answer(file, room, Fault::None) {
            Answer::Refused(number) => (number, 0, 0),
            Answer::Accepted { .. } => {
                let mut sheet = Sheet::from_file(file).unwrap();
                sheet.points.sort_by_key(|p| (p.u, p.v));
                let digest = digest(&sheet.points, &sheet.strengths);
                (0, sheet.points.len(), digest)
            }
        };
        self.stdout += &format!("{number} {count} {digest:016x}\n");
    }

    /// A sheet with a buffer of the exact length.
    fn sheet(&mut self, sheet: &Sheet) {
        self.add(&sheet.to_file(), 28 * sheet.points.len());
    }

    /// A sheet for which the conditions of these numbers hold.
    fn spoilt(&mut self, sheet: &Sheet, numbers: &[u32]) {
        let (file, room) = spoilt(sheet.clone(), numbers);
        self.add(&file, room);
    }
}

/// Lengths and tags.
fn framing(cases: &mut Cases) {
    for small in [long(2), short(1), short(0)] {
        let file = small.to_file();
        for end in 0..=file.len() {
            cases.add(&file[..end], 1000);
        }
        cases.add(&[&file[..], &[0]].concat(), 1000);
        cases.add(&[file, field(3, &[])].concat(), 1000);
    }
    let file = long(2).to_file();
    for at in [0, 1, 2, 17, 22, 23, 24, 25, 26, 44, 45, 46] {
        for byte in [
            0, 1, 2, 3, 4, 5, 16, 17, 18, 20, 21, 22, 39, 40, 41, 60, 127, 128, 254, 255,
        ] {
            let mut changed = file.clone();
            changed[at] = byte;
            cases.add(&changed, 1000);
        }
    }
    let empty = long(0);
    let [one, two, three] = [
        empty.settings_field(),
        empty.gate_field(),
        empty.points_field(),
    ];
    for order in [
        [&two, &one, &three],
        [&one, &three, &two],
        [&three, &one, &two],
        [&one, &two, &two],
        [&one, &one, &three],
        [&one, &three, &three],
    ] {
        cases.add(&order.map(|f| &f[..]).concat(), 0);
    }
    for length in [0, 3, 5, 20, 22] {
        cases.add(&[&field(1, &vec![0; length])[..], &three].concat(), 0);
    }
    for length in [1, 4, 10, 19, 21, 39] {
        cases.add(&[&one[..], &field(3, &vec![0; length])].concat(), 1000);
    }
}

/// A file and a buffer length for which the conditions of these numbers hold, of those but 2; for 12 to 14
/// the sheet has strengths.
pub fn spoilt(mut sheet: Sheet, numbers: &[u32]) -> (Vec<u8>, usize) {
    for &number in numbers {
        spoil(&mut sheet, number);
    }
    if numbers.contains(&12) {
        let mut data = sheet.strengths_field().split_off(3);
        data.pop();
        sheet.strengths = Strengths::Misfit(data);
    }
    let mut file = sheet.to_file();
    file.extend(numbers.contains(&1).then_some(0));
    let short = usize::from(numbers.contains(&3));
    (file, 28 * sheet.points.len() - short)
}

/// Each number but 2, each pair of conditions, and all from one on.
fn numbers(cases: &mut Cases) {
    let six = long(6);
    for (i, &a) in BUT_2.iter().enumerate() {
        cases.spoilt(&six, &[a]);
        for &b in &BUT_2[i + 1..] {
            cases.spoilt(&six, &[a, b]);
        }
        cases.spoilt(&six, &BUT_2[i..]);
    }
}

/// The same with strengths: each of the new numbers, each pair that has one, and all from one on.
fn numbers_with_strengths(cases: &mut Cases) {
    let six = weighed(long(6));
    let is_new = |number: u32| number >= 12;
    for (i, &a) in WITH_STRENGTHS.iter().enumerate() {
        if is_new(a) {
            cases.spoilt(&six, &[a]);
        }
        for &b in WITH_STRENGTHS[i + 1..]
            .iter()
            .filter(|b| is_new(a) || is_new(**b))
        {
            cases.spoilt(&six, &[a, b]);
        }
        cases.spoilt(&six, &WITH_STRENGTHS[i..]);
    }
}

/// Cuts, tags, lengths and places of tag 4.
fn framing_of_strengths(cases: &mut Cases) {
    for small in [long(2), short(1), short(0)].map(weighed) {
        let file = small.to_file();
        let begins = file.len() - small.strengths_field().len();
        for end in begins..=file.len() {
            cases.add(&file[..end], 1000);
        }
        for after in [&[0][..], &[4, 0, 0], &[3, 0, 0], &[5, 0, 0]] {
            cases.add(&[&file[..], after].concat(), 1000);
        }
        for at in begins..begins + 3 {
            for byte in [0, 1, 2, 3, 4, 5, 8, 11, 12, 13, 16, 254, 255] {
                let mut changed = file.clone();
                changed[at] = byte;
                cases.add(&changed, 1000);
            }
        }
        for length in 0..=17 {
            let mut other = small.clone();
            other.strengths = Strengths::Misfit(vec![0; length]);
            cases.add(&other.to_file(), 1000);
        }
    }
    let sheet = weighed(long(1));
    let [one, two, three, four] = [
        sheet.settings_field(),
        sheet.gate_field(),
        sheet.points_field(),
        sheet.strengths_field(),
    ];
    for order in [
        [&one, &two, &four, &three],
        [&one, &four, &two, &three],
        [&four, &one, &two, &three],
        [&one, &three, &four, &two],
        [&one, &three, &four, &four],
        [&one, &two, &four, &four],
    ] {
        cases.add(&order.map(|f| &f[..]).concat(), 1000);
    }
    cases.add(&[one, two, four].concat(), 1000);
}

/// A pattern as the fraction and as the first and the last strength.
fn strength_limits(cases: &mut Cases, bits: u32) {
    let float = f32::from_bits(bits);
    let with = |strength: &dyn Fn(usize) -> f32, fraction: f32| {
        with_strengths(short(3), fraction, strength)
    };
    cases.sheet(&with(&|_| 1.0, float));
    cases.sheet(&with(&|k| if k == 0 { float } else { 1.0 }, 1.0));
    cases.sheet(&with(&|k| if k == 2 { float } else { 1.0 }, 1.0));
    cases.sheet(&with_strengths(short(0), float, |_| 0.0));
}

/// One index at two cells and one position, with strengths of these bits.
fn torn_strengths(cases: &mut Cases) {
    for (a, b) in [
        (0, 0),
        (0, 0x8000_0000),
        (1, 0x8000_0001),
        (0x3F80_0000, 0x3F80_0001),
        (0x3F80_0000, 0x3F80_0000),
        (LIMIT, LIMIT),
    ] {
        let mut sheet = weighed(short(9));
        sheet.points[8].index = sheet.points[1].index;
        (sheet.points[8].x, sheet.points[8].y) = (sheet.points[1].x, sheet.points[1].y);
        sheet.points[1].strength = f32::from_bits(a);
        sheet.points[8].strength = f32::from_bits(b);
        cases.sheet(&sheet);
    }
}

/// The most points with strengths; one more, its tag 4 without data; the longest well-framed file, and a
/// byte after it.
fn many_strengths(cases: &mut Cases) {
    cases.sheet(&weighed(short(MAX_POINTS)));
    let mut more = short(MAX_POINTS + 1);
    more.strengths = Strengths::Misfit(Vec::new());
    cases.sheet(&more);
    let longest = longest().to_file();
    let room = 28 * MOST_RECORDS;
    cases.add(&longest, room);
    cases.add(&[&longest[..], &[0]].concat(), room);
}

/// The most points, one more with other conditions, the most that a field holds, and one more, whose
/// length is cut. What is looked at too soon shows where all later conditions hold.
fn many_points(cases: &mut Cases) {
    let mut many = short(MAX_POINTS);
    for (k, p) in many.points.iter_mut().enumerate() {
        (p.u, p.v) = (k as i32 % SIDE - SIDE / 2, -(k as i32 / SIDE));
    }
    cases.sheet(&many);
    cases.spoilt(&many, &[3]);
    many.points.push(Point::new(30, 30, 1, 0.0, 0.0));
    cases.sheet(&many);
    for numbers in [&[1][..], &[3], &[4], &BUT_2[1..]] {
        let mut sheet = long(0);
        sheet.points.clone_from(&many.points);
        cases.spoilt(&sheet, numbers);
    }
    cases.sheet(&short(MOST_RECORDS));
    cases.sheet(&short(MOST_RECORDS + 1));
    cases.sheet(&long(MOST_RECORDS));
    many.settings.cell_size = f32::INFINITY;
    for number in 6..=9 {
        spoil(&mut many, number);
    }
    cases.add(&many.to_file(), 0);
}

/// A pattern in each float of the settings, of the gate and of a point.
fn float_limits(cases: &mut Cases, bits: u32) {
    let float = f32::from_bits(bits);
    for k in 0..4 {
        let mut sheet = long(1);
        let rest = sheet.settings.rest.as_mut().unwrap();
        let place = [
            &mut sheet.settings.cell_size,
            &mut rest.line_tolerance,
            &mut rest.local_tolerance,
            &mut rest.step_threshold,
        ];
        *place.into_iter().nth(k).unwrap() = float;
        cases.sheet(&sheet);
    }
    for k in 0..4 {
        let mut sheet = long(1);
        sheet.gate.as_mut().unwrap().floats[k] = float;
        cases.sheet(&sheet);
    }
    let mut sheet = short(2);
    sheet.settings.cell_size = float;
    cases.sheet(&sheet);
    let mut sheet = short(2);
    sheet.points[0].x = float;
    cases.sheet(&sheet);
    sheet.points[0].x = 0.0;
    sheet.points[1].y = float;
    cases.sheet(&sheet);
}

/// Patterns of floats at and beyond their limits.
const PATTERNS: [u32; 15] = [
    0,
    0x8000_0000,
    1,
    0x8000_0001,
    LIMIT - 1,
    LIMIT,
    LIMIT + 1,
    LIMIT | 0x8000_0000,
    (LIMIT + 1) | 0x8000_0000,
    0x7F7F_FFFF,
    INFINITE,
    0xFF80_0000,
    0x7F80_0001,
    0x7FC0_0000,
    0xFFFF_FFFF,
];

/// Floats, cells, indices and buffers at their limits.
fn limits(cases: &mut Cases) {
    for bits in PATTERNS {
        float_limits(cases, bits);
    }
    for cell in [
        -8001,
        -8000,
        -7999,
        7999,
        8000,
        8001,
        i32::MIN,
        i32::MAX,
        -8003,
        -8004,
        16384,
    ] {
        let mut sheet = short(2);
        sheet.points[1].u = cell;
        cases.sheet(&sheet);
        sheet.points[1].u = 0;
        sheet.points[0].v = cell;
        cases.sheet(&sheet);
    }
    for (x, y) in [(0, 0), (0x8000_0000, 0), (0, 0x8000_0000), (1, 0)] {
        let mut sheet = short(9);
        let point = |u, [x, y]: [u32; 2]| Point::new(u, 5, 7, f32::from_bits(x), f32::from_bits(y));
        sheet.points[1] = point(5, [0, 0]);
        sheet.points[8] = point(6, [x, y]);
        cases.sheet(&sheet);
    }
    for room in [0, 27, 28, 55, 56, 57] {
        cases.add(&short(2).to_file(), room);
        cases.add(&short(0).to_file(), room);
    }
}

/// Points in several orders, some of them in one cell or with one index.
fn orders(cases: &mut Cases, state: &mut u64) {
    for round in 0..24 {
        let mut sheet = short(30);
        for p in &mut sheet.points {
            p.u = (next(state) % 40) as i32 - 20;
            p.v = (next(state) % 40) as i32 - 20;
            p.index = (next(state) % if round % 2 == 0 { 1 << 32 } else { 400 }) as u32;
            p.x = f32::from_bits((next(state) % 1000) as u32);
        }
        cases.sheet(&sheet);
        sheet.points.reverse();
        cases.sheet(&sheet);
    }
}

/// Points with strengths in several orders.
fn orders_with_strengths(cases: &mut Cases, state: &mut u64) {
    for _ in 0..8 {
        let mut sheet = weighed(short(12));
        for p in &mut sheet.points {
            p.u = (next(state) % 40) as i32 - 20;
            p.v = (next(state) % 40) as i32 - 20;
            p.index = next(state) as u32;
            p.strength =
                f32::from_bits((next(state) % 1000) as u32 | (next(state) as u32 & 1) << 31);
        }
        cases.sheet(&sheet);
        sheet.points.reverse();
        cases.sheet(&sheet);
    }
}

/// What was there before tag 4, then what has to do with it.
pub fn sheet_file() -> Vectors {
    let mut cases = Cases::default();
    framing(&mut cases);
    numbers(&mut cases);
    many_points(&mut cases);
    limits(&mut cases);
    orders(&mut cases, &mut 88_172_645_463_325_252);
    framing_of_strengths(&mut cases);
    numbers_with_strengths(&mut cases);
    many_strengths(&mut cases);
    PATTERNS
        .iter()
        .for_each(|bits| strength_limits(&mut cases, *bits));
    torn_strengths(&mut cases);
    orders_with_strengths(&mut cases, &mut 4_101_842_887_655_102_017);
    Vectors {
        stdin: cases.stdin,
        stdout: cases.stdout.into_bytes(),
    }
}
