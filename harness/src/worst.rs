//! Document 02, A.6, through every program: the sheets that take longest, and beside the bound on the rounds all
//! sheets of the cells of small blocks.

use crate::bound::Bound;
use crate::compare::{self, Verdict};
use crate::generate::{Case, Expected, Kind};
use crate::library;
use crate::peel_reader;
use crate::random::Random;
use crate::second::{self, All, Answer, Fault, MAX_POINTS, ROW};
use crate::shapes::{self, with_strengths};
use crate::sheet::{Point, Rest, Settings, Sheet, Strengths};

/// Numbers of points beyond the first ones: about the widest map, powers of ten and of two, and the most.
const NUMBERS: [usize; 26] = [
    40, 48, 64, 71, 72, 73, 80, 96, 99, 100, 101, 128, 160, 200, 256, 300, 384, 500, 512, 700, 768,
    1000, 1024, 1400, 1800, MAX_POINTS,
];

/// Every number up to here.
const FIRST: usize = 33;

/// How many cells the blocks have that are gone through whole.
pub const CELLS: usize = 10;

/// The widest map.
const WIDEST: usize = 72;

fn case(n: usize) -> Case {
    Case {
        kind: Kind::Worst,
        seed: n as u64,
        file: second::worst_of(n),
        buffer: ROW * n,
        expected: Expected::Accepted,
        map: match n {
            0..=WIDEST => Expected::Accepted,
            _ => Expected::Refused(10),
        },
    }
}

/// Byte 0 of each row: of two points both are weak, since the median is the larger strength; else all but the
/// last. No point has V, O or W, nor C, since one patch is left or none.
fn marks(n: usize) -> impl Iterator<Item = u8> {
    const LEAF: u8 = 16;
    (0..n).map(move |u| match n {
        3.. if u == n - 1 => 0,
        _ => LEAF,
    })
}

/// What is wrong with the sheet of n points, if anything.
fn wrong(n: usize, bound: &mut Bound) -> Option<String> {
    let case = case(n);
    if case.file != shapes::chain(n).to_file() {
        return Some("other bytes than the row of n points".into());
    }
    let all = All::new(&case.file, case.buffer);
    let Answer::Accepted {
        points,
        components,
        rounds,
        ref rows,
        ..
    } = all.answer
    else {
        return Some("refused".into());
    };
    let sheet = Sheet::from_file(&case.file)?;
    if (points, components, rounds) != (n, usize::from(n > 2), n - 1) {
        return Some(format!(
            "points {points} components {components} rounds {rounds}"
        ));
    }
    if !rows.chunks(ROW).map(|row| row[0]).eq(marks(n)) {
        return Some("other marks".into());
    }
    if let Some(text) = bound.add(&sheet, &all.answer) {
        return Some(text);
    }
    match compare::check(&case, &all) {
        Verdict::Same => None,
        Verdict::AcosOnly => Some("the original differs by acos".into()),
        Verdict::Different(text) => Some(text),
    }
}

/// What the sheets came to.
#[derive(Default)]
pub struct Report {
    sheets: usize,
    rounds: usize,
    bound: Bound,
    pub failed: usize,
}

impl Report {
    fn fails(&mut self, name: &str, text: &str) {
        self.failed += 1;
        if self.failed <= 20 {
            println!("differs: {name}: {text}");
        }
    }

    pub fn print(&self) {
        self.bound.print();
        let programs = match (cfg!(original_at_hand), library::functions().is_some()) {
            (true, true) => "the second program, the original and the library",
            (true, false) => "the second program and the original",
            (false, true) => "the second program and the library",
            (false, false) => "the second program alone",
        };
        println!(
            "{} sheets that take longest, of 2 to {MAX_POINTS} points, {} rounds: n - 1 rounds of each through {programs}, {} differ",
            self.sheets, self.rounds, self.failed
        );
    }
}

/// The sheets of the numbers above, and with a step of every step-th number.
pub fn run(step: Option<usize>) -> Report {
    let every = step.map(|step| (2..=MAX_POINTS).step_by(step.max(1)));
    let mut numbers: Vec<usize> = (2..FIRST).chain(NUMBERS).collect();
    numbers.extend(every.into_iter().flatten());
    numbers.sort_unstable();
    numbers.dedup();
    let mut report = Report::default();
    for n in numbers {
        report.sheets += 1;
        report.rounds += n - 1;
        if let Some(text) = wrong(n, &mut report.bound) {
            report.fails(&format!("worst {n}"), &text);
        }
    }
    report
}

/// Sheets of a straight lattice, each point with its index and whether it is weak: the threshold lies at the strong
/// ones' strength, whatever the median.
fn of_points(points: Vec<(Point, bool)>, settings: Settings) -> Sheet {
    let strength = |weak: bool| if weak { 1.0 } else { 2.0 };
    let mut strengths: Vec<f32> = points.iter().map(|(_, weak)| strength(*weak)).collect();
    let sheet = Sheet {
        settings,
        gate: None,
        points: points.iter().map(|(p, _)| *p).collect(),
        strengths: Strengths::Missing,
    };
    let of = strengths.clone();
    strengths.sort_by(f32::total_cmp);
    let median = strengths.get(strengths.len() / 2).unwrap_or(&1.0);
    with_strengths(sheet, 2.0 / median, |k| of[k])
}

/// Sheet k of a block: each cell has no point, a weak one or a strong one, each point an index of its own.
fn of_block(width: usize, height: usize, mut k: usize) -> Sheet {
    let mut points = Vec::new();
    for cell in 0..width * height {
        let (u, v) = (cell / height, cell % height);
        let (x, y) = (100.0 * u as f32, 100.0 * v as f32);
        let point = Point::new(u as i32, v as i32, cell as u32, x, y);
        match k % 3 {
            0 => {}
            state => points.push((point, state == 1)),
        }
        k /= 3;
    }
    let settings = Settings {
        cell_size: 100.0,
        rest: None,
    };
    of_points(points, settings)
}

/// What the sheets of blocks came to.
#[derive(Default)]
pub struct Blocks {
    sheets: usize,
    pub bound: Bound,
    pub failure: Option<String>,
}

impl Blocks {
    /// Whether a sheet keeps to the bound, its rounds are those of the reader and of the library, if it is linked.
    fn add(&mut self, name: &str, sheet: &Sheet) {
        let (file, buffer) = (sheet.to_file(), ROW * sheet.points.len());
        let answer = second::answer(&file, buffer, Fault::None);
        let mut r = Random::new(self.sheets as u64);
        self.sheets += 1;
        let wrong = self.bound.add(sheet, &answer);
        let wrong = wrong.or_else(|| match answer {
            Answer::Refused(number) => Some(format!("refused {number}")),
            Answer::Accepted { .. } => peel_reader::fault(sheet, &answer.listing(), &mut r),
        });
        let wrong = wrong.or_else(|| library::difference(&file, buffer, &answer));
        if let Some(text) = wrong {
            self.failure.get_or_insert(format!("{name}: {text}"));
        }
    }

    /// All sheets of the largest blocks of at most so many cells, each cell empty, weak or strong.
    fn add_states(&mut self, cells: usize) {
        for (width, height) in largest(cells) {
            for k in 0..3usize.pow((width * height) as u32) {
                let name = format!("{width} by {height}, sheet {k}");
                self.add(&name, &of_block(width, height, k));
            }
        }
    }

    /// All sheets of a block of six cells with points that are dropped before.
    fn add_dropped(&mut self) {
        for k in 0..4usize.pow(6) {
            let name = format!("2 by 3 with dropped points, sheet {k}");
            self.add(&name, &with_dropped(k));
        }
    }

    /// All sheets of the largest blocks of at most so many cells, with every way to repeat indices.
    fn add_numberings(&mut self, cells: usize) {
        for (width, height) in largest(cells) {
            for numbering in numberings(width * height) {
                let largest = numbering.iter().copied().max().unwrap_or(0);
                for weak in (0..1 << (largest + 1)).step_by(2) {
                    let name = format!("{width} by {height}, indices {numbering:?}, weak {weak:b}");
                    self.add(&name, &numbered(height, &numbering, weak));
                }
            }
        }
    }

    pub fn print(&self) {
        self.bound.print();
        println!("{} sheets of the cells of blocks", self.sheets);
    }
}

/// The width and the height of the largest blocks of at most so many cells, none higher than wide.
fn largest(cells: usize) -> impl Iterator<Item = (usize, usize)> {
    let heights = (1..=cells).take_while(move |height| height * height <= cells);
    heights.map(move |height| (cells / height, height))
}

/// Each way to give cells indices, the same to several or not: a list of numbers, each at most one more than the
/// largest before it. 0 is no point.
fn numberings(cells: usize) -> Vec<Vec<u32>> {
    let mut out = vec![Vec::new()];
    for _ in 0..cells {
        let longer = |list: Vec<u32>| {
            let largest = list.iter().copied().max().unwrap_or(0);
            (0..=largest + 1).map(move |number| [list.clone(), vec![number]].concat())
        };
        out = out.into_iter().flat_map(longer).collect();
    }
    out
}

/// A block whose cells have these indices; `weak` has a bit for each. The positions lie on a line, so that nothing
/// votes, and no filter marks an index for being at several cells.
fn numbered(height: usize, numbering: &[u32], weak: u32) -> Sheet {
    let point = |(cell, index): (usize, &u32)| {
        let (u, v) = (cell / height, cell % height);
        let point = Point::new(u as i32, v as i32, *index, 100.0 * *index as f32, 0.0);
        (point, weak >> index & 1 == 1)
    };
    let taken = numbering.iter().enumerate().filter(|(_, n)| **n > 0);
    let settings = Settings {
        cell_size: 100.0,
        rest: Some(Rest {
            line_minimum: u16::MAX,
            wrong_label: 0,
            ..Rest::with_three()
        }),
    };
    of_points(taken.map(point).collect(), settings)
}

/// Sheet k of a block of two columns of three: each cell has no point, a weak one, a strong one or one that is
/// dropped before, since it lies where a point apart from the block lies. The positions lie on a line, so that nothing
/// votes, and no direction has edges enough to judge one.
fn with_dropped(mut k: usize) -> Sheet {
    let (far, spot) = (50, 10_000.0);
    let mut points = vec![(Point::new(far, far, far as u32, spot, 0.0), true)];
    for cell in 0..6 {
        let (u, v) = (cell / 3, cell % 3);
        let at = |x: f32| Point::new(u, v, cell as u32, x, 0.0);
        match k % 4 {
            0 => {}
            3 => points.push((at(spot), true)),
            state => points.push((at(100.0 * cell as f32), state == 1)),
        }
        k /= 4;
    }
    let settings = Settings {
        cell_size: 100.0,
        rest: Some(Rest {
            line_minimum: u16::MAX,
            ..Rest::with_three()
        }),
    };
    of_points(points, settings)
}

/// All sheets of the largest blocks of at most so many cells, each cell empty, weak or strong; of a block of six with
/// points that are dropped before; and of three fifths as many cells, with every way to repeat indices.
pub fn blocks(cells: usize) -> Blocks {
    let mut out = Blocks::default();
    out.add_states(cells);
    out.add_dropped();
    out.add_numberings(cells * 3 / 5);
    out
}
