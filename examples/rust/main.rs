//! Prints what the library finds for each point of a sheet file, or with `--join` for each point of
//! two halves of a sheet, joined, or with `--fills` the positions that it finds for the dropped
//! points, or with `--map` the sheet's map, or with `--run` a line for each sheet of a run and then
//! the record of the run; or with `--root` the root of a number in whole numbers, then R, which is
//! the number times a power of two, beside S * S and their difference, which is to be the remainder,
//! then the root as f32.
//!
//!     ./install PREFIX
//!     rustc --edition 2021 -O -L PREFIX/lib -l static=higlaupth examples/rust/main.rs -o keep
//!     ./keep [--fills | --map] [FILE]
//!     ./keep --join [LEFT RIGHT DU DV DX DY]
//!     ./keep --run [FILE..]
//!     ./keep --root [NUMBER | DX DY]
//!
//! Without FILE it judges a sheet of five points, for `--fills` one of ten; a run is then one that
//! started under the old count and goes on with four sheets, of which the last is refused. With
//! FILEs a run starts now. Of `--join`, DU and DV are whole numbers and DX and DY decimal ones: what
//! is added to the cells and to the positions of the right file. Without arguments it joins two
//! halves of six points. Each argument of `--root` is the eight hexadecimal digits of an f32, as a
//! listing has them. DX and DY are how far a point lies from its prediction: the number is the sum
//! of their squares, and the root the residual. Without arguments they are 1 and 2.
//! Exit status: 0 if the sheet is accepted, 1 if it is refused, 2 if a file cannot be read or the
//! answer cannot be written; 0 if the record of a run is printed, whether or not sheets were
//! refused, since they add nothing to it and their lines say so; of `--root` 0 if there is a root, 1
//! if there is neither root nor remainder or the difference is another; 2 if the arguments of
//! `--join` or `--root` are wrong. The numbers, the texts, the forms of a row, a fill, a record and a root and the rules for
//! callers are those of higlaupth.h.

use std::collections::BTreeSet;
use std::fs::File;
use std::io::{Read, Write};
use std::mem::MaybeUninit;
use std::process::ExitCode;
use std::str::FromStr;

const MOST_POINTS: usize = 2304;
const ROW_SIZE: usize = 28;
const ROWS_SIZE: usize = ROW_SIZE * MOST_POINTS;
const FILL_SIZE: usize = 20;
const FILLS_SIZE: usize = FILL_SIZE * MOST_POINTS;
const MAP_SIZE: usize = 4_860;
const READ_SIZE: u64 = 3 + 21 + 3 + 17 + 3 + 20 * (65_535 / 20) + 3 + 65_535 + 1;

/// The texts of the header's refusals by their numbers, from 1 on; the tenth is of `higlaupth_map`
/// alone, the eleventh of `higlaupth_keep_in_run`, the last three of `higlaupth_join`.
const REFUSALS: [&str; 17] = [
    "the fields, their order, their lengths or the end of the file are wrong",
    "there are more than 2,304 points",
    "the result buffer is shorter than 28 bytes per point for rows, 20 for fills",
    "the step flag or a switch is neither 0 nor 1",
    "a float of tag 1 or 2 is not finite or exceeds 16,384 in magnitude",
    "a u or v lies outside -8,000 to 8,000",
    "a position is not finite or exceeds 16,384 in magnitude",
    "two points have the same cell",
    "one index stands at positions with different bits",
    "the points span more than 72 values of u or 60 of v",
    "the run counts 65,535 or more accepted sheets or has a new sum of 2^31 or more",
    "tag 4 is not 4 bytes plus 4 per point",
    "a number of tag 4 is not finite or exceeds 16,384 in magnitude",
    "one index has strengths with different bits",
    "an index of one of the two files is 2^31 or more",
    "du or dv exceeds 16,000 in magnitude, or dx or dy is not finite or exceeds 16,384",
    "only one of the two files has a tag 4",
];
/// Mark and word of each filter, in the header's order.
const FILTERS: [(u8, &str); 5] = [
    (1, "validate"),
    (2, "orientation"),
    (4, "wrong"),
    (16, "leaf"),
    (8, "component"),
];
const REASONS: [&str; 3] = [
    "fewer neighbours than the minimum degree",
    "a row or column bends or stretches at the point",
    "no cell at the point is valid",
];
const FIGURES: [&str; 5] = [
    "residual",
    "continuation cosine",
    "continuation ratio",
    "cell cosine",
    "cell ratio",
];

/// Sums under the old count, as a run was started with them.
#[repr(C)]
struct OldSums {
    kept: u32,
    validate: u32,
    orientation: u32,
    wrong: u32,
    component: u32,
}

/// Sums of the tallies of the accepted sheets of a run.
#[repr(C)]
struct NewSums {
    kept: u32,
    validate: u32,
    orientation: u32,
    wrong: u32,
    leaf: u32,
    component: u32,
}

/// The record of a run.
#[repr(C)]
struct Run {
    old_sums: OldSums,
    sheets: u32,
    new_sums: NewSums,
}

/// What is added to the cells and to the positions of a right half.
#[derive(Clone, Copy)]
struct Move {
    du: i32,
    dv: i32,
    dx: f32,
    dy: f32,
}

/// The root of a number in whole numbers.
#[repr(C)]
struct WholeRoot {
    root: i32,
    power: i32,
    remainder: i32,
}

extern "C" {
    fn higlaupth_keep(file: *const u8, file_len: usize, rows: *mut u8, rows_len: usize) -> u64;
    fn higlaupth_join(
        left: *const u8,
        left_len: usize,
        right: *const u8,
        right_len: usize,
        du: i32,
        dv: i32,
        dx: f32,
        dy: f32,
        rows: *mut u8,
        rows_len: usize,
    ) -> u64;
    fn higlaupth_fills(file: *const u8, file_len: usize, fills: *mut u8, fills_len: usize) -> u64;
    fn higlaupth_map(file: *const u8, file_len: usize, text: *mut u8, text_len: usize) -> u64;
    fn higlaupth_run_new(run: *mut Run);
    fn higlaupth_run_from_old_sums(old_sums: *const OldSums, run: *mut Run);
    fn higlaupth_keep_in_run(
        file: *const u8,
        file_len: usize,
        rows: *mut u8,
        rows_len: usize,
        run: *mut Run,
    ) -> u64;
    fn higlaupth_root(bits: u32, into: *mut WholeRoot) -> i32;
}

/// The counts of an accepted sheet.
struct Counts {
    points: usize,
    components: usize,
    rounds: usize,
}

impl Counts {
    /// Their line.
    fn text(&self) -> String {
        let Counts {
            points,
            components,
            rounds,
        } = self;
        format!("points {points} components {components} rounds {rounds}\n")
    }
}

/// Sixteen bits of a number that was returned, from one of them on.
fn part(returned: u64, first: u32) -> usize {
    (returned >> first & 0xFFFF) as usize
}

/// What `higlaupth_keep`, `higlaupth_join` or `higlaupth_keep_in_run` returned: the counts of an
/// accepted sheet, or the number of a refusal.
fn answer(returned: u64) -> Result<Counts, usize> {
    match returned >> 32 {
        0 => Err(part(returned, 0)),
        _ => Ok(Counts {
            points: part(returned, 16),
            components: part(returned, 0),
            rounds: part(returned, 48),
        }),
    }
}

/// Judges a sheet, and writes its rows if it is accepted.
fn keep(file: &[u8], rows: &mut [u8]) -> Result<Counts, usize> {
    // SAFETY: both slices are valid for their lengths and do not overlap, and Rust's
    // floating-point mode is the default one.
    answer(unsafe { higlaupth_keep(file.as_ptr(), file.len(), rows.as_mut_ptr(), rows.len()) })
}

/// Joins two halves of a sheet, and writes the rows of the joined list if it is accepted.
fn join(left: &[u8], right: &[u8], by: Move, rows: &mut [u8]) -> Result<Counts, usize> {
    let Move { du, dv, dx, dy } = by;
    let (rows, rows_len) = (rows.as_mut_ptr(), rows.len());
    let (left, left_len) = (left.as_ptr(), left.len());
    let (right, right_len) = (right.as_ptr(), right.len());
    // SAFETY: as in `keep`: the rows overlap neither file.
    answer(unsafe {
        higlaupth_join(
            left, left_len, right, right_len, du, dv, dx, dy, rows, rows_len,
        )
    })
}

impl Run {
    /// The record of a run that starts now.
    fn new() -> Run {
        let mut run = MaybeUninit::uninit();
        // SAFETY: the pointer is that of a record's memory, and the function writes the whole record.
        unsafe {
            higlaupth_run_new(run.as_mut_ptr());
            run.assume_init()
        }
    }

    /// The record of a run that started under the old count.
    fn from_old_sums(old_sums: &OldSums) -> Run {
        let mut run = MaybeUninit::uninit();
        // SAFETY: as in `new`, and the old sums do not overlap it.
        unsafe {
            higlaupth_run_from_old_sums(old_sums, run.as_mut_ptr());
            run.assume_init()
        }
    }

    /// Judges a sheet, and writes its rows and adds it to the record if it is accepted.
    fn keep(&mut self, file: &[u8], rows: &mut [u8]) -> Result<Counts, usize> {
        let (file, file_len) = (file.as_ptr(), file.len());
        let (rows, rows_len) = (rows.as_mut_ptr(), rows.len());
        // SAFETY: as in the function `keep`, and the record overlaps neither slice.
        answer(unsafe { higlaupth_keep_in_run(file, file_len, rows, rows_len, self) })
    }

    /// The record in three lines.
    fn text(&self) -> String {
        let (old, new) = (&self.old_sums, &self.new_sums);
        format!(
            "old sums: kept {} validate {} orientation {} wrong {} component {}\n\
             sheets {}\n\
             new sums: kept {} validate {} orientation {} wrong {} leaf {} component {}\n",
            old.kept,
            old.validate,
            old.orientation,
            old.wrong,
            old.component,
            self.sheets,
            new.kept,
            new.validate,
            new.orientation,
            new.wrong,
            new.leaf,
            new.component,
        )
    }
}

impl WholeRoot {
    /// The root of a number; none of a negative number, an infinity and NaN.
    fn of(number: f32) -> Option<WholeRoot> {
        let mut whole = MaybeUninit::uninit();
        // SAFETY: the pointer is that of a root's memory, and where the function returns 1 it has
        // written the whole root.
        unsafe {
            let found = higlaupth_root(number.to_bits(), whole.as_mut_ptr());
            (found == 1).then(|| whole.assume_init())
        }
    }

    /// S / 2^(power / 2).
    fn as_float(&self) -> f32 {
        let unit = (127 - self.power / 2) as u32; // the exponent's bits
        self.root as f32 * f32::from_bits(unit << 23)
    }
}

/// What is found for a dropped point: its cell, and a position with its number of pairs.
struct Fill {
    u: i32,
    v: i32,
    position: Option<(u32, f32, f32)>,
}

impl Fill {
    /// The fill of 20 bytes.
    fn from_bytes(bytes: &[u8]) -> Fill {
        let pairs = u32::from_le_bytes(four(bytes, 8));
        let (x, y) = (four(bytes, 12), four(bytes, 16));
        let position = (pairs, f32::from_le_bytes(x), f32::from_le_bytes(y));
        Fill {
            u: i32::from_le_bytes(four(bytes, 0)),
            v: i32::from_le_bytes(four(bytes, 4)),
            position: (pairs > 0).then_some(position),
        }
    }

    /// Its line. Each number has as many digits as tell it from every other f32.
    fn line(&self) -> String {
        let Fill { u, v, position } = self;
        match position {
            Some((pairs, x, y)) => format!("{u} {v} {pairs} {x} {y}\n"),
            None => format!("{u} {v} no pair\n"),
        }
    }
}

/// A line for each dropped point after one with the counts, or the number of a refusal.
fn fills(file: &[u8]) -> Result<String, usize> {
    let mut fills = vec![0; FILLS_SIZE];
    let (to, room) = (fills.as_mut_ptr(), fills.len());
    // SAFETY: as in `keep`.
    let returned = unsafe { higlaupth_fills(file.as_ptr(), file.len(), to, room) };
    if returned >> 32 == 0 {
        return Err(part(returned, 0));
    }
    let (points, count) = (part(returned, 16), part(returned, 0));
    let mut text = format!("points {points} fills {count}\n");
    for fill in fills.chunks(FILL_SIZE).take(count) {
        text += &Fill::from_bytes(fill).line();
    }
    Ok(text)
}

/// The map of a sheet, or the number of a refusal.
fn map(file: &[u8]) -> Result<String, usize> {
    let mut text = vec![0; MAP_SIZE];
    // SAFETY: as in `keep`.
    let size = unsafe { higlaupth_map(file.as_ptr(), file.len(), text.as_mut_ptr(), text.len()) };
    // Every text has room, so the number is that of its bytes.
    text.truncate(size as usize);
    let text = String::from_utf8(text).expect("a map is ASCII");
    match text.strip_prefix("refused ") {
        Some(number) => Err(number.trim_end().parse().expect("a refusal has a number")),
        None => Ok(text),
    }
}

/// A point: u, v, index, x, y.
type Point = (i32, i32, u32, f32, f32);

/// The specification's sheet of five points, the first of them apart from the others.
const FIVE_POINTS: &[Point] = &[
    (5, 5, 14, 500.0, 500.0),
    (0, 0, 10, 0.0, 0.0),
    (1, 0, 11, 100.0, 0.0),
    (0, 1, 12, 0.0, 100.0),
    (1, 1, 13, 100.0, 100.0),
];
/// Nine points of a board whose cells are 100 pixels wide, the middle one 30 pixels off, and one
/// point apart from them. Its lines have three points.
const TEN_POINTS: &[Point] = &[
    (0, 0, 10, 0.0, 0.0),
    (1, 0, 11, 100.0, 0.0),
    (2, 0, 12, 200.0, 0.0),
    (0, 1, 13, 0.0, 100.0),
    (1, 1, 14, 130.0, 100.0),
    (2, 1, 15, 200.0, 100.0),
    (0, 2, 16, 0.0, 200.0),
    (1, 2, 17, 100.0, 200.0),
    (2, 2, 18, 200.0, 200.0),
    (5, 5, 19, 500.0, 500.0),
];
/// Three rows of a board whose cells are 100 pixels wide, as two cameras see them: the left one sees
/// two columns, by lines of three, ..
const LEFT_HALF: &[Point] = &[
    (0, 0, 10, 0.0, 0.0),
    (1, 0, 11, 100.0, 0.0),
    (0, 1, 12, 0.0, 100.0),
    (1, 1, 13, 100.0, 100.0),
    (0, 2, 14, 0.0, 200.0),
    (1, 2, 15, 100.0, 200.0),
];
/// .. and the right one the second column too, as its own first one, and a third. It has the middle
/// point of both 30 pixels off; the first of them is in the left half.
const RIGHT_HALF: &[Point] = &[
    (0, 0, 10, 0.0, 0.0),
    (1, 0, 11, 100.0, 0.0),
    (0, 1, 12, 30.0, 100.0),
    (1, 1, 13, 130.0, 100.0),
    (0, 2, 14, 0.0, 200.0),
    (1, 2, 15, 100.0, 200.0),
];
/// One index at two cells and one position, and another index: three points, two indices.
const TWO_CELLS: &[Point] = &[
    (0, 0, 7, 0.0, 0.0),
    (1, 0, 7, 0.0, 0.0),
    (0, 1, 8, 0.0, 100.0),
];
/// A row of three points, and their strengths: below half the median, 4, is the first, a weak end.
const ROW: &[Point] = &[
    (0, 0, 1, 0.0, 0.0),
    (1, 0, 2, 100.0, 0.0),
    (2, 0, 3, 200.0, 0.0),
];
const STRENGTHS: &[f32] = &[1.0, 4.0, 4.0];
/// One index at two positions, which is refused.
const TWO_POSITIONS: &[Point] = &[(0, 0, 7, 0.0, 0.0), (1, 0, 7, 100.0, 0.0)];

/// The file of a sheet of these points, with cell size 100.
fn sheet(points: &[Point]) -> Vec<u8> {
    let mut file = vec![1, 4, 0]; // tag 1, length 4: cell size
    file.extend(100f32.to_le_bytes());
    file.push(3); // tag 3, 20 bytes a point
    file.extend((20 * points.len() as u16).to_le_bytes());
    for (u, v, index, x, y) in points {
        file.extend([u.to_le_bytes(), v.to_le_bytes(), index.to_le_bytes()].concat());
        file.extend([x.to_le_bytes(), y.to_le_bytes()].concat());
    }
    file
}

/// The same file with all settings spelled out: those that the cell size alone stands for, but for
/// the line minimum, 3.
fn with_lines_of_three(file: &[u8]) -> Vec<u8> {
    let mut out = vec![1, 21, 0]; // tag 1, length 21
    out.extend(&file[3..7]); // the cell size
    out.extend(0.15f32.to_le_bytes()); // line tolerance
    out.extend(3u16.to_le_bytes()); // line minimum
    out.extend(0.2f32.to_le_bytes()); // local tolerance
    out.push(0); // step flag
    out.extend(0f32.to_le_bytes()); // step threshold
    out.extend([1, 1]); // wrong-label and largest-patch switch
    out.extend(&file[7..]);
    out
}

/// The file of a sheet of these points with a fraction and a strength for each of them.
fn weighed_sheet(points: &[Point], fraction: f32, strengths: &[f32]) -> Vec<u8> {
    let mut file = sheet(points);
    file.push(4); // tag 4, the fraction and 4 bytes a point
    file.extend((4 + 4 * strengths.len() as u16).to_le_bytes());
    file.extend(fraction.to_le_bytes());
    file.extend(strengths.iter().flat_map(|strength| strength.to_le_bytes()));
    file
}

/// Four bytes at a place.
fn four(bytes: &[u8], at: usize) -> [u8; 4] {
    bytes[at..at + 4].try_into().unwrap()
}

/// A cell and the index of its point.
type Cell = (i32, i32, u32);

/// u, v and index of the points of an accepted file, in the order of the rows: those of tag 3, which
/// stands after tag 1 and perhaps tag 2.
fn points(file: &[u8]) -> Vec<Cell> {
    let size = |field: &[u8]| usize::from(u16::from_le_bytes([field[1], field[2]]));
    let mut field = file;
    while field[0] != 3 {
        field = &field[3 + size(field)..];
    }
    let mut points = Vec::new();
    for point in field[3..3 + size(field)].chunks(20) {
        points.push((
            i32::from_le_bytes(four(point, 0)),
            i32::from_le_bytes(four(point, 4)),
            u32::from_le_bytes(four(point, 8)),
        ));
    }
    points.sort();
    points
}

/// Those of the joined list of two files, in the order of the rows: the points of the left file, and
/// those of the right one that are in no cell of a left point when they are moved.
fn joined_points(left: &[u8], right: &[u8], by: Move) -> Vec<Cell> {
    let mut joined = points(left);
    let taken: BTreeSet<(i32, i32)> = joined.iter().map(|&(u, v, _)| (u, v)).collect();
    for (u, v, index) in points(right) {
        let (u, v) = (u + by.du, v + by.dv);
        if !taken.contains(&(u, v)) {
            joined.push((u, v, index + 0x8000_0000));
        }
    }
    joined.sort();
    joined
}

/// A line for a point and its row.
fn line((u, v, index): Cell, row: &[u8]) -> String {
    let mut line = format!("cell {u} {v}, index {index}:");
    let (marks, reason, present) = (row[0], row[1], row[2]);
    let (degree, boundary, adjacent, valid) = (row[3], row[4], row[5], row[6]);
    if marks == 0 {
        line += " kept";
    }
    for (_, word) in FILTERS.iter().filter(|(mark, _)| marks & mark != 0) {
        line += &format!(" {word}");
    }
    if reason > 0 {
        line += &format!(", {}", REASONS[usize::from(reason) - 1]);
    }
    if degree > 0 {
        let place = ["inside", "on the boundary"][usize::from(boundary)];
        line += &format!(", degree {degree}, {place}, {valid} of {adjacent} cells valid");
    }
    for k in (0..5).filter(|k| present >> k & 1 == 1) {
        let figure = f32::from_le_bytes(four(row, 8 + 4 * k));
        line += &format!(", {} {figure:.6}", FIGURES[k]);
    }
    line + "\n"
}

/// A line for each point after one with the counts.
fn text_of(counts: &Counts, points: Vec<Cell>, rows: &[u8]) -> String {
    let mut text = counts.text();
    for (point, row) in points.into_iter().zip(rows.chunks(ROW_SIZE)) {
        text += &line(point, row);
    }
    text
}

/// That text of a sheet, or the number of a refusal.
fn lines(file: &[u8]) -> Result<String, usize> {
    let mut rows = vec![0; ROWS_SIZE];
    let counts = keep(file, &mut rows)?;
    Ok(text_of(&counts, points(file), &rows))
}

/// That text of two halves, joined, or the number of a refusal.
fn joined_lines(left: &[u8], right: &[u8], by: Move) -> Result<String, usize> {
    let mut rows = vec![0; ROWS_SIZE];
    let counts = join(left, right, by, &mut rows)?;
    Ok(text_of(&counts, joined_points(left, right, by), &rows))
}

/// The line of a refusal.
fn refused(number: usize) -> String {
    format!("refused {number}: {}\n", REFUSALS[number - 1])
}

/// The file at a path, read no further than its answer needs.
fn read(path: &str) -> Result<Vec<u8>, String> {
    let mut file = Vec::new();
    File::open(path)
        .and_then(|from| from.take(READ_SIZE).read_to_end(&mut file))
        .map_err(|error| format!("{path}: {error}"))?;
    Ok(file)
}

/// Prints a text, or says what failed.
fn print(text: &str) -> Result<(), String> {
    let mut out = std::io::stdout();
    let written = out.write_all(text.as_bytes()).and_then(|()| out.flush());
    written.map_err(|error| format!("standard output: {error}"))
}

/// Adds a sheet to a run, and prints a line for it.
fn add(run: &mut Run, name: &str, file: &[u8]) -> Result<(), String> {
    let line = match run.keep(file, &mut vec![0; ROWS_SIZE]) {
        Ok(counts) => counts.text(),
        Err(number) => refused(number),
    };
    print(&format!("{name}: {line}"))
}

/// Keeps a run of the files, or of four sheets if there are none, and prints its record.
fn keep_run(paths: impl Iterator<Item = String>) -> Result<u8, String> {
    let mut paths = paths.peekable();
    let mut run;
    if paths.peek().is_none() {
        run = Run::from_old_sums(&OldSums {
            kept: 812,
            validate: 40,
            orientation: 3,
            wrong: 25,
            component: 120,
        });
        add(&mut run, "five points", &sheet(FIVE_POINTS))?;
        add(&mut run, "an index at two cells", &sheet(TWO_CELLS))?;
        add(&mut run, "a weak end", &weighed_sheet(ROW, 0.5, STRENGTHS))?;
        add(&mut run, "an index at two positions", &sheet(TWO_POSITIONS))?;
    } else {
        run = Run::new();
        for path in paths {
            add(&mut run, &path, &read(&path)?)?;
        }
    }
    print(&run.text())?;
    Ok(0)
}

/// Prints a text that was found, or the line of a refusal: the exit status.
fn print_found(found: Result<String, usize>) -> Result<u8, String> {
    let (status, text) = match found {
        Ok(text) => (0, text),
        Err(number) => (1, refused(number)),
    };
    print(&text)?;
    Ok(status)
}

/// The number that an argument is.
fn parsed<N: FromStr>(argument: &str, wanted: &str) -> Result<N, String> {
    let number = argument.parse();
    number.map_err(|_| format!("{argument}: {wanted} is asked for"))
}

/// Joins two files, or two halves of six points if there are none: the exit status, or what failed.
fn print_join(arguments: impl Iterator<Item = String>) -> Result<u8, String> {
    let given: Vec<String> = arguments.collect();
    let (whole, decimal) = ("a whole number of 32 bits", "a decimal number");
    let (left, right, by) = match &given[..] {
        [] => (
            with_lines_of_three(&sheet(LEFT_HALF)),
            sheet(RIGHT_HALF),
            Move {
                du: 1,
                dv: 0,
                dx: 100.0,
                dy: 0.0,
            },
        ),
        [left, right, du, dv, dx, dy] => {
            let by = Move {
                du: parsed(du, whole)?,
                dv: parsed(dv, whole)?,
                dx: parsed(dx, decimal)?,
                dy: parsed(dy, decimal)?,
            };
            (read(left)?, read(right)?, by)
        }
        _ => return Err("two files and four numbers are asked for, or nothing".to_string()),
    };
    print_found(joined_lines(&left, &right, by))
}

/// The number of eight hexadecimal digits.
fn number(digits: &str) -> Result<f32, String> {
    if digits.len() != 8 || !digits.bytes().all(|digit| digit.is_ascii_hexdigit()) {
        return Err(format!("{digits}: eight hexadecimal digits are asked for"));
    }
    let bits = u32::from_str_radix(digits, 16).expect("they are hexadecimal");
    Ok(f32::from_bits(bits))
}

/// A finite number times 2^power, without its sign.
fn times_power(number: f32, power: i32) -> i64 {
    let exponent = (number.to_bits() >> 23 & 0xFF) as i32;
    let fraction = i64::from(number.to_bits() & 0x7F_FFFF);
    match (exponent, fraction) {
        (0, 0) => 0,
        (0, _) => fraction << (power - 149),
        _ => (0x80_0000 + fraction) << (exponent - 150 + power),
    }
}

/// Prints the root of a number, or of the sum of the squares of two: the exit status, or what
/// failed.
fn print_root(arguments: impl Iterator<Item = String>) -> Result<u8, String> {
    let given: Vec<String> = arguments.collect();
    let numbers: Result<Vec<f32>, String> = given.iter().map(|digits| number(digits)).collect();
    let number = match numbers?[..] {
        [] => 1.0 * 1.0 + 2.0 * 2.0,
        [number] => number,
        [dx, dy] => dx * dx + dy * dy,
        _ => return Err(format!("{}: a third number", given[2])),
    };
    let line = format!("number {:08X}\n", number.to_bits());
    let Some(whole) = WholeRoot::of(number) else {
        print(&(line + "neither root nor remainder\n"))?;
        return Ok(1);
    };
    let WholeRoot {
        root,
        power,
        remainder,
    } = whole;
    let r = times_power(number, power);
    let square = i64::from(root) * i64::from(root);
    let difference = r - square;
    print(&format!(
        "{line}S {root} power {power} remainder {remainder}\n\
         R {r} S*S {square} difference {difference}\n\
         root {:08X}\n",
        whole.as_float().to_bits()
    ))?;
    Ok(u8::from(difference != i64::from(remainder)))
}

/// Does what the arguments ask for: the exit status, or what failed.
fn asked() -> Result<u8, String> {
    let mut arguments = std::env::args().skip(1).peekable();
    if arguments.next_if(|first| first == "--run").is_some() {
        return keep_run(arguments);
    }
    if arguments.next_if(|first| first == "--join").is_some() {
        return print_join(arguments);
    }
    if arguments.next_if(|first| first == "--root").is_some() {
        return print_root(arguments);
    }
    let option = arguments.next_if(|first| first == "--map" || first == "--fills");
    let five = || sheet(FIVE_POINTS);
    let (own, found): (_, fn(&[u8]) -> Result<String, usize>) = match option.as_deref() {
        None => (five(), lines),
        Some("--fills") => (with_lines_of_three(&sheet(TEN_POINTS)), fills),
        Some(_) => (five(), map),
    };
    let file = match arguments.next() {
        None => own,
        Some(path) => read(&path)?,
    };
    print_found(found(&file))
}

fn main() -> ExitCode {
    match asked() {
        Ok(status) => ExitCode::from(status),
        Err(error) => {
            eprintln!("{error}");
            ExitCode::from(2)
        }
    }
}
