//! Microseconds a call: the least processor time of many runs, in tables of Markdown.

mod fills;
mod hard;
mod joins;
mod peels;

pub use hard::dearest_call;

use crate::clock::processor;
use crate::library;
use crate::run_original::Prepared;
use crate::second::{self, Fault, Record, MAX_POINTS};
use crate::shapes::{Cells, Shape, SIDE};
use crate::sheet::Sheet;
use hard::{hard_shapes, DEAREST};
use std::cell::{Cell, RefCell};
use std::hint::black_box;
use std::time::Duration;

/// A clean board in perspective, every filter on.
pub fn board(side: i32, gated: bool) -> Sheet {
    let mut shape = Shape::new(Cells::Board(side), (side * side) as usize);
    shape.gate = shape.gate.filter(|_| gated);
    shape.sheet()
}

/// The times taken, in rounds: the same pieces of work in the same order in each, so that a slow
/// spell of the machine does not fall on all runs of one.
struct Rounds {
    /// Runs of a piece of work in a round.
    runs: usize,
    /// Which piece of the round is next.
    next: Cell<usize>,
    /// All times of each piece so far, rising.
    taken: RefCell<Vec<Vec<f64>>>,
}

impl Rounds {
    fn new(runs: usize) -> Self {
        Rounds {
            runs,
            next: Cell::new(0),
            taken: RefCell::new(Vec::new()),
        }
    }

    /// Processor times of the work in microseconds, with those of earlier rounds, rising; what the
    /// work hands back is not optimised away. Slow work is run less often, yet three times.
    fn times<T>(&self, mut work: impl FnMut() -> T) -> Vec<f64> {
        let (mut times, mut whole) = (Vec::new(), Duration::ZERO);
        while times.len() < self.runs && (times.len() < 3 || whole < Duration::from_secs(1)) {
            let start = processor();
            black_box(work());
            let time = processor() - start;
            whole += time;
            times.push(time.as_secs_f64() * 1e6);
        }
        let mut taken = self.taken.borrow_mut();
        let piece = self.next.replace(self.next.get() + 1);
        if piece == taken.len() {
            taken.push(Vec::new());
        }
        taken[piece].extend(times);
        taken[piece].sort_by(f64::total_cmp);
        taken[piece].clone()
    }

    fn least<T>(&self, work: impl FnMut() -> T) -> f64 {
        self.times(work)[0]
    }
}

/// Times of the call on a sheet, file to rows; nothing without the library.
fn all_ours(rounds: &Rounds, sheet: &Sheet) -> Option<Vec<f64>> {
    let file = sheet.to_file();
    let mut rows = vec![0; second::ROW * sheet.points.len()];
    let returned = library::call(&file, &mut rows)?;
    assert!(
        returned >> 32 > 0,
        "a sheet of the bench is refused with {returned}"
    );
    Some(rounds.times(|| library::call(&file, &mut rows)))
}

fn ours(rounds: &Rounds, sheet: &Sheet) -> Option<f64> {
    Some(all_ours(rounds, sheet)?[0])
}

/// A call on a sheet with a buffer of some length; nothing without the library.
fn our_call(
    rounds: &Rounds,
    sheet: &Sheet,
    room: usize,
    call: fn(&[u8], &mut [u8]) -> Option<u64>,
) -> Option<f64> {
    let file = sheet.to_file();
    let mut buffer = vec![0; room];
    call(&file, &mut buffer)?;
    Some(rounds.least(|| call(&file, &mut buffer)))
}

/// The map's call on a sheet, file to text; nothing without the library.
fn our_map(rounds: &Rounds, sheet: &Sheet) -> Option<f64> {
    our_call(rounds, sheet, library::MAP_SIZE, library::call_map)
}

/// The call for fills on a sheet; nothing without the library.
fn our_fills(rounds: &Rounds, sheet: &Sheet) -> Option<f64> {
    let room = second::FILL * sheet.points.len();
    our_call(rounds, sheet, room, library::call_fills)
}

/// The call on a sheet in a run that starts now; nothing without the library.
fn our_run(rounds: &Rounds, sheet: &Sheet) -> Option<f64> {
    let file = sheet.to_file();
    let mut rows = vec![0; second::ROW * sheet.points.len()];
    let mut call = || library::call_in_run(&file, &mut rows, &mut Record::new().into());
    call()?;
    Some(rounds.least(call))
}

/// The original's `drop_set` on a sheet made ready; nothing without the original.
fn theirs(rounds: &Rounds, sheet: &Sheet) -> Option<f64> {
    let prepared = Prepared::new(sheet)?;
    Some(rounds.least(|| prepared.drop_set()))
}

/// A whole number, grouped by commas.
fn grouped(number: usize) -> String {
    let digits = number.to_string();
    let mut out = String::new();
    for (k, digit) in digits.chars().enumerate() {
        if k > 0 && (digits.len() - k).is_multiple_of(3) {
            out.push(',');
        }
        out.push(digit);
    }
    out
}

/// A number for a table: whole, or a dash.
fn whole(number: Option<f64>) -> String {
    number.map_or("–".into(), |n| grouped(n.round_ties_even() as usize))
}

fn one_place(number: Option<f64>) -> String {
    number.map_or("–".into(), |n| format!("{n:.1}"))
}

fn ratio(theirs: Option<f64>, ours: Option<f64>) -> Option<f64> {
    Some(theirs? / ours?)
}

/// The largest square board through all programs.
fn whole_board(out: &mut Text, rounds: &Rounds) {
    let points = grouped((SIDE * SIDE) as usize);
    out.line(&format!(
        "A {SIDE} by {SIDE} board, {points} points, every filter on; µs:\n"
    ));
    out.line("| | without the edge gate | with it |\n|---|---|---|");
    let sheets = [false, true].map(|gated| board(SIDE, gated));
    let validate = |s: &Sheet| Prepared::new(s).map(|p| rounds.least(|| p.validate()));
    let second = |s: &Sheet| {
        let file = s.to_file();
        Some(rounds.least(|| second::answer(&file, second::ROOM, Fault::None)))
    };
    let original = sheets.each_ref().map(|s| theirs(rounds, s));
    let library = sheets.each_ref().map(|s| ours(rounds, s));
    let validate = sheets.each_ref().map(validate);
    let second = sheets.each_ref().map(second);
    let mut line = |name: &str, a: String, b: String| out.line(&format!("| {name} | {a} | {b} |"));
    let mut times = |name: &str, t: [Option<f64>; 2]| line(name, whole(t[0]), whole(t[1]));
    times("the original's `drop_set`", original);
    times("the original's `validate`", validate);
    times("the second program, file to rows and listing", second);
    times("this library, file to rows", library);
    let [a, b] = [0, 1].map(|k| one_place(ratio(original[k], library[k])));
    line("`drop_set` / this library", a, b);
}

/// Boards, that of 45 by 45 for comparison with older figures, ragged sheets and sheets of several
/// patches, with their numbers of points.
fn by_size() -> Vec<(&'static str, Cells, usize)> {
    let boards = [(1, 0), (10, 100), (20, 400), (40, 1000), (45, 2025)];
    let boards = boards.into_iter().chain([(SIDE, MAX_POINTS)]);
    let board = |(height, n)| match n {
        0 => ("no points", Cells::Board(height), n),
        _ => ("board", Cells::Board(height), n),
    };
    let sizes = [100, 400, 1000, MAX_POINTS];
    let ragged = sizes.map(|n| {
        let height = (n * 3 / 2).isqrt() as i32 + 1;
        ("ragged, a third missing", Cells::Ragged(height), n)
    });
    let patches = sizes.map(|n| ("patches of 25", Cells::Patches, n));
    boards.map(board).chain(ragged).chain(patches).collect()
}

/// The times of these.
fn sizes(out: &mut Text, rounds: &Rounds) {
    out.line("\nBy size, every filter on, without and with the edge gate; µs:\n");
    out.line("| sheet | points | library | a point | original | ratio | library, gate | a point | original, gate | ratio |");
    out.line("|---|---|---|---|---|---|---|---|---|---|");
    for (name, cells, n) in by_size() {
        let mut line = format!("| {name} | {} ", grouped(n));
        for gated in [false, true] {
            let mut shape = Shape::new(cells, n);
            shape.gate = shape.gate.filter(|_| gated);
            let sheet = shape.sheet();
            let (library, original) = (ours(rounds, &sheet), theirs(rounds, &sheet));
            let each = library.filter(|_| n > 0);
            let each = each.map_or("–".into(), |t| format!("{:.2}", t / n as f64));
            let times = one_place(ratio(original, library));
            line += &format!(
                "| {} | {each} | {} | {times} ",
                whole(library),
                whole(original)
            );
        }
        out.line(&(line + "|"));
    }
}

/// The hard shapes at full size.
fn hard(out: &mut Text, rounds: &Rounds) {
    let points = grouped(MAX_POINTS);
    out.line(&format!(
        "\n{points} points, step flag and edge gate on; µs:\n"
    ));
    out.line(
        "| shape | library, least | median | original, least | ratio |\n|---|---|---|---|---|",
    );
    for (name, shape) in hard_shapes(MAX_POINTS) {
        let sheet = shape.sheet();
        let all = all_ours(rounds, &sheet);
        let library = all.as_ref().map(|t| t[0]);
        let median = all.as_ref().map(|t| t[t.len() / 2]);
        let original = theirs(rounds, &sheet);
        let line = [
            whole(library),
            whole(median),
            whole(original),
            one_place(ratio(original, library)),
        ];
        out.line(&format!("| {name} | {} |", line.join(" | ")));
    }
}

/// How the cost grows with the number of points.
fn growth(out: &mut Text, rounds: &Rounds) {
    out.line("\nHow the cost grows, step flag and edge gate on; µs:\n");
    let sizes = [256, 512, 1024, 2048, MAX_POINTS];
    let heads = sizes.map(grouped).join(" | ");
    out.line(&format!("| shape | {heads} |\n|---|---|---|---|---|---|"));
    let names = [
        "board",
        "board, cell size 16,384: every pair is close",
        "board, all on one x",
        "pairs",
        "stairs",
        DEAREST,
    ];
    for name in names {
        let times = sizes.map(|n| {
            let shape = hard_shapes(n).into_iter().find(|(one, _)| *one == name);
            whole(ours(rounds, &shape.unwrap().1.sheet()))
        });
        out.line(&format!("| {name} | {} |", times.join(" | ")));
    }
}

/// Sheets by what their maps are: boards as wide and as tall as a map may be among them.
fn pages() -> Vec<(String, Cells, usize)> {
    let most = MAX_POINTS as i32;
    let board = |width: i32, height: i32| {
        let name = format!("{width} by {height} board");
        (name, Cells::Board(height), (width * height) as usize)
    };
    let ragged = Cells::Ragged(60);
    vec![
        ("no points".into(), Cells::Board(1), 0),
        board(10, 10),
        board(SIDE, SIDE),
        board(72, most / 72),
        board(most / 60, 60),
        ("ragged, a third missing".into(), ragged, MAX_POINTS),
        ("one row, too wide".into(), Cells::Row, MAX_POINTS),
    ]
}

/// The calls in a run, for the map and for fills beside that for the rows.
fn others(out: &mut Text, rounds: &Rounds) {
    out.line("\nA run, the map and the fills beside the rows, step flag and edge gate on; µs:\n");
    out.line("| sheet | points | lines | rows | in a run | run / rows | map | map / rows | fills | fills / rows | the second program's map |");
    out.line("|---|---|---|---|---|---|---|---|---|---|---|");
    for (name, cells, n) in pages() {
        let sheet = Shape::new(cells, n).sheet();
        let file = sheet.to_file();
        let lines = second::map(&file, Fault::None).map_or(0, |text| text.lines().count());
        let (rows, map) = (ours(rounds, &sheet), our_map(rounds, &sheet));
        let (in_run, fills) = (our_run(rounds, &sheet), our_fills(rounds, &sheet));
        let second = rounds.least(|| second::map(&file, Fault::None));
        let times = [
            whole(rows),
            whole(in_run),
            one_place(ratio(in_run, rows)),
            whole(map),
            one_place(ratio(map, rows)),
            whole(fills),
            one_place(ratio(fills, rows)),
            whole(Some(second)),
        ];
        let points = grouped(n);
        out.line(&format!(
            "| {name} | {points} | {lines} | {} |",
            times.join(" | ")
        ));
    }
}

struct Text(String);

impl Text {
    fn line(&mut self, line: &str) {
        self.0 += line;
        self.0.push('\n');
    }
}

/// Prints the tables of sheets with strengths alone.
pub fn peels(runs: usize) {
    let rounds = Rounds::new(runs);
    let mut out = Text(String::new());
    peels::tables(&mut out, &rounds);
    print!("{}", out.0);
}

/// Prints the table of joins alone.
pub fn joins(runs: usize) {
    let rounds = Rounds::new(runs);
    let mut out = Text(String::new());
    joins::table(&mut out, &rounds);
    print!("{}", out.0);
}

/// Prints all tables. With a file, they take the place of what stands there between two marks.
pub fn run(runs: usize, count: usize, file: Option<&str>) {
    let rounds = Rounds::new(runs);
    let mut out = Text(String::new());
    for _ in 0..count.max(1) {
        rounds.next.set(0);
        out.0.clear();
        out.line(&format!(
            "{count} rounds of at most {runs} runs or 1 s each; the least processor time unless said.\n"
        ));
        whole_board(&mut out, &rounds);
        sizes(&mut out, &rounds);
        hard(&mut out, &rounds);
        growth(&mut out, &rounds);
        others(&mut out, &rounds);
        fills::table(&mut out, &rounds);
        peels::tables(&mut out, &rounds);
        joins::table(&mut out, &rounds);
    }
    print!("{}", out.0);
    let Some(file) = file else { return };
    let old = std::fs::read_to_string(file).unwrap_or_else(|e| crate::fail(&e.to_string()));
    let (begins, ends) = ("<!-- bench begins -->\n", "<!-- bench ends -->");
    let parts = old
        .split_once(begins)
        .and_then(|(head, rest)| Some((head, rest.split_once(ends)?.1)));
    let Some((head, tail)) = parts else {
        crate::fail(&format!("{file} has no marks for the tables"))
    };
    crate::save(
        file,
        format!("{head}{begins}{}{ends}{tail}", out.0).as_bytes(),
    );
}
