//! Weak ends: the sheets that take longest, chains, and boards of which nothing or something is peeled.

use super::{grouped, one_place, our_map, our_run, ours, ratio, whole, Rounds, Text};
use crate::run_original::Prepared;
use crate::second::{self, Answer, Fault, MAX_POINTS, ROOM};
use crate::shapes::{self, with_strengths, Cells, Index, Shape, SIDE};
use crate::sheet::{Sheet, Strengths};

/// The most that a call on the first sheet may take, in microseconds.
const DEMANDED: usize = 3000;

/// A shape with strengths 1, all of them weak.
fn weak(shape: &Shape) -> Sheet {
    with_strengths(shape.sheet(), 2.0, |_| 1.0)
}

/// The same with a strong last point.
fn strong_last(cells: Cells) -> Sheet {
    let sheet = unmarked(cells).sheet();
    let last = sheet.points.len() - 1;
    with_strengths(sheet, 2.0, |k| if k == last { 2.0 } else { 1.0 })
}

/// The file of the program `worst` for n.
fn worst(n: usize) -> Sheet {
    Sheet::from_file(&second::worst_of(n)).unwrap()
}

/// A shape of the most points without a mark.
fn unmarked(cells: Cells) -> Shape {
    shapes::unmarked(cells, MAX_POINTS)
}

/// The row of `worst` with other strengths, and without.
fn rows() -> [(&'static str, Sheet); 3] {
    let row = || Sheet {
        strengths: Strengths::Missing,
        ..worst(MAX_POINTS)
    };
    [
        (
            "the same row, two points a round",
            with_strengths(row(), 2.0, |_| 1.0),
        ),
        (
            "the same row, nothing weak",
            with_strengths(row(), 0.5, |_| 1.0),
        ),
        ("the same row without tag 4", row()),
    ]
}

/// Other shapes of which much is peeled.
fn peeled() -> [(&'static str, Sheet); 6] {
    let all_weak = |cells| weak(&unmarked(cells));
    let mut twice = unmarked(Cells::Row);
    twice.index = Index::Twice;
    twice.rest.wrong_label = 0;
    [
        (
            "a spiral that loses one point a round",
            strong_last(Cells::Spiral),
        ),
        ("a chain of indices at two cells, all weak", weak(&twice)),
        ("a comb, all weak", all_weak(Cells::Comb)),
        ("stairs, all weak", all_weak(Cells::Stairs)),
        ("isolated points, all weak", all_weak(Cells::Isolated)),
        (
            "ragged, a third missing, all weak",
            all_weak(Cells::Ragged(60)),
        ),
    ]
}

/// A board, of which nothing is peeled, with strengths and without.
fn boards() -> [(&'static str, Sheet); 3] {
    let board = unmarked(Cells::Board(SIDE));
    [
        ("a board, all weak, nothing peeled", weak(&board)),
        (
            "the board, nothing weak",
            with_strengths(board.sheet(), 0.5, |_| 1.0),
        ),
        ("the board without tag 4", board.sheet()),
    ]
}

/// Large sheets with strengths, and two of them without.
fn sheets() -> Vec<(String, Sheet)> {
    let longest = (format!("`worst {MAX_POINTS}`"), worst(MAX_POINTS));
    let others = rows().into_iter().chain(peeled()).chain(boards());
    let others = others.map(|(name, sheet)| (name.to_string(), sheet));
    std::iter::once(longest).chain(others).collect()
}

/// The original's `drop_set`, `weak_leaf_peel` and `largest_component_filter`, one after the other, on a
/// sheet made ready; without tag 4 `drop_set` alone.
fn theirs(rounds: &Rounds, sheet: &Sheet) -> Option<f64> {
    let prepared = Prepared::new(sheet)?;
    Some(rounds.least(|| prepared.all_filters()))
}

fn large(out: &mut Text, rounds: &Rounds) {
    let points = grouped(MAX_POINTS);
    let demanded = grouped(DEMANDED);
    out.line(&format!(
        "\nWeak ends, {points} points; µs. A call on the first sheet, rows, may take {demanded}. The original is `drop_set`, and with tag 4 `weak_leaf_peel` and `largest_component_filter` after it:\n"
    ));
    out.line("| sheet | rounds | leaf | rows | in a run | map | original | original / rows | the second program |");
    out.line("|---|---|---|---|---|---|---|---|---|");
    for (name, sheet) in sheets() {
        let file = sheet.to_file();
        let Answer::Accepted {
            rounds: removing,
            tally,
            ..
        } = second::answer(&file, ROOM, Fault::None)
        else {
            panic!("a sheet of the bench is refused: {name}")
        };
        let (rows, original) = (ours(rounds, &sheet), theirs(rounds, &sheet));
        let second = rounds.least(|| second::answer(&file, ROOM, Fault::None));
        let line = [
            grouped(removing),
            grouped(tally.of("leaf") as usize),
            whole(rows),
            whole(our_run(rounds, &sheet)),
            whole(our_map(rounds, &sheet)),
            whole(original),
            one_place(ratio(original, rows)),
            whole(Some(second)),
        ];
        out.line(&format!("| {name} | {} |", line.join(" | ")));
    }
}

/// How the cost of the sheet that takes longest grows with its points.
fn by_points(out: &mut Text, rounds: &Rounds) {
    out.line("\nThe sheet of `worst N`, which loses a point a round; µs:\n");
    out.line("| N | rounds | rows | a point | in a run | original | original / rows |");
    out.line("|---|---|---|---|---|---|---|");
    for n in [2, 16, 64, 256, 512, 1024, 1536, MAX_POINTS] {
        let sheet = worst(n);
        let (rows, in_run) = (ours(rounds, &sheet), our_run(rounds, &sheet));
        let original = theirs(rounds, &sheet);
        let line = [
            grouped(n - 1),
            whole(rows),
            rows.map_or("–".into(), |time| format!("{:.2}", time / n as f64)),
            whole(in_run),
            whole(original),
            one_place(ratio(original, rows)),
        ];
        out.line(&format!("| {} | {} |", grouped(n), line.join(" | ")));
    }
}

pub fn tables(out: &mut Text, rounds: &Rounds) {
    large(out, rounds);
    by_points(out, rounds);
}
