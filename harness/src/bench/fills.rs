//! Positions for dropped points: the call for fills beside that for rows, on sheets of which nothing, some or
//! all points are dropped.

use super::{board, grouped, one_place, our_fills, ours, ratio, whole, Rounds, Text};
use crate::run_original::Prepared;
use crate::second::{self, Fault, FILLS_ROOM, MAX_POINTS};
use crate::shapes::{checkered, close_row, columns, half_mirrored, SIDE};
use crate::sheet::Sheet;

fn sheets() -> [(&'static str, Sheet); 6] {
    let side = SIDE as usize;
    let worst = Sheet::from_file(&second::worst_of(MAX_POINTS)).unwrap();
    [
        ("a board in perspective", board(SIDE, false)),
        ("a straight board", columns(MAX_POINTS, side)),
        ("every other point of a board", checkered(MAX_POINTS, side)),
        ("a board half mirrored", half_mirrored(MAX_POINTS, side)),
        ("a row, all close", close_row(MAX_POINTS)),
        ("the row that takes longest", worst),
    ]
}

/// The original's position for each dropped point of a sheet, its marks at hand; nothing without the original.
fn theirs(rounds: &Rounds, sheet: &Sheet, dropped: &[(i32, i32)]) -> Option<f64> {
    let held = Prepared::new(sheet)?.run();
    let all = || {
        dropped
            .iter()
            .map(|(u, v)| held.fill(*u, *v))
            .collect::<Vec<_>>()
    };
    Some(rounds.least(all))
}

pub fn table(out: &mut Text, rounds: &Rounds) {
    let points = grouped(MAX_POINTS);
    out.line(&format!(
        "\nPositions for dropped points, {points} points; µs. The original is `predict_grid_position` on each, the marks at hand:\n"
    ));
    out.line("| sheet | dropped | with a pair | rows | fills | fills / rows | original | the second program |");
    out.line("|---|---|---|---|---|---|---|---|");
    for (name, sheet) in sheets() {
        let file = sheet.to_file();
        let made = || second::fills(&file, FILLS_ROOM, Fault::None);
        let found = made().unwrap_or_else(|number| panic!("{name} is refused with {number}"));
        let cells: Vec<_> = found.fills.iter().map(|fill| (fill.u, fill.v)).collect();
        let pairs = found.fills.iter().filter(|fill| fill.pairs > 0).count();
        let (rows, fills) = (ours(rounds, &sheet), our_fills(rounds, &sheet));
        let line = [
            grouped(cells.len()),
            grouped(pairs),
            whole(rows),
            whole(fills),
            one_place(ratio(fills, rows)),
            whole(theirs(rounds, &sheet, &cells)),
            whole(Some(rounds.least(made))),
        ];
        out.line(&format!("| {name} | {} |", line.join(" | ")));
    }
}
