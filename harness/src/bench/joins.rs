//! Two halves of a board: the call that joins them, beside the call on the file of the joined list, those on the halves,
//! and what it takes to read these.

use super::{board, grouped, ours, ratio, whole, Rounds, Text};
use crate::joined;
use crate::library;
use crate::second::{self, Answer, Fault, Shift, MAX_POINTS, ROW};
use crate::shapes::{columns, half_mirrored, with_strengths, SIDE};
use crate::sheet::Sheet;

/// What a join may take, beside the call on the joined list and both readings.
const ALLOWED: f64 = 1.3;

/// Two files' sheets with the shift of the right one.
struct Two {
    left: Sheet,
    right: Sheet,
    shift: Shift,
}

impl Two {
    /// The points of a board on either side of its middle, at times with some columns on both; the right ones as a
    /// camera of their own gives them.
    fn new(sheet: &Sheet, both: i32) -> Two {
        let middle = SIDE / 2;
        let shift = Shift {
            du: middle,
            dv: 0,
            dx: 100.5,
            dy: 0.25,
        };
        let [mut left, mut right] = [sheet.clone(), sheet.clone()];
        left.points.retain(|p| p.u < middle + both);
        right.points.retain(|p| p.u >= middle - both);
        for p in &mut right.points {
            p.u -= shift.du;
            (p.x, p.y) = (p.x - shift.dx, p.y - shift.dy);
        }
        Two { left, right, shift }
    }

    fn joined(&self) -> Sheet {
        joined::join(&self.left, &self.right, &self.shift).0
    }

    fn files(&self) -> [Vec<u8>; 2] {
        [self.left.to_file(), self.right.to_file()]
    }

    /// The call on both; nothing without the library.
    fn ours(&self, rounds: &Rounds) -> Option<f64> {
        let [left, right] = self.files();
        let mut rows = vec![0; ROW * self.joined().points.len()];
        let mut call = || library::call_join([&left, &right], &self.shift, &mut rows);
        let returned = call()?;
        assert!(
            returned >> 32 > 0,
            "halves of the bench are refused with {returned}"
        );
        Some(rounds.least(call))
    }

    fn second(&self, rounds: &Rounds) -> f64 {
        let [left, right] = self.files();
        let made = || second::join(&left, &right, &self.shift, second::ROOM, Fault::None);
        assert!(
            matches!(made(), Answer::Accepted { .. }),
            "halves of the bench are refused"
        );
        rounds.least(made)
    }
}

/// The time to read a sheet: that of the call on the same with its last index torn, which 9 refuses when all else is
/// read; nothing without the library.
fn reading(rounds: &Rounds, sheet: &Sheet) -> Option<f64> {
    let mut torn = sheet.clone();
    let first = torn.points[0].index;
    torn.points.last_mut()?.index = first;
    let file = torn.to_file();
    let mut rows = vec![0; ROW * torn.points.len()];
    assert_eq!(library::call(&file, &mut rows)?, 9, "a torn index");
    Some(rounds.least(|| library::call(&file, &mut rows)))
}

fn halves() -> [(&'static str, Two); 6] {
    let side = SIDE as usize;
    let straight = columns(MAX_POINTS, side);
    let weighed = with_strengths(straight.clone(), 1.0, |k| 1.0 + (k % 7) as f32);
    [
        ("a straight board", Two::new(&straight, 0)),
        ("the same, 8 columns in both halves", Two::new(&straight, 4)),
        ("the same with strengths", Two::new(&weighed, 0)),
        ("a board in perspective", Two::new(&board(SIDE, false), 0)),
        (
            "the same with the edge gate",
            Two::new(&board(SIDE, true), 0),
        ),
        (
            "a board half mirrored",
            Two::new(&half_mirrored(MAX_POINTS, side), 0),
        ),
    ]
}

pub fn table(out: &mut Text, rounds: &Rounds) {
    let (side, half) = (grouped(SIDE as usize), grouped(SIDE as usize / 2));
    out.line(&format!(
        "\nTwo halves of {side} by {half} joined to a board of {side} by {side}, {} points; µs. A reading is the call on a half with one index torn; a join may take {ALLOWED} times the call on the joined list's file and both readings:\n",
        grouped(MAX_POINTS)
    ));
    out.line("| sheet | join | the joined list's file | left half | right half | reading, left | reading, right | allowed | join / allowed | the second program |");
    out.line("|---|---|---|---|---|---|---|---|---|---|");
    for (name, two) in halves() {
        let join = two.ours(rounds);
        let file = ours(rounds, &two.joined());
        let each = [&two.left, &two.right];
        let [left, right] = each.map(|half| ours(rounds, half));
        let read = each.map(|half| reading(rounds, half));
        let all = file.zip(read[0]).zip(read[1]);
        let allowed = all.map(|((file, left), right)| ALLOWED * (file + left + right));
        let share = ratio(join, allowed).map_or("–".into(), |share| format!("{share:.2}"));
        let times = [join, file, left, right, read[0], read[1], allowed].map(whole);
        let second = whole(Some(two.second(rounds)));
        out.line(&format!(
            "| {name} | {} | {share} | {second} |",
            times.join(" | ")
        ));
    }
}
