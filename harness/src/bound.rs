//! Document 02, A.6: "Among sheets without repeated indices where nothing was dropped beforehand, the removing
//! rounds number at most n − 1." How many rounds a sheet has beside this, and beside what holds where an index
//! repeats or something was dropped: at most as many as indices are left, and one fewer where each of two or
//! more stands at one cell.

use crate::second::{Answer, ROW};
use crate::sheet::Sheet;
use std::collections::HashSet;

/// The marks of the three earlier filters.
const EARLIER: u8 = 7;

/// What a bound goes by.
#[derive(Clone, Copy, Debug, PartialEq)]
enum Class {
    /// No points, or none that is left.
    Nothing,
    /// One index is left.
    One,
    /// The document's: two points or more, no index repeats, nothing was dropped.
    Whole,
    /// Two points or more are left of those that no index repeats; others were dropped.
    Dropped,
    /// Two indices or more are left, one of them at several cells.
    Repeated,
}

/// A name of each class and of its bound, in the order above.
const CLASSES: [(&str, &str); 5] = [
    ("of which nothing is left", "no round"),
    ("of which one index is left", "one round"),
    (
        "of two points or more, no index repeated, nothing dropped before",
        "n - 1 rounds",
    ),
    (
        "of which two points or more are left and others were dropped",
        "a round for each but one of those left",
    ),
    (
        "with a repeated index among those left",
        "a round for each index left",
    ),
];

/// The class of an accepted sheet and the most rounds that it can have.
fn most_rounds(sheet: &Sheet, rows: &[u8]) -> (Class, usize) {
    let mut points = sheet.points.clone();
    points.sort_by_key(|p| (p.u, p.v));
    let marks = rows.chunks(ROW).map(|row| row[0] & EARLIER);
    let left = points.iter().zip(marks).filter(|(_, marks)| *marks == 0);
    let left: Vec<u32> = left.map(|(p, _)| p.index).collect();
    let indices = left.iter().collect::<HashSet<_>>().len();
    match indices {
        0 => (Class::Nothing, 0),
        1 => (Class::One, 1),
        _ if indices < left.len() => (Class::Repeated, indices),
        _ if left.len() < points.len() => (Class::Dropped, indices - 1),
        _ => (Class::Whole, indices - 1),
    }
}

/// Sheets that were held against their bound, by class: all, and those that reach it.
#[derive(Default)]
pub struct Bound {
    held: [usize; CLASSES.len()],
    reached: [usize; CLASSES.len()],
}

impl Bound {
    /// What is wrong with the rounds of a sheet, if anything; a refused one has none.
    pub fn add(&mut self, sheet: &Sheet, answer: &Answer) -> Option<String> {
        let Answer::Accepted { rows, rounds, .. } = answer else {
            return None;
        };
        let (class, most) = most_rounds(sheet, rows);
        self.held[class as usize] += 1;
        self.reached[class as usize] += usize::from(*rounds == most);
        let points = sheet.points.len();
        let beyond = *rounds > most || (points >= 2 && *rounds >= points);
        beyond.then(|| format!("{rounds} rounds of {points} points, {class:?}: at most {most}"))
    }

    /// Whether sheets of every class were held, and of every class some reach their bound.
    pub fn met(&self) -> bool {
        self.reached.iter().all(|reached| *reached > 0)
    }

    pub fn print(&self) {
        for ((of, bound), (held, reached)) in CLASSES.iter().zip(self.held.iter().zip(self.reached))
        {
            if *held > 0 {
                println!("{held:>6} sheets {of}: {reached} reach the bound of {bound}");
            }
        }
    }
}
