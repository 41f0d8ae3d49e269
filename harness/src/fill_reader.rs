//! Reads the fills off a listing, apart from the program that finds them, and holds them against the
//! listing's own marks and the sheet's positions.

use crate::listing::{self, Listing, Words};
use crate::sheet::Sheet;
use std::collections::HashMap;

type Cell = (i32, i32);

/// x and y.
type Position = [f32; 2];

/// The positions of the points without a letter.
type Kept = HashMap<Cell, Position>;

/// The kept points at both sides of a cell, along u and along v.
fn opposite((u, v): Cell, kept: &Kept) -> Vec<[Position; 2]> {
    let sides = [[(u + 1, v), (u - 1, v)], [(u, v + 1), (u, v - 1)]];
    let both = |cells: &[Cell; 2]| Some([*kept.get(&cells[0])?, *kept.get(&cells[1])?]);
    sides.iter().filter_map(both).collect()
}

/// The digits of one coordinate, 0 for x and 1 for y.
fn digits(pairs: &[[Position; 2]], coordinate: usize) -> String {
    let mut sum = 0f32;
    for [near, far] in pairs {
        let ends = near[coordinate] + far[coordinate];
        sum += ends / 2.0;
    }
    let found = if pairs.len() == 2 { sum / 2.0 } else { sum };
    format!("{:08X}", found.to_bits())
}

/// The words of the line that a dropped cell should have.
fn right(cell: Cell, kept: &Kept) -> Vec<String> {
    let pairs = opposite(cell, kept);
    let mut words = [cell.0, cell.1, pairs.len() as i32]
        .map(|n| n.to_string())
        .to_vec();
    if !pairs.is_empty() {
        words.extend([digits(&pairs, 0), digits(&pairs, 1)]);
    }
    words
}

/// The first thing that is wrong with the fills of an accepted sheet's listing: one line for each point
/// with a letter, in their order, after the tally, and no others.
pub fn fault(sheet: &Sheet, text: &str) -> Option<String> {
    let listing = Listing::new(text)?;
    if !listing.tally.starts_with("kept ") {
        return Some("no tally after the points".into());
    }
    let at: HashMap<Cell, Position> = sheet
        .points
        .iter()
        .map(|p| ((p.u, p.v), [p.x, p.y]))
        .collect();
    let (dropped, kept): (Vec<&Words>, Vec<&Words>) =
        listing.points.iter().partition(|words| words[3] != "-----");
    let cell = |words: &&Words| listing::cell(words).unwrap();
    let kept: Kept = kept
        .iter()
        .map(|words| (cell(words), at[&cell(words)]))
        .collect();
    let mut lines = listing.fills.iter();
    for cell in dropped.iter().map(cell) {
        let (right, line) = (right(cell, &kept), lines.next());
        if line.is_none_or(|words| *words != right) {
            return Some(format!("fill {line:?}, expected {right:?}"));
        }
    }
    lines.next().map(|words| format!("a line more: {words:?}"))
}
