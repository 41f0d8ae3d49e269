//! Reads the weak ends off a listing, apart from the program that finds them, and holds them against the
//! sheet's strengths.

use crate::listing::Listing;
use crate::random::Random;
use crate::sheet::{Sheet, Strengths};
use std::collections::{HashMap, HashSet};

/// A cell's index and strength.
type Corner = (u32, f32);

/// What a listing and its sheet say of weak ends.
struct Peel {
    corners: HashMap<(i32, i32), Corner>,
    /// Indices with V, O or W, those with L at some cell, and those without it at some cell.
    earlier: HashSet<u32>,
    leaf: HashSet<u32>,
    no_leaf: HashSet<u32>,
    rounds: usize,
    /// Below it a strength is weak; none without strengths or points.
    threshold: Option<f32>,
}

impl Peel {
    fn new(sheet: &Sheet, listing: &str) -> Peel {
        let [mut earlier, mut leaf, mut no_leaf] = [(); 3].map(|()| HashSet::new());
        let listing = Listing::new(listing).unwrap();
        for words in &listing.points {
            let index: u32 = words[2].parse().unwrap();
            if words[3].contains(['V', 'O', 'W']) {
                earlier.insert(index);
            }
            match words[3].contains('L') {
                true => leaf.insert(index),
                false => no_leaf.insert(index),
            };
        }
        let corner = |p: &crate::sheet::Point| ((p.u, p.v), (p.index, p.strength));
        Peel {
            corners: sheet.points.iter().map(corner).collect(),
            earlier,
            leaf,
            no_leaf,
            rounds: listing.counts[5].parse().unwrap(),
            threshold: threshold(sheet),
        }
    }

    fn weak(&self, strength: f32) -> bool {
        self.threshold.is_some_and(|threshold| strength < threshold)
    }

    /// How many neighbours of a cell are not dropped.
    fn live_beside(&self, (u, v): (i32, i32), dropped: &HashSet<u32>) -> usize {
        let beside = [(u + 1, v), (u - 1, v), (u, v + 1), (u, v - 1)];
        let indices = beside.iter().filter_map(|cell| self.corners.get(cell));
        indices
            .filter(|(index, _)| !dropped.contains(index))
            .count()
    }

    /// The indices that are removed, and in how many rounds, each round visiting the points in an order of
    /// its own.
    fn replay(&self, r: &mut Random) -> (HashSet<u32>, usize) {
        let mut cells: Vec<_> = self.corners.iter().collect();
        cells.sort_by_key(|(cell, _)| **cell);
        let (mut dropped, mut rounds) = (self.earlier.clone(), 0);
        loop {
            r.shuffle(&mut cells);
            let before = dropped.clone();
            for (cell, (index, strength)) in &cells {
                let live = !before.contains(index);
                if live && self.weak(*strength) && self.live_beside(**cell, &before) <= 1 {
                    dropped.insert(*index);
                }
            }
            if dropped == before {
                return (&dropped - &self.earlier, rounds);
            }
            rounds += 1;
        }
    }
}

/// The fraction times the median: "entry n/2, rounded down, from 0 in rising order".
fn threshold(sheet: &Sheet) -> Option<f32> {
    let Strengths::Given(fraction) = sheet.strengths else {
        return None;
    };
    let mut strengths: Vec<f32> = sheet.points.iter().map(|p| p.strength).collect();
    strengths.sort_by(|a, b| a.partial_cmp(b).unwrap());
    strengths
        .get(strengths.len() / 2)
        .map(|middle| fraction * middle)
}

/// The first thing that is wrong with the leaf marks and the rounds of an accepted sheet's listing.
pub fn fault(sheet: &Sheet, listing: &str, r: &mut Random) -> Option<String> {
    let peel = Peel::new(sheet, listing);
    if sheet.strengths == Strengths::Missing && (peel.rounds > 0 || !peel.leaf.is_empty()) {
        return Some("weak ends without strengths".into());
    }
    if let Some(index) = peel.leaf.intersection(&peel.earlier).next() {
        return Some(format!("L and an earlier mark at index {index}"));
    }
    if let Some(index) = peel.leaf.intersection(&peel.no_leaf).next() {
        return Some(format!("L at some cells only of index {index}"));
    }
    let dropped = &peel.earlier | &peel.leaf;
    for (cell, (index, strength)) in &peel.corners {
        let weak = peel.weak(*strength);
        if peel.leaf.contains(index) && !weak {
            return Some(format!("index {index} is not weak"));
        }
        let left = !dropped.contains(index);
        if left && weak && peel.live_beside(*cell, &dropped) < 2 {
            return Some(format!("a weak end is left at {cell:?}"));
        }
    }
    let (removed, rounds) = peel.replay(r);
    if removed != peel.leaf {
        return Some("other indices are removed".into());
    }
    (rounds != peel.rounds).then(|| format!("rounds {} and not {rounds}", peel.rounds))
}
