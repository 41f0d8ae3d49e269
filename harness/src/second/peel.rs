//! Weak ends of a patch, from document 02, A.5, and the formulas of the original's `weak_leaf_peel`.

use super::board::Board;
use super::fault::Fault;
use super::join::RIGHT_INDICES;
use super::plane::median;

/// What the filter finds.
pub struct Peeled {
    /// Its marks, one for each rank; the cells of an index share them.
    pub marked: Vec<bool>,
    /// "the number of rounds that removed something"
    pub rounds: usize,
}

impl Peeled {
    /// "Without tag 4 there are no such marks and zero rounds."
    pub fn nothing(points: usize) -> Peeled {
        Peeled {
            marked: vec![false; points],
            rounds: 0,
        }
    }
}

/// For each rank whether it is weak: its strength is below the fraction times the median of the
/// strengths of all points, marked or not, each cell once.
fn weak(board: &Board, fraction: f32, dropped: &[bool], fault: Fault) -> Vec<bool> {
    let counted = |k: &usize| match fault {
        Fault::MedianOfLive => !dropped[*k],
        Fault::MedianByIndex => board.home[*k] == *k,
        Fault::JoinMedianOfLeft => board.points[*k].index < RIGHT_INDICES,
        _ => true,
    };
    let strength = |k: usize| board.points[k].strength;
    let all: Vec<f32> = (0..board.len()).filter(counted).map(strength).collect();
    if all.is_empty() {
        return vec![false; board.len()];
    }
    let middle = match fault {
        Fault::LowerStrength => median(all, Fault::LowerMedian),
        _ => median(all, fault),
    };
    let below = |k: usize| match fault {
        Fault::ThresholdNotRounded => {
            f64::from(strength(k)) < f64::from(fraction) * f64::from(middle)
        }
        Fault::WeakBelowMedian => strength(k) < middle,
        _ => fault.above(fraction * middle, strength(k), Fault::WeakAtEqual),
    };
    (0..board.len()).map(below).collect()
}

/// The ranks beside each rank.
fn neighbours(board: &Board, fault: Fault) -> Vec<Vec<usize>> {
    let beside = |k: usize| {
        let (u, v) = board.cell(k);
        let mut beside = board.beside((u, v));
        if fault == Fault::PeelOverCorners {
            let corners = [(1, 1), (1, -1), (-1, 1), (-1, -1)];
            beside.extend(corners.iter().filter_map(|d| board.find(u + d.0, v + d.1)));
        }
        beside
    };
    (0..board.len()).map(beside).collect()
}

/// Whether a live rank with so many live neighbours is an end.
fn is_end(degree: usize, fault: Fault) -> bool {
    match fault {
        Fault::EndAtTwo => degree <= 2,
        Fault::LoneIsNoEnd => degree == 1,
        Fault::EndIsAlone => degree == 0,
        _ => degree <= 1,
    }
}

/// The cells of each index, at its home.
fn cells(board: &Board) -> Vec<Vec<usize>> {
    let mut cells = vec![Vec::new(); board.len()];
    for k in 0..board.len() {
        cells[board.home[k]].push(k);
    }
    cells
}

/// What stays the same from round to round.
struct Peel<'a> {
    board: &'a Board,
    /// For each rank whether it is weak, and the ranks beside it.
    weak: Vec<bool>,
    beside: Vec<Vec<usize>>,
    /// The ranks of each index, at its home.
    cells: Vec<Vec<usize>>,
    fault: Fault,
}

impl Peel<'_> {
    /// Whether a rank is live in a state and an end.
    fn end(&self, k: usize, state: &[bool]) -> bool {
        let degree = self.beside[k].iter().filter(|near| state[**near]).count();
        state[k] && is_end(degree, self.fault)
    }

    /// Whether the index of a rank goes because of it.
    fn goes(&self, k: usize, state: &[bool]) -> bool {
        let of_index = &self.cells[self.board.home[k]];
        let end = match self.fault {
            Fault::EveryCellAnEnd => of_index.iter().all(|cell| self.end(*cell, state)),
            _ => self.end(k, state),
        };
        end && self.weak[k]
    }

    /// One round: every index goes at all its cells if one of them is a weak end in the state at the
    /// round's start. How many go.
    fn round(&self, live: &mut [bool]) -> usize {
        let mut state = live.to_vec();
        let mut removed = 0;
        for k in 0..live.len() {
            if !live[k] || !self.goes(k, &state) {
                continue;
            }
            match self.fault {
                Fault::PeelByCell => live[k] = false,
                _ => self.cells[self.board.home[k]]
                    .iter()
                    .for_each(|cell| live[*cell] = false),
            }
            removed += 1;
            if self.fault == Fault::RoundSeesRemovals {
                state.copy_from_slice(live);
            }
        }
        removed
    }
}

/// The filter from the marks of the earlier ones, one for each rank: round after round until one removes
/// nothing.
pub fn weak_leaf_peel(board: &Board, fraction: f32, dropped: &[bool], fault: Fault) -> Peeled {
    let peel = Peel {
        board,
        weak: weak(board, fraction, dropped, fault),
        beside: neighbours(board, fault),
        cells: cells(board),
        fault,
    };
    let mut live: Vec<bool> = dropped.iter().map(|dropped| !dropped).collect();
    let mut rounds = 0;
    loop {
        let removed = peel.round(&mut live);
        rounds += match fault {
            Fault::RoundsByIndex => removed,
            Fault::EmptyRoundCounted => 1,
            _ => removed.min(1),
        };
        if removed == 0 || fault == Fault::OneRound {
            break;
        }
    }
    let gone = dropped.iter().zip(live);
    Peeled {
        marked: gone.map(|(dropped, live)| !dropped && !live).collect(),
        rounds,
    }
}
