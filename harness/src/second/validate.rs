//! The validate marks and residuals.

use super::base;
use super::board::Board;
use super::edge::{self, Figures};
use super::fault::Fault;
use super::file::Sheet;
use super::lines;
use super::plane::median;
use super::root::Distance;

/// What validate finds out, each held at the home of its index.
pub struct Findings {
    pub marked: Vec<bool>,
    pub residual: Vec<Option<Distance>>,
    pub flags: Vec<u32>,
    pub figures: Option<Vec<Figures>>,
}

/// Residuals over the tolerance and over twice it, at each home.
struct Residuals {
    held: Vec<Option<Distance>>,
    over: Vec<bool>,
    far_over: Vec<bool>,
}

/// What an index has after a cell with a residual: that cell's, with its remainder, in the place of an earlier one's.
fn held(earlier: Option<Distance>, residual: Distance, fault: Fault) -> Distance {
    match (fault, earlier) {
        (Fault::ResidualOfFirstCell, Some(earlier)) => earlier,
        (Fault::EqualOfFirstCell, Some(Distance { remainder, .. })) => Distance {
            remainder,
            ..residual
        },
        _ => residual,
    }
}

/// "A residual comes from the last cell, in the order of the rows, having one, while a flag
/// from any cell stays."
fn residuals(
    board: &Board,
    bases: &[Vec<usize>],
    tolerance: f32,
    scale: &[f32],
    fault: Fault,
) -> Residuals {
    let n = board.len();
    let mut out = Residuals {
        held: vec![None; n],
        over: vec![false; n],
        far_over: vec![false; n],
    };
    for k in 0..n {
        let Some(residual) = base::residual(board, k, &bases[k], fault) else {
            continue;
        };
        let home = board.home[k];
        out.held[home] = Some(held(out.held[home], residual, fault));
        let residual = residual.value;
        let limit = tolerance * scale[k];
        let twice = if fault == Fault::Rule2AtOnce {
            limit
        } else {
            2.0 * limit
        };
        out.over[home] |= fault.above(residual, limit, Fault::ResidualAtEqual);
        out.far_over[home] |= residual > limit && residual > twice;
    }
    out
}

/// The base member with most line flags, at least one, first of equals.
fn most_flagged(board: &Board, base: &[usize], flags: &[u32], fault: Fault) -> Option<usize> {
    if fault == Fault::Rule3NeedsFour && base.len() < 4 {
        return None;
    }
    let mut worst: Option<usize> = None;
    for &member in base {
        let home = board.home[member];
        let more = worst.is_none_or(|w| {
            flags[home] > flags[w] || (fault == Fault::Rule3LastOfEquals && flags[home] == flags[w])
        });
        if flags[home] >= 1 && more {
            worst = Some(home);
        }
    }
    worst
}

/// Rule 4's finding: "step outside median/(1+t) to median·(1+t), threshold t above 0, at
/// least three steps".
fn deviating(board: &Board, steps: &[Option<f32>], threshold: f32, fault: Fault) -> Vec<bool> {
    let all: Vec<f32> = match fault {
        Fault::StepsAtEveryCell => board.home.iter().filter_map(|&home| steps[home]).collect(),
        _ => steps.iter().flatten().copied().collect(),
    };
    let enough = if fault == Fault::Rule4AtTwo { 2 } else { 3 };
    if threshold <= 0.0 || all.len() < enough {
        return vec![false; steps.len()];
    }
    let middle = median(all, fault);
    let least = middle / (1.0 + threshold);
    let largest = middle * (1.0 + threshold);
    let outside = |step: &Option<f32>| step.is_some_and(|s| s < least || s > largest);
    steps.iter().map(outside).collect()
}

pub fn validate(sheet: &Sheet, board: &Board, fault: Fault) -> Findings {
    let s = &sheet.settings;
    let steps = lines::local_steps(board);
    let scale = lines::scales(board, s, &steps);
    let flags = lines::line_flags(board, s, &scale, fault);
    let offsets = base::offsets(fault);
    let bases: Vec<Vec<usize>> = (0..board.len())
        .map(|k| base::base(board, k, &offsets, fault))
        .collect();
    let residual_scale = match fault {
        Fault::ScaleIsCell => vec![s.cell_size; board.len()],
        _ => scale,
    };
    let residuals = residuals(board, &bases, s.local_tolerance, &residual_scale, fault);

    let mut marked = vec![false; board.len()];
    let enough = if fault == Fault::Rule1AtOne { 1 } else { 2 };
    for &k in &board.homes {
        marked[k] = flags[k] >= enough || (residuals.far_over[k] && flags[k] >= 1);
    }
    let mut visits = board.homes.clone();
    if fault == Fault::Rule3ByCell {
        visits.sort_unstable();
    }
    for k in visits {
        if residuals.over[k] && flags[k] == 0 && !marked[k] {
            if let Some(worst) = most_flagged(board, &bases[k], &flags, fault) {
                marked[worst] = true;
            }
        }
    }
    if s.step_flag == 1 {
        let deviating = deviating(board, &steps, s.step_threshold, fault);
        for &k in &board.homes {
            marked[k] |= deviating[k] && (flags[k] >= 1 || fault == Fault::Rule4WithoutLine);
        }
    }
    let figures = sheet
        .gate
        .as_ref()
        .map(|gate| edge::figures(board, gate, fault));
    if let Some(figures) = &figures {
        for &k in &board.homes {
            marked[k] |= figures[k].reason != 0;
        }
    }
    Findings {
        marked,
        residual: residuals.held,
        flags,
        figures,
    }
}
