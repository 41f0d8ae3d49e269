//! The edge-shape gate: figures and reason of each index.

use super::board::Board;
use super::fault::Fault;
use super::file::Gate;
use super::plane::Vector;
use crate::angles;

/// What a row shows of the gate. Floats are absent until one is met.
#[derive(Clone, Copy, Debug, Default, PartialEq)]
pub struct Figures {
    pub degree: u8,
    pub boundary: bool,
    pub adjacent: u8,
    pub valid: u8,
    pub continuation_cosine: Option<f32>,
    pub continuation_ratio: Option<f32>,
    pub cell_cosine: Option<f32>,
    pub cell_ratio: Option<f32>,
    pub reason: u8,
}

/// Cosine and length ratio of two sides; none if one is at most 2^-23 long.
fn compare(a: Vector, b: Vector, fault: Fault) -> Option<(f32, f32)> {
    let (an, bn) = (a.length(), b.length());
    let least = if fault == Fault::EpsilonIsZero {
        0.0
    } else {
        f32::EPSILON
    };
    if an <= least || bn <= least {
        return None;
    }
    let mut cosine = a.dot(b) / (an * bn);
    if fault != Fault::CosineNotClamped {
        cosine = cosine.clamp(-1.0, 1.0);
    }
    Some((cosine, an.max(bn) / an.min(bn)))
}

/// "Of equal cosines, +0 and −0 included, the first met in the source's order stays."
fn keep_least(slot: &mut Option<f32>, cosine: f32, fault: Fault) {
    match *slot {
        Some(old) if fault == Fault::LastCosineStays && cosine > old => {}
        Some(old) if fault != Fault::LastCosineStays && cosine >= old => {}
        _ => *slot = Some(cosine),
    }
}

fn keep_largest(slot: &mut Option<f32>, ratio: f32) {
    *slot = Some(slot.map_or(ratio, |old| old.max(ratio)));
}

fn under(cosine: f32, least: f32, fault: Fault) -> bool {
    if fault == Fault::AnglesByAcos {
        return angles::degrees(cosine) > angles::limit(least);
    }
    fault.above(least, cosine, Fault::CosineAtEqual)
}

/// The cells of which the corner is one, by their least corner, in the source's order.
fn adjacent_cells(board: &Board, (u, v): (i32, i32), gate: &Gate, f: &mut Figures, fault: Fault) {
    for (u, v) in [(u, v), (u - 1, v), (u - 1, v - 1), (u, v - 1)] {
        let corners = [(u, v), (u + 1, v), (u + 1, v + 1), (u, v + 1)];
        let [Some(a), Some(b), Some(c), Some(d)] = corners.map(|(u, v)| board.position(u, v))
        else {
            continue;
        };
        f.adjacent += 1;
        let opposite = [(b.minus(a), c.minus(d)), (d.minus(a), c.minus(b))];
        let mut valid = true;
        for (side, other) in opposite {
            let Some((cosine, ratio)) = compare(side, other, fault) else {
                valid = false;
                continue;
            };
            keep_least(&mut f.cell_cosine, cosine, fault);
            keep_largest(&mut f.cell_ratio, ratio);
            if under(cosine, gate.least_cell, fault)
                || fault.above(ratio, gate.largest_cell, Fault::RatioAtEqual)
            {
                valid = false;
            }
        }
        f.valid += u8::from(valid);
    }
}

/// Continuations along u and v: whether a cosine is under the least, a ratio over the largest.
fn continuations(
    board: &Board,
    k: usize,
    gate: &Gate,
    f: &mut Figures,
    fault: Fault,
) -> (bool, bool) {
    let (u, v) = board.cell(k);
    let here = board.at(k);
    let (mut bent, mut stretched) = (false, false);
    for (before, after) in [((u - 1, v), (u + 1, v)), ((u, v - 1), (u, v + 1))] {
        let [Some(p), Some(n)] = [before, after].map(|(u, v)| board.position(u, v)) else {
            continue;
        };
        let Some((cosine, ratio)) = compare(here.minus(p), n.minus(here), fault) else {
            continue;
        };
        keep_least(&mut f.continuation_cosine, cosine, fault);
        keep_largest(&mut f.continuation_ratio, ratio);
        bent |= under(cosine, gate.least_continuation, fault);
        stretched |= fault.above(ratio, gate.largest_continuation, Fault::RatioAtEqual);
    }
    (bent, stretched)
}

/// For each rank whether its cell lies on the box of its patch, patches being of all cells.
fn boundaries(board: &Board, fault: Fault) -> Vec<bool> {
    let mut out = vec![false; board.len()];
    let mut patches = board.patches(&vec![true; board.len()], false);
    if fault == Fault::BoxOfSheet {
        patches = vec![patches.concat()];
    }
    for patch in patches {
        let us = || patch.iter().map(|&k| board.points[k].u);
        let vs = || patch.iter().map(|&k| board.points[k].v);
        let (u0, u1, v0, v1) = (us().min(), us().max(), vs().min(), vs().max());
        for &k in &patch {
            let (u, v) = (Some(board.points[k].u), Some(board.points[k].v));
            out[k] = u == u0 || u == u1 || v == v0 || v == v1;
        }
    }
    out
}

/// The figures of each index, at its home.
pub fn figures(board: &Board, gate: &Gate, fault: Fault) -> Vec<Figures> {
    let boundary = boundaries(board, fault);
    let mut out = vec![Figures::default(); board.len()];
    for &k in &board.homes {
        let mut f = Figures {
            degree: board.beside(board.cell(k)).len() as u8,
            boundary: boundary[k],
            ..Figures::default()
        };
        adjacent_cells(board, board.cell(k), gate, &mut f, fault);
        let (bent, stretched) = continuations(board, k, gate, &mut f, fault);
        let weak = f.degree <= 3 || f.valid <= 2 || fault == Fault::RatioAlwaysFails;
        f.reason = if f.degree < gate.minimum_degree {
            1
        } else if bent || (weak && stretched) {
            2
        } else if f.adjacent > 0 && f.valid == 0 {
            3
        } else {
            0
        };
        out[k] = f;
    }
    out
}
