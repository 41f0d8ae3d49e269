//! The base of a corner: the cells that its residual is fitted from.

use super::board::Board;
use super::fault::Fault;
use super::fit;
use super::plane::Vector;
use super::root::Distance;

/// The 24 cells within 2, "nearest first, then smaller dv, then smaller du", as (du, dv).
pub fn offsets(fault: Fault) -> Vec<(i32, i32)> {
    let mut out: Vec<(i32, i32)> = (-2..=2)
        .flat_map(|dv| (-2..=2).map(move |du| (du, dv)))
        .filter(|&offset| offset != (0, 0))
        .collect();
    match fault {
        Fault::SquareRings => out.sort_by_key(|&(du, dv)| (du.abs().max(dv.abs()), dv, du)),
        Fault::SmallerDuFirst => out.sort_by_key(|&(du, dv)| (du * du + dv * dv, du, dv)),
        _ => out.sort_by_key(|&(du, dv)| (du * du + dv * dv, dv, du)),
    }
    match fault {
        Fault::EntriesExchanged => out.swap(16, 17),
        Fault::EntryRepeated => out[23] = out[22],
        _ => (),
    }
    out
}

/// Whether three cells lie on one lattice line.
fn on_line(a: (i32, i32), b: (i32, i32), c: (i32, i32)) -> bool {
    (b.0 - a.0) * (c.1 - a.1) == (b.1 - a.1) * (c.0 - a.0)
}

/// Whether a fourth cell completes the three: the four are not all on one lattice line.
fn completes(three: &[(i32, i32)], fourth: (i32, i32), fault: Fault) -> bool {
    let [a, b, c] = [three[0], three[1], three[2]];
    if fault == Fault::BaseTurnedDown {
        return ![(a, b, c), (a, b, fourth), (a, c, fourth), (b, c, fourth)]
            .iter()
            .any(|t| on_line(t.0, t.1, t.2));
    }
    !(on_line(a, b, c) && on_line(a, b, fourth))
}

/// The base of the corner at rank k: four ranks, or fewer if there is no fourth.
pub fn base(board: &Board, k: usize, offsets: &[(i32, i32)], fault: Fault) -> Vec<usize> {
    let (u, v) = board.cell(k);
    let mut chosen = Vec::new();
    let mut cells = Vec::new();
    for &(du, dv) in offsets {
        let cell = (u + du, v + dv);
        let Some(near) = board.find(cell.0, cell.1) else {
            continue;
        };
        let own = board.points[near].index == board.points[k].index;
        if own && fault != Fault::OwnIndexInBase {
            continue;
        }
        if chosen.len() < 3 || completes(&cells, cell, fault) {
            chosen.push(near);
            cells.push(cell);
        }
        if chosen.len() == 4 {
            break;
        }
    }
    chosen
}

fn as_vector((u, v): (i32, i32)) -> Vector {
    Vector {
        x: u as f32,
        y: v as f32,
    }
}

/// The residual of the cell at rank k from its base; none without a fit.
pub fn residual(board: &Board, k: usize, base: &[usize], fault: Fault) -> Option<Distance> {
    let four: [usize; 4] = base.try_into().ok()?;
    let cells = four.map(|b| as_vector(board.cell(b)));
    let positions = four.map(|b| board.at(b));
    fit::residual(
        &cells,
        &positions,
        as_vector(board.cell(k)),
        board.at(k),
        fault,
    )
}
