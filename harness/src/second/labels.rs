//! Orientation and wrong-label marks, each held at the home of its index, and component marks.

use super::board::Board;
use super::fault::Fault;
use super::plane::{median, over_30_degrees, Vector};
use crate::angles;
use std::collections::HashSet;

/// "A cell with neighbours at u+1 and v+1 votes by the sign of its cross product; zero casts
/// no vote. With votes on both sides, members of the minority only are marked; on a tie,
/// members of exactly one side."
pub fn orientation(board: &Board, fault: Fault) -> Vec<bool> {
    let n = board.len();
    let mut votes = [0usize; 2];
    let mut members = [vec![false; n], vec![false; n]];
    for k in 0..n {
        let (u, v) = board.cell(k);
        let (Some(a), Some(b)) = (board.find(u + 1, v), board.find(u, v + 1)) else {
            continue;
        };
        let cross = board
            .at(a)
            .minus(board.at(k))
            .cross(board.at(b).minus(board.at(k)));
        if cross == 0.0 && fault != Fault::ZeroVotes {
            continue;
        }
        let side = usize::from(cross > 0.0);
        votes[side] += 1;
        for member in [k, a, b] {
            members[side][board.home[member]] = true;
        }
    }
    let marked = |k: usize| {
        let (negative, positive) = (members[0][k], members[1][k]);
        if votes[0] == 0 || votes[1] == 0 {
            false
        } else if votes[0] == votes[1] {
            negative != positive && fault != Fault::TieKeepsAll
        } else {
            let (minority, majority) = if votes[1] > votes[0] {
                (negative, positive)
            } else {
                (positive, negative)
            };
            minority && (!majority || fault == Fault::MinorityWhole)
        }
    };
    (0..n).map(marked).collect()
}

/// An edge by the ranks of its points.
struct Edge {
    from: usize,
    to: usize,
    vector: Vector,
    length: f32,
}

fn edge(board: &Board, u: i32, v: i32, (du, dv): (i32, i32)) -> Option<Edge> {
    let (from, to) = (board.find(u, v)?, board.find(u + du, v + dv)?);
    let vector = board.at(to).minus(board.at(from));
    let length = vector.length();
    (length > 0.0).then_some(Edge {
        from,
        to,
        vector,
        length,
    })
}

/// The window of an edge: "the other edges of its direction and positive length that start
/// within 2 cells each way", u outer, v inner, both rising.
fn window(board: &Board, of: &Edge, direction: (i32, i32), fault: Fault) -> Vec<Edge> {
    let (u, v) = board.cell(of.from);
    let reach = if fault == Fault::WindowNarrow { 1 } else { 2 };
    let mut out = Vec::new();
    for a in u - reach..=u + reach {
        for b in v - reach..=v + reach {
            if (a, b) != (u, v) || fault == Fault::WindowHasItself {
                out.extend(edge(board, a, b, direction));
            }
        }
    }
    out
}

fn off_axis(of: &Edge, window: &[Edge], fault: Fault) -> bool {
    let mut sum = Vector { x: 0.0, y: 0.0 };
    let taken = if fault == Fault::WindowFirstEdge {
        1
    } else {
        window.len()
    };
    for e in &window[..taken] {
        sum = sum.plus(e.vector.over(e.length));
    }
    let length = sum.length();
    if length <= 0.0 {
        return false;
    }
    let unit = of.vector.over(of.length);
    let cosine = unit.dot(sum.over(length)).clamp(-1.0, 1.0);
    match fault {
        Fault::AnglesByAcos => angles::degrees(cosine) > 30.0,
        Fault::ThirtyWithoutSign => over_30_degrees(cosine.abs()),
        _ => over_30_degrees(cosine),
    }
}

/// "With five or more it is judged at ratio 1.5 and 30 degrees, else with eight or more on
/// the whole sheet at 1.6, length only."
fn fails(
    board: &Board,
    of: &Edge,
    direction: (i32, i32),
    whole: Option<f32>,
    fault: Fault,
) -> bool {
    let window = window(board, of, direction, fault);
    let enough = if fault == Fault::WindowAtFour { 4 } else { 5 };
    if window.len() >= enough {
        let middle = median(window.iter().map(|e| e.length).collect(), fault);
        let overlong = fault.above(of.length, 1.5 * middle, Fault::OverlongAtEqual);
        return overlong || off_axis(of, &window, fault);
    }
    let ratio = if fault == Fault::SheetAtWindowRatio {
        1.5
    } else {
        1.6
    };
    whole.is_some_and(|middle| of.length > ratio * middle)
}

/// Marks both points of each edge that fails.
fn mark_edges(board: &Board, marked: &mut [bool], fault: Fault) {
    for direction in [(1, 0), (0, 1)] {
        let all: Vec<Edge> = board
            .points
            .iter()
            .filter_map(|p| edge(board, p.u, p.v, direction))
            .collect();
        let enough = if fault == Fault::SheetAtSeven { 7 } else { 8 };
        let lengths = || all.iter().map(|e| e.length).collect();
        let whole = (all.len() >= enough).then(|| median(lengths(), fault));
        for e in &all {
            if fails(board, e, direction, whole, fault) {
                marked[board.home[e.from]] = true;
                marked[board.home[e.to]] = true;
            }
        }
    }
}

/// "With a positive cell size, points closer than 0.2 cell sizes, compared as f32 squares,
/// are both marked."
fn mark_close(board: &Board, cell_size: f32, marked: &mut [bool], fault: Fault) {
    if cell_size <= 0.0 {
        return;
    }
    let limit = 0.2 * cell_size;
    let square = limit * limit;
    for a in 0..board.len() {
        for b in a + 1..board.len() {
            let d = board.at(a).minus(board.at(b));
            let distance = d.dot(d);
            let close = match fault {
                Fault::CloseByRoot => distance.sqrt() < limit,
                _ => fault.above(square, distance, Fault::CloseAtEqual),
            };
            if close {
                marked[board.home[a]] = true;
                marked[board.home[b]] = true;
            }
        }
    }
}

/// Whether the end of a line, its outermost four ranks given inward, is marked.
fn end_marked(board: &Board, four: [usize; 4], fault: Fault) -> bool {
    let cells = four.map(|k| board.cell(k));
    let apart = |a: (i32, i32), b: (i32, i32)| (a.0 - b.0).abs() + (a.1 - b.1).abs();
    if apart(cells[0], cells[3]) != 3 && fault != Fault::EndWithGap {
        return false;
    }
    let distance = |a: usize, b: usize| board.at(four[b]).minus(board.at(four[a])).length();
    let (e0, e1, e2) = (distance(0, 1), distance(1, 2), distance(2, 3));
    if e1 <= 0.0 {
        return false;
    }
    let mut r = (e0 - (2.0 * e1 - e2)) / e1;
    if fault == Fault::EndAbsolute {
        r = r.abs();
    }
    let most = if fault == Fault::EndAtDegree3 { 3 } else { 2 };
    fault.above(r, 0.30, Fault::EndAtEqual) && board.beside(cells[0]).len() <= most
}

fn mark_ends(board: &Board, marked: &mut [bool], fault: Fault) {
    for line in board.lines() {
        let n = line.len();
        if n < 4 {
            continue;
        }
        let ends = [
            [line[0], line[1], line[2], line[3]],
            [line[n - 1], line[n - 2], line[n - 3], line[n - 4]],
        ];
        for four in ends {
            if end_marked(board, four, fault) {
                marked[board.home[four[0]]] = true;
            }
        }
    }
}

pub fn wrong_label(board: &Board, cell_size: f32, fault: Fault) -> Vec<bool> {
    let mut marked = vec![false; board.len()];
    mark_edges(board, &mut marked, fault);
    mark_close(board, cell_size, &mut marked, fault);
    mark_ends(board, &mut marked, fault);
    marked
}

/// "Patches join cells by shared edges; smaller patches are marked, the one with the smaller
/// least cell winning a tie." From the marks of the earlier filters, one for each rank: those of this
/// one, and how many patches there are.
pub fn component(board: &Board, dropped: &[bool], fault: Fault) -> (Vec<bool>, usize) {
    let survivor: Vec<bool> = dropped.iter().map(|dropped| !dropped).collect();
    let patches = board.patches(&survivor, fault == Fault::DiagonalPatches);
    let size = |patch: &[usize]| match fault {
        Fault::PatchesByIndex => patch
            .iter()
            .map(|&k| board.home[k])
            .collect::<HashSet<_>>()
            .len(),
        _ => patch.len(),
    };
    let mut kept = 0;
    for (p, patch) in patches.iter().enumerate() {
        let (new, old) = (size(patch), size(&patches[kept]));
        if new > old || (fault == Fault::TieToLarger && new == old) {
            kept = p;
        }
    }
    let mut marked = vec![false; board.len()];
    let marked_patches = patches
        .iter()
        .enumerate()
        .filter(|(p, _)| *p != kept || fault == Fault::EmptyPatch);
    for &k in marked_patches.flat_map(|(_, patch)| patch) {
        marked[if fault == Fault::ComponentByCell {
            k
        } else {
            board.home[k]
        }] = true;
    }
    match fault {
        Fault::ComponentByCell => (marked, patches.len()),
        _ => (board.at_each(&marked), patches.len()),
    }
}
