//! The residual of a corner: a four-point fit from cells to positions.

use super::fault::Fault;
use super::plane::Vector;
use super::root::Distance;

type Three = [[f32; 3]; 3];

const SMALL: f32 = 1e-12;

/// A sum of three products, from left to right.
fn sum(a: [f32; 3], b: [f32; 3], fault: Fault) -> f32 {
    if fault == Fault::SumsRightToLeft {
        return a[0] * b[0] + (a[1] * b[1] + a[2] * b[2]);
    }
    a[0] * b[0] + a[1] * b[1] + a[2] * b[2]
}

fn apply(m: &Three, p: Vector, fault: Fault) -> [f32; 3] {
    [0, 1, 2].map(|r| sum(m[r], [p.x, p.y, 1.0], fault))
}

fn product(a: &Three, b: &Three, fault: Fault) -> Three {
    let column = |c: usize| [b[0][c], b[1][c], b[2][c]];
    [0, 1, 2].map(|r| [0, 1, 2].map(|c| sum(a[r], column(c), fault)))
}

/// "Each four is centred and scaled (√2 over mean distance, scale 1 if that is at most
/// 1e-12)."
fn scaling(four: &[Vector; 4]) -> Three {
    let mut centre = Vector { x: 0.0, y: 0.0 };
    for &p in four {
        centre = centre.plus(p);
    }
    centre = centre.over(4.0);
    let mut distance = 0.0;
    for &p in four {
        distance += p.minus(centre).length();
    }
    distance /= 4.0;
    let s = if distance > SMALL {
        2f32.sqrt() / distance
    } else {
        1.0
    };
    [
        [s, 0.0, -s * centre.x],
        [0.0, s, -s * centre.y],
        [0.0, 0.0, 1.0],
    ]
}

/// The inverse by cofactors; none for a zero determinant.
fn inverse(m: &Three) -> Option<Three> {
    let cofactor = |r: usize, c: usize| {
        let (r1, r2, c1, c2) = ((r + 1) % 3, (r + 2) % 3, (c + 1) % 3, (c + 2) % 3);
        m[r1][c1] * m[r2][c2] - m[r1][c2] * m[r2][c1]
    };
    let determinant =
        m[0][0] * cofactor(0, 0) + m[0][1] * cofactor(0, 1) + m[0][2] * cofactor(0, 2);
    if determinant == 0.0 {
        return None;
    }
    Some([0, 1, 2].map(|r| [0, 1, 2].map(|c| cofactor(c, r) / determinant)))
}

/// The source's eight equations, right side last: two for each pair of points.
fn equations(from: &[Vector; 4], to: &[Vector; 4]) -> [[f32; 9]; 8] {
    let mut rows = [[0.0; 9]; 8];
    for k in 0..4 {
        let (Vector { x, y }, Vector { x: p, y: q }) = (from[k], to[k]);
        rows[2 * k] = [x, y, 1.0, 0.0, 0.0, 0.0, -p * x, -p * y, p];
        rows[2 * k + 1] = [0.0, 0.0, 0.0, x, y, 1.0, -q * x, -q * y, q];
    }
    rows
}

/// Elimination: "pivot of largest magnitude, first of equals; an all-zero column is passed
/// over; multiplier = entry times 1/pivot".
fn eliminate(rows: &mut [[f32; 9]; 8], fault: Fault) {
    for i in 0..8 {
        let mut pivot = i;
        for r in i + 1..8 {
            let (new, old) = (rows[r][i].abs(), rows[pivot][i].abs());
            if new > old || (fault == Fault::PivotLastOfEquals && new == old) {
                pivot = r;
            }
        }
        if rows[pivot][i] == 0.0 {
            continue;
        }
        rows.swap(i, pivot);
        let inverse = 1.0 / rows[i][i];
        for r in i + 1..8 {
            let multiplier = match fault {
                Fault::MultiplierDivided => rows[r][i] / rows[i][i],
                _ => rows[r][i] * inverse,
            };
            let pivot_row = rows[i];
            for (entry, above) in rows[r].iter_mut().zip(pivot_row).skip(i + 1) {
                *entry -= multiplier * above;
            }
        }
    }
}

/// Columnwise substitution from the last row up; none for a zero diagonal.
fn substitute(rows: &[[f32; 9]; 8], fault: Fault) -> Option<[f32; 8]> {
    let mut x = rows.map(|row| row[8]);
    for i in (0..8).rev() {
        if rows[i][i] == 0.0 {
            return None;
        }
        if fault == Fault::RowwiseSubstitution {
            let mut sum = 0.0;
            for c in i + 1..8 {
                sum += rows[i][c] * x[c];
            }
            x[i] = (rows[i][8] - sum) / rows[i][i];
            continue;
        }
        x[i] /= rows[i][i];
        for r in 0..i {
            x[r] -= x[i] * rows[r][i];
        }
    }
    Some(x)
}

/// The map from the four cells to the four positions; none where there is no fit.
fn homography(cells: &[Vector; 4], positions: &[Vector; 4], fault: Fault) -> Option<Three> {
    let (scale_from, scale_to) = (scaling(cells), scaling(positions));
    let scaled = |m: &Three, four: &[Vector; 4]| {
        four.map(|p| {
            let [x, y, _] = apply(m, p, fault);
            Vector { x, y }
        })
    };
    let mut rows = equations(&scaled(&scale_from, cells), &scaled(&scale_to, positions));
    eliminate(&mut rows, fault);
    let x = substitute(&rows, fault)?;
    if fault == Fault::NoFitTooSoon && x.iter().any(|v| v.abs() > 10.0) {
        return None;
    }
    let inner = [[x[0], x[1], x[2]], [x[3], x[4], x[5]], [x[6], x[7], 1.0]];
    let back = inverse(&scale_to)?;
    let whole = product(&product(&back, &inner, fault), &scale_from, fault);
    let last = whole[2][2];
    if last.abs() < SMALL {
        return None;
    }
    Some(whole.map(|row| row.map(|entry| entry / last)))
}

/// "A residual is a number or the finding that no fit exists."
pub fn residual(
    cells: &[Vector; 4],
    positions: &[Vector; 4],
    cell: Vector,
    position: Vector,
    fault: Fault,
) -> Option<Distance> {
    let map = homography(cells, positions, fault)?;
    let [x, y, w] = apply(&map, cell, fault);
    let predicted = Vector { x: x / w, y: y / w };
    Some(predicted.minus(position).distance(fault))
}
