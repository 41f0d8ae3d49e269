//! Local steps, scales and line flags.

use super::board::Board;
use super::fault::Fault;
use super::file::Settings;
use super::plane::Vector;

/// The step along one axis: half the distance of the two neighbours, or the distance to the
/// one that there is.
fn axis_step(here: Vector, before: Option<Vector>, after: Option<Vector>) -> Option<f32> {
    match (before, after) {
        (Some(b), Some(a)) => Some(a.minus(b).length() * 0.5),
        (Some(b), None) => Some(here.minus(b).length()),
        (None, Some(a)) => Some(a.minus(here).length()),
        (None, None) => None,
    }
}

/// The local step at each home, "where it is finite and positive".
pub fn local_steps(board: &Board) -> Vec<Option<f32>> {
    let mut steps = vec![None; board.len()];
    for &k in &board.homes {
        let (u, v) = board.cell(k);
        let here = board.at(k);
        let along_u = axis_step(here, board.position(u - 1, v), board.position(u + 1, v));
        let along_v = axis_step(here, board.position(u, v - 1), board.position(u, v + 1));
        let step = match (along_u, along_v) {
            (Some(a), Some(b)) => Some((a + b) * 0.5),
            (one, other) => one.or(other),
        };
        steps[k] = step.filter(|s| s.is_finite() && *s > 0.0);
    }
    steps
}

/// "Scale is the cell size, or with the step flag the local step where it is finite and
/// positive." One entry for each rank, that of its index.
pub fn scales(board: &Board, settings: &Settings, steps: &[Option<f32>]) -> Vec<f32> {
    let scale = |&home: &usize| match steps[home] {
        Some(step) if settings.step_flag == 1 => step,
        _ => settings.cell_size,
    };
    board.home.iter().map(scale).collect()
}

/// "A line's centre and direction travel together as one record."
struct Line {
    centre: Vector,
    direction: Vector,
}

fn fit_line(positions: &[Vector]) -> Line {
    let mut centre = Vector { x: 0.0, y: 0.0 };
    for &p in positions {
        centre = centre.plus(p);
    }
    centre = centre.over(positions.len() as f32);
    let (mut sxx, mut sxy, mut syy) = (0f32, 0f32, 0f32);
    for &p in positions {
        let d = p.minus(centre);
        sxx += d.x * d.x;
        sxy += d.x * d.y;
        syy += d.y * d.y;
    }
    let trace = sxx + syy;
    let determinant = sxx * syy - sxy * sxy;
    let discriminant = (trace * trace * 0.25 - determinant).max(0.0).sqrt();
    let larger = trace * 0.5 + discriminant;
    let along = if sxy.abs() > f32::EPSILON {
        Vector {
            x: sxy,
            y: larger - sxx,
        }
    } else if sxx >= syy {
        Vector { x: 1.0, y: 0.0 }
    } else {
        Vector { x: 0.0, y: 1.0 }
    };
    let direction = along.over(along.length().max(f32::EPSILON));
    Line { centre, direction }
}

fn distance(line: &Line, p: Vector) -> f32 {
    let d = p.minus(line.centre);
    (d.x * -line.direction.y + d.y * line.direction.x).abs()
}

/// Line flags of each index, at its home: "Rows and columns with at least the line minimum
/// flag each member farther than tolerance times scale."
pub fn line_flags(board: &Board, settings: &Settings, scale: &[f32], fault: Fault) -> Vec<u32> {
    let mut flags = vec![0; board.len()];
    let minimum = settings.line_minimum + usize::from(fault == Fault::LineMinimumMissed);
    for mut members in board.lines() {
        if members.len() < minimum {
            continue;
        }
        if fault == Fault::FileOrderSums {
            members.sort_by_key(|&k| board.points[k].place);
        }
        let positions: Vec<Vector> = members.iter().map(|&k| board.at(k)).collect();
        let line = fit_line(&positions);
        for k in members {
            let counted = fault != Fault::FlagsByCell || k == board.home[k];
            let limit = settings.line_tolerance * scale[k];
            if counted && fault.above(distance(&line, board.at(k)), limit, Fault::LineAtEqual) {
                flags[board.home[k]] += 1;
            }
        }
    }
    flags
}
