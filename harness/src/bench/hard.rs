//! Shapes that are hard on one part of the call or another, and the search for the dearest.

use super::{ours, whole, Rounds};
use crate::random::Random;
use crate::second::MAX_POINTS;
use crate::shapes::{self, Cells, Index, Order, Place, Shape, SIDE};

/// Shapes that are hard on one part or another, with the step flag and the edge gate on.
pub fn hard_shapes(n: usize) -> Vec<(&'static str, Shape)> {
    let with = |cells: Cells, change: &dyn Fn(&mut Shape)| {
        let mut shape = Shape::new(cells, n);
        change(&mut shape);
        shape
    };
    let plain = |cells: Cells| with(cells, &|_| {});
    let board = Cells::Board(SIDE);
    vec![
        ("board", plain(board)),
        (
            "board, points in any order of file and index",
            with(board, &|s| {
                (s.order, s.index) = (Order::Mixed, Index::Mixed)
            }),
        ),
        (
            "board, noise of 0.3 cells",
            with(board, &|s| s.place = Place::Noisy(0.3)),
        ),
        (
            "board, cell size 16,384: every pair is close",
            with(board, &|s| s.cell_size = 16384.0),
        ),
        (
            "board, all on one x",
            with(board, &|s| s.place = Place::OneX),
        ),
        (
            "board, all on one spot",
            with(board, &|s| s.place = Place::OneSpot),
        ),
        (
            "board, all on four spots",
            with(board, &|s| s.place = Place::FourSpots),
        ),
        (
            "board, one index",
            with(board, &|s| s.index = Index::Few(1)),
        ),
        (
            "board, 64 indices",
            with(board, &|s| s.index = Index::Few(64)),
        ),
        (
            "board, each index twice",
            with(board, &|s| s.index = Index::Twice),
        ),
        (
            "board, positions anywhere",
            with(board, &|s| s.place = Place::Anywhere),
        ),
        (
            "board, spacing 1e-20: squares underflow",
            with(board, &|s| s.spacing = 1e-20),
        ),
        (
            "board, subnormal positions: NaN residuals",
            with(board, &|s| s.spacing = 1e-40),
        ),
        (
            "board, any floats in range",
            with(board, &|s| s.place = Place::AnyBits),
        ),
        ("one row", plain(Cells::Row)),
        ("one column", plain(Cells::Column)),
        (
            "one column, all near in x, none close",
            with(Cells::Column, &|s| {
                (s.place, s.spacing, s.cell_size) = (Place::Noisy(0.1), 7.5e-23, 2e-22)
            }),
        ),
        ("two rows", plain(Cells::Board(2))),
        ("isolated points", plain(Cells::Isolated)),
        ("every other cell", plain(Cells::Checker)),
        ("pairs", plain(Cells::Pairs)),
        ("rows of four", plain(Cells::Fours)),
        ("comb", plain(Cells::Comb)),
        ("spiral", plain(Cells::Spiral)),
        ("stairs", plain(Cells::Stairs)),
        ("cells anywhere in range", plain(Cells::Far)),
        (DEAREST, dearest(n)),
    ]
}

pub const DEAREST: &str = "the dearest found";

/// The dearest shape that the search found: points so close together that all pairs are near in x,
/// some in y, and every square of a difference is subnormal.
fn dearest(n: usize) -> Shape {
    Shape {
        place: Place::Anywhere,
        spacing: 2.75e-23,
        order: Order::Mixed,
        cell_size: 1e-20,
        ..Shape::new(Cells::Stairs, n)
    }
}

/// Looks for the dearest call on the most points: shapes at random, then changes to the dearest ones.
pub fn dearest_call(tries: usize, seed: u64) {
    const KEPT: usize = 12;
    let mut r = Random::new(seed);
    let mut kept: Vec<(f64, Shape)> = Vec::new();
    for k in 0..tries {
        let shape = if k < tries / 3 || kept.is_empty() {
            shapes::any(&mut r, MAX_POINTS)
        } else {
            let mut shape = kept[r.below(kept.len())].1.clone();
            for _ in 0..r.whole(1, 3) {
                shapes::change(&mut r, &mut shape);
            }
            shape
        };
        if kept.iter().any(|(_, one)| *one == shape) {
            continue;
        }
        let Some(time) = ours(&Rounds::new(3), &shape.sheet()) else {
            return println!("built without the static library");
        };
        if kept.first().is_none_or(|(most, _)| time > *most) {
            println!("{k}: {time:.0} µs {shape:?}");
        }
        kept.push((time, shape));
        kept.sort_by(|a, b| b.0.total_cmp(&a.0));
        kept.truncate(KEPT);
    }
    println!("\nthe dearest, timed again:");
    for (_, shape) in &kept {
        println!(
            "{} µs {shape:?}",
            whole(ours(&Rounds::new(20), &shape.sheet()))
        );
    }
}
