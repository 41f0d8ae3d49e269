//! Runs the Rust original on a sheet and puts what it holds into rows.

use crate::angles;
use crate::second::ROW;
use crate::sheet::{Rest, Sheet, Strengths};
use nalgebra::Point2;
use original::lattice::{predict_grid_position, Coord, LatticeKind};
use original::shared::validate::wrong_label_filters::{
    drop_set, largest_component_filter, DropSet,
};
use original::shared::validate::{
    validate, EdgeShapeParams, LabelledEntry, ValidationParams, ValidationResult,
};
use original::test_only::wrong_label_filters::weak_leaf_peel;
use std::cell::RefCell;
use std::collections::{HashMap, HashSet};

/// Something by index: a list where the indices are small, so that a caller's look-up costs the
/// original as little as it can.
enum ByIndex<T> {
    List(Vec<T>),
    Map(HashMap<usize, T>),
}

impl<T: Copy> ByIndex<T> {
    fn new(entries: &[LabelledEntry], nothing: T, of: impl Fn(usize) -> T) -> ByIndex<T> {
        let each = entries.iter().enumerate().map(|(k, e)| (e.idx, of(k)));
        let largest = entries.iter().map(|e| e.idx).max().unwrap_or(0);
        if largest >= 1 << 16 {
            return ByIndex::Map(each.collect());
        }
        let mut list = vec![nothing; largest + 1];
        each.for_each(|(index, it)| list[index] = it);
        ByIndex::List(list)
    }

    fn get(&self, index: usize) -> T {
        match self {
            ByIndex::List(list) => list[index],
            ByIndex::Map(map) => map[&index],
        }
    }
}

/// Tag 4 as the original takes it.
struct Weights {
    fraction: f32,
    strengths: ByIndex<f32>,
}

/// A sheet as the original takes it.
pub struct Prepared {
    labelled: HashMap<(i32, i32), usize>,
    positions: ByIndex<Point2<f32>>,
    entries: Vec<LabelledEntry>,
    cell_size: f32,
    params: ValidationParams,
    wrong_label: bool,
    largest_patch: bool,
    weights: Option<Weights>,
}

/// What the original holds: marks, counts, residuals and edge figures by index.
pub struct Held {
    pub marks: DropSet,
    pub peeled: HashSet<usize>,
    pub rounds: usize,
    pub found: ValidationResult,
    /// The positions of the points without a mark.
    kept: HashMap<Coord, Point2<f32>>,
}

impl Prepared {
    /// The sheet made ready; none where the original is not at hand.
    pub fn new(sheet: &Sheet) -> Option<Prepared> {
        let rest = sheet.settings.rest.clone().unwrap_or_else(Rest::defaults);
        let mut params = match &sheet.settings.rest {
            // "Comparison with the Rust sets its minimum to 4 for the short form."
            None => {
                let mut short = ValidationParams::default();
                short.line_min_members = 4;
                short
            }
            Some(r) => ValidationParams::new(
                r.line_tolerance,
                usize::from(r.line_minimum),
                r.local_tolerance,
            ),
        };
        params.use_step_aware = rest.step_flag == 1;
        params.step_deviation_thresh_rel = rest.step_threshold;
        if let Some(gate) = &sheet.gate {
            let mut edge = EdgeShapeParams::default();
            edge.min_cardinal_degree = gate.minimum_degree;
            edge.continuation_angle_tol_deg = angles::limit(gate.floats[0]);
            edge.continuation_length_ratio_max = gate.floats[1];
            edge.cell_opposite_angle_tol_deg = angles::limit(gate.floats[2]);
            edge.cell_opposite_length_ratio_max = gate.floats[3];
            params = params.with_edge_shape_gate(edge);
        }
        let entry = |p: &crate::sheet::Point| LabelledEntry {
            idx: p.index as usize,
            pixel: Point2::new(p.x, p.y),
            grid: (p.u, p.v),
        };
        let entries: Vec<LabelledEntry> = sheet.points.iter().map(entry).collect();
        Some(Prepared {
            labelled: entries.iter().map(|e| (e.grid, e.idx)).collect(),
            positions: ByIndex::new(&entries, Point2::new(0.0, 0.0), |k| entries[k].pixel),
            weights: match sheet.strengths {
                Strengths::Given(fraction) => Some(Weights {
                    fraction,
                    strengths: ByIndex::new(&entries, 0.0, |k| sheet.points[k].strength),
                }),
                _ => None,
            },
            entries,
            cell_size: sheet.settings.cell_size,
            params,
            wrong_label: rest.wrong_label == 1,
            largest_patch: rest.largest_patch == 1,
        })
    }

    fn drop_set_with(&self, position: impl Fn(usize) -> Point2<f32>) -> DropSet {
        drop_set(
            &self.labelled,
            position,
            self.cell_size,
            &self.params,
            self.wrong_label,
            self.largest_patch,
        )
    }

    pub fn drop_set(&self) -> DropSet {
        match &self.positions {
            ByIndex::List(list) => self.drop_set_with(|index| list[index]),
            ByIndex::Map(map) => self.drop_set_with(|index| map[&index]),
        }
    }

    pub fn validate(&self) -> ValidationResult {
        validate(&self.entries, self.cell_size, &self.params)
    }

    /// The marks of all filters: with tag 4, `weak_leaf_peel` from the marks of the first three, and then
    /// `largest_component_filter`, if its switch is on, from those of the four.
    fn filters(&self, strength: impl Fn(&Weights, usize) -> f32) -> (DropSet, HashSet<usize>) {
        let mut marks = self.drop_set();
        let Some(weights) = &self.weights else {
            return (marks, HashSet::new());
        };
        let earlier = [
            &marks.validate_drop,
            &marks.orientation_drop,
            &marks.wrong_label_drop,
        ];
        let mut dropped: HashSet<usize> = earlier.into_iter().flatten().copied().collect();
        let of = |index: usize| strength(weights, index);
        let peeled = weak_leaf_peel(&self.labelled, of, &dropped, weights.fraction);
        if self.largest_patch {
            dropped.extend(&peeled);
            let patches = largest_component_filter(&self.labelled, &dropped);
            marks.component_drop = patches.drop;
            marks.components_seen = patches.components_seen;
        }
        (marks, peeled)
    }

    /// The same, for a clock.
    pub fn all_filters(&self) -> (DropSet, HashSet<usize>) {
        self.filters(|weights, index| weights.strengths.get(index))
    }

    pub fn run(&self) -> Held {
        let asked = RefCell::new(HashMap::new());
        let (marks, peeled) = self.filters(|weights, index| {
            *asked.borrow_mut().entry(index).or_insert(0) += 1;
            weights.strengths.get(index)
        });
        let sets = sets(&marks, &peeled);
        let kept = self
            .entries
            .iter()
            .filter(|e| !sets.iter().any(|set| set.contains(&e.idx)));
        let kept = kept.map(|e| (Coord::new(e.grid.0, e.grid.1), e.pixel));
        Held {
            rounds: self.rounds(&asked.into_inner(), &marks, &peeled),
            kept: kept.collect(),
            marks,
            peeled,
            found: self.validate(),
        }
    }

    /// How many rounds removed something. The original does not hand this back, yet it asks for the
    /// strength of each cell once, for the median, and then in each round of each cell that is live at its
    /// start, in a last round, which removes nothing, too; that one asks nothing if nothing is left.
    fn rounds(
        &self,
        asked: &HashMap<usize, usize>,
        marks: &DropSet,
        peeled: &HashSet<usize>,
    ) -> usize {
        let mut cells: HashMap<usize, usize> = HashMap::new();
        for index in self.labelled.values() {
            *cells.entry(*index).or_insert(0) += 1;
        }
        let rounds = |(index, asked): (&usize, &usize)| asked / cells[index] - 1;
        let most = asked.iter().map(rounds).max().unwrap_or(0);
        let earlier = [
            &marks.validate_drop,
            &marks.orientation_drop,
            &marks.wrong_label_drop,
            peeled,
        ];
        let left = |index: &usize| earlier.iter().all(|set| !set.contains(index));
        let last_asks = self.weights.is_some() && cells.keys().any(left);
        most - usize::from(last_asks)
    }
}

/// The indices that each filter marks, in the order of the row's bits.
fn sets<'a>(marks: &'a DropSet, peeled: &'a HashSet<usize>) -> [&'a HashSet<usize>; 5] {
    [
        &marks.validate_drop,
        &marks.orientation_drop,
        &marks.wrong_label_drop,
        &marks.component_drop,
        peeled,
    ]
}

impl Held {
    /// The pairs of a cell and the bits of its position, from the kept points; zeros without a pair.
    pub fn fill(&self, u: i32, v: i32) -> (u32, [u32; 2]) {
        let found = predict_grid_position(&self.kept, Coord::new(u, v), LatticeKind::Square);
        found.map_or((0, [0; 2]), |found| {
            let Point2 { x, y } = found.position;
            (found.n_axis_pairs as u32, [x, y].map(f32::to_bits))
        })
    }

    pub fn components(&self) -> usize {
        self.marks.components_seen as usize
    }

    /// The row of an index, with angles in degrees where document 01 has cosines.
    pub fn row(&self, index: u32) -> [u8; ROW] {
        let index = index as usize;
        let mut out = [0; ROW];
        let sets = sets(&self.marks, &self.peeled);
        for (bit, set) in sets.into_iter().enumerate() {
            out[0] |= u8::from(set.contains(&index)) << bit;
        }
        out[1] = match self.found.edge_shape_reasons.get(&index).copied() {
            None => 0,
            Some("low-cardinal-degree") => 1,
            Some("bad-continuation") => 2,
            Some("no-valid-adjacent-cell") => 3,
            Some(other) => panic!("a reason that document 01 does not know: {other}"),
        };
        let edge = self
            .found
            .edge_shape_diagnostics
            .get(&index)
            .copied()
            .unwrap_or_default();
        out[3] = edge.cardinal_degree;
        out[4] = u8::from(edge.is_bbox_boundary);
        out[5] = edge.adjacent_cell_count;
        out[6] = edge.valid_adjacent_cell_count;
        let floats = [
            self.found.local_h_residuals.get(&index).copied(),
            edge.max_continuation_angle_deg,
            edge.max_continuation_length_ratio,
            edge.max_cell_opposite_angle_deg,
            edge.max_cell_opposite_length_ratio,
        ];
        for (k, float) in floats.into_iter().enumerate() {
            let Some(float) = float else { continue };
            out[2] |= 1 << k;
            put(&mut out, k, float);
        }
        out
    }
}

/// Float k of a row, NaN in its one form.
fn put(row: &mut [u8; ROW], k: usize, float: f32) {
    let bits = if float.is_nan() {
        0x7FC0_0000
    } else {
        float.to_bits()
    };
    row[8 + 4 * k..12 + 4 * k].copy_from_slice(&bits.to_le_bytes());
}
