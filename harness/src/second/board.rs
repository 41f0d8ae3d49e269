//! The points of an accepted sheet in cell order, found by cell and by index.
//!
//! A point's rank is its place in cell order. What is held under an index stands at the
//! index's home: the greatest rank that has it ("the larger cell's entry wins").

use super::fault::Fault;
use super::file::Point;
use super::plane::Vector;

pub struct Board {
    pub points: Vec<Point>,
    /// For each rank the home of its index.
    pub home: Vec<usize>,
    /// The homes in index order.
    pub homes: Vec<usize>,
}

impl Board {
    pub fn new(points: Vec<Point>, fault: Fault) -> Board {
        let mut by_index: Vec<usize> = (0..points.len()).collect();
        by_index.sort_by_key(|&k| (points[k].index, k));
        let mut home = vec![0; points.len()];
        let mut homes = Vec::new();
        for group in by_index.chunk_by(|&a, &b| points[a].index == points[b].index) {
            let last = match fault {
                Fault::SmallerCellWins => group[0],
                _ => group[group.len() - 1],
            };
            homes.push(last);
            for &k in group {
                home[k] = last;
            }
        }
        Board {
            points,
            home,
            homes,
        }
    }

    pub fn len(&self) -> usize {
        self.points.len()
    }

    pub fn cell(&self, k: usize) -> (i32, i32) {
        (self.points[k].u, self.points[k].v)
    }

    pub fn at(&self, k: usize) -> Vector {
        self.points[k].at
    }

    /// The rank at a cell.
    pub fn find(&self, u: i32, v: i32) -> Option<usize> {
        self.points
            .binary_search_by_key(&(u, v), |p| (p.u, p.v))
            .ok()
    }

    /// The position at a cell.
    pub fn position(&self, u: i32, v: i32) -> Option<Vector> {
        self.find(u, v).map(|k| self.at(k))
    }

    /// What is held at the homes, for each rank.
    pub fn at_each(&self, held: &[bool]) -> Vec<bool> {
        self.home.iter().map(|&home| held[home]).collect()
    }

    /// The ranks at the four cells that share an edge with a cell.
    pub fn beside(&self, (u, v): (i32, i32)) -> Vec<usize> {
        let cells = [(u - 1, v), (u + 1, v), (u, v - 1), (u, v + 1)];
        cells.iter().filter_map(|&(u, v)| self.find(u, v)).collect()
    }

    /// Rows (one v, by rising u) and then columns (one u, by rising v), as ranks.
    pub fn lines(&self) -> Vec<Vec<usize>> {
        let all = || (0..self.len()).collect::<Vec<usize>>();
        let mut by_row = all();
        by_row.sort_by_key(|&k| (self.points[k].v, self.points[k].u));
        let rows = by_row.chunk_by(|&a, &b| self.points[a].v == self.points[b].v);
        let by_column = all();
        let columns = by_column.chunk_by(|&a, &b| self.points[a].u == self.points[b].u);
        rows.chain(columns).map(<[usize]>::to_vec).collect()
    }

    /// Patches of the cells that `among` holds true for: each its ranks in rising order, the
    /// patches by their smallest cell.
    pub fn patches(&self, among: &[bool], diagonal: bool) -> Vec<Vec<usize>> {
        let mut seen = vec![false; self.len()];
        let mut out = Vec::new();
        for start in 0..self.len() {
            if !among[start] || seen[start] {
                continue;
            }
            seen[start] = true;
            let mut patch = vec![start];
            let mut next = 0;
            while next < patch.len() {
                let (u, v) = self.cell(patch[next]);
                let mut beside = self.beside((u, v));
                if diagonal {
                    let corners = [(1, 1), (1, -1), (-1, 1), (-1, -1)];
                    beside.extend(corners.iter().filter_map(|d| self.find(u + d.0, v + d.1)));
                }
                for k in beside {
                    if among[k] && !seen[k] {
                        seen[k] = true;
                        patch.push(k);
                    }
                }
                next += 1;
            }
            patch.sort_unstable();
            out.push(patch);
        }
        out
    }
}
