//! Positions for dropped points, from document 02, A.7, and the formulas of the original's
//! `predict_grid_position`.

use super::board::Board;
use super::fault::Fault;
use super::file::{FILL, ROW};
use super::filters::FILTERS;
use super::plane::Vector;

type Cell = (i32, i32);

/// A lattice's offsets, in the order in which they are gone through.
pub type Offsets = [Cell];

/// "on the square lattice"
pub const SQUARE: &Offsets = &[(1, 0), (0, 1), (-1, 0), (0, -1)];

/// What is found for a cell.
#[derive(Clone, Copy, Debug, PartialEq, Eq)]
pub struct Fill {
    pub u: i32,
    pub v: i32,
    /// "its number of pairs"; 0 says "that no pair exists".
    pub pairs: u32,
    /// The bits of x and of y; 0 without a pair.
    pub bits: [u32; 2],
}

impl Fill {
    /// "u, v, pairs, x and y in hexadecimal bits, or u, v, 0"
    fn line(&self, fault: Fault) -> String {
        let Fill { u, v, pairs, bits } = self;
        let [x, y] = bits;
        match fault {
            Fault::FillZerosListed => format!("{u} {v} {pairs} {x:08X} {y:08X}\n"),
            _ if *pairs == 0 => format!("{u} {v} 0\n"),
            Fault::FillLowerCase => format!("{u} {v} {pairs} {x:08x} {y:08x}\n"),
            Fault::FillShortHex => format!("{u} {v} {pairs} {x:X} {y:X}\n"),
            _ => format!("{u} {v} {pairs} {x:08X} {y:08X}\n"),
        }
    }

    /// The call's bytes.
    pub fn bytes(&self) -> [u8; FILL] {
        let numbers = [self.u as u32, self.v as u32, self.pairs];
        let mut out = [0; FILL];
        let words = numbers.into_iter().chain(self.bits);
        for (place, word) in out.chunks_mut(4).zip(words) {
            place.copy_from_slice(&word.to_le_bytes());
        }
        out
    }
}

/// "after the tally in cell order"
pub fn lines(fills: &[Fill], fault: Fault) -> String {
    fills.iter().map(|fill| fill.line(fault)).collect()
}

/// Whether an offset stands for the pair of itself and its opposite.
fn stands(offset: &Cell, fault: Fault) -> bool {
    let (u, v) = *offset;
    u > 0 || (u == 0 && v >= 0) || fault == Fault::FillPairsTwice
}

fn midpoint(forward: f32, backward: f32, fault: Fault) -> f32 {
    match fault {
        Fault::FillByDifference => forward + (backward - forward) / 2.0,
        Fault::FillByHalves => 0.5 * forward + 0.5 * backward,
        _ => 0.5 * (forward + backward),
    }
}

/// One coordinate of a position, from that of each pair's forward and backward point.
fn mean(pairs: &[[f32; 2]], fault: Fault) -> f32 {
    let count = match fault {
        Fault::FillHalved => 2.0,
        _ => pairs.len() as f32,
    };
    let each = pairs.iter();
    match fault {
        // From -0 on a sum is what it is from its first number on.
        Fault::FillFromFirst => {
            each.fold(-0.0, |sum, [f, b]| sum + midpoint(*f, *b, fault)) / count
        }
        Fault::FillByPoints => each.flatten().fold(0.0, |sum, one| sum + one) / (2.0 * count),
        Fault::FillByMeans => each.fold(0.0, |sum, [f, b]| sum + midpoint(*f, *b, fault) / count),
        Fault::FillInDouble => {
            let doubles = each.flatten().map(|one| f64::from(*one));
            (doubles.fold(0.0, |sum, one| sum + one) / (2.0 * f64::from(count))) as f32
        }
        _ => each.fold(0.0, |sum, [f, b]| sum + midpoint(*f, *b, fault)) / count,
    }
}

/// The pairs of a cell, over any lattice: for each offset whose opposite is passed over, the points at
/// both, forward and backward, if both are kept.
fn pairs(
    kept: impl Fn(Cell) -> Option<Vector>,
    (u, v): Cell,
    offsets: &Offsets,
    fault: Fault,
) -> Vec<[Vector; 2]> {
    let pair = |(du, dv): &Cell| {
        let (forward, backward) = (kept((u + du, v + dv)), kept((u - du, v - dv)));
        match fault {
            Fault::FillOutward => Some([forward.or(backward)?, backward.or(forward)?]),
            _ => Some([forward?, backward?]),
        }
    };
    let standing = offsets.iter().filter(|offset| stands(offset, fault));
    let mut pairs: Vec<[Vector; 2]> = standing.filter_map(pair).collect();
    match fault {
        Fault::FillLastFirst => pairs.reverse(),
        Fault::FillFirstAlone => pairs.truncate(1),
        Fault::FillNeedsAll if 2 * pairs.len() < offsets.len() => pairs.clear(),
        _ => {}
    }
    pairs
}

/// The fill of a cell from the kept points.
fn fill(
    kept: impl Fn(Cell) -> Option<Vector>,
    cell: Cell,
    offsets: &Offsets,
    fault: Fault,
) -> (u32, [u32; 2]) {
    let pairs = pairs(kept, cell, offsets, fault);
    if pairs.is_empty() {
        return (0, [0; 2]);
    }
    let along = |of: fn(&Vector) -> f32| {
        let numbers: Vec<[f32; 2]> = pairs.iter().map(|pair| pair.each_ref().map(of)).collect();
        mean(&numbers, fault).to_bits()
    };
    let mut bits = [along(|at| at.x), along(|at| at.y)];
    if fault == Fault::FillExchanged {
        bits.reverse();
    }
    let count = match fault {
        Fault::FillCountsPoints => 2 * pairs.len(),
        _ => pairs.len(),
    };
    (count as u32, bits)
}

/// Whether a filter but that of a letter marks a point.
fn marked_but_by(letter: char, byte: u8) -> bool {
    let mut others = FILTERS.iter().filter(|filter| filter.letter != letter);
    others.any(|filter| filter.marks(byte))
}

/// Whether a point with these marks is dropped; under a fault one filter's mark does not count.
fn dropped(byte: u8, fault: Fault) -> bool {
    match fault {
        Fault::FillNotOfPatches => marked_but_by('C', byte),
        Fault::FillNotOfLeaves => marked_but_by('L', byte),
        Fault::FillOfValidate => FILTERS[0].marks(byte),
        Fault::FillKeptToo => true,
        _ => byte > 0,
    }
}

/// Whether a point with these marks makes a pair.
fn kept(byte: u8, fault: Fault) -> bool {
    match fault {
        Fault::FillFromDropped => true,
        Fault::FillFromPatches => !marked_but_by('C', byte),
        _ => byte == 0,
    }
}

/// A cell that a line is for, and that whose pairs are taken.
type Asked = (Cell, Cell);

/// The cells within the box of a sheet that no point has, for a fault; none of a wide box.
fn missing(board: &Board) -> Vec<Asked> {
    let ends = |values: Vec<i32>| {
        let (low, high) = (values.iter().min(), values.iter().max());
        low.zip(high).map_or(0..0, |(low, high)| *low..high + 1)
    };
    let us = ends(board.points.iter().map(|p| p.u).collect());
    let vs = ends(board.points.iter().map(|p| p.v).collect());
    if us.len() * vs.len() > 10_000 {
        return Vec::new();
    }
    let cells = us.flat_map(|u| vs.clone().map(move |v| (u, v)));
    let free = cells.filter(|(u, v)| board.find(*u, *v).is_none());
    free.map(|cell| (cell, cell)).collect()
}

/// The cells that are filled: "For each dropped cell", in cell order.
fn asked(board: &Board, marks: &[u8], fault: Fault) -> Vec<Asked> {
    let ranks = (0..board.len()).filter(|k| dropped(marks[*k], fault));
    let mut ranks: Vec<usize> = ranks.collect();
    if fault == Fault::FillFileOrder {
        ranks.sort_by_key(|k| board.points[*k].place);
    }
    let from = |k: usize| match fault {
        Fault::FillByIndex => board.home[k],
        _ => k,
    };
    let cells = ranks.iter().map(|k| (board.cell(*k), board.cell(from(*k))));
    let mut cells: Vec<Asked> = cells.collect();
    if fault == Fault::FillMissingToo {
        cells.extend(missing(board));
        cells.sort();
    }
    cells
}

/// The fills of a sheet with these rows, over a lattice's offsets.
pub fn fills(board: &Board, rows: &[u8], offsets: &Offsets, fault: Fault) -> Vec<Fill> {
    let marks: Vec<u8> = rows.chunks(ROW).map(|row| row[0]).collect();
    let kept = |(u, v): Cell| {
        let found = board.find(u, v).filter(|k| kept(marks[*k], fault));
        found.map(|k| board.at(k))
    };
    let cells = asked(board, &marks, fault).into_iter();
    let all = cells.map(|((u, v), from)| {
        let (pairs, bits) = fill(kept, from, offsets, fault);
        Fill { u, v, pairs, bits }
    });
    match fault {
        Fault::FillNoneUnlisted => all.filter(|fill| fill.pairs > 0).collect(),
        _ => all.collect(),
    }
}
