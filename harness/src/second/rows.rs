//! Rows and the listing.

use super::board::Board;
use super::edge::Figures;
use super::fault::Fault;
use super::file::ROW;
use super::fills::{self, Fill};
use super::filters::{Filter, FILTERS};
use super::root::Distance;
use super::tally::Tally;
use super::validate::Findings;
use std::fmt::Write;

/// The marks of each filter, in the order of the table, one for each rank.
pub type Marks = [Vec<bool>; FILTERS.len()];

/// "Absent is zero; NaN is 0x7FC00000."
fn bits(float: Option<f32>) -> u32 {
    match float {
        None => 0,
        Some(f) if f.is_nan() => 0x7FC0_0000,
        Some(f) => f.to_bits(),
    }
}

fn row(marks: u8, f: &Figures, residual: Option<f32>) -> [u8; ROW] {
    let floats = [
        residual,
        f.continuation_cosine,
        f.continuation_ratio,
        f.cell_cosine,
        f.cell_ratio,
    ];
    let mut out = [0; ROW];
    out[0] = marks;
    out[1] = f.reason;
    for (k, float) in floats.into_iter().enumerate() {
        out[2] |= u8::from(float.is_some()) << k;
        out[8 + 4 * k..12 + 4 * k].copy_from_slice(&bits(float).to_le_bytes());
    }
    out[3] = f.degree;
    out[4] = u8::from(f.boundary);
    out[5] = f.adjacent;
    out[6] = f.valid;
    out
}

/// "A row shows what the Rust holds under the point's index."
pub fn rows(board: &Board, findings: &Findings, marks: &Marks, fault: Fault) -> Vec<u8> {
    let mut out = Vec::with_capacity(ROW * board.len());
    for k in 0..board.len() {
        let home = board.home[k];
        let byte = FILTERS.iter().zip(marks).fold(0, |byte, (filter, marked)| {
            let bit = match fault {
                Fault::LeafAtBit5 if filter.letter == 'L' => 5,
                _ => filter.bit,
            };
            byte | u8::from(marked[k]) << bit
        });
        let figures = findings
            .figures
            .as_ref()
            .map_or(Figures::default(), |f| f[home]);
        let residual = findings.residual[home].map(|residual| residual.value);
        out.extend(row(byte, &figures, residual));
    }
    out
}

/// The letters of a byte of marks, in the order of the table.
fn letters(byte: u8, fault: Fault) -> String {
    let letter = |f: &Filter| if f.marks(byte) { f.letter } else { '-' };
    let mut letters: Vec<char> = FILTERS.iter().map(letter).collect();
    if fault == Fault::LetterAfterComponent {
        letters.swap(3, 4);
    }
    letters.into_iter().collect()
}

/// The counts of the first line.
#[derive(Clone, Copy)]
pub struct Counts {
    pub points: usize,
    pub components: usize,
    pub rounds: usize,
}

impl Counts {
    /// "the first line of the listing ends with `rounds` and the number of rounds that removed something"
    fn line(&self, fault: Fault) -> String {
        let Counts {
            points,
            components,
            rounds,
        } = self;
        let rounds = match (fault, rounds) {
            (Fault::NoWordForZero, 0) => String::new(),
            _ => format!(" rounds {rounds}"),
        };
        format!("points {points} components {components}{rounds}\n")
    }
}

/// What the listing shows of a sheet after its points.
pub struct End<'a> {
    pub tally: &'a Tally,
    pub fills: &'a [Fill],
}

impl End<'_> {
    fn lines(&self, fault: Fault) -> String {
        let numbers = self.tally.each().map(|(word, n)| format!("{word} {n}"));
        let numbers: Vec<String> = numbers.collect();
        let tally = format!("{}\n", numbers.join(" "));
        let fills = fills::lines(self.fills, fault);
        match fault {
            Fault::FillBeforeTally => fills + &tally,
            Fault::FillUnlisted => tally,
            _ => tally + &fills,
        }
    }
}

/// The residual of a row, if it has one, and "`=` directly after a residual whose remainder is 0".
fn residual_text(row: &[u8], residual: &Option<Distance>, fault: Fault) -> String {
    let digits = match row[2] & 1 {
        0 => return "-".to_string(),
        _ => format!("{:08X}", u32::from_le_bytes(row[8..12].try_into().unwrap())),
    };
    match residual.is_some_and(|residual| residual.is_exact(fault)) {
        true if fault == Fault::EqualApart => digits + " =",
        true => digits + "=",
        false => digits,
    }
}

/// What the listing shows of a sheet's points.
pub struct Points<'a> {
    pub board: &'a Board,
    pub rows: &'a [u8],
    /// For each rank that of its index.
    pub residuals: &'a [Option<Distance>],
}

/// What the program `sheet` prints for an accepted file.
pub fn listing(points: &Points, counts: Counts, end: &End, fault: Fault) -> String {
    let mut out = counts.line(fault);
    let rows = points.rows.chunks(ROW).zip(points.residuals);
    for (p, (row, residual)) in points.board.points.iter().zip(rows) {
        let marks = letters(row[0], fault);
        let reason = match row[1] {
            0 => "-".to_string(),
            number => number.to_string(),
        };
        let residual = residual_text(row, residual, fault);
        writeln!(
            out,
            "{} {} {} {marks} {reason} {residual}",
            p.u, p.v, p.index
        )
        .unwrap();
    }
    out + &end.lines(fault)
}
