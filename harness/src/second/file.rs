//! The sheet file: fields and refusals.

use super::fault::Fault;
use super::plane::Vector;

/// Document 02, A.4: "2,304 points pass and 2,305 give refusal 2". The number is the header's, and
/// `stars/points.rs` holds it against the document's.
pub const MAX_POINTS: usize = crate::header::MOST_POINTS;
/// The bytes of a row, and of a fill.
pub const ROW: usize = 28;
pub const FILL: usize = 20;
/// A buffer of this length has room for the rows of every sheet, and one of this for its fills.
pub const ROOM: usize = ROW * MAX_POINTS;
pub const FILLS_ROOM: usize = FILL * MAX_POINTS;

/// A buffer's length, and how many bytes of it the call asks for a point: 3 goes by both.
#[derive(Clone, Copy)]
pub struct Buffer {
    pub length: usize,
    each: usize,
}

impl Buffer {
    pub fn for_rows(length: usize) -> Buffer {
        Buffer { length, each: ROW }
    }

    pub fn for_fills(length: usize, fault: Fault) -> Buffer {
        let each = match fault {
            Fault::FillRoomOfRows => ROW,
            _ => FILL,
        };
        Buffer { length, each }
    }

    /// "a buffer shorter than .. bytes per point"
    fn short(self, points: usize, fault: Fault) -> bool {
        let more = match (fault, self.each) {
            (Fault::BufferShort, ROW) | (Fault::FillBufferShort, FILL) => 1,
            _ => 0,
        };
        self.length + more < self.each * points
    }
}

#[derive(Clone, Copy, Debug)]
pub struct Settings {
    pub cell_size: f32,
    pub line_tolerance: f32,
    pub line_minimum: usize,
    pub local_tolerance: f32,
    pub step_flag: u8,
    pub step_threshold: f32,
    pub wrong_label: u8,
    pub largest_patch: u8,
}

#[derive(Clone, Copy, Debug)]
pub struct Gate {
    pub minimum_degree: u8,
    pub least_continuation: f32,
    pub largest_continuation: f32,
    pub least_cell: f32,
    pub largest_cell: f32,
}

#[derive(Clone, Copy, Debug)]
pub struct Point {
    pub u: i32,
    pub v: i32,
    pub index: u32,
    pub at: Vector,
    /// That of tag 4; 0 without.
    pub strength: f32,
    /// Place in the file, from 0.
    pub place: usize,
}

/// What a file holds, or what two make together: a list of points in cell order, with settings.
#[derive(Clone, Debug)]
pub struct Sheet {
    pub settings: Settings,
    pub gate: Option<Gate>,
    pub points: Vec<Point>,
    /// The fraction of tag 4.
    pub fraction: Option<f32>,
}

/// A well-framed file, its points in cell order; those of one cell in the file's.
pub struct Framed {
    pub sheet: Sheet,
    /// "a tag 4 that is not 4 bytes plus 4 per point"
    misfit: bool,
}

fn f32_at(data: &[u8], at: usize) -> f32 {
    f32::from_le_bytes(data[at..at + 4].try_into().unwrap())
}

fn u32_at(data: &[u8], at: usize) -> u32 {
    u32::from_le_bytes(data[at..at + 4].try_into().unwrap())
}

fn u16_at(data: &[u8], at: usize) -> usize {
    usize::from(u16::from_le_bytes([data[at], data[at + 1]]))
}

/// The fields of a file, tag and data, if it is made of whole fields.
fn fields(file: &[u8], fault: Fault) -> Option<Vec<(u8, &[u8])>> {
    let mut out = Vec::new();
    let mut rest = file;
    while !rest.is_empty() {
        let ended = match out.last() {
            Some((3, _)) => rest[0] != 4,
            Some((4, _)) => true,
            _ => false,
        };
        if fault == Fault::TailTaken && ended {
            break;
        }
        if rest.len() < 3 || rest.len() < 3 + u16_at(rest, 1) {
            return None;
        }
        let (field, after) = rest.split_at(3 + u16_at(rest, 1));
        out.push((field[0], &field[3..]));
        rest = after;
    }
    Some(out)
}

/// "the default line minimum becomes 4 for length-4 settings"
fn default_minimum(fault: Fault) -> usize {
    match fault {
        Fault::ShortThree => 3,
        Fault::ShortFive => 5,
        _ => 4,
    }
}

fn settings(data: &[u8], fault: Fault) -> Option<Settings> {
    match data.len() {
        4 => Some(Settings {
            cell_size: f32_at(data, 0),
            line_tolerance: 0.15,
            line_minimum: default_minimum(fault),
            local_tolerance: 0.20,
            step_flag: 0,
            step_threshold: 0.0,
            wrong_label: 1,
            largest_patch: 1,
        }),
        21 => Some(Settings {
            cell_size: f32_at(data, 0),
            line_tolerance: f32_at(data, 4),
            line_minimum: match u16_at(data, 8) {
                3 if fault == Fault::ThreeNotTaken => 4,
                minimum => minimum,
            },
            local_tolerance: f32_at(data, 10),
            step_flag: data[14],
            step_threshold: f32_at(data, 15),
            wrong_label: data[19],
            largest_patch: data[20],
        }),
        _ => None,
    }
}

fn gate(data: &[u8]) -> Option<Gate> {
    (data.len() == 17).then(|| Gate {
        minimum_degree: data[0],
        least_continuation: f32_at(data, 1),
        largest_continuation: f32_at(data, 5),
        least_cell: f32_at(data, 9),
        largest_cell: f32_at(data, 13),
    })
}

fn points(data: &[u8]) -> Option<Vec<Point>> {
    data.len().is_multiple_of(20).then(|| {
        let point = |(place, record): (usize, &[u8])| Point {
            u: u32_at(record, 0) as i32,
            v: u32_at(record, 4) as i32,
            index: u32_at(record, 8),
            at: Vector {
                x: f32_at(record, 12),
                y: f32_at(record, 16),
            },
            strength: 0.0,
            place,
        };
        data.chunks(20).enumerate().map(point).collect()
    })
}

/// "Tag 4, optional, after tag 3, carries a fraction f32 and one strength f32 per point, in the
/// points' order": hands the points, as the file lists them, their strengths and gives the fraction.
fn strengths(data: &[u8], points: &mut [Point], fault: Fault) -> Option<f32> {
    if data.len() != 4 + 4 * points.len() {
        return None;
    }
    if fault == Fault::StrengthsInCellOrder {
        points.sort_by_key(|p| (p.u, p.v));
    }
    for (k, point) in points.iter_mut().enumerate() {
        point.strength = f32_at(data, 4 + 4 * k);
    }
    Some(f32_at(data, 0))
}

/// The contents of a well-framed file.
pub fn framed(file: &[u8], fault: Fault) -> Option<Framed> {
    let fields = fields(file, fault)?;
    let (fields, fourth) = match fields.as_slice() {
        [fields @ .., (4, fourth)] => (fields, Some(*fourth)),
        fields => (fields, None),
    };
    let (first, second, third) = match fields {
        [(1, first), (3, third)] => (*first, None, *third),
        [(1, first), (2, second), (3, third)] => (*first, Some(*second), *third),
        _ => return None,
    };
    let settings = settings(first, fault)?;
    let gate = match second {
        Some(data) => Some(gate(data)?),
        None => None,
    };
    let mut points = points(third)?;
    let fraction = fourth.and_then(|data| strengths(data, &mut points, fault));
    let misfit = fourth.is_some() && fraction.is_none();
    if misfit && fault == Fault::MisfitGives1 {
        return None;
    }
    points.sort_by_key(|p| (p.u, p.v));
    let sheet = Sheet {
        settings,
        gate,
        points,
        fraction,
    };
    Some(Framed { sheet, misfit })
}

/// "not finite or .. 16,384 in magnitude"
pub fn out_of_bounds(float: f32) -> bool {
    !float.is_finite() || float.abs() > 16384.0
}

fn bad_flag(s: &Settings) -> bool {
    s.step_flag > 1 || s.wrong_label > 1 || s.largest_patch > 1
}

fn bad_float(s: &Settings, gate: &Option<Gate>) -> bool {
    let mut floats = vec![
        s.cell_size,
        s.line_tolerance,
        s.local_tolerance,
        s.step_threshold,
    ];
    if let Some(g) = gate {
        floats.extend([g.least_continuation, g.largest_continuation]);
        floats.extend([g.least_cell, g.largest_cell]);
    }
    floats.into_iter().any(out_of_bounds)
}

fn bad_cell(p: &Point, fault: Fault) -> bool {
    let limit = 8000 - i32::from(fault == Fault::CellAtLimit);
    p.u < -limit || p.u > limit || p.v < -limit || p.v > limit
}

/// Whether two points, in cell order, have the same cell.
fn repeated_cell(points: &[Point]) -> bool {
    points
        .windows(2)
        .any(|p| (p[0].u, p[0].v) == (p[1].u, p[1].v))
}

/// Whether one index stands at positions with different bits.
fn torn_index(points: &[Point]) -> bool {
    let key = |p: &Point| (p.index, p.at.x.to_bits(), p.at.y.to_bits());
    let mut keys: Vec<_> = points.iter().map(key).collect();
    keys.sort_unstable();
    keys.windows(2).any(|k| k[0].0 == k[1].0 && k[0] != k[1])
}

/// "a number in it that is not finite or exceeds 16,384 in magnitude", the fraction included.
fn bad_strength(sheet: &Sheet, fault: Fault) -> bool {
    let strengths = || sheet.points.iter().map(|p| p.strength);
    let fraction = sheet.fraction.filter(|_| fault != Fault::FractionUnbounded);
    match fault {
        Fault::FractionAlone => fraction.is_some_and(out_of_bounds),
        _ => fraction.into_iter().chain(strengths()).any(out_of_bounds),
    }
}

/// "one index with different strength bits"
fn torn_strength(points: &[Point], fault: Fault) -> bool {
    let bits = |p: &Point| match fault {
        // Of equal numbers only the zeros differ in their bits.
        Fault::StrengthsByValue if p.strength == 0.0 => 0,
        _ => p.strength.to_bits(),
    };
    let mut keys: Vec<_> = points.iter().map(|p| (p.index, bits(p))).collect();
    keys.sort_unstable();
    keys.windows(2).any(|k| k[0].0 == k[1].0 && k[0] != k[1])
}

/// The bytes of a file of the most points, with all settings, the gate and strengths.
const LONGEST_ACCEPTED: usize = 3 + 21 + 3 + 17 + 3 + 20 * MAX_POINTS + 3 + 4 + 4 * MAX_POINTS;

/// The most points of an accepted sheet.
fn most_points(fault: Fault) -> usize {
    match fault {
        Fault::MostRefused => MAX_POINTS - 1,
        Fault::OneMoreTaken => MAX_POINTS + 1,
        _ => MAX_POINTS,
    }
}

impl Sheet {
    /// Whether the condition of a number applies, of those that do not go by the bytes of a file.
    pub fn applies(&self, number: u8, buffer: Buffer, fault: Fault) -> bool {
        let Sheet {
            settings,
            gate,
            points,
            ..
        } = self;
        let bad_position = |p: &Point| out_of_bounds(p.at.x) || out_of_bounds(p.at.y);
        match number {
            2 => points.len() > most_points(fault),
            3 => buffer.short(points.len(), fault),
            4 => bad_flag(settings),
            5 => bad_float(settings, gate),
            6 => points.iter().any(|p| bad_cell(p, fault)),
            7 => points.iter().any(bad_position),
            13 => bad_strength(self, fault),
            8 => repeated_cell(points),
            9 => torn_index(points),
            14 => torn_strength(points, fault),
            _ => false,
        }
    }
}

impl Framed {
    /// The same of those but 1.
    fn applies(&self, number: u8, buffer: Buffer, fault: Fault) -> bool {
        match number {
            12 => self.misfit,
            _ => self.sheet.applies(number, buffer, fault),
        }
    }
}

/// The largest of all numbers, those of the map, of a run and of a join too.
pub const LAST_NUMBER: usize = 17;

/// The numbers in the order in which they are looked for, after 1: "12, right after 1", "13, right
/// after 7", "14, right after 9".
pub const ORDER: [u8; 11] = [12, 2, 3, 4, 5, 6, 7, 13, 8, 9, 14];

/// The order with two exchanged.
pub fn exchanged(one: u8, other: u8) -> [u8; ORDER.len()] {
    let mut order = ORDER;
    let place = |number| ORDER.iter().position(|one| *one == number).unwrap();
    order.swap(place(one), place(other));
    order
}

/// The order, under a fault another.
pub fn order(fault: Fault) -> [u8; ORDER.len()] {
    match fault {
        Fault::FlagsAfterFloats => exchanged(4, 5),
        Fault::CellsBeforePositions => exchanged(7, 8),
        Fault::MisfitAfterMost => exchanged(12, 2),
        Fault::StrengthsBeforePositions => exchanged(7, 13),
        Fault::StrengthsAfterCells => exchanged(13, 8),
        Fault::TornStrengthFirst => exchanged(9, 14),
        _ => ORDER,
    }
}

/// The accepted sheet, or the first number whose condition applies.
pub fn read(file: &[u8], buffer: Buffer, fault: Fault) -> Result<Sheet, u8> {
    if fault == Fault::LongGives2 && file.len() > LONGEST_ACCEPTED {
        return Err(2);
    }
    let framed = framed(file, fault).ok_or(1)?;
    let applies = |number: &u8| framed.applies(*number, buffer, fault);
    match order(fault).into_iter().find(applies) {
        Some(number) => Err(number),
        None => Ok(framed.sheet),
    }
}
