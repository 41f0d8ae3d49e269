//! A sheet as data, its file and back. The second program has a reader of its own.
//!
//! Each point carries its strength, so that points listed in another order take theirs along.

use std::collections::HashSet;

#[derive(Clone, Debug, PartialEq)]
pub struct Settings {
    pub cell_size: f32,
    /// Nothing for the short form of four bytes.
    pub rest: Option<Rest>,
}

#[derive(Clone, Debug, PartialEq)]
pub struct Rest {
    pub line_tolerance: f32,
    pub line_minimum: u16,
    pub local_tolerance: f32,
    pub step_flag: u8,
    pub step_threshold: f32,
    pub wrong_label: u8,
    pub largest_patch: u8,
}

impl Rest {
    /// What the short form stands for, with a line minimum.
    pub fn with_minimum(line_minimum: u16) -> Rest {
        Rest {
            line_tolerance: 0.15,
            line_minimum,
            local_tolerance: 0.2,
            step_flag: 0,
            step_threshold: 0.0,
            wrong_label: 1,
            largest_patch: 1,
        }
    }

    /// What the short form stands for: document 02, A.9.
    pub fn defaults() -> Rest {
        Rest::with_minimum(4)
    }

    /// What sheets that rely on lines of three spell out.
    pub fn with_three() -> Rest {
        Rest::with_minimum(3)
    }
}

#[derive(Clone, Debug, PartialEq)]
pub struct Gate {
    pub minimum_degree: u8,
    /// Least continuation cosine, largest continuation ratio, least cell cosine, largest cell
    /// ratio.
    pub floats: [f32; 4],
}

#[derive(Clone, Copy, Debug, PartialEq)]
pub struct Point {
    pub u: i32,
    pub v: i32,
    pub index: u32,
    pub x: f32,
    pub y: f32,
    /// 0 unless the sheet has strengths.
    pub strength: f32,
}

impl Point {
    /// A point of strength 0.
    pub fn new(u: i32, v: i32, index: u32, x: f32, y: f32) -> Point {
        Point {
            u,
            v,
            index,
            x,
            y,
            strength: 0.0,
        }
    }
}

/// Tag 4, but for what the points carry.
#[derive(Clone, Debug, PartialEq)]
pub enum Strengths {
    /// There is no such field.
    Missing,
    /// The fraction; each point has its strength.
    Given(f32),
    /// The data of a field that is not 4 bytes and 4 for each point long.
    Misfit(Vec<u8>),
}

#[derive(Clone, Debug, PartialEq)]
pub struct Sheet {
    pub settings: Settings,
    pub gate: Option<Gate>,
    pub points: Vec<Point>,
    pub strengths: Strengths,
}

/// The most points that a field holds: its length has two bytes, and a point twenty.
pub const MOST_RECORDS: usize = u16::MAX as usize / 20;

/// One field: tag, length, data. The length is cut to two bytes.
pub fn field(tag: u8, data: &[u8]) -> Vec<u8> {
    let mut out = vec![tag];
    out.extend((data.len() as u16).to_le_bytes());
    out.extend(data);
    out
}

/// A file with short settings with all 21 bytes of them, and a line minimum; any other file as it is.
pub fn spelled_out(file: &[u8], line_minimum: u16) -> Vec<u8> {
    let [1, 4, 0, a, b, c, d, after @ ..] = file else {
        return file.to_vec();
    };
    let settings = Settings {
        cell_size: f32::from_le_bytes([*a, *b, *c, *d]),
        rest: Some(Rest::with_minimum(line_minimum)),
    };
    [&settings.field(), after].concat()
}

impl Settings {
    fn field(&self) -> Vec<u8> {
        let mut data = self.cell_size.to_le_bytes().to_vec();
        if let Some(r) = &self.rest {
            data.extend(r.line_tolerance.to_le_bytes());
            data.extend(r.line_minimum.to_le_bytes());
            data.extend(r.local_tolerance.to_le_bytes());
            data.push(r.step_flag);
            data.extend(r.step_threshold.to_le_bytes());
            data.extend([r.wrong_label, r.largest_patch]);
        }
        field(1, &data)
    }
}

impl Sheet {
    pub fn settings_field(&self) -> Vec<u8> {
        self.settings.field()
    }

    pub fn gate_field(&self) -> Vec<u8> {
        let Some(gate) = &self.gate else {
            return Vec::new();
        };
        let mut data = vec![gate.minimum_degree];
        for float in gate.floats {
            data.extend(float.to_le_bytes());
        }
        field(2, &data)
    }

    pub fn points_field(&self) -> Vec<u8> {
        let mut data = Vec::with_capacity(20 * self.points.len());
        for p in &self.points {
            data.extend(p.u.to_le_bytes());
            data.extend(p.v.to_le_bytes());
            data.extend(p.index.to_le_bytes());
            data.extend(p.x.to_le_bytes());
            data.extend(p.y.to_le_bytes());
        }
        field(3, &data)
    }

    pub fn strengths_field(&self) -> Vec<u8> {
        match &self.strengths {
            Strengths::Missing => Vec::new(),
            Strengths::Given(fraction) => {
                let strengths = self.points.iter().map(|p| p.strength);
                let floats = std::iter::once(*fraction).chain(strengths);
                let data: Vec<u8> = floats.flat_map(f32::to_le_bytes).collect();
                field(4, &data)
            }
            Strengths::Misfit(data) => field(4, data),
        }
    }

    pub fn to_file(&self) -> Vec<u8> {
        [
            self.settings_field(),
            self.gate_field(),
            self.points_field(),
            self.strengths_field(),
        ]
        .concat()
    }

    /// How many different indices it has.
    pub fn indices(&self) -> usize {
        let indices: HashSet<u32> = self.points.iter().map(|p| p.index).collect();
        indices.len()
    }

    /// Whether some index stands at several cells.
    pub fn repeats_index(&self) -> bool {
        self.indices() < self.points.len()
    }

    /// The sheet of a well-framed file, whatever its numbers.
    pub fn from_file(file: &[u8]) -> Option<Sheet> {
        let mut reader = Reader { rest: file };
        let settings = match reader.field(1)? {
            4 => Settings {
                cell_size: reader.f32()?,
                rest: None,
            },
            21 => Settings {
                cell_size: reader.f32()?,
                rest: Some(reader.settings()?),
            },
            _ => return None,
        };
        let gate = match reader.rest.first() {
            Some(2) if reader.field(2)? == 17 => Some(Gate {
                minimum_degree: reader.u8()?,
                floats: [reader.f32()?, reader.f32()?, reader.f32()?, reader.f32()?],
            }),
            Some(2) => return None,
            _ => None,
        };
        let length = reader.field(3)?;
        if length % 20 != 0 {
            return None;
        }
        let mut points = (0..length / 20)
            .map(|_| reader.point())
            .collect::<Option<Vec<Point>>>()?;
        let strengths = reader.strengths(&mut points)?;
        Some(Sheet {
            settings,
            gate,
            points,
            strengths,
        })
    }
}

/// Reads little-endian numbers off the front.
struct Reader<'a> {
    rest: &'a [u8],
}

impl Reader<'_> {
    fn take<const N: usize>(&mut self) -> Option<[u8; N]> {
        let (first, rest) = self.rest.split_first_chunk::<N>()?;
        self.rest = rest;
        Some(*first)
    }
    fn u8(&mut self) -> Option<u8> {
        self.take::<1>().map(|b| b[0])
    }
    fn u16(&mut self) -> Option<u16> {
        self.take().map(u16::from_le_bytes)
    }
    fn u32(&mut self) -> Option<u32> {
        self.take().map(u32::from_le_bytes)
    }
    fn i32(&mut self) -> Option<i32> {
        self.take().map(i32::from_le_bytes)
    }
    fn f32(&mut self) -> Option<f32> {
        self.take().map(f32::from_le_bytes)
    }
    /// The length of a field with this tag whose data the file holds.
    fn field(&mut self, tag: u8) -> Option<usize> {
        if self.u8()? != tag {
            return None;
        }
        let length = usize::from(self.u16()?);
        (self.rest.len() >= length).then_some(length)
    }
    fn settings(&mut self) -> Option<Rest> {
        Some(Rest {
            line_tolerance: self.f32()?,
            line_minimum: self.u16()?,
            local_tolerance: self.f32()?,
            step_flag: self.u8()?,
            step_threshold: self.f32()?,
            wrong_label: self.u8()?,
            largest_patch: self.u8()?,
        })
    }
    /// Tag 4, if it is there, and the end of the file; the points get their strengths.
    fn strengths(&mut self, points: &mut [Point]) -> Option<Strengths> {
        if self.rest.is_empty() {
            return Some(Strengths::Missing);
        }
        let length = self.field(4)?;
        if self.rest.len() != length {
            return None;
        }
        if length != 4 + 4 * points.len() {
            return Some(Strengths::Misfit(self.rest.to_vec()));
        }
        let fraction = self.f32()?;
        for p in points {
            p.strength = self.f32()?;
        }
        Some(Strengths::Given(fraction))
    }
    fn point(&mut self) -> Option<Point> {
        Some(Point::new(
            self.i32()?,
            self.i32()?,
            self.u32()?,
            self.f32()?,
            self.f32()?,
        ))
    }
}
