//! Sheets as lines of text, for a person to read and write.
//!
//! ```text
//! # either the short settings or all of them
//! cell 100
//! settings CELL LINE_TOLERANCE LINE_MINIMUM LOCAL_TOLERANCE STEP_FLAG STEP_THRESHOLD WRONG LARGEST
//! # optional: minimum degree, least continuation cosine, largest continuation ratio,
//! # least cell cosine, largest cell ratio
//! gate 2 0.99 1.18 0.99 1.1
//! # optional, tag 4: the fraction; each point then has its strength as a sixth number
//! fraction 0.5
//! # points: u v index x y
//! 0 0 10 0 0
//! # in the place of a fraction, where points have no sixth number: the data of a tag 4 of any
//! # length, two hexadecimal digits a byte, or nothing for no data
//! tag4 0000003F00
//! ```
//! A float is a decimal number or its eight hexadecimal digits after `0x`.

use crate::sheet::{Gate, Point, Rest, Settings, Sheet, Strengths, MOST_RECORDS};
use std::fmt::Write;
use std::str::FromStr;

fn float_text(float: f32) -> String {
    let plain = float.to_string();
    if float.is_finite() && plain.len() <= 14 {
        plain
    } else {
        format!("0x{:08X}", float.to_bits())
    }
}

pub fn to_text(sheet: &Sheet) -> String {
    let mut out = String::new();
    let cell = float_text(sheet.settings.cell_size);
    match &sheet.settings.rest {
        None => writeln!(out, "cell {cell}").unwrap(),
        Some(r) => writeln!(
            out,
            "settings {cell} {} {} {} {} {} {} {}",
            float_text(r.line_tolerance),
            r.line_minimum,
            float_text(r.local_tolerance),
            r.step_flag,
            float_text(r.step_threshold),
            r.wrong_label,
            r.largest_patch
        )
        .unwrap(),
    }
    if let Some(gate) = &sheet.gate {
        let floats = gate.floats.map(float_text).join(" ");
        writeln!(out, "gate {} {floats}", gate.minimum_degree).unwrap();
    }
    match &sheet.strengths {
        Strengths::Missing => {}
        Strengths::Given(fraction) => writeln!(out, "fraction {}", float_text(*fraction)).unwrap(),
        Strengths::Misfit(data) => {
            let digits: String = data.iter().map(|byte| format!("{byte:02X}")).collect();
            writeln!(out, "{}", format!("tag4 {digits}").trim_end()).unwrap();
        }
    }
    let with_strength = matches!(sheet.strengths, Strengths::Given(_));
    for p in &sheet.points {
        let mut floats = vec![p.x, p.y];
        floats.extend(with_strength.then_some(p.strength));
        let floats: Vec<String> = floats.into_iter().map(float_text).collect();
        let floats = floats.join(" ");
        writeln!(out, "{} {} {} {floats}", p.u, p.v, p.index).unwrap();
    }
    out
}

/// A float from its decimal or hexadecimal form.
pub fn float(word: &str) -> Result<f32, String> {
    match word.strip_prefix("0x") {
        Some(digits) => u32::from_str_radix(digits, 16)
            .map(f32::from_bits)
            .map_err(|e| e.to_string()),
        None => word.parse().map_err(|_| format!("not a float: {word}")),
    }
}

fn number<T: FromStr>(word: &str) -> Result<T, String> {
    word.parse()
        .map_err(|_| format!("not a number of its range: {word}"))
}

fn settings(words: &[&str]) -> Result<Settings, String> {
    let [cell, line, minimum, local, step, threshold, wrong, largest] = words else {
        return Err("settings take eight numbers".into());
    };
    Ok(Settings {
        cell_size: float(cell)?,
        rest: Some(Rest {
            line_tolerance: float(line)?,
            line_minimum: number(minimum)?,
            local_tolerance: float(local)?,
            step_flag: number(step)?,
            step_threshold: float(threshold)?,
            wrong_label: number(wrong)?,
            largest_patch: number(largest)?,
        }),
    })
}

fn gate(words: &[&str]) -> Result<Gate, String> {
    let [degree, a, b, c, d] = words else {
        return Err("a gate takes five numbers".into());
    };
    Ok(Gate {
        minimum_degree: number(degree)?,
        floats: [float(a)?, float(b)?, float(c)?, float(d)?],
    })
}

/// Bytes from their hexadecimal digits.
fn bytes(digits: &str) -> Result<Vec<u8>, String> {
    let wrong = || format!("not bytes: {digits}");
    let pair = |pair: &[u8]| {
        let text = std::str::from_utf8(pair).map_err(|_| wrong())?;
        match pair.len() {
            2 => u8::from_str_radix(text, 16).map_err(|_| wrong()),
            _ => Err(wrong()),
        }
    };
    digits.as_bytes().chunks(2).map(pair).collect()
}

/// A point, and whether it has a strength.
fn point(words: &[&str]) -> Result<(Point, bool), String> {
    let ([u, v, index, x, y], strength) = match words {
        [u, v, index, x, y] => ([u, v, index, x, y], None),
        [u, v, index, x, y, strength] => ([u, v, index, x, y], Some(strength)),
        _ => {
            return Err("a point takes u v index x y, and a strength if there is a fraction".into())
        }
    };
    let mut point = Point::new(number(u)?, number(v)?, number(index)?, float(x)?, float(y)?);
    if let Some(strength) = strength {
        point.strength = float(strength)?;
    }
    Ok((point, strength.is_some()))
}

/// What the lines have said so far.
struct Lines {
    settings: Option<Settings>,
    gate: Option<Gate>,
    strengths: Strengths,
    points: Vec<(Point, bool)>,
}

impl Lines {
    fn read(&mut self, words: &[&str]) -> Result<(), String> {
        match words {
            [] => {}
            ["cell", size] => {
                self.settings = Some(Settings {
                    cell_size: float(size)?,
                    rest: None,
                })
            }
            ["settings", rest @ ..] => self.settings = Some(settings(rest)?),
            ["gate", rest @ ..] => self.gate = Some(gate(rest)?),
            ["fraction", fraction] => self.strengths = Strengths::Given(float(fraction)?),
            ["tag4"] => self.strengths = Strengths::Misfit(Vec::new()),
            ["tag4", digits] => self.strengths = Strengths::Misfit(bytes(digits)?),
            words => self.points.push(point(words)?),
        }
        Ok(())
    }

    fn sheet(self) -> Result<Sheet, String> {
        let settings = self.settings.ok_or("no line `cell` or `settings`")?;
        if self.points.len() > MOST_RECORDS {
            return Err(format!("a field holds at most {MOST_RECORDS} points"));
        }
        let fraction = matches!(self.strengths, Strengths::Given(_));
        if self
            .points
            .iter()
            .any(|(_, strength)| *strength != fraction)
        {
            return Err(
                "every point has a strength, or none, as there is a fraction or not".into(),
            );
        }
        Ok(Sheet {
            settings,
            gate: self.gate,
            points: self.points.into_iter().map(|(point, _)| point).collect(),
            strengths: self.strengths,
        })
    }
}

pub fn from_text(text: &str) -> Result<Sheet, String> {
    let mut lines = Lines {
        settings: None,
        gate: None,
        strengths: Strengths::Missing,
        points: Vec::new(),
    };
    for (number, line) in text.lines().enumerate() {
        let line = line.split('#').next().unwrap_or("");
        let words: Vec<&str> = line.split_whitespace().collect();
        let read = lines.read(&words);
        read.map_err(|e| format!("line {}: {e}", number + 1))?;
    }
    lines.sheet()
}
