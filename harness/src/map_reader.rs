//! Reads a map back, apart from the program that draws it, and holds it against a listing.

use crate::listing::{self, Listing, Words};
use std::collections::HashMap;

/// One line of a map.
#[derive(Debug, PartialEq)]
pub struct Line {
    pub v: i32,
    pub cells: Vec<u8>,
}

fn line(text: &str) -> Option<Line> {
    let bytes = text.as_bytes();
    if bytes.len() != 80 || bytes[6] != b' ' || bytes[79] != b' ' {
        return None;
    }
    let number = text[..6].trim_start_matches(' ');
    let v: i32 = number.parse().ok()?;
    (v.to_string() == number).then(|| Line {
        v,
        cells: bytes[7..79].to_vec(),
    })
}

/// The lines of a map, if each has 80 characters and a newline: v right-aligned in 6, a space, 72
/// cell characters, a space.
pub fn lines(map: &str) -> Option<Vec<Line>> {
    if map.is_empty() {
        return Some(Vec::new());
    }
    map.strip_suffix('\n')?.split('\n').map(line).collect()
}

/// The cells of a listing with the character that each should have on the map.
fn points(listing: &Listing) -> HashMap<(i32, i32), u8> {
    let point = |words: &Words| {
        let mut marks = words[3].bytes();
        let mark = marks.find(|&m| m != b'-').unwrap_or(b'#');
        (listing::cell(words).unwrap(), mark)
    };
    listing.points.iter().map(point).collect()
}

/// The first thing that is wrong with a map beside the listing of the same sheet.
pub fn fault(map: &str, listing: &str) -> Option<String> {
    let Some(taken_apart) = Listing::new(listing) else {
        return (map != listing).then(|| format!("{map:?} beside {listing:?}"));
    };
    let points = points(&taken_apart);
    let us = || points.keys().map(|cell| cell.0);
    let vs = || points.keys().map(|cell| cell.1);
    let (Some(left), Some(top)) = (us().min(), vs().min()) else {
        return (!map.is_empty()).then(|| "a map without points".into());
    };
    let (right, bottom) = (us().max()?, vs().max()?);
    let fits = right < left + 72 && bottom < top + 60;
    if !fits || map == "refused 10\n" {
        let refused = map == "refused 10\n";
        return (fits == refused).then(|| format!("{map:?} of {left}..{right}, {top}..{bottom}"));
    }
    let Some(lines) = lines(map) else {
        return Some("a line of another form".into());
    };
    if !lines.iter().map(|l| l.v).eq(top..=bottom) {
        return Some(format!("lines other than {top}..{bottom}"));
    }
    lines.iter().find_map(|line| {
        let cells = left..left + 72;
        let right = cells.map(|u| *points.get(&(u, line.v)).unwrap_or(&b'.'));
        (!right.eq(line.cells.iter().copied())).then(|| format!("line {}", line.v))
    })
}
