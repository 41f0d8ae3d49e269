//! The map on one page, from document 02, A.1.

use super::board::Board;
use super::fault::Fault;
use super::file::{Point, ROW};
use super::filters::{self, FILTERS};

/// "points that span more than 72 values of u or 60 of v"
const WIDTH: i32 = 72;
const HEIGHT: i32 = 60;

/// The map's own number.
pub const TOO_WIDE: u8 = 10;

/// The least and the largest value; none without points.
fn ends(points: &[Point], value: fn(&Point) -> i32) -> Option<(i32, i32)> {
    let values = || points.iter().map(value);
    Some((values().min()?, values().max()?))
}

/// "It refuses with 10 .. points that span more than 72 values of u or 60 of v."
pub fn too_wide(points: &[Point], fault: Fault) -> bool {
    let span = |value: fn(&Point) -> i32| {
        let one = i64::from(fault != Fault::MapSpanWithoutOne);
        ends(points, value).map_or(0, |(low, high)| i64::from(high) - i64::from(low) + one)
    };
    let (mut width, mut height) = match fault {
        Fault::MapLimitsExchanged => (HEIGHT, WIDTH),
        _ => (WIDTH, HEIGHT),
    };
    match fault {
        Fault::Map71Allowed => width -= 1,
        Fault::Map73Allowed => width += 1,
        Fault::Map59Allowed => height -= 1,
        Fault::Map61Allowed => height += 1,
        _ => {}
    }
    let (wide, tall) = (
        span(|p| p.u) > i64::from(width),
        span(|p| p.v) > i64::from(height),
    );
    if fault == Fault::MapBothTooWide {
        wide && tall
    } else {
        wide || tall
    }
}

/// "# a kept one, else the letter of the first filter"
fn letter(byte: u8, fault: Fault) -> char {
    let place = match fault {
        Fault::MapLastFilter => filters::last(byte),
        _ => filters::first(byte),
    };
    place.map_or('#', |k| FILTERS[k].letter)
}

/// "v right-aligned in 6"
fn label(v: i32, fault: Fault) -> String {
    match fault {
        Fault::MapLeftAligned => format!("{v:<6}"),
        Fault::MapSignApart if v < 0 => format!("-{:>5}", -v),
        Fault::MapNegativeWider if v < 0 => format!("{v:>7}"),
        Fault::MapZeros => format!("{v:06}"),
        _ => format!("{v:>6}"),
    }
}

/// One line: the characters of the points of one v, each with its u.
fn line(v: i32, points: &[(i32, char)], (low, high): (i32, i32), fault: Fault) -> String {
    let mut columns = WIDTH as usize;
    match fault {
        Fault::MapColumnShort => columns -= 1,
        Fault::MapNarrow => columns = (high - low + 1) as usize,
        _ => {}
    }
    let first = match fault {
        Fault::MapOwnSmallest => points.iter().map(|(u, _)| *u).min().unwrap_or(low),
        _ => low,
    };
    let mut cells = vec!['.'; columns];
    for &(u, letter) in points {
        if let Some(cell) = cells.get_mut((u - first) as usize) {
            *cell = letter;
        }
    }
    let cells: String = cells.into_iter().collect();
    let end = match fault {
        Fault::MapLastSpace => "",
        _ => " ",
    };
    format!("{} {cells}{end}\n", label(v, fault))
}

/// The lines of the sheet's points: the text, or number 10.
pub fn draw(board: &Board, rows: &[u8], fault: Fault) -> Result<String, u8> {
    if too_wide(&board.points, fault) {
        return Err(TOO_WIDE);
    }
    let mut points: Vec<(i32, i32, char)> = board
        .points
        .iter()
        .zip(rows.chunks(ROW))
        .map(|(p, row)| (p.u, p.v, letter(row[0], fault)))
        .collect();
    if fault == Fault::MapExchanged {
        points.iter_mut().for_each(|p| (p.0, p.1) = (p.1, p.0));
    }
    let us = || points.iter().map(|p| p.0);
    let vs = || points.iter().map(|p| p.1);
    let (Some(low), Some(high)) = (us().min(), us().max()) else {
        let empty = fault == Fault::MapEmptyLine;
        return Ok(if empty { "\n".into() } else { String::new() });
    };
    let mut lines = Vec::new();
    for v in vs().min().unwrap_or(0)..=vs().max().unwrap_or(0) {
        let here = points.iter().filter(|p| p.1 == v).map(|p| (p.0, p.2));
        let here: Vec<(i32, char)> = here.collect();
        if !here.is_empty() || fault != Fault::MapLineLost {
            lines.push(line(v, &here, (low, high), fault));
        }
    }
    if fault == Fault::MapFromLargest {
        lines.reverse();
    }
    Ok(lines.concat())
}
