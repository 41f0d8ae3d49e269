//! What documents 01 and 02 say of every sheet, tried on the second program's answers and maps.

use crate::fill_reader;
use crate::generate::{self, Case, Expected, Kind};
use crate::map_reader;
use crate::peel_reader;
use crate::random::Random;
use crate::residual_reader::Read;
use crate::roots;
use crate::second::{self, All, Answer, Fault, Fill, Map, ROOM, ROW};
use crate::sheet::{Rest, Sheet, Strengths};
use crate::tally_reader;

fn answer(sheet: &Sheet, buffer: usize) -> Answer {
    second::answer(&sheet.to_file(), buffer, Fault::None)
}

fn another_order(sheet: &Sheet, case: &Case) -> Sheet {
    let mut other = sheet.clone();
    Random::new(case.seed).shuffle(&mut other.points);
    other
}

/// The sheet moved by an offset in u and one in v, with both.
fn moved(sheet: &Sheet, case: &Case) -> (Sheet, (i32, i32)) {
    let mut r = Random::new(case.seed);
    let (du, dv) = (r.whole(-4000, 4000), r.whole(-4000, 4000));
    let mut other = sheet.clone();
    for p in &mut other.points {
        (p.u, p.v) = (p.u.wrapping_add(du), p.v.wrapping_add(dv));
    }
    (other, (du, dv))
}

/// The points in another order get the same answer.
fn any_order(sheet: &Sheet, case: &Case, right: &Answer) -> bool {
    answer(&another_order(sheet, case), case.buffer) == *right
}

/// "Changing only the two switches alters neither bit 0 nor bit 1."
fn any_switches(sheet: &Sheet, case: &Case, right: &Answer) -> bool {
    let bits = |answer: &Answer| match answer {
        Answer::Refused(_) => Vec::new(),
        Answer::Accepted { rows, .. } => rows.chunks(ROW).map(|row| row[0] & 3).collect(),
    };
    let with = |wrong_label: u8, largest_patch: u8| {
        let mut other = sheet.clone();
        let rest = other.settings.rest.get_or_insert_with(Rest::defaults);
        (rest.wrong_label, rest.largest_patch) = (wrong_label, largest_patch);
        bits(&answer(&other, case.buffer))
    };
    let right = bits(right);
    [(0, 0), (0, 1), (1, 0), (1, 1)]
        .into_iter()
        .all(|(w, l)| with(w, l) == right)
}

/// A row without what a whole move may change: the residual, since the fit is from cell numbers, the
/// validate marks, and the leaf and component marks, which go by these.
fn unmoved(row: &[u8]) -> Vec<u8> {
    let mut out = row.to_vec();
    out[0] &= 6;
    out[2] &= 30;
    out[8..12].fill(0);
    out
}

/// A whole move changes no more than that, and neither marks nor counts if it leaves the
/// validate marks alone: "A whole move keeps L if the earlier marks hold."
fn any_move(sheet: &Sheet, case: &Case, right: &Answer) -> bool {
    let (other, _) = moved(sheet, case);
    let marks =
        |rows: &[u8], bits: u8| -> Vec<u8> { rows.chunks(ROW).map(|row| row[0] & bits).collect() };
    let parts = |rows: &[u8]| -> Vec<Vec<u8>> { rows.chunks(ROW).map(unmoved).collect() };
    match (right, &answer(&other, case.buffer)) {
        (
            Answer::Accepted {
                rows,
                components,
                rounds,
                ..
            },
            Answer::Accepted {
                rows: moved,
                components: also_components,
                rounds: also_rounds,
                ..
            },
        ) => {
            let same_counts = (components, rounds) == (also_components, also_rounds);
            let same_marks = marks(rows, 255) == marks(moved, 255) && same_counts;
            parts(rows) == parts(moved) && (marks(rows, 1) != marks(moved, 1) || same_marks)
        }
        // Moved out of range, or refused before.
        _ => true,
    }
}

/// The first of the cases on which one of these fails.
pub fn first_failure(kinds: &[(Kind, &str)], sheets: usize, seed: u64) -> Option<String> {
    for i in 0..sheets {
        let case = generate::nth(kinds, seed, i);
        let Some(sheet) = Sheet::from_file(&case.file) else {
            continue;
        };
        let right = second::answer(&case.file, case.buffer, Fault::None);
        let name = format!("{:?} {}", case.kind, case.seed);
        if !any_order(&sheet, &case, &right) {
            return Some(format!("another order: {name}"));
        }
        if !any_move(&sheet, &case, &right) {
            return Some(format!("a whole move: {name}"));
        }
        if case.expected == Expected::Accepted && !any_switches(&sheet, &case, &right) {
            return Some(format!("other switches: {name}"));
        }
    }
    None
}

/// The validate marks of an accepted sheet.
fn validate_marks(answer: &Answer) -> Option<Vec<u8>> {
    match answer {
        Answer::Refused(_) => None,
        Answer::Accepted { rows, .. } => Some(rows.chunks(ROW).map(|row| row[0] & 1).collect()),
    }
}

/// Whether a whole move that leaves the validate marks alone leaves the map's characters alone and
/// moves the lines' numbers; none if the move changes those marks or leads out of range.
fn any_map_move(sheet: &Sheet, case: &Case, right: &Answer, map: &Map) -> Option<bool> {
    let (other, (_, dv)) = moved(sheet, case);
    let after = All::new(&other.to_file(), ROOM);
    if validate_marks(right)? != validate_marks(&after.answer)? {
        return None;
    }
    Some(match (map, after.map) {
        (Ok(map), Ok(other)) => {
            let mut lines = map_reader::lines(map);
            lines.iter_mut().flatten().for_each(|line| line.v += dv);
            lines.is_some() && lines == map_reader::lines(&other)
        }
        (map, other) => *map == other,
    })
}

/// The first of the cases whose map another order changes, or a whole move, or whose map does not
/// say what its listing says; and how many were moved.
pub fn first_map_failure(
    kinds: &[(Kind, &str)],
    sheets: usize,
    seed: u64,
) -> (Option<String>, usize) {
    let mut all_moved = 0;
    for i in 0..sheets {
        let case = generate::nth(kinds, seed, i);
        let All { answer, map, .. } = All::new(&case.file, ROOM);
        let fails = |what: String| (Some(format!("{:?} {}: {what}", case.kind, case.seed)), 0);
        if let Some(text) = map_reader::fault(&second::map_text(&map), &answer.listing()) {
            return fails(format!("beside its listing, {text}"));
        }
        let Some(sheet) = Sheet::from_file(&case.file) else {
            continue;
        };
        if second::map(&another_order(&sheet, &case).to_file(), Fault::None) != map {
            return fails("another order".into());
        }
        match any_map_move(&sheet, &case, &answer, &map) {
            Some(false) => return fails("a whole move".into()),
            Some(true) => all_moved += 1,
            None => {}
        }
    }
    (None, all_moved)
}

/// The first small case and fault of the map, right maps aside, that the reader does not notice; and
/// how many it noticed.
pub fn first_unread(sheets: usize, seed: u64) -> (Option<String>, usize) {
    let mut noticed = 0;
    let all = (0..).map(|i| generate::nth(Kind::for_map(), seed, i));
    let small = all.filter(|case| case.file.len() < 2000);
    for case in small.take(sheets) {
        let All { answer, map, .. } = All::new(&case.file, ROOM);
        for &(fault, _) in Fault::MAP {
            let wrong = second::map(&case.file, fault);
            if wrong == map {
                continue;
            }
            if map_reader::fault(&second::map_text(&wrong), &answer.listing()).is_none() {
                let name = format!("{:?} {}: {fault:?}", case.kind, case.seed);
                return (Some(name), noticed);
            }
            noticed += 1;
        }
    }
    (None, noticed)
}

/// What is wrong with the tally of an accepted sheet, if anything: its numbers add up to the number of
/// different indices, they are those of its listing's points, and "From now on the tally counts
/// indices" changes nothing where no index repeats.
fn tally_fault(sheet: &Sheet, case: &Case, right: &Answer) -> Option<String> {
    let Answer::Accepted { tally, .. } = right else {
        return None;
    };
    let sum: u32 = tally.each().map(|(_, number)| number).sum();
    if sum as usize != sheet.indices() {
        return Some(format!("{sum} counted of {} indices", sheet.indices()));
    }
    let by_cell = second::answer(&case.file, case.buffer, Fault::TallyByCell);
    if (by_cell != *right) != sheet.repeats_index() {
        return Some("beside the tally by cell".into());
    }
    tally_reader::fault(&right.listing())
}

/// The first of the cases whose tally is wrong, and how many had a repeated index.
pub fn first_tally_failure(
    kinds: &[(Kind, &str)],
    sheets: usize,
    seed: u64,
) -> (Option<String>, usize) {
    let mut repeated = 0;
    for i in 0..sheets {
        let case = generate::nth(kinds, seed, i);
        let right = second::answer(&case.file, case.buffer, Fault::None);
        let Some(sheet) = Sheet::from_file(&case.file) else {
            continue;
        };
        if let Some(text) = tally_fault(&sheet, &case, &right) {
            return (Some(format!("{:?} {}: {text}", case.kind, case.seed)), 0);
        }
        let accepted = matches!(right, Answer::Accepted { .. });
        repeated += usize::from(accepted && sheet.repeats_index());
    }
    (None, repeated)
}

/// What the runs of the reader met.
#[derive(Default)]
pub struct Peels {
    pub failure: Option<String>,
    /// Sheets with rounds; moved ones with rounds that keep the validate marks; sheets whose tag 4 has another
    /// length, refused in another order too.
    pub with_rounds: usize,
    pub moved: usize,
    pub misfits: usize,
}

/// The leaf marks and rounds of the cases beside their strengths, and what a whole move and another order
/// make of them.
pub fn peels(kinds: &[(Kind, &str)], sheets: usize, seed: u64) -> Peels {
    let mut out = Peels::default();
    for i in 0..sheets {
        let case = generate::nth(kinds, seed, i);
        let Some(sheet) = Sheet::from_file(&case.file) else {
            continue;
        };
        let right = second::answer(&case.file, case.buffer, Fault::None);
        let Answer::Accepted { rounds, .. } = right else {
            let misfit = matches!(sheet.strengths, Strengths::Misfit(_));
            let other = answer(&another_order(&sheet, &case), case.buffer);
            let both = right == Answer::Refused(12) && other == right;
            if misfit && !both {
                out.failure = Some(format!("{:?} {}: not 12", case.kind, case.seed));
                return out;
            }
            out.misfits += usize::from(misfit);
            continue;
        };
        let mut r = Random::new(case.seed);
        if let Some(text) = peel_reader::fault(&sheet, &right.listing(), &mut r) {
            out.failure = Some(format!("{:?} {}: {text}", case.kind, case.seed));
            return out;
        }
        let after = answer(&moved(&sheet, &case).0, ROOM);
        let kept = validate_marks(&right) == validate_marks(&after);
        out.with_rounds += usize::from(rounds > 0);
        out.moved += usize::from(rounds > 0 && kept);
    }
    out
}

/// The leaf marks and the rounds of an accepted sheet.
fn leaves(answer: &Answer) -> Option<(Vec<u8>, usize)> {
    match answer {
        Answer::Refused(_) => None,
        Answer::Accepted { rows, rounds, .. } => {
            let marks = rows.chunks(ROW).map(|row| row[0] & 16);
            Some((marks.collect(), *rounds))
        }
    }
}

/// The first small case and fault of the peel, where its marks or rounds are wrong, that the reader does not
/// notice; and how many it noticed.
pub fn first_unread_peel(sheets: usize, seed: u64) -> (Option<String>, usize) {
    let mut noticed = 0;
    let all = (0..).map(|i| generate::nth(Kind::for_peels(), seed, i));
    let small = all.filter(|case| case.file.len() < 2000);
    for case in small.take(sheets) {
        let of = |fault| second::answer(&case.file, ROOM, fault);
        let (right, sheet) = (of(Fault::None), Sheet::from_file(&case.file));
        let (Some(right), Some(sheet)) = (leaves(&right), sheet) else {
            continue;
        };
        for &(fault, _) in Fault::PEEL {
            let wrong = of(fault);
            if leaves(&wrong).is_none_or(|wrong| wrong == right) {
                continue;
            }
            let mut r = Random::new(case.seed);
            if peel_reader::fault(&sheet, &wrong.listing(), &mut r).is_none() {
                let name = format!("{:?} {}: {fault:?}", case.kind, case.seed);
                return (Some(name), noticed);
            }
            noticed += 1;
        }
    }
    (None, noticed)
}

/// The kept cells of a sheet, and its fills.
type KeptAndFills = (Vec<(i32, i32)>, Vec<Fill>);

/// Those of an accepted sheet, each less an offset.
fn kept_and_fills(sheet: &Sheet, answer: &Answer, (du, dv): (i32, i32)) -> Option<KeptAndFills> {
    let Answer::Accepted { rows, fills, .. } = answer else {
        return None;
    };
    let mut cells: Vec<_> = sheet.points.iter().map(|p| (p.u - du, p.v - dv)).collect();
    cells.sort();
    let kept = cells.into_iter().zip(rows.chunks(ROW));
    let kept = kept.filter(|(_, row)| row[0] == 0).map(|(cell, _)| cell);
    let back = |fill: &Fill| Fill {
        u: fill.u - du,
        v: fill.v - dv,
        ..*fill
    };
    Some((kept.collect(), fills.iter().map(back).collect()))
}

/// The sheet with its dropped points elsewhere, under other indices, or of other strengths.
fn other_dropped(sheet: &Sheet, fills: &[Fill], r: &mut Random) -> Sheet {
    let mut other = sheet.clone();
    let (position, index, strength) = (r.one_in(2), r.one_in(2), r.one_in(2));
    let size = sheet.settings.cell_size;
    for (k, p) in other.points.iter_mut().enumerate() {
        if !fills.iter().any(|fill| (fill.u, fill.v) == (p.u, p.v)) {
            continue;
        }
        // An index of its own may have a position of its own.
        if index || position {
            p.index = 0x4000_0000 + k as u32;
        }
        if position {
            p.x = (p.x + size * r.between(-0.3, 0.3)).clamp(-16384.0, 16384.0);
        }
        if strength && matches!(sheet.strengths, Strengths::Given(_)) && (index || position) {
            p.strength *= 0.5;
        }
    }
    other
}

/// What the runs of the fills met.
#[derive(Default)]
pub struct Filled {
    pub failure: Option<String>,
    /// Sheets with a pair: all, those whose kept patch a whole move took along, and those whose dropped points were
    /// changed and whose kept points stayed.
    pub with_pairs: usize,
    pub moved: usize,
    pub changed: usize,
}

impl Filled {
    /// What is wrong with the fills of an accepted sheet, beside its listing, another order, a whole move that takes
    /// the kept patch along, and other dropped points, if anything.
    fn fault(&mut self, sheet: &Sheet, case: &Case, right: &Answer) -> Option<&'static str> {
        let (kept, fills) = kept_and_fills(sheet, right, (0, 0))?;
        if fill_reader::fault(sheet, &right.listing()).is_some() {
            return Some("beside its listing");
        }
        let with_pairs = usize::from(fills.iter().any(|fill| fill.pairs > 0));
        self.with_pairs += with_pairs;
        let other = another_order(sheet, case);
        let after = kept_and_fills(&other, &answer(&other, ROOM), (0, 0));
        if after? != (kept.clone(), fills.clone()) {
            return Some("another order");
        }
        let (other, by) = moved(sheet, case);
        if let Some((also, found)) = kept_and_fills(&other, &answer(&other, ROOM), by) {
            self.moved += usize::from(also == kept) * with_pairs;
            if also == kept && found != fills {
                return Some("a whole move");
            }
        }
        let other = other_dropped(sheet, &fills, &mut Random::new(case.seed));
        if let Some((also, found)) = kept_and_fills(&other, &answer(&other, ROOM), (0, 0)) {
            self.changed += usize::from(also == kept) * with_pairs;
            if also == kept && found != fills {
                return Some("other dropped points");
            }
        }
        None
    }
}

/// The fills of the cases, to the first that fails.
pub fn fills(kinds: &[(Kind, &str)], sheets: usize, seed: u64) -> Filled {
    let mut out = Filled::default();
    for i in 0..sheets {
        let case = generate::nth(kinds, seed, i);
        let Some(sheet) = Sheet::from_file(&case.file) else {
            continue;
        };
        let right = second::answer(&case.file, case.buffer, Fault::None);
        if let Some(text) = out.fault(&sheet, &case, &right) {
            out.failure = Some(format!("{:?} {}: {text}", case.kind, case.seed));
            return out;
        }
    }
    out
}

/// The first small case and fault of the fills, where the listing is wrong, that the reader does not notice; and
/// how many it noticed.
pub fn first_unread_fill(sheets: usize, seed: u64) -> (Option<String>, usize) {
    let mut noticed = 0;
    let all = (0..).map(|i| generate::nth(Kind::for_fills(), seed, i));
    let small = all.filter(|case| case.file.len() < 2000);
    for case in small.take(sheets) {
        let of = |fault| second::answer(&case.file, ROOM, fault);
        let right = of(Fault::None);
        let Some(sheet) = Sheet::from_file(&case.file) else {
            continue;
        };
        for &(fault, _) in Fault::FILL {
            let wrong = of(fault);
            if wrong.listing() == right.listing() {
                continue;
            }
            if fill_reader::fault(&sheet, &wrong.listing()).is_none() {
                let name = format!("{:?} {}: {fault:?}", case.kind, case.seed);
                return (Some(name), noticed);
            }
            noticed += 1;
        }
    }
    (None, noticed)
}

/// The first of the cases whose residuals are wrong, in themselves or as the listing has them, and what was read.
pub fn first_residual_failure(
    kinds: &[(Kind, &str)],
    sheets: usize,
    seed: u64,
) -> (Option<String>, Read) {
    let mut read = Read::default();
    for i in 0..sheets {
        let case = generate::nth(kinds, seed, i);
        let all = All::new(&case.file, ROOM);
        let text = roots::residual_fault(&all.residuals);
        if let Some(text) = text.or_else(|| read.fault(&all.answer.listing())) {
            let name = format!("{:?} {}: {text}", case.kind, case.seed);
            return (Some(name), read);
        }
    }
    (None, read)
}

/// The first case and fault of `=`, of those that its digits alone rule out, that the reader does not notice; and how
/// many it noticed.
pub fn first_unread_residual(sheets: usize, seed: u64) -> (Option<String>, usize) {
    let ruled_out = [
        Fault::EqualOfInfinite,
        Fault::EqualOfNan,
        Fault::EqualNotOfZero,
        Fault::EqualApart,
    ];
    let mut noticed = 0;
    for i in 0..sheets {
        let case = generate::nth(Kind::for_roots(), seed, i);
        let of = |fault| second::answer(&case.file, ROOM, fault).listing();
        let right = of(Fault::None);
        for fault in ruled_out {
            let wrong = of(fault);
            if wrong == right {
                continue;
            }
            if Read::default().fault(&wrong).is_none() {
                let name = format!("{:?} {}: {fault:?}", case.kind, case.seed);
                return (Some(name), noticed);
            }
            noticed += 1;
        }
    }
    (None, noticed)
}
