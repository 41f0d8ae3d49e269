//! Sheet files with their whole answers, for `sheet_vectors` and other programs to replay.
//!
//! Numbers are little-endian u32. `stdin` is the count of cases, then each case:
//!
//! ```text
//! file length, buffer length, refusal number (0: accepted), points, components, rounds, listing
//! length, map length, refusal number of the call for fills with a buffer of the same length, fills
//! the file's bytes
//! the rows, 28 bytes a point (none for a refusal)
//! the listing's bytes, by a buffer with room for every sheet
//! the map's bytes
//! the fills, 20 bytes each (none for a refusal of theirs)
//! ```
//!
//! A generated case stands there only if the original agrees with the second program, where it is at
//! hand.

use super::Vectors;
use crate::compare::{self, Verdict};
use crate::generate::{self, Case, Kind};
use crate::second::{self, All, Answer, Fault, MAX_POINTS, ROOM};
use crate::sheet::{self, Sheet};
use crate::stars;

fn put(out: &mut Vec<u8>, numbers: &[usize]) {
    for &n in numbers {
        out.extend((n as u32).to_le_bytes());
    }
}

/// One case.
fn encode(file: &[u8], buffer: usize, all: &All) -> Vec<u8> {
    let listing = second::answer(file, ROOM, Fault::None).listing();
    let map = second::map_text(&all.map);
    let fills = all.fills_in(file, buffer);
    let counts = match &all.answer {
        Answer::Refused(number) => [usize::from(*number), 0, 0, 0],
        Answer::Accepted {
            points,
            components,
            rounds,
            ..
        } => [0, *points, *components, *rounds],
    };
    let mut out = Vec::new();
    put(&mut out, &[file.len(), buffer]);
    put(&mut out, &counts);
    put(&mut out, &[listing.len(), map.len()]);
    match &fills {
        Err(number) => put(&mut out, &[usize::from(*number), 0]),
        Ok(filled) => put(&mut out, &[0, filled.fills.len()]),
    }
    out.extend(file);
    out.extend(all.answer.rows());
    out.extend(listing.as_bytes());
    out.extend(map.as_bytes());
    out.extend(fills.map_or(Vec::new(), |filled| filled.bytes()));
    out
}

/// The case with 3 spelled out for its short settings, if that makes another answer.
fn of_three(case: &Case) -> Option<Case> {
    let file = sheet::spelled_out(&case.file, 3);
    let answer = |file: &[u8]| second::answer(file, case.buffer, Fault::None);
    (answer(&file) != answer(&case.file)).then(|| Case {
        file,
        ..case.clone()
    })
}

/// The case, if the original and the second program agree on it.
fn agreed(case: &Case) -> Option<Vec<u8>> {
    let all = All::new(&case.file, case.buffer);
    match compare::check(case, &all) {
        Verdict::Same => Some(encode(&case.file, case.buffer, &all)),
        Verdict::AcosOnly => None,
        Verdict::Different(text) => panic!("{:?} {}: {text}", case.kind, case.seed),
    }
}

/// What generated cases there are.
pub struct Choice {
    /// Cases of at most `most` bytes of file each, from a seed on.
    pub sheets: usize,
    pub seed: u64,
    pub most: usize,
    /// Cases of the most points.
    pub full: usize,
    /// Cases made for the map, of at most twice `most` bytes of file each.
    pub maps: usize,
    /// Cases of full lines, with almost the most points each.
    pub full_lines: usize,
    /// Cases with strengths, of at most `most` bytes of file each.
    pub peels: usize,
    /// Cases with dropped points, of at most `most` bytes of file each.
    pub fills: usize,
    /// Cases about roots, likewise.
    pub roots: usize,
}

impl Choice {
    /// That of the recorded files.
    pub const RECORDED: Choice = Choice {
        sheets: 800,
        seed: 100,
        most: 500,
        full: 20,
        maps: 56,
        full_lines: 4,
        peels: 120,
        fills: 60,
        roots: 140,
    };
}

/// The first generated cases that the original agrees with; after one with short settings that 3 would change, the
/// same with 3.
fn first(cases: impl Iterator<Item = Case>, count: usize) -> Vec<Vec<u8>> {
    let both = |case: Case| -> Option<Vec<Vec<u8>>> {
        let one = agreed(&case)?;
        let other = of_three(&case).and_then(|case| agreed(&case));
        Some(std::iter::once(one).chain(other).collect())
    };
    cases.filter_map(both).take(count).flatten().collect()
}

/// The cases of files written out by hand, with buffers that have room for their rows.
fn named(files: Vec<Vec<u8>>) -> impl Iterator<Item = Vec<u8>> {
    files.into_iter().map(|file| {
        let buffer = (file.len() * 2).min(ROOM + 100);
        encode(&file, buffer, &All::new(&file, buffer))
    })
}

/// Document 01's sheets, maps and weak ends written out by hand, generated ones, those with dropped points, and those
/// about roots and lines of three.
pub fn sheet(choice: &Choice) -> Vectors {
    let (seed, most) = (choice.seed, choice.most);
    let of = |kinds: &'static [_]| (0..).map(move |i| generate::nth_drawn(kinds, seed, i));
    let small = of(Kind::first()).filter(|case| case.file.len() <= most);
    let is_full = |case: &Case| {
        Sheet::from_file(&case.file).is_some_and(|sheet| sheet.points.len() == MAX_POINTS)
    };
    let large = (seed..).map(generate::full).filter(is_full);
    let maps = of(Kind::for_map()).filter(|case| case.file.len() <= 2 * most);
    let lines = (seed..)
        .map(|seed| generate::drawn(Kind::FullLines, seed))
        .filter(|case| case.file.len() >= 20 * (MAX_POINTS - 100));
    let peels = of(Kind::for_peels()).filter(|case| case.file.len() <= most);
    let fills = of(Kind::for_fills()).filter(|case| case.file.len() <= most);
    let roots = of(Kind::for_roots()).filter(|case| case.file.len() <= most);
    let mut cases: Vec<Vec<u8>> = named(stars::files()).collect();
    cases.extend(first(small, choice.sheets));
    cases.extend(first(large, choice.full));
    cases.extend(first(maps, choice.maps));
    cases.extend(first(lines, choice.full_lines));
    cases.extend(first(peels, choice.peels));
    cases.extend(first(fills, choice.fills));
    cases.extend(named(stars::filled_files()));
    cases.extend(first(roots, choice.roots));
    cases.extend(named(stars::rooted_files()));
    cases.extend(named(stars::lined_files()));
    let mut stdin = Vec::new();
    put(&mut stdin, &[cases.len()]);
    stdin.extend(cases.concat());
    let stdout = format!("{} files, 0 differ\n", cases.len());
    Vectors {
        stdin,
        stdout: stdout.into_bytes(),
    }
}
