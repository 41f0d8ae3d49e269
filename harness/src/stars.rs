//! The sheets that document 01 names, with what it says of them, one on which the Rust's acos
//! differs, maps, tallies and calls in a run written out from document 02, A.1 and A.2, sheets
//! about A.4's limit of points, sheets with A.5's strengths, A.6's sheets that take longest, A.7's
//! positions for dropped points, A.8's roots with their remainders, A.9's lines of four, and A.10's
//! joins.

mod fills;
mod joins;
mod lines;
mod peels;
mod points;
mod roots;
mod runs;
mod worst;

use crate::listing::Listing;
use crate::second::{self, over_30_degrees, Answer, Fault, ROOM};
use crate::text;

/// Document 01's sheet of five points, its index 7 twice, and the same torn.
const FIVE: &str =
    "cell 100\n5 5 14 500 500\n0 0 10 0 0\n1 0 11 100 0\n0 1 12 0 100\n1 1 13 100 100";
const TWICE: &str = "cell 100\n0 0 7 3 3\n1 0 7 3 3";
const TORN: &str = "cell 100\n0 0 7 3 3\n1 0 7 3 4";

/// What a sheet must come out as: its whole listing, or the marks of its points in cell
/// order.
enum Says {
    Listing(&'static str),
    Marks(&'static [&'static str]),
}

const SHEETS: &[(&str, &str, Says)] = &[
    (
        "no points",
        "cell 100",
        Says::Listing(
            "points 0 components 0 rounds 0\nkept 0 validate 0 orientation 0 wrong 0 leaf 0 component 0\n",
        ),
    ),
    (
        "the sheet of five points",
        FIVE,
        Says::Listing(
            "points 5 components 2 rounds 0\n0 0 10 ----- - -\n0 1 12 ----- - -\n1 0 11 ----- - -\n\
             1 1 13 ----- - -\n5 5 14 ----C - -\n\
             kept 4 validate 0 orientation 0 wrong 0 leaf 0 component 1\n5 5 0\n",
        ),
    ),
    // What demand 3 says of the kept patch asks for distinct indices ..
    (
        "a repeated index: survivors, yet nothing is kept",
        "settings 100 0.15 3 0.2 0 0 0 1\n0 0 7 0 0\n5 5 7 0 0",
        Says::Listing(
            "points 2 components 2 rounds 0\n0 0 7 ----C - -\n5 5 7 ----C - -\n\
             kept 0 validate 0 orientation 0 wrong 0 leaf 0 component 1\n0 0 0\n5 5 0\n",
        ),
    ),
    (
        "a repeated index: what is kept lies in pieces",
        "settings 100 0.15 3 0.2 0 0 0 1\n0 0 1 0 0\n1 0 2 100 0\n2 0 3 200 0\n9 9 2 100 0",
        Says::Listing(
            "points 4 components 2 rounds 0\n0 0 1 ----- - -\n1 0 2 ----C - -\n2 0 3 ----- - -\n\
             9 9 2 ----C - -\nkept 2 validate 0 orientation 0 wrong 0 leaf 0 component 1\n\
             1 0 1 42C80000 00000000\n9 9 0\n",
        ),
    ),
    // .. and what it says of a whole move, for the same validate marks: moved by (1, 0), this sheet
    // loses one.
    (
        "a sheet before a whole move",
        "settings 128 0.02 3 0.25989172 0 0 1 1\n0 0 10 -10 -10\n0 1 11 -2 132\n\
         1 0 12 131 -9\n1 1 13 125 133\n2 0 14 253 10",
        Says::Marks(&["V----", "-----", "V----", "-----", "----C"]),
    ),
    (
        "the sheet after it",
        "settings 128 0.02 3 0.25989172 0 0 1 1\n1 0 10 -10 -10\n1 1 11 -2 132\n\
         2 0 12 131 -9\n2 1 13 125 133\n3 0 14 253 10",
        Says::Marks(&["V----", "-----", "-----", "-----", "-----"]),
    ),
    (
        "two patches of one",
        "cell 100\n5 5 1 500 500\n0 0 2 0 0",
        Says::Marks(&["-----", "----C"]),
    ),
    (
        "19 pixels apart",
        "cell 100\n0 0 1 0 0\n1 0 2 19 0",
        Says::Marks(&["--W--", "--W--"]),
    ),
    (
        "20 pixels apart",
        "cell 100\n0 0 1 0 0\n1 0 2 20 0",
        Says::Marks(&["-----", "-----"]),
    ),
    (
        "row with both ends wrong",
        "cell 100\n0 0 1 0 0\n1 0 2 140 0\n2 0 3 240 0\n3 0 4 340 0",
        Says::Marks(&["--W--", "-----", "-----", "--W--"]),
    ),
    (
        "row with 440 added",
        "cell 100\n0 0 1 0 0\n1 0 2 140 0\n2 0 3 240 0\n3 0 4 340 0\n4 0 5 440 0",
        Says::Marks(&["--W--", "-----", "-----", "-----", "-----"]),
    ),
    (
        "row at 0, 130, 230, 330",
        "cell 100\n0 0 1 0 0\n1 0 2 130 0\n2 0 3 230 0\n3 0 4 330 0",
        Says::Marks(&["-----", "-----", "-----", "-----"]),
    ),
    (
        "row of three without a line flag",
        "cell 100\n0 0 1 0 0\n1 0 2 100 60\n2 0 3 200 0",
        Says::Marks(&["-----", "-----", "-----"]),
    ),
    (
        "no vote",
        "cell 100\n0 0 1 0 0\n1 0 2 30 0\n0 1 3 60 0",
        Says::Marks(&["-----", "-----", "-----"]),
    ),
    (
        "index 7 twice",
        TWICE,
        Says::Listing(
            "points 2 components 0 rounds 0\n0 0 7 --W-- - -\n1 0 7 --W-- - -\n\
             kept 0 validate 0 orientation 0 wrong 1 leaf 0 component 0\n0 0 0\n1 0 0\n",
        ),
    ),
    // The Rust gives no reason here: its acos cannot tell the cosine from the least one.
    (
        "a cosine one float under the least",
        "cell 1\ngate 1 0.6 16384 -2 16384\n0 0 0 0 0\n1 0 1 3 -14\n2 0 2 16 -20",
        Says::Listing(
            "points 3 components 2 rounds 0\n0 0 0 ----- - -\n1 0 1 V---- 2 -\n2 0 2 ----C - -\n\
             kept 1 validate 1 orientation 0 wrong 0 leaf 0 component 1\n1 0 0\n2 0 0\n",
        ),
    ),
];

/// Sheets with the beginnings of their map's lines, which full stops and a space fill up, or with
/// what is printed otherwise.
const MAPS: &[(&str, &str, &[&str])] = &[
    (
        "the map of five points",
        FIVE,
        &[
            "     0 ##",
            "     1 ##",
            "     2 ",
            "     3 ",
            "     4 ",
            "     5 .....C",
        ],
    ),
    ("the map of no points", "cell 100", &[]),
    (
        "the map of 19 pixels apart, at negative cells",
        "cell 100\n-8000 -10 1 0 0\n-8000 -9 2 19 0",
        &["   -10 W", "    -9 W"],
    ),
    (
        "the map of cells at both ends of a line",
        "cell 100\n8000 8000 1 7200 0\n7929 8000 2 100 0",
        &["  8000 #......................................................................C"],
    ),
    (
        "the map of 73 values of u",
        "cell 100\n8000 8000 1 7200 0\n7928 8000 2 100 0",
        &["refused 10"],
    ),
    (
        "the map of 61 values of v",
        "cell 100\n0 -30 1 0 0\n0 30 2 0 6000",
        &["refused 10"],
    ),
    (
        "the map of 73 values of u and a repeated index",
        "cell 100\n0 0 1 0 0\n72 0 1 0 1",
        &["refused 9"],
    ),
    // Each point has two line flags, and the two lie 10 pixels apart: V before W.
    (
        "the map of points with two marks",
        "settings 100 -1 1 0.2 0 0 1 1\n-1 0 1 0 0\n0 0 2 10 0",
        &["     0 VV"],
    ),
];

const REPEATED_AND_INFINITE: &str = "cell 100\n0 0 1 0x7F800000 0\n0 0 2 0 0";

/// The marks of each point.
fn marks(listing: &str) -> Vec<&str> {
    let points = Listing::new(listing).map_or(Vec::new(), |listing| listing.points);
    points.iter().map(|words| words[3]).collect()
}

/// The line of the tally; nothing for a refusal.
fn tally(listing: &str) -> &str {
    Listing::new(listing).map_or("", |listing| listing.tally)
}

fn listing_of(sheet: &str) -> String {
    second::answer(&file(sheet), ROOM, Fault::None).listing()
}

/// The whole text that the beginnings of a map's lines stand for.
fn whole_map(lines: &[&str]) -> String {
    let line = |line: &&str| match line.starts_with("refused") {
        true => format!("{line}\n"),
        false => format!("{line:.<79} \n"),
    };
    lines.iter().map(line).collect()
}

fn map_of(sheet: &str) -> String {
    second::map_text(&second::map(&file(sheet), Fault::None))
}

fn file(sheet: &str) -> Vec<u8> {
    text::from_text(sheet).unwrap().to_file()
}

/// The files of the small sheets, a few refused ones and those of the tallies after them.
pub fn small_files() -> Vec<Vec<u8>> {
    let mut out: Vec<Vec<u8>> = SHEETS.iter().map(|(_, sheet, _)| file(sheet)).collect();
    out.extend([file(TORN), file(REPEATED_AND_INFINITE), Vec::new()]);
    out.extend(runs::files());
    out.extend(peels::files());
    out.extend(worst::files());
    out
}

/// The files of the named sheets.
pub fn files() -> Vec<Vec<u8>> {
    let mut out: Vec<Vec<u8>> = SHEETS.iter().map(|(_, sheet, _)| file(sheet)).collect();
    out.extend([file(REPEATED_AND_INFINITE), Vec::new()]);
    out.extend(points::files());
    out.extend(MAPS.iter().map(|(_, sheet, _)| file(sheet)));
    out.extend(peels::files());
    out.extend(worst::files());
    out
}

/// The files of the sheets with dropped points.
pub fn filled_files() -> Vec<Vec<u8>> {
    fills::files()
}

/// The files of the sheets about lines of three.
pub fn lined_files() -> Vec<Vec<u8>> {
    lines::files()
}

/// Pairs of files to be joined.
pub fn joined_pairs() -> Vec<crate::generate::Pair> {
    joins::pairs()
}

/// The files of the sheets about roots.
pub fn rooted_files() -> Vec<Vec<u8>> {
    roots::files()
}

/// The maps written out, each with whether it holds.
fn maps() -> Vec<(String, bool)> {
    let check = |(name, sheet, lines): &(&str, &str, &[&str])| {
        (name.to_string(), map_of(sheet) == whole_map(lines))
    };
    MAPS.iter().map(check).collect()
}

/// Each check with whether it holds.
pub fn checks() -> Vec<(String, bool)> {
    let mut out = Vec::new();
    for (name, sheet, says) in SHEETS {
        let listing = listing_of(sheet);
        let holds = match says {
            Says::Listing(text) => listing == *text,
            Says::Marks(expected) => marks(&listing) == *expected,
        };
        out.push((name.to_string(), holds));
    }
    out.extend(maps());
    out.extend(points::checks());
    out.extend(peels::checks());
    out.extend(worst::checks());
    out.extend(fills::checks());
    out.extend(joins::checks());
    out.extend(lines::checks());
    out.extend(roots::checks());
    out.extend(runs::tallies());
    out.extend(runs::calls());
    let mut also = |name: &str, holds: bool| out.push((name.to_string(), holds));
    also(
        "a repeated cell with an infinite position",
        listing_of(REPEATED_AND_INFINITE) == "refused 7\n",
    );
    let refused = second::answer(&[], 0, Fault::None) == Answer::Refused(1);
    also("an empty file", refused);
    also("root of 2", 2f32.sqrt().to_bits() == 0x3FB5_04F3);
    also(
        "root of the least subnormal",
        f32::from_bits(1).sqrt().to_bits() == 0x1A35_04F3,
    );
    let part = |k: u32| k as f32 / 16_777_216.0;
    also("over 30 degrees", over_30_degrees(part(14_529_495)));
    also("not over 30 degrees", !over_30_degrees(part(14_529_496)));
    out
}
