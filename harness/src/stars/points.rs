//! Document 02, A.4: "2,304 points pass and 2,305 give refusal 2. Rows then take up to 64,512 bytes;
//! on longer lists the program still tells 1 from 2." These numbers stand here as in the document, so
//! that a wrong limit of the header or of the library fails; 3,276 is the most points that a field holds.
//! With A.5 the longest well-framed file has 131,105 bytes.

use crate::library;
use crate::second::{self, Fault};
use crate::shapes::{self, close_row, columns, gated_columns, half_mirrored, with_strengths};
use crate::sheet::{Sheet, Strengths};

/// The 48 by 48 target.
fn target() -> Vec<u8> {
    columns(2304, 48).to_file()
}

/// A row of n points. Of more than a field holds the length is cut, as by a writer that knows no limit.
fn row(n: usize) -> Vec<u8> {
    columns(n, 1).to_file()
}

/// The longest file that is well framed without tag 4: all settings, the gate and 3,276 points.
fn longest_unweighed() -> Vec<u8> {
    gated_columns(3276, 1).to_file()
}

/// The longest file that is well framed: the same and a tag 4 of 65,535 bytes.
fn longest() -> Vec<u8> {
    shapes::longest().to_file()
}

/// A.6's row of 2,304 points, which loses one a round but for the last.
pub fn longest_row() -> Vec<u8> {
    shapes::chain(2304).to_file()
}

/// A row of n points with strengths, and the same with a strength missing.
fn weighed(n: usize) -> Sheet {
    with_strengths(columns(n, 1), 0.5, |_| 1.0)
}
fn one_missing(n: usize) -> Vec<u8> {
    let mut sheet = columns(n, 1);
    sheet.strengths = Strengths::Misfit(vec![0; 4 * n]);
    sheet.to_file()
}

/// The target, all of it weak: each point has two neighbours or more.
fn weak_target() -> Vec<u8> {
    with_strengths(columns(2304, 48), 2.0, |_| 1.0).to_file()
}

/// A row of 2,304 points one pixel apart, all marked W.
fn close() -> Vec<u8> {
    close_row(2304).to_file()
}

/// The target with half of it mirrored: 1,104 points are marked O.
fn mirrored() -> Vec<u8> {
    half_mirrored(2304, 48).to_file()
}

/// The files of some of these.
pub fn files() -> Vec<Vec<u8>> {
    let rows = [2304, 2305, 3276, 3277].map(row);
    let boards = [target(), longest_unweighed(), close(), mirrored()];
    boards
        .into_iter()
        .chain(rows)
        .chain([longest_row()])
        .collect()
}

/// Whether the second program's listing and map of a file begin so, and the library, if it is linked,
/// answers as that does.
fn says(file: &[u8], buffer: usize, listing: &str, map: &str) -> [bool; 2] {
    let answer = second::answer(file, buffer, Fault::None);
    let drawn = second::map_text(&second::map(file, Fault::None));
    [
        answer.listing().starts_with(listing)
            && library::difference(file, buffer, &answer).is_none(),
        drawn.starts_with(map) && library::map_difference(file, &drawn).is_none(),
    ]
}

/// The bytes of the rows of 2,304 points.
const ROWS: usize = 64_512;

/// How the target's map begins.
const MAP: &str = "     0 ####";

/// Accepted files, each with a name, and how its listing and its map begin.
fn accepted() -> [(&'static str, Vec<u8>, String, &'static str); 7] {
    let [none, one, two] = [0, 1, 2].map(|n| format!("points 2304 components {n} rounds 0\n"));
    let (apart, wide) = ("2,304 points one pixel apart", "refused 10\n");
    let rounds = "points 2304 components 1 rounds 2303\n0 0 0 ---L- - -\n".into();
    let strong = weighed(2304).to_file();
    [
        ("the row that takes longest", longest_row(), rounds, wide),
        ("2,304 points with strengths", strong, one.clone(), wide),
        ("the target, all weak", weak_target(), one.clone(), MAP),
        ("2,304 points", row(2304), one.clone(), wide),
        (apart, close(), none, wide),
        ("the 48 by 48 target", target(), one, MAP),
        ("the target half mirrored", mirrored(), two, MAP),
    ]
}

/// Files that are refused, by the map too, each with a name.
fn refused() -> [(&'static str, Vec<u8>, &'static str); 11] {
    let (one, two, twelve) = ("refused 1\n", "refused 2\n", "refused 12\n");
    let after = |file: Vec<u8>| [file, vec![0]].concat();
    let unweighed = longest_unweighed();
    [
        ("2,305 points", row(2305), two),
        ("3,276 points", row(3276), two),
        ("3,277 points", row(3277), one),
        ("65,567 bytes without tag 4", unweighed.clone(), two),
        ("a byte after 65,567 without tag 4", after(unweighed), one),
        ("2,305 points with strengths", weighed(2305).to_file(), two),
        ("3,276 points with strengths", weighed(3276).to_file(), two),
        (
            "2,304 points, a strength missing",
            one_missing(2304),
            twelve,
        ),
        (
            "2,305 points, a strength missing",
            one_missing(2305),
            twelve,
        ),
        ("the longest well-framed file", longest(), twelve),
        (
            "a byte after the longest well-framed file",
            after(longest()),
            one,
        ),
    ]
}

/// Each file's name with what `says` says of it.
fn answers() -> Vec<(&'static str, [bool; 2])> {
    let mut out = Vec::new();
    for (name, file, listing, map) in accepted() {
        out.push((name, says(&file, ROWS, &listing, map)));
    }
    for (name, file, text) in refused() {
        out.push((name, says(&file, ROWS, text, text)));
    }
    let short = says(&target(), ROWS - 1, "refused 3\n", MAP);
    out.push(("the target with a buffer of 64,511 bytes", short));
    out
}

/// The marks of `mirrored`. All rows and columns stay straight: none is V. Columns 0 to 23 vote one way,
/// 24 to 46 the other; (24, 47) is of the smaller party alone, (47, 47) of neither. Only the edges from
/// column 23 to 24 fail, by their length.
fn mirrored_marks(u: usize, v: usize) -> &'static str {
    match (u, v) {
        (24, 47) => "-OW--",
        (47, 47) => "----C",
        (0..23, _) => "-----",
        (23 | 24, _) => "--W--",
        _ => "-O---",
    }
}

/// Whether the marks of 2,304 points in columns of some height, and the tally, are these.
fn marked(
    file: &[u8],
    height: usize,
    marks: fn(usize, usize) -> &'static str,
    tally: &str,
) -> bool {
    let listing = second::answer(file, ROWS, Fault::None).listing();
    let expected = (0..2304).map(|k| marks(k / height, k % height));
    super::marks(&listing).into_iter().eq(expected) && super::tally(&listing) == tally
}

/// The sheets with many marks.
fn with_marks() -> [(&'static str, bool); 3] {
    let peeled = "kept 1 validate 0 orientation 0 wrong 0 leaf 2303 component 0";
    let wrong = "kept 0 validate 0 orientation 0 wrong 2304 leaf 0 component 0";
    let both = "kept 1104 validate 0 orientation 1104 wrong 95 leaf 0 component 1";
    let of_row = |u, _| if u == 2303 { "-----" } else { "---L-" };
    [
        (
            "the marks of the row that takes longest",
            marked(&longest_row(), 1, of_row, peeled),
        ),
        (
            "the marks of points one pixel apart",
            marked(&close(), 1, |_, _| "--W--", wrong),
        ),
        (
            "the marks of the target half mirrored",
            marked(&mirrored(), 48, mirrored_marks, both),
        ),
    ]
}

/// Each check with whether it holds.
pub fn checks() -> Vec<(String, bool)> {
    let mut out = Vec::new();
    for (name, [listing, map]) in answers() {
        out.extend([(name.into(), listing), (format!("the map of {name}"), map)]);
    }
    out.extend(with_marks().map(|(name, holds)| (name.into(), holds)));
    let rows = second::answer(&target(), ROWS, Fault::None).rows().len();
    let lines = second::map(&target(), Fault::None).map(|text| text.lines().count());
    let bytes = [longest_unweighed().len(), longest().len()];
    out.extend([
        ("the rows of 2,304 points".into(), rows == ROWS),
        ("the lines of the target's map".into(), lines == Ok(48)),
        (
            "the bytes of the longest well-framed files".into(),
            bytes == [65_567, 131_105],
        ),
    ]);
    out
}
