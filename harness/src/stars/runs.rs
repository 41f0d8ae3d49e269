//! Tallies of sheets with a repeated index and calls in a run, written out from document 02, A.2 and A.5.

use super::{file, listing_of, FIVE, TORN, TWICE};
use crate::library;
use crate::second::{self, Answer, Fault, Record, NUMBERS, ROOM};

/// Sheets with a repeated index and their tallies.
const TALLIES: &[(&str, &str, &str)] = &[
    // Without a cell size no points are close; index 7 is kept at two cells.
    (
        "the tally of a repeated index that is kept",
        "cell 0\n0 0 7 0 0\n1 0 7 0 0\n0 1 8 0 10\n1 1 9 10 10",
        "kept 3 validate 0 orientation 0 wrong 0 leaf 0 component 0",
    ),
    (
        "the tally of one index alone, kept at three cells",
        "cell 0\n-1 4 4294967295 5 5\n-1 5 4294967295 5 5\n-1 6 4294967295 5 5",
        "kept 1 validate 0 orientation 0 wrong 0 leaf 0 component 0",
    ),
    // The patch of three cells stays, though it is one index and the other two.
    (
        "the tally of a patch of one index beside one of two",
        "cell 0\n0 0 7 0 0\n0 1 7 0 0\n0 2 7 0 0\n5 5 8 50 50\n6 5 9 60 50",
        "kept 1 validate 0 orientation 0 wrong 0 leaf 0 component 2",
    ),
    // A negative tolerance flags every member of every line; V comes before W.
    (
        "the tally of a repeated index with two marks",
        "settings 100 -1 1 0.2 0 0 1 1\n0 0 7 0 0\n1 0 7 0 0",
        "kept 0 validate 1 orientation 0 wrong 0 leaf 0 component 0",
    ),
    // Two corners vote one way and one the other; of the one's three points, index 8 stands twice.
    (
        "the tally of a repeated index in the minority",
        "settings 100 100 3 0.2 0 0 0 0\n0 0 1 0 0\n1 0 2 10 0\n0 1 3 0 10\n\
         10 0 4 0 0\n11 0 5 10 0\n10 1 6 0 10\n\
         20 0 7 0 50\n21 0 8 0 60\n20 1 9 10 50\n25 0 8 0 60",
        "kept 6 validate 0 orientation 3 wrong 0 leaf 0 component 0",
    ),
];

/// A chain of five that loses four points, its tag 4 cut, with an infinite strength, and an index with two
/// strengths.
const CHAIN: &str = "cell 100\nfraction 2\n0 0 1 0 0 1\n1 0 2 100 0 1\n2 0 3 200 0 1\n\
                     3 0 4 300 0 1\n4 0 5 400 0 2";
const CUT: &str = "cell 100\ntag4 00000000\n0 0 1 0 0";
const INFINITE: &str = "cell 100\nfraction 2\n0 0 1 0 0 0x7F800000";
const TWO_STRENGTHS: &str = "cell 100\nfraction 1\n0 0 7 3 3 1\n1 0 7 3 3 2";

/// The largest sum that is taken, the limit, and the largest number.
const B: u32 = 2_147_483_647;
const L: u32 = 2_147_483_648;
const M: u32 = 4_294_967_295;

/// Calls in a run: the record before (five old sums, the count of sheets, six new sums), the sheet, the
/// number or 0, and the record after.
type InRun = (
    &'static str,
    [u32; NUMBERS],
    &'static str,
    u8,
    [u32; NUMBERS],
);

const CALLS: &[InRun] = &[
    (
        "a run that starts now",
        [0; NUMBERS],
        FIVE,
        0,
        [0, 0, 0, 0, 0, 1, 4, 0, 0, 0, 0, 1],
    ),
    (
        "a repeated index in a run",
        [0, 0, 0, 0, 0, 1, 4, 0, 0, 0, 0, 1],
        TWICE,
        0,
        [0, 0, 0, 0, 0, 2, 4, 0, 0, 1, 0, 1],
    ),
    (
        "a refused sheet in a run",
        [0, 0, 0, 0, 0, 2, 4, 0, 0, 1, 0, 1],
        TORN,
        9,
        [0, 0, 0, 0, 0, 2, 4, 0, 0, 1, 0, 1],
    ),
    (
        "a sheet without points in a run",
        [0, 0, 0, 0, 0, 2, 4, 0, 0, 1, 0, 1],
        "cell 100",
        0,
        [0, 0, 0, 0, 0, 3, 4, 0, 0, 1, 0, 1],
    ),
    (
        "a run that started under the old count",
        [9, 8, 7, L, M, 0, 0, 0, 0, 0, 0, 0],
        FIVE,
        0,
        [9, 8, 7, L, M, 1, 4, 0, 0, 0, 0, 1],
    ),
    (
        "weak ends in a run",
        [0, 0, 0, 0, 0, 3, 4, 0, 0, 1, 0, 1],
        CHAIN,
        0,
        [0, 0, 0, 0, 0, 4, 5, 0, 0, 1, 4, 1],
    ),
    (
        "a tag 4 of another length in a run",
        [0, 0, 0, 0, 0, 4, 5, 0, 0, 1, 4, 1],
        CUT,
        12,
        [0, 0, 0, 0, 0, 4, 5, 0, 0, 1, 4, 1],
    ),
    (
        "an infinite strength in a run",
        [0, 0, 0, 0, 0, 4, 5, 0, 0, 1, 4, 1],
        INFINITE,
        13,
        [0, 0, 0, 0, 0, 4, 5, 0, 0, 1, 4, 1],
    ),
    (
        "an index with two strengths in a run",
        [0, 0, 0, 0, 0, 4, 5, 0, 0, 1, 4, 1],
        TWO_STRENGTHS,
        14,
        [0, 0, 0, 0, 0, 4, 5, 0, 0, 1, 4, 1],
    ),
    (
        "weak ends in a run that started under the old count",
        [9, 8, 7, L, M, 0, 0, 0, 0, 0, 0, 0],
        CHAIN,
        0,
        [9, 8, 7, L, M, 1, 1, 0, 0, 0, 4, 0],
    ),
    (
        "the new sum of leaf at 2^31 - 1",
        [0, 0, 0, 0, 0, 7, 0, 0, 0, 0, B, 0],
        CHAIN,
        0,
        [0, 0, 0, 0, 0, 8, 1, 0, 0, 0, B + 4, 0],
    ),
    (
        "the new sum of leaf at 2^31",
        [0, 0, 0, 0, 0, 7, 0, 0, 0, 0, L, 0],
        CHAIN,
        11,
        [0, 0, 0, 0, 0, 7, 0, 0, 0, 0, L, 0],
    ),
    (
        "the new sum of leaf at 2^31 and a sheet without tag 4",
        [0, 0, 0, 0, 0, 7, 0, 0, 0, 0, L, 0],
        FIVE,
        11,
        [0, 0, 0, 0, 0, 7, 0, 0, 0, 0, L, 0],
    ),
    (
        "65,534 sheets",
        [0, 0, 0, 0, 0, 65_534, 1, 2, 3, 4, 6, 5],
        FIVE,
        0,
        [0, 0, 0, 0, 0, 65_535, 5, 2, 3, 4, 6, 6],
    ),
    (
        "65,535 sheets",
        [0, 0, 0, 0, 0, 65_535, 1, 2, 3, 4, 6, 5],
        FIVE,
        11,
        [0, 0, 0, 0, 0, 65_535, 1, 2, 3, 4, 6, 5],
    ),
    (
        "65,535 sheets and a refused one",
        [0, 0, 0, 0, 0, 65_535, 1, 2, 3, 4, 6, 5],
        TORN,
        11,
        [0, 0, 0, 0, 0, 65_535, 1, 2, 3, 4, 6, 5],
    ),
    (
        "new sums of 2^31 - 1",
        [M, M, M, M, M, 7, B, B, B, B, B, B],
        FIVE,
        0,
        [M, M, M, M, M, 8, B + 4, B, B, B, B, L],
    ),
    (
        "a new sum of 2^31",
        [0, 0, 0, 0, 0, 7, 0, 0, L, 0, 0, 0],
        FIVE,
        11,
        [0, 0, 0, 0, 0, 7, 0, 0, L, 0, 0, 0],
    ),
    ("the largest numbers", [M; NUMBERS], FIVE, 11, [M; NUMBERS]),
];

/// The files of these sheets.
pub fn files() -> Vec<Vec<u8>> {
    TALLIES.iter().map(|(_, sheet, _)| file(sheet)).collect()
}

/// The tallies written out, each with whether it holds.
pub fn tallies() -> impl Iterator<Item = (String, bool)> {
    let holds = |(name, sheet, tally): &(&str, &str, &str)| {
        let holds = super::tally(&listing_of(sheet)) == *tally;
        (name.to_string(), holds)
    };
    TALLIES.iter().map(holds)
}

/// The calls in a run written out, and the library's beside them.
pub fn calls() -> impl Iterator<Item = (String, bool)> {
    let holds = |(name, before, sheet, number, after): &InRun| {
        let (file, before) = (file(sheet), Record::from_numbers(*before));
        let handed = second::keep_in_run(&file, ROOM, &before, Fault::None);
        let own = second::answer(&file, ROOM, Fault::None);
        let answer = match number {
            0 => own,
            number => Answer::Refused(*number),
        };
        let right = handed.answer == answer
            && handed.written == answer.rows()
            && handed.record.numbers() == *after;
        let library = library::run_difference(&file, ROOM, &before, &handed);
        (name.to_string(), right && library.is_none())
    };
    CALLS.iter().map(holds)
}
