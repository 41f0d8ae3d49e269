//! Sheets with dropped points from document 02, A.7, with the marks of their points and the lines after
//! the tally written out.

use super::{file, marks, peels::library_agrees};
use crate::listing::Listing;
use crate::second::{All, ROOM};

/// A sheet, the marks of its points in cell order, and the lines after its tally.
struct Worked {
    name: &'static str,
    sheet: &'static str,
    marks: &'static [&'static str],
    fills: &'static [&'static str],
}

/// In most of these sheets nothing marks a point by its place: no line is long enough, the wrong-label
/// switch is off, and no corner turns. An index that stands at (9,9) too, apart, has a point in another
/// patch, so it gets C at all its cells.
const SHEETS: &[Worked] = &[
    // 3 pixels off, the middle has a flag in its column, and points without one that are over blame it. 10 is
    // 41200000.
    Worked {
        name: "the middle of a 3 by 3 board: two pairs",
        sheet: "settings 10 0.15 3 0.2 0 0 1 1\n0 0 1 0 0\n1 0 2 10 0\n2 0 3 20 0\n0 1 4 0 10\n1 1 5 13 10\n2 1 6 20 10\n\
                0 2 7 0 20\n1 2 8 10 20\n2 2 9 20 20",
        marks: &[
            "-----", "-----", "-----", "-----", "V----", "-----", "-----", "-----", "-----",
        ],
        fills: &["1 1 2 41200000 41200000"],
    },
    // The row turns by a right angle there.
    Worked {
        name: "the middle of a row of three: one pair",
        sheet: "settings 10 0.15 3 0.2 0 0 1 0\ngate 0 0.5 16384 -1 16384\n\
                0 0 1 0 0\n1 0 2 10 10\n2 0 3 20 0",
        marks: &["-----", "V----", "-----"],
        fills: &["1 0 1 41200000 00000000"],
    },
    Worked {
        name: "the middle of a column of three: one pair",
        sheet: "settings 10 0.15 3 0.2 0 0 1 0\ngate 0 0.5 16384 -1 16384\n\
                0 0 1 0 0\n0 1 2 10 10\n0 2 3 0 20",
        marks: &["-----", "V----", "-----"],
        fills: &["0 1 1 00000000 41200000"],
    },
    // Blamed likewise. Along u both neighbours are kept, along v there is one.
    Worked {
        name: "a hole at the rim: one pair",
        sheet: "settings 10 0.15 3 0.2 0 0 1 1\n0 0 1 0 0\n1 0 2 10 3\n2 0 3 20 0\n0 1 4 0 10\n1 1 5 10 10\n2 1 6 20 10",
        marks: &["-----", "-----", "V----", "-----", "-----", "-----"],
        fills: &["1 0 1 41200000 00000000"],
    },
    Worked {
        name: "a hole at a corner: no pair",
        sheet: "settings 100 0.15 65535 0.2 0 0 0 1\n0 0 7 0 0\n1 0 2 100 0\n0 1 3 0 100\n\
                1 1 4 100 100\n9 9 7 0 0",
        marks: &["----C", "-----", "-----", "-----", "----C"],
        fills: &["0 0 0", "9 9 0"],
    },
    // Of 4 by 3: each has the pair along v, and the other hole on one side along u. 100 and 200 are
    // 42C80000 and 43480000.
    Worked {
        name: "two holes side by side: the pair across",
        sheet: "settings 100 0.15 65535 0.2 0 0 0 1\n0 0 1 0 0\n0 1 2 0 100\n0 2 3 0 200\n1 0 4 100 0\n\
                1 1 7 100 100\n1 2 5 100 200\n2 0 6 200 0\n2 1 8 200 100\n2 2 9 200 200\n\
                3 0 10 300 0\n3 1 11 300 100\n3 2 12 300 200\n9 9 7 100 100\n9 11 8 200 100",
        marks: &[
            "-----", "-----", "-----", "-----", "----C", "-----", "-----", "----C", "-----", "-----",
            "-----", "-----", "----C", "----C",
        ],
        fills: &["1 1 1 42C80000 42C80000", "2 1 1 43480000 42C80000", "9 9 0", "9 11 0"],
    },
    // One index at three cells, each with its own fill: 0.5 (100 + 300) = 200, 0.5 (300 + 500) = 400.
    Worked {
        name: "a repeated index: each cell has its own fill",
        sheet: "settings 100 0.15 65535 0.2 0 0 0 1\n0 0 1 100 0\n1 0 7 5 0\n2 0 3 300 0\n3 0 7 5 0\n\
                4 0 5 500 0\n9 9 7 5 0",
        marks: &["-----", "----C", "-----", "----C", "-----", "----C"],
        fills: &["1 0 1 43480000 00000000", "3 0 1 43C80000 00000000", "9 9 0"],
    },
    // The median is 1, the threshold 0.5; the weak index is an end at (9,9) and goes at (1,0) too.
    Worked {
        name: "a weak end: a pair at another of its cells",
        sheet: "settings 100 0.15 65535 0.2 0 0 0 0\nfraction 0.5\n0 0 1 100 0 1\n1 0 7 5 0 0.25\n\
                2 0 3 300 0 1\n9 9 7 5 0 0.25",
        marks: &["-----", "---L-", "-----", "---L-"],
        fills: &["1 0 1 43480000 00000000", "9 9 0"],
    },
    // A cell without a point has no fill, and makes no pair.
    Worked {
        name: "a dropped point beside a cell without one",
        sheet: "settings 100 0.15 65535 0.2 0 0 0 0\nfraction 0.5\n0 0 1 0 0 1\n1 0 7 100 0 0.25\n\
                3 0 3 300 0 1\n9 9 7 100 0 0.25",
        marks: &["-----", "---L-", "-----", "---L-"],
        fills: &["1 0 0", "9 9 0"],
    },
    // Along u x is -2^-149 twice, their midpoint -2^-149; along v it is 0. Half of the sum is a tie, which goes
    // to the even -0. Of y it is the same with the other sign.
    Worked {
        name: "-0 where the division underflows",
        sheet: "settings 100 0.15 65535 0.2 0 0 0 1\n0 1 1 0x80000001 0x00000001\n1 0 2 0 0\n\
                1 1 7 1 0\n1 2 3 0 0\n2 1 4 0x80000001 0x00000001\n9 9 7 1 0",
        marks: &["-----", "-----", "----C", "-----", "-----", "----C"],
        fills: &["1 1 2 80000000 00000000", "9 9 0"],
    },
    // The midpoint of two -0 is -0, and so is that of -2^-149 and 0, which underflows; +0 and these are +0.
    Worked {
        name: "no -0 where a midpoint is -0",
        sheet: "settings 100 0.15 65535 0.2 0 0 0 1\n0 0 1 -0 0\n1 0 7 1 0\n2 0 2 -0 0x80000001\n9 9 7 1 0",
        marks: &["-----", "----C", "-----", "----C"],
        fills: &["1 0 1 00000000 00000000", "9 9 0"],
    },
    // Along u 1 + 2^-24 is 1, the midpoint 0.5; along v it is 2^-24. Half of 0.5 + 2^-24 is 3E800001; the four
    // added one by one are 1, and a quarter of that 3E800000.
    Worked {
        name: "midpoints, not a sum of four",
        sheet: "settings 100 0.15 65535 0.2 0 0 0 1\n0 1 1 0x33800000 0\n1 0 2 0x33800000 0\n\
                1 1 7 3 0\n1 2 3 0x33800000 0\n2 1 4 1 0\n9 9 7 3 0",
        marks: &["-----", "-----", "----C", "-----", "-----", "----C"],
        fills: &["1 1 2 3E800001 00000000", "9 9 0"],
    },
    Worked {
        name: "the largest positions: two pairs",
        sheet: "settings 100 0.15 65535 0.2 0 0 0 1\n0 1 1 16384 -16384\n1 0 2 16384 -16384\n\
                1 1 7 3 0\n1 2 3 16384 -16384\n2 1 4 16384 -16384\n9 9 7 3 0",
        marks: &["-----", "-----", "----C", "-----", "-----", "----C"],
        fills: &["1 1 2 46800000 C6800000", "9 9 0"],
    },
    // What is said of a whole move is said for a kept patch that moves along: moved by (0,-1) this sheet
    // loses one of its points. 12.25 and 9.25 are 41440000 and 41140000, 12.5 and 9.5 are 41480000 and 41180000.
    Worked {
        name: "a sheet before a whole move: two pairs",
        sheet: "settings 1 -1 2 9 0 0 0 0\n0 1 0 2 10\n1 0 1 12 0\n1 1 2 12 11\n1 2 3 12 18\n2 1 4 23 9",
        marks: &["-----", "-----", "V----", "-----", "-----"],
        fills: &["1 1 2 41440000 41140000"],
    },
    Worked {
        name: "the sheet after it: one pair",
        sheet: "settings 1 -1 2 9 0 0 0 0\n0 0 0 2 10\n1 -1 1 12 0\n1 0 2 12 11\n1 1 3 12 18\n2 0 4 23 9",
        marks: &["-----", "-----", "V----", "V----", "-----"],
        fills: &["1 0 1 41480000 41180000", "1 1 0"],
    },
    // The same kept points: other settings, indices and dropped points change nothing of their fill.
    Worked {
        name: "the hole at the rim, other indices, strengths and another dropped point",
        sheet: "settings 10 0.15 3 0.2 0 0 1 1\nfraction 0.5\n2 1 10 20 10 1\n1 1 20 10 10 2\n0 1 30 0 10 3\n2 0 40 20 0 1\n\
                1 0 50 11 -3 9\n0 0 60 0 0 1\n7 7 70 90 90 4",
        marks: &["-----", "-----", "V----", "-----", "-----", "-----", "----C"],
        fills: &["1 0 1 41200000 00000000", "7 7 0"],
    },
];

/// The files of these.
pub fn files() -> Vec<Vec<u8>> {
    SHEETS.iter().map(|worked| file(worked.sheet)).collect()
}

fn holds(worked: &Worked) -> [bool; 2] {
    let file = file(worked.sheet);
    let listing = All::new(&file, ROOM).answer.listing();
    let fills = Listing::new(&listing).map_or(Vec::new(), |listing| listing.fills);
    let lines: Vec<String> = fills.iter().map(|words| words.join(" ")).collect();
    [
        marks(&listing) == worked.marks && lines == worked.fills,
        library_agrees(&file, ROOM),
    ]
}

/// Each check with whether it holds.
pub fn checks() -> Vec<(String, bool)> {
    let each = SHEETS.iter().flat_map(|worked| {
        let [listing, library] = holds(worked);
        let name = worked.name;
        [
            (name.to_string(), listing),
            (format!("the library on {name}"), library),
        ]
    });
    each.collect()
}
