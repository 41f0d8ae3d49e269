//! Document 02, A.10, written out by hand: two files, an offset and a shift, and the listing that comes of them.

use super::{file, FIVE, TORN};
use crate::generate::{Expected, JoinKind, Pair};
use crate::library;
use crate::second::{Fault, Shift, ROOM};

/// A left and a right sheet, du, dv, dx, dy, and the listing.
struct Worked {
    name: &'static str,
    sheets: [&'static str; 2],
    by: (i32, i32, f32, f32),
    listing: &'static str,
}

const NOTHING: (i32, i32, f32, f32) = (0, 0, 0.0, 0.0);
const NONE: &str = "cell 100";
const ONE: &str = "cell 100\n0 0 1 0 0";
const WEIGHED: &str = "cell 100\nfraction 1\n0 0 1 0 0 1";

/// The listing of the sheet of one point with another at a cell, its own patch.
macro_rules! one_at {
    ($u:literal, $v:literal) => {
        concat!(
            "points 2 components 2 rounds 0\n0 0 1 ----- - -\n",
            $u,
            " ",
            $v,
            " 2147483649 ----C - -\nkept 1 validate 0 orientation 0 wrong 0 leaf 0 component 1\n",
            $u,
            " ",
            $v,
            " 0\n"
        )
    };
}

const FIRST_TWO: &str = "settings 7 0.15 3 0.2 0 0 1 1\nfraction 1\n0 0 1 0 0 1\n1 0 2 7 0 1";
const LAST_TWO: &str = "cell 100\nfraction 16384\n2 0 1 14 0 4\n3 0 2 21 0 4";

const PAIRS: &[Worked] = &[
    Worked {
        name: "no points in either",
        sheets: [NONE, NONE],
        by: NOTHING,
        listing: "points 0 components 0 rounds 0\nkept 0 validate 0 orientation 0 wrong 0 leaf 0 component 0\n",
    },
    Worked {
        name: "the sheet of five points from two halves",
        sheets: [
            "cell 100\n5 5 14 500 500\n0 0 10 0 0\n1 0 11 100 0",
            "cell 3\n1 0 13 100 0\n0 0 12 0 0",
        ],
        by: (0, 1, 0.0, 100.0),
        listing: "points 5 components 2 rounds 0\n0 0 10 ----- - -\n0 1 2147483660 ----- - -\n\
                  1 0 11 ----- - -\n1 1 2147483661 ----- - -\n5 5 14 ----C - -\n\
                  kept 4 validate 0 orientation 0 wrong 0 leaf 0 component 1\n5 5 0\n",
    },
    Worked {
        name: "both hold a cell: the left point is taken",
        sheets: [
            ONE,
            "cell 100\n0 0 5 90 90\n1 0 6 100 0",
        ],
        by: NOTHING,
        listing: "points 2 components 1 rounds 0\n0 0 1 ----- - -\n1 0 2147483654 ----- - -\n\
                  kept 2 validate 0 orientation 0 wrong 0 leaf 0 component 0\n",
    },
    Worked {
        name: "an index in both halves is two",
        sheets: [ONE, ONE],
        by: (0, 5, 0.0, 500.0),
        listing: one_at!("0", "5"),
    },
    // The largest strengths are the right ones: the median is 4, and the left points are weak.
    Worked {
        name: "the median and the fraction: the left points go, in two rounds",
        sheets: [FIRST_TWO, LAST_TWO],
        by: NOTHING,
        listing: "points 4 components 1 rounds 2\n0 0 1 ---L- - -\n1 0 2 ---L- - -\n\
                  2 0 2147483649 ----- - -\n3 0 2147483650 ----- - -\n\
                  kept 2 validate 0 orientation 0 wrong 0 leaf 2 component 0\n0 0 0\n1 0 0\n",
    },
    Worked {
        name: "the first file's own number first",
        sheets: [TORN, "cell inf"],
        by: (16_001, 0, 0.0, 0.0),
        listing: "refused 9\n",
    },
    Worked {
        name: "then the second's, of which nothing is used",
        sheets: ["cell 100\n0 0 2147483648 0 0", "cell inf"],
        by: (16_001, 0, 0.0, 0.0),
        listing: "refused 5\n",
    },
    Worked {
        name: "an index of 2^31 on the left",
        sheets: ["cell 100\n0 0 2147483648 0 0", WEIGHED],
        by: (16_001, 0, f32::NAN, 0.0),
        listing: "refused 15\n",
    },
    Worked {
        name: "an index of 2^31 on the right",
        sheets: [ONE, "cell 100\n0 0 2147483648 0 0"],
        by: NOTHING,
        listing: "refused 15\n",
    },
    Worked {
        name: "an index of 2^31 - 1 on the right",
        sheets: [NONE, "cell 100\n0 0 2147483647 0 0"],
        by: NOTHING,
        listing: "points 1 components 1 rounds 0\n0 0 4294967295 ----- - -\n\
                  kept 1 validate 0 orientation 0 wrong 0 leaf 0 component 0\n",
    },
    Worked {
        name: "an offset of 16,001, and strengths in one file",
        sheets: [ONE, WEIGHED],
        by: (0, -16_001, 0.0, 0.0),
        listing: "refused 16\n",
    },
    Worked {
        name: "a shift that is NaN",
        sheets: [NONE, NONE],
        by: (0, 0, 0.0, f32::NAN),
        listing: "refused 16\n",
    },
    Worked {
        name: "a shift just above 16,384",
        sheets: [NONE, NONE],
        by: (0, 0, 16384.002, 0.0),
        listing: "refused 16\n",
    },
    Worked {
        name: "strengths in the left file alone",
        sheets: [WEIGHED, "cell 100\n0 0 1 0 inf"],
        by: NOTHING,
        listing: "refused 7\n",
    },
    Worked {
        name: "strengths in the left file alone, both accepted",
        sheets: [WEIGHED, ONE],
        by: (8001, 0, 0.0, 0.0),
        listing: "refused 17\n",
    },
    Worked {
        name: "strengths in the right file alone",
        sheets: [ONE, WEIGHED],
        by: NOTHING,
        listing: "refused 17\n",
    },
    Worked {
        name: "a cell at 8,000 after an offset of 16,000",
        sheets: [ONE, "cell 100\n-8000 0 1 100 0"],
        by: (16_000, 0, 0.0, 0.0),
        listing: one_at!("8000", "0"),
    },
    Worked {
        name: "a cell at 8,001",
        sheets: [ONE, "cell 100\n0 -8000 1 100 0"],
        by: (0, -1, 0.0, 16384.0),
        listing: "refused 6\n",
    },
    Worked {
        name: "a position at 16,384 after a shift of 16,384",
        sheets: [ONE, ONE],
        by: (5, 5, 16384.0, -16384.0),
        listing: one_at!("5", "5"),
    },
    Worked {
        name: "a position at -16,384.002",
        sheets: [ONE, "cell 100\n1 0 1 -0.002 0"],
        by: (0, 0, -16384.0, 0.0),
        listing: "refused 7\n",
    },
    Worked {
        name: "the same where the left file has the cell",
        sheets: [ONE, "cell 100\n1 0 1 -0.002 0"],
        by: (-1, 0, -16384.0, 0.0),
        listing: "points 1 components 1 rounds 0\n0 0 1 ----- - -\n\
                  kept 1 validate 0 orientation 0 wrong 0 leaf 0 component 0\n",
    },
    Worked {
        name: "the five points alone: a right file without points",
        sheets: [FIVE, "cell 0"],
        by: (3, 3, 3.0, 3.0),
        listing: "points 5 components 2 rounds 0\n0 0 10 ----- - -\n0 1 12 ----- - -\n1 0 11 ----- - -\n\
                  1 1 13 ----- - -\n5 5 14 ----C - -\n\
                  kept 4 validate 0 orientation 0 wrong 0 leaf 0 component 1\n5 5 0\n",
    },
];

impl Worked {
    fn pair(&self) -> Pair {
        let (du, dv, dx, dy) = self.by;
        let [left, right] = self.sheets.map(file);
        Pair {
            kind: JoinKind::Apart,
            seed: 0,
            left,
            right,
            shift: Shift { du, dv, dx, dy },
            buffer: ROOM,
            expected: Expected::Unknown,
            conditions: None,
        }
    }
}

/// These pairs, with buffers that have room for every sheet.
pub fn pairs() -> Vec<Pair> {
    PAIRS.iter().map(Worked::pair).collect()
}

/// Each check with whether it holds.
pub fn checks() -> Vec<(String, bool)> {
    let check = |worked: &Worked| {
        let pair = worked.pair();
        let answer = pair.answer(Fault::None);
        let agrees = library::join_difference(&pair, &answer).is_none();
        let holds = answer.listing() == worked.listing && agrees;
        (format!("joined: {}", worked.name), holds)
    };
    PAIRS.iter().map(check).collect()
}
