//! Sheets with tag 4, worked out by hand from document 02, A.5: what is printed, the map, the call in a
//! run, and the numbers 12, 13 and 14.

use super::{file, marks, tally, whole_map};
use crate::library;
use crate::second::{self, All, Answer, Fault, Record, ROOM};
use crate::vectors::{long, spoilt, weighed};

/// A sheet with its first line, the marks of its points in cell order, its tally and the beginnings of
/// its map's lines.
pub struct Worked {
    pub name: &'static str,
    pub sheet: &'static str,
    pub first: &'static str,
    pub marks: &'static [&'static str],
    pub tally: &'static str,
    pub map: &'static [&'static str],
}

/// Rows of points 100 pixels apart get no mark from the earlier filters.
const SHEETS: &[Worked] = &[
    // The median is 1, so all but the last are below 2; the free end goes, then the next one.
    Worked {
        name: "a chain that loses one point a round",
        sheet: "cell 100\nfraction 2\n0 0 1 0 0 1\n1 0 2 100 0 1\n2 0 3 200 0 1\n3 0 4 300 0 1\n\
                4 0 5 400 0 2",
        first: "points 5 components 1 rounds 4",
        marks: &["---L-", "---L-", "---L-", "---L-", "-----"],
        tally: "kept 1 validate 0 orientation 0 wrong 0 leaf 4 component 0",
        map: &["     0 LLLL#"],
    },
    Worked {
        name: "the chain listed in another order",
        sheet: "cell 100\nfraction 2\n3 0 4 300 0 1\n4 0 5 400 0 2\n0 0 1 0 0 1\n2 0 3 200 0 1\n\
                1 0 2 100 0 1",
        first: "points 5 components 1 rounds 4",
        marks: &["---L-", "---L-", "---L-", "---L-", "-----"],
        tally: "kept 1 validate 0 orientation 0 wrong 0 leaf 4 component 0",
        map: &["     0 LLLL#"],
    },
    // "whatever the largest-patch switch says"
    Worked {
        name: "the chain without the largest-patch switch",
        sheet: "settings 100 0.15 3 0.2 0 0 1 0\nfraction 2\n0 0 1 0 0 1\n1 0 2 100 0 1\n\
                2 0 3 200 0 1\n3 0 4 300 0 1\n4 0 5 400 0 2",
        first: "points 5 components 0 rounds 4",
        marks: &["---L-", "---L-", "---L-", "---L-", "-----"],
        tally: "kept 1 validate 0 orientation 0 wrong 0 leaf 4 component 0",
        map: &["     0 LLLL#"],
    },
    // Both ends in each round, and the middle, which has no neighbour left, in the third.
    Worked {
        name: "a chain that goes from both ends",
        sheet: "cell 100\nfraction 2\n0 0 1 0 0 1\n0 1 2 0 100 1\n0 2 3 0 200 1\n0 3 4 0 300 1\n\
                0 4 5 0 400 1",
        first: "points 5 components 0 rounds 3",
        marks: &["---L-", "---L-", "---L-", "---L-", "---L-"],
        tally: "kept 0 validate 0 orientation 0 wrong 0 leaf 5 component 0",
        map: &["     0 L", "     1 L", "     2 L", "     3 L", "     4 L"],
    },
    // The median of two is the larger: both are below 4, and each has one neighbour.
    Worked {
        name: "two points",
        sheet: "cell 100\nfraction 2\n0 0 1 0 0 1\n1 0 2 100 0 2",
        first: "points 2 components 0 rounds 1",
        marks: &["---L-", "---L-"],
        tally: "kept 0 validate 0 orientation 0 wrong 0 leaf 2 component 0",
        map: &["     0 LL"],
    },
    Worked {
        name: "one point, weak and without neighbours",
        sheet: "cell 100\nfraction 2\n-3 -7 4294967295 0 0 1",
        first: "points 1 components 0 rounds 1",
        marks: &["---L-"],
        tally: "kept 0 validate 0 orientation 0 wrong 0 leaf 1 component 0",
        map: &["    -7 L"],
    },
    Worked {
        name: "one point at the threshold",
        sheet: "cell 100\nfraction 1\n-3 -7 4294967295 0 0 1",
        first: "points 1 components 1 rounds 0",
        marks: &["-----"],
        tally: "kept 1 validate 0 orientation 0 wrong 0 leaf 0 component 0",
        map: &["    -7 #"],
    },
    Worked {
        name: "no points, with a fraction",
        sheet: "cell 100\nfraction 0.5",
        first: "points 0 components 0 rounds 0",
        marks: &[],
        tally: "kept 0 validate 0 orientation 0 wrong 0 leaf 0 component 0",
        map: &[],
    },
    // All are weak; of a ring each has two neighbours, and the tail goes.
    Worked {
        name: "a ring with a tail",
        sheet: "cell 100\nfraction 2\n0 0 1 0 0 1\n1 0 2 100 0 1\n2 0 3 200 0 1\n0 1 4 0 100 1\n\
                2 1 5 200 100 1\n0 2 6 0 200 1\n1 2 7 100 200 1\n2 2 8 200 200 1\n3 0 9 300 0 1\n\
                4 0 10 400 0 1",
        first: "points 10 components 1 rounds 2",
        marks: &[
            "-----", "-----", "-----", "-----", "-----", "-----", "-----", "-----", "---L-",
            "---L-",
        ],
        tally: "kept 8 validate 0 orientation 0 wrong 0 leaf 2 component 0",
        map: &["     0 ###LL", "     1 #.#", "     2 ###"],
    },
    // Index 7 is weak. At (2,0) it has two neighbours, at (6,1) none, so it goes at both; then the row
    // is in two pieces of two. All positions are on one line, so nothing votes.
    Worked {
        name: "a repeated index that splits a patch",
        sheet: "settings 100 100 3 0.2 0 0 0 1\nfraction 0.5\n0 0 1 0 0 4\n1 0 2 100 0 4\n\
                2 0 7 200 0 1\n3 0 3 300 0 4\n4 0 4 400 0 4\n6 1 7 200 0 1",
        first: "points 6 components 2 rounds 1",
        marks: &["-----", "-----", "---L-", "----C", "----C", "---L-"],
        tally: "kept 2 validate 0 orientation 0 wrong 0 leaf 1 component 2",
        map: &["     0 ##LCC", "     1 ......L"],
    },
    // The block's points have two neighbours each.
    Worked {
        name: "the sheet of five points, all weak",
        sheet: "cell 100\nfraction 2\n5 5 14 500 500 1\n0 0 10 0 0 1\n1 0 11 100 0 1\n\
                0 1 12 0 100 1\n1 1 13 100 100 1",
        first: "points 5 components 1 rounds 1",
        marks: &["-----", "-----", "-----", "-----", "---L-"],
        tally: "kept 4 validate 0 orientation 0 wrong 0 leaf 1 component 0",
        map: &[
            "     0 ##",
            "     1 ##",
            "     2 ",
            "     3 ",
            "     4 ",
            "     5 .....L",
        ],
    },
    Worked {
        name: "the sheet of five points, none weak",
        sheet: "cell 100\nfraction 1\n5 5 14 500 500 1\n0 0 10 0 0 1\n1 0 11 100 0 1\n\
                0 1 12 0 100 1\n1 1 13 100 100 1",
        first: "points 5 components 2 rounds 0",
        marks: &["-----", "-----", "-----", "-----", "----C"],
        tally: "kept 4 validate 0 orientation 0 wrong 0 leaf 0 component 1",
        map: &[
            "     0 ##",
            "     1 ##",
            "     2 ",
            "     3 ",
            "     4 ",
            "     5 .....C",
        ],
    },
    // Of 1, 1, 10 and 10, marked or not, the median is 10: below 5 are the two that are not marked, and
    // each is the other's one live neighbour.
    Worked {
        name: "weak points between marked ones",
        sheet: "cell 100\nfraction 0.5\n0 0 1 0 0 10\n1 0 2 140 0 1\n2 0 3 240 0 1\n3 0 4 340 0 10",
        first: "points 4 components 0 rounds 1",
        marks: &["--W--", "---L-", "---L-", "--W--"],
        tally: "kept 0 validate 0 orientation 0 wrong 2 leaf 2 component 0",
        map: &["     0 WLLW"],
    },
    // The median is 2, the threshold 1 ..
    Worked {
        name: "a strength at the threshold",
        sheet: "cell 100\nfraction 0.5\n0 0 1 0 0 1\n1 0 2 100 0 2\n2 0 3 200 0 2",
        first: "points 3 components 1 rounds 0",
        marks: &["-----", "-----", "-----"],
        tally: "kept 3 validate 0 orientation 0 wrong 0 leaf 0 component 0",
        map: &["     0 ###"],
    },
    // .. or the next number, with the next fraction.
    Worked {
        name: "a strength one float under the threshold",
        sheet: "cell 100\nfraction 0x3F000001\n0 0 1 0 0 1\n1 0 2 100 0 2\n2 0 3 200 0 2",
        first: "points 3 components 1 rounds 1",
        marks: &["---L-", "-----", "-----"],
        tally: "kept 2 validate 0 orientation 0 wrong 0 leaf 1 component 0",
        map: &["     0 L##"],
    },
    // 0.1 · 7 is over 0.7 as f32 has them, and is rounded to it.
    Worked {
        name: "a threshold that is rounded to the strength",
        sheet: "cell 100\nfraction 0.1\n0 0 1 0 0 0.7\n1 0 2 100 0 7\n2 0 3 200 0 7",
        first: "points 3 components 1 rounds 0",
        marks: &["-----", "-----", "-----"],
        tally: "kept 3 validate 0 orientation 0 wrong 0 leaf 0 component 0",
        map: &["     0 ###"],
    },
    // The median is -0, the threshold -0: the subnormal below 0 is below it, and no zero.
    Worked {
        name: "a fraction of 0",
        sheet: "cell 100\nfraction 0\n0 0 1 0 0 0x80000001\n1 0 2 100 0 -0\n2 0 3 200 0 1",
        first: "points 3 components 1 rounds 1",
        marks: &["---L-", "-----", "-----"],
        tally: "kept 2 validate 0 orientation 0 wrong 0 leaf 1 component 0",
        map: &["     0 L##"],
    },
    // The median is -1, the threshold 1.
    Worked {
        name: "a negative fraction",
        sheet: "cell 100\nfraction -1\n0 0 1 0 0 -2\n1 0 2 100 0 -1\n2 0 3 200 0 -1",
        first: "points 3 components 0 rounds 2",
        marks: &["---L-", "---L-", "---L-"],
        tally: "kept 0 validate 0 orientation 0 wrong 0 leaf 3 component 0",
        map: &["     0 LLL"],
    },
];

/// Refused sheets and their numbers. The map of each is refused likewise.
const REFUSED: &[(&str, &str, u8)] = &[
    ("a tag 4 without data", "cell 100\ntag4\n0 0 1 0 0", 12),
    ("a tag 4 without data and no points", "cell 100\ntag4", 12),
    (
        "a tag 4 without the strength",
        "cell 100\ntag4 00000000\n0 0 1 0 0",
        12,
    ),
    (
        "a tag 4 a byte short",
        "cell 100\ntag4 00000000000000\n0 0 1 0 0",
        12,
    ),
    (
        "a tag 4 a byte long",
        "cell 100\ntag4 000000000000000000\n0 0 1 0 0",
        12,
    ),
    (
        "a tag 4 of two strengths",
        "cell 100\ntag4 000000000000000000000000\n0 0 1 0 0",
        12,
    ),
    (
        "a tag 4 too long, a switch of 2",
        "settings 1 1 3 1 0 0 2 1\ntag4 00",
        12,
    ),
    (
        "a fraction that is NaN",
        "cell 100\nfraction 0x7FC00000\n0 0 1 0 0 1",
        13,
    ),
    (
        "a fraction that is NaN, no points",
        "cell 100\nfraction 0x7FC00000",
        13,
    ),
    (
        "a fraction over 16,384",
        "cell 100\nfraction 0x46800001\n0 0 1 0 0 1",
        13,
    ),
    (
        "a fraction under -16,384",
        "cell 100\nfraction 0xC6800001\n0 0 1 0 0 1",
        13,
    ),
    (
        "a strength that is infinite",
        "cell 100\nfraction 1\n0 0 1 0 0 0x7F800000",
        13,
    ),
    (
        "a strength over 16,384",
        "cell 100\nfraction 1\n0 0 1 0 0 0x46800001",
        13,
    ),
    (
        "a bad strength, an infinite position",
        "cell 100\nfraction 1\n0 0 1 0x7F800000 0 0x7F800000",
        7,
    ),
    (
        "a bad strength, a repeated cell",
        "cell 100\nfraction 1\n0 0 1 0 0 0x7F800000\n0 0 2 0 0 1",
        13,
    ),
    (
        "an index with two strengths",
        "cell 100\nfraction 1\n0 0 7 3 3 1\n1 0 7 3 3 2",
        14,
    ),
    (
        "an index with strengths 0 and -0",
        "cell 100\nfraction 1\n0 0 7 3 3 0\n1 0 7 3 3 -0",
        14,
    ),
    (
        "an index with two strengths, a repeated cell",
        "cell 100\nfraction 1\n0 0 7 3 3 1\n0 0 7 3 3 2",
        8,
    ),
    (
        "an index with two strengths at two positions",
        "cell 100\nfraction 1\n0 0 7 3 3 1\n1 0 7 3 4 2",
        9,
    ),
    (
        "an index with two strengths, one of them infinite",
        "cell 100\nfraction 1\n0 0 7 3 3 1\n1 0 7 3 3 0x7F800000",
        13,
    ),
];

/// The same numbers of a map that would be too wide.
const TOO_WIDE: &[(&str, &str, u8)] = &[
    (
        "too wide, a tag 4 of no data",
        "cell 100\ntag4\n0 0 1 0 0\n72 0 2 7200 0",
        12,
    ),
    (
        "too wide, a fraction that is infinite",
        "cell 100\nfraction 0x7F800000\n0 0 1 0 0 1\n72 0 2 7200 0 1",
        13,
    ),
    (
        "too wide, an index with two strengths",
        "cell 100\nfraction 1\n0 0 1 0 0 1\n72 0 1 0 0 2",
        14,
    ),
];

/// The files of all these.
pub fn files() -> Vec<Vec<u8>> {
    let worked = SHEETS.iter().map(|worked| worked.sheet);
    let refused = REFUSED.iter().chain(TOO_WIDE).map(|(_, sheet, _)| *sheet);
    worked.chain(refused).map(file).collect()
}

/// Whether the library, if it is linked, answers to a file as the second program does, in each call.
pub fn library_agrees(file: &[u8], buffer: usize) -> bool {
    let handed = second::keep_in_run(file, buffer, &Record::new(), Fault::None);
    library::run_difference(file, buffer, &Record::new(), &handed).is_none()
        && library::difference_of_all(file, buffer, &All::new(file, buffer)).is_none()
}

/// The listing, the map and the library's answer of a sheet, each with whether it holds.
pub fn checks_of(worked: &Worked) -> [(String, bool); 3] {
    let [listing, map, library] = holds(worked);
    let name = worked.name;
    [
        (name.into(), listing),
        (format!("the map of {name}"), map),
        (format!("the library on {name}"), library),
    ]
}

fn holds(worked: &Worked) -> [bool; 3] {
    let file = file(worked.sheet);
    let All { answer, map, .. } = All::new(&file, ROOM);
    let listing = answer.listing();
    [
        listing.lines().next() == Some(worked.first)
            && marks(&listing) == worked.marks
            && tally(&listing) == worked.tally,
        second::map_text(&map) == whole_map(worked.map),
        library_agrees(&file, ROOM),
    ]
}

/// Every number of a sheet in the order in which it is looked for.
const ORDER: [u32; 12] = [1, 12, 2, 3, 4, 5, 6, 7, 13, 8, 9, 14];

/// Whether, of a sheet for which the conditions of these numbers hold, the first is given, and by the map,
/// for which 3 does not count, the first of the others.
fn first_given(numbers: &[u32]) -> bool {
    let points = if numbers.contains(&2) { 2305 } else { 6 };
    let (file, buffer) = spoilt(weighed(long(points)), numbers);
    let mut of_map = numbers.iter().filter(|number| **number != 3);
    let All {
        answer, map, fills, ..
    } = All::new(&file, buffer);
    let without_room = of_map.next().map(|number| *number as u8);
    answer == Answer::Refused(numbers[0] as u8)
        && map.err() == without_room
        && fills.err() == without_room
        && library_agrees(&file, buffer)
}

/// Each number alone and each two of them.
fn numbers() -> Vec<(String, bool)> {
    let mut out = Vec::new();
    for (place, &a) in ORDER.iter().enumerate() {
        out.push((format!("{a} alone, with strengths"), first_given(&[a])));
        for &b in &ORDER[place + 1..] {
            out.push((format!("{a} and {b}, with strengths"), first_given(&[a, b])));
        }
    }
    out
}

/// Each check with whether it holds.
pub fn checks() -> Vec<(String, bool)> {
    let mut out = numbers();
    out.extend(SHEETS.iter().flat_map(checks_of));
    for (name, sheet, number) in REFUSED.iter().chain(TOO_WIDE) {
        let file = file(sheet);
        let All { answer, map, .. } = All::new(&file, ROOM);
        let refused = answer == Answer::Refused(*number) && map == Err(*number);
        out.push((name.to_string(), refused && library_agrees(&file, ROOM)));
    }
    out
}
