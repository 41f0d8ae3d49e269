//! Document 02, A.6, written out by hand: bytes of the sheet that takes longest, arguments for which nothing is
//! written, and sheets for each condition of the bound on the rounds.

use super::peels::{self, Worked};
use super::{file, points};
use crate::bound::Bound;
use crate::generate::REFUSED;
use crate::second::{self, Fault, ROOM};
use crate::sheet::Sheet;

/// The files of two and of three points, in hexadecimal digits: tag 1 with cell size 7 and the rest spelled out, 3
/// among it; tag 3 with u, v, index, x and y of each point; tag 4 with fraction 2 and the strengths.
const FILES: [(usize, &str); 2] = [
    (
        2,
        "01 1500 0000E040 9A99193E 0300 CDCC4C3E 00 00000000 01 01
         03 2800 00000000 00000000 00000000 00000000 00000000
                 01000000 00000000 01000000 0000E040 00000000
         04 0C00 00000040 0000803F 00000040",
    ),
    (
        3,
        "01 1500 0000E040 9A99193E 0300 CDCC4C3E 00 00000000 01 01
         03 3C00 00000000 00000000 00000000 00000000 00000000
                 01000000 00000000 01000000 0000E040 00000000
                 02000000 00000000 02000000 00006041 00000000
         04 1000 00000040 0000803F 0000803F 00000040",
    ),
];

/// The last point of the file of 2,304 points, at (16121, 0), with the head of tag 4 and its first two numbers.
const LAST_POINT: &str = "FF080000 00000000 FF080000 00E47B46 00000000 04 0424 00000040 0000803F";

/// The sheets that A.6's conditions leave out. Of one point, of indices that repeat and of what is left by the
/// earlier filters there can be as many rounds as there are; of two points or more, each with an index of its
/// own and without an earlier mark, one fewer.
const SHEETS: &[Worked] = &[
    Worked {
        name: "one point: as many rounds as points",
        sheet: "cell 7\nfraction 2\n0 0 0 0 0 1",
        first: "points 1 components 0 rounds 1",
        marks: &["---L-"],
        tally: "kept 0 validate 0 orientation 0 wrong 0 leaf 1 component 0",
        map: &["     0 L"],
    },
    // Index 1 is an end at both its cells; without it index 2 has no neighbour.
    Worked {
        name: "a repeated index: as many rounds as indices",
        sheet: "cell 0\nfraction 2\n0 0 1 0 0 1\n1 0 2 100 0 1\n2 0 1 0 0 1",
        first: "points 3 components 0 rounds 2",
        marks: &["---L-", "---L-", "---L-"],
        tally: "kept 0 validate 0 orientation 0 wrong 0 leaf 2 component 0",
        map: &["     0 LLL"],
    },
    // The first two lie 19 pixels apart. No filter marks one of two points alone.
    Worked {
        name: "points marked before: as many rounds as points left",
        sheet: "cell 100\nfraction 2\n0 0 1 0 0 1\n1 0 2 19 0 1\n2 1 3 200 100 1",
        first: "points 3 components 0 rounds 1",
        marks: &["--W--", "--W--", "---L-"],
        tally: "kept 0 validate 0 orientation 0 wrong 2 leaf 1 component 0",
        map: &["     0 WW", "     1 ..L"],
    },
    // The same three without the repeated index, and without the marks.
    Worked {
        name: "the three with indices of their own: one round fewer",
        sheet: "cell 0\nfraction 2\n0 0 1 0 0 1\n1 0 2 100 0 1\n2 0 3 0 0 1",
        first: "points 3 components 0 rounds 2",
        marks: &["---L-", "---L-", "---L-"],
        tally: "kept 0 validate 0 orientation 0 wrong 0 leaf 3 component 0",
        map: &["     0 LLL"],
    },
    Worked {
        name: "the three without marks: one round",
        sheet: "cell 100\nfraction 2\n0 0 1 0 0 1\n1 0 2 20 0 1\n2 1 3 200 100 1",
        first: "points 3 components 0 rounds 1",
        marks: &["---L-", "---L-", "---L-"],
        tally: "kept 0 validate 0 orientation 0 wrong 0 leaf 3 component 0",
        map: &["     0 LL", "     1 ..L"],
    },
];

fn bytes(digits: &str) -> Vec<u8> {
    let digits: Vec<u32> = digits.chars().filter_map(|c| c.to_digit(16)).collect();
    let byte = |pair: &[u32]| (16 * pair[0] + pair[1]) as u8;
    digits.chunks(2).map(byte).collect()
}

/// The files of two and three points and those of the conditions.
pub fn files() -> Vec<Vec<u8>> {
    let longest = FILES.iter().map(|(n, _)| second::worst_of(*n));
    longest
        .chain(SHEETS.iter().map(|worked| file(worked.sheet)))
        .collect()
}

/// Whether the bound shows an answer with a round too many.
fn shows_one_more(n: usize) -> bool {
    let file = second::worst_of(n);
    let sheet = Sheet::from_file(&file).unwrap();
    let fault = |fault| Bound::default().add(&sheet, &second::answer(&file, ROOM, fault));
    fault(Fault::None).is_none() && fault(Fault::EmptyRoundCounted).is_some()
}

/// The bytes written for a number, and nothing for anything else.
fn written() -> Vec<(String, bool)> {
    let mut out = Vec::new();
    for (n, digits) in FILES {
        let holds = second::worst_of(n) == bytes(digits);
        out.push((format!("the bytes of worst {n}"), holds));
    }
    let (largest, last) = (second::worst_of(2304), bytes(LAST_POINT));
    let at = 27 + 20 * 2303;
    out.push((
        "the bytes of worst 2304".into(),
        largest.len() == 55_330 && largest[at..at + last.len()] == last,
    ));
    for words in REFUSED {
        let arguments: Vec<Vec<u8>> = words.iter().map(|word| word.to_vec()).collect();
        let nothing = second::worst(&arguments, Fault::None).is_empty();
        let name: Vec<_> = words.iter().map(|word| word.escape_ascii()).collect();
        out.push((format!("nothing for the arguments {name:?}"), nothing));
    }
    out
}

/// Each check with whether it holds.
pub fn checks() -> Vec<(String, bool)> {
    let mut out = written();
    out.extend(SHEETS.iter().flat_map(peels::checks_of));
    let one_more = [2, 3, 10].into_iter().all(shows_one_more);
    out.push(("the bound shows a round too many".into(), one_more));
    out.push((
        "the most points of worst".into(),
        second::worst_of(2304) == points::longest_row() && second::worst_of(2305).is_empty(),
    ));
    out
}
