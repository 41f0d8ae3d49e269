//! Document 02, A.9, written out by hand: sheets with short settings beside the same with 3 spelled out, their line
//! flags and marks.

use super::{file, marks, peels::library_agrees};
use crate::second::{All, ROOM};
use crate::sheet;

/// A sheet with short settings; the line flags of each point's index and the marks, in cell order, as it stands and with
/// 3 spelled out.
struct Worked {
    name: &'static str,
    sheet: &'static str,
    short: (&'static [u32], &'static [&'static str]),
    with_three: (&'static [u32], &'static [&'static str]),
}

const NONE: &[&str] = &["-----"; 3];

const SHEETS: &[Worked] = &[
    // "The row of three in document 01 stays short and gives no flags."
    Worked {
        name: "the row of three at (0,0), (100,60), (200,0)",
        sheet: "cell 100\n0 0 1 0 0\n1 0 2 100 60\n2 0 3 200 0",
        short: (&[0, 0, 0], NONE),
        with_three: (&[1, 1, 1], NONE),
    },
    // The middle lies 30 pixels off: about 20 from the lines through its row and its column, the others about 10, and
    // 15 are allowed.
    Worked {
        name: "a cross of five whose middle is off",
        sheet: CROSS,
        short: (&[0; 5], &["-----"; 5]),
        with_three: (
            &[0, 0, 2, 0, 0],
            &["-----", "----C", "V----", "----C", "----C"],
        ),
    },
    // Nothing is farther than a negative limit allows, so a point that counts twice in its row has two flags.
    Worked {
        name: "the smallest: three points, of which one index stands twice in the row",
        sheet: "cell -1\n0 0 1 0 0\n1 0 1 0 0\n2 0 2 100 0",
        short: (&[0, 0, 0], NONE),
        with_three: (&[2, 2, 1], &["V----", "V----", "-----"]),
    },
    // Four are a line either way.
    Worked {
        name: "a row of four, its second point off",
        sheet: "cell 100\n0 0 1 0 0\n1 0 2 100 60\n2 0 3 200 0\n3 0 4 300 0",
        short: (&[1, 1, 0, 0], &["-----"; 4]),
        with_three: (&[1, 1, 0, 0], &["-----"; 4]),
    },
];

const CROSS: &str =
    "cell 100\n0 1 1 0 100\n1 0 2 100 0\n1 1 3 130 130\n1 2 4 100 200\n2 1 5 200 100";

/// The files of these, each short and with 3.
pub fn files() -> Vec<Vec<u8>> {
    let both = |worked: &Worked| {
        let short = file(worked.sheet);
        let with_three = sheet::spelled_out(&short, 3);
        [short, with_three]
    };
    SHEETS.iter().flat_map(both).collect()
}

/// Whether the flags and the marks are these, and whether the library agrees.
fn holds(file: &[u8], (flags, expected): (&[u32], &[&str])) -> [bool; 2] {
    let all = All::new(file, ROOM);
    let as_written = all.flags == flags && marks(&all.answer.listing()) == expected;
    [as_written, library_agrees(file, ROOM)]
}

/// Whether it comes out as with 4 spelled out.
fn as_with_four(short: &[u8]) -> bool {
    let [short, four] = [short, &sheet::spelled_out(short, 4)].map(|file| All::new(file, ROOM));
    short.answer == four.answer && short.map == four.map && short.flags == four.flags
}

/// Each check with whether it holds.
pub fn checks() -> Vec<(String, bool)> {
    let each = |worked: &Worked| {
        let (name, short) = (worked.name, file(worked.sheet));
        let [written, library] = holds(&short, worked.short);
        let [with_three, of_three] = holds(&sheet::spelled_out(&short, 3), worked.with_three);
        [
            (format!("{name}, short"), written),
            (format!("{name}, with 3"), with_three),
            (format!("{name}, as with 4"), as_with_four(&short)),
            (format!("the library on {name}"), library && of_three),
        ]
    };
    SHEETS.iter().flat_map(each).collect()
}
