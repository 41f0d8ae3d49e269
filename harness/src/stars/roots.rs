//! Sheets about the remainders of residuals, from document 02, A.8, with the last word of each point's line written
//! out.

use super::{file, peels::library_agrees};
use crate::listing::Listing;
use crate::residual_reader::Read;
use crate::roots;
use crate::second::{self, All, Fault, ROOM};

/// A sheet and the residuals of its points in cell order.
struct Worked {
    name: &'static str,
    sheet: &'static str,
    residuals: &'static [&'static str],
}

/// What begins most of these sheets: nothing marks a point, and the four neighbours of the corner at (0,0), two cells
/// away, place it at the origin, since each position is eight times its cell. The neighbours have three neighbours
/// themselves, so no residual.
macro_rules! amid {
    ($corner:literal) => {
        concat!(
            "settings 16 9 65535 9 0 0 0 0\n-2 0 1 -16 0\n2 0 2 16 0\n0 -2 3 0 -16\n0 2 4 0 16\n",
            $corner
        )
    };
}

const SHEETS: &[Worked] = &[
    // 9 + 16 = 25, the square of 5.
    Worked {
        name: "3 and 4 off: 5, exact",
        sheet: amid!("0 0 5 3 4"),
        residuals: &["-", "-", "40A00000=", "-", "-"],
    },
    Worked {
        name: "nothing off: 0, exact",
        sheet: amid!("0 0 5 0 0"),
        residuals: &["-", "-", "00000000=", "-", "-"],
    },
    Worked {
        name: "1 and 1 off: the root of 2, not exact",
        sheet: amid!("0 0 5 1 1"),
        residuals: &["-", "-", "3FB504F3", "-", "-"],
    },
    // 0x3DCCCCCD is the f32 nearest 1/10. Its square has 48 digits and is rounded; the root of that is the step again.
    Worked {
        name: "a tenth off: the step itself, not exact",
        sheet: amid!("0 0 5 0.1 0"),
        residuals: &["-", "-", "3DCCCCCD", "-", "-"],
    },
    // 25 + 2^-26 is rounded to 25: f32s lie 2^-19 apart there.
    Worked {
        name: "a sum that is rounded to 25: exact",
        sheet: amid!("0 0 5 5 0x39000000"),
        residuals: &["-", "-", "40A00000=", "-", "-"],
    },
    // 25 + 9 · 2^-22 is rounded to 25 + 2^-19, whose root is nearer 5 than 5 + 2^-21.
    Worked {
        name: "a sum that is rounded to one beside 25: 5, not exact",
        sheet: amid!("0 0 5 5 0x3AC00000"),
        residuals: &["-", "-", "40A00000", "-", "-"],
    },
    Worked {
        name: "the largest position: 16,384, exact",
        sheet: amid!("0 0 5 16384 0"),
        residuals: &["-", "-", "46800000=", "-", "-"],
    },
    // 2^-150 is halfway between 0 and the least f32, and 0 is even.
    Worked {
        name: "2^-75 off: a square of 0, exact",
        sheet: amid!("0 0 5 0x1A000000 0"),
        residuals: &["-", "-", "00000000=", "-", "-"],
    },
    // The square, 9 · 2^-152, is rounded to 2^-149, whose root is that of 2 times 2^-75.
    Worked {
        name: "3 · 2^-76 off: the least square, not exact",
        sheet: amid!("0 0 5 0x1A400000 0"),
        residuals: &["-", "-", "1A3504F3", "-", "-"],
    },
    Worked {
        name: "2^-74 off: a subnormal square, exact",
        sheet: amid!("0 0 5 0x1A800000 0"),
        residuals: &["-", "-", "1A800000=", "-", "-"],
    },
    // Left and right neighbour lie on one line, upper and lower one on a parallel one. No place is on both: x and y
    // are each divided by 0. Of the second sheet y is 0 over 0.
    Worked {
        name: "neighbours on two parallel lines: infinite, none",
        sheet: "settings 16 9 65535 9 0 0 0 0\n0 1 1 0 0\n2 1 2 10 0\n1 0 3 0 10\n1 2 4 10 10\n1 1 5 5 5",
        residuals: &["41200000=", "41200000=", "7F800000", "41200000=", "41200000="],
    },
    Worked {
        name: "neighbours on two parallel lines: NaN, none",
        sheet: "settings 16 9 65535 9 0 0 0 0\n0 1 1 -8 -8\n2 1 2 8 -8\n1 0 3 -8 8\n1 2 4 8 8\n1 1 5 5 5",
        residuals: &["41800000=", "41800000=", "7FC00000", "41800000=", "417FFFFD"],
    },
    // The middle is 3 off, and marked. The maps of the others are rounded; that of 8 leads just 2^-20 off.
    Worked {
        name: "a 3 by 3 board, its middle 3 off: two are exact",
        sheet: "settings 10 0.15 3 0.2 0 0 1 1\n0 0 1 0 0\n1 0 2 10 0\n2 0 3 20 0\n0 1 4 0 10\n1 1 5 13 10\n2 1 6 20 10\n\
                0 2 7 0 20\n1 2 8 10 20\n2 2 9 20 20",
        residuals: &[
            "357D3112", "4013B136", "404A1AF8", "3583FFC4", "40400000=", "35800000=", "3600C703",
            "40892490", "42700022",
        ],
    },
    // Its second cell is placed near (16,0), 13 and 4 off: about the root of 185.
    Worked {
        name: "a repeated index: exact at its first cell, not at its last",
        sheet: amid!(
            "0 0 7 3 4\n10 0 7 3 4\n8 0 11 0 0\n12 0 12 32 0\n10 -2 13 16 -16\n10 2 14 16 16"
        ),
        residuals: &["-", "-", "41599F9E", "-", "-", "-", "-", "41599F9E", "-", "-"],
    },
    Worked {
        name: "a repeated index: exact at its last cell, not at its first",
        sheet: amid!(
            "0 0 7 3 4\n-10 0 7 3 4\n-12 0 11 0 0\n-8 0 12 32 0\n-10 -2 13 16 -16\n-10 2 14 16 16"
        ),
        residuals: &[
            "-", "-", "40A00000=", "-", "-", "-", "-", "40A00000=", "-", "-",
        ],
    },
    Worked {
        name: "a repeated index: exact at its first cell, no residual at its last",
        sheet: amid!("0 0 7 3 4\n10 0 7 3 4"),
        residuals: &["-", "-", "40A00000=", "-", "-", "40A00000="],
    },
    Worked {
        name: "a repeated index: exact at its first cell, infinite at its last",
        sheet: amid!("0 0 7 3 4\n8 0 7 3 4\n6 0 11 -32 0\n10 0 12 32 0\n8 -2 13 -8 24\n8 2 14 24 24"),
        residuals: &["-", "-", "7F800000", "-", "-", "-", "-", "7F800000", "-", "-"],
    },
];

/// Bits of numbers with S, power and remainder, or without.
const ROOTS: &[(u32, Option<[i32; 3]>)] = &[
    (0x0000_0000, Some([0, 0, 0])),
    (0x8000_0000, Some([0, 0, 0])),
    // 1 · 2^46, and 4 · 2^44: S is 2^23.
    (0x3F80_0000, Some([8_388_608, 46, 0])),
    (0x4080_0000, Some([8_388_608, 44, 0])),
    // 25 · 2^42 is the square of 5 · 2^21.
    (0x41C8_0000, Some([10_485_760, 42, 0])),
    // 2 · 2^46 = 140,737,488,355,328, and 11,863,283² is 4,817,239 less.
    (0x4000_0000, Some([11_863_283, 46, 4_817_239])),
    // 2^-149 · 2^196 is the same number.
    (0x0000_0001, Some([11_863_283, 196, 4_817_239])),
    // The largest f32, (2^24 - 1) · 2^104, is 2^48 - 2^24 once it is scaled; (2^24 - 1)² is 2^48 - 2^25 + 1.
    (0x7F7F_FFFF, Some([16_777_215, -80, 16_777_215])),
    // The next above 1: 2^46 + 2^23; 2^23 is nearest, and the remainder as large as it can be.
    (0x3F80_0001, Some([8_388_608, 46, 8_388_608])),
    // The next above 4, likewise; and the next below 4, 2^48 - 2^24.
    (0x4080_0001, Some([8_388_608, 44, 8_388_608])),
    (0x407F_FFFF, Some([16_777_215, 46, 16_777_215])),
    (0x7F80_0000, None),
    (0xFF80_0000, None),
    (0x7FC0_0000, None),
    (0xFFC0_0000, None),
    (0x8000_0001, None),
    (0xBF80_0000, None),
    (0xFF7F_FFFF, None),
];

/// The files of these.
pub fn files() -> Vec<Vec<u8>> {
    SHEETS.iter().map(|worked| file(worked.sheet)).collect()
}

fn holds(worked: &Worked) -> [bool; 2] {
    let file = file(worked.sheet);
    let All {
        answer, residuals, ..
    } = All::new(&file, ROOM);
    let listing = answer.listing();
    let points = Listing::new(&listing).map_or(Vec::new(), |listing| listing.points);
    let words: Vec<&str> = points.iter().map(|words| words[words.len() - 1]).collect();
    let read = Read::default().fault(&listing);
    let own = read.or(roots::residual_fault(&residuals)).is_none();
    [
        own && words == worked.residuals,
        library_agrees(&file, ROOM),
    ]
}

/// Each check with whether it holds.
pub fn checks() -> Vec<(String, bool)> {
    let sheets = SHEETS.iter().flat_map(|worked| {
        let [listing, library] = holds(worked);
        let name = worked.name;
        [
            (name.to_string(), listing),
            (format!("the library on {name}"), library),
        ]
    });
    let numbers = ROOTS.iter().map(|(bits, right)| {
        let found = second::whole_root(f32::from_bits(*bits), Fault::None);
        let holds = found.map(|found| found.numbers()) == *right;
        (format!("the root of {bits:08X}"), holds)
    });
    sheets.chain(numbers).collect()
}
