//! The second program: documents 01 and 02 written out in Rust, from the documents and, where they
//! say so, the formulas of the source files. It shares no code with the original, its stand-in
//! for nalgebra, or the Rattle crates.

mod base;
mod board;
mod edge;
mod fault;
mod file;
mod fills;
mod filters;
mod fit;
mod join;
mod labels;
mod lines;
mod map;
mod peel;
mod plane;
mod root;
mod rows;
mod run;
mod tally;
mod validate;
mod worst;

pub use fault::Fault;
pub use file::{FILL, FILLS_ROOM, LAST_NUMBER, MAX_POINTS, ORDER, ROOM, ROW};
pub use fills::Fill;
pub use filters::FILTERS;
pub use join::{Shift, FARTHEST, RIGHT_INDICES};
pub use plane::over_30_degrees;
pub use root::{root, whole_root, Distance, WholeRoot};
pub use run::{keep_in_run, InRun, Record, FULL, MOST_SHEETS, NUMBERS, OLD, SUMMED, SUM_LIMIT};
pub use tally::Tally;
pub use worst::{worst, worst_of};

use board::Board;
use file::Buffer;
use peel::Peeled;
use rows::{Counts, End, Points};

/// The answer to a file and a buffer's length.
#[derive(Clone, Debug, PartialEq)]
pub enum Answer {
    Refused(u8),
    Accepted {
        points: usize,
        components: usize,
        /// How many rounds removed weak ends.
        rounds: usize,
        /// 28 bytes a point, in cell order.
        rows: Vec<u8>,
        tally: Tally,
        /// In cell order.
        fills: Vec<Fill>,
        listing: String,
    },
}

impl Answer {
    /// The text that the program `sheet` prints.
    pub fn listing(&self) -> String {
        match self {
            Answer::Refused(number) => format!("refused {number}\n"),
            Answer::Accepted { listing, .. } => listing.clone(),
        }
    }

    /// The rows; none for a refusal.
    pub fn rows(&self) -> &[u8] {
        match self {
            Answer::Refused(_) => &[],
            Answer::Accepted { rows, .. } => rows,
        }
    }
}

/// What the call for fills hands back: how many points there are, and the fills.
#[derive(Clone, Debug, PartialEq)]
pub struct Filled {
    pub points: usize,
    pub fills: Vec<Fill>,
}

impl Filled {
    /// 20 bytes a fill.
    pub fn bytes(&self) -> Vec<u8> {
        self.fills.iter().flat_map(Fill::bytes).collect()
    }
}

/// The fills of a file, or the number that it is refused with.
pub type Fills = Result<Filled, u8>;

/// The map of a file, or the number that it is refused with.
pub type Map = Result<String, u8>;

/// The text that the program `map` prints.
pub fn map_text(map: &Map) -> String {
    match map {
        Err(number) => format!("refused {number}\n"),
        Ok(text) => text.clone(),
    }
}

/// A sheet with all its marks.
struct Judged {
    board: Board,
    counts: Counts,
    rows: Vec<u8>,
    /// For each rank that of its index.
    residuals: Vec<Option<Distance>>,
    flags: Vec<u32>,
    tally: Tally,
    fills: Vec<Fill>,
}

impl Judged {
    fn new(sheet: file::Sheet, fault: Fault) -> Judged {
        let settings = sheet.settings;
        let board = Board::new(sheet.points.clone(), fault);
        let none = || vec![false; board.len()];
        let findings = validate::validate(&sheet, &board, fault);
        let orientation = match fault {
            Fault::NoOrientation => none(),
            _ => labels::orientation(&board, fault),
        };
        let wrong_label = match (settings.wrong_label, fault) {
            (0, _) | (_, Fault::NoWrongLabel) => none(),
            _ => labels::wrong_label(&board, settings.cell_size, fault),
        };
        let earlier = [&findings.marked, &orientation, &wrong_label];
        let [validate, orientation, wrong] = earlier.map(|marked| board.at_each(marked));
        let patch = Patches::new(&sheet, &board, [&validate, &orientation, &wrong], fault);
        let (peeled, component) = (patch.peeled, patch.component);
        let marks: rows::Marks = [validate, orientation, wrong, peeled.marked, component];
        let mut rows = rows::rows(&board, &findings, &marks, fault);
        if fault == Fault::SameRows {
            rows.fill(0);
        }
        let tally = Tally::new(&board, &rows, fault);
        let fills = fills::fills(&board, &rows, fills::SQUARE, fault);
        let homes = board.home.iter();
        let residuals = homes.clone().map(|home| findings.residual[*home]);
        let residuals = residuals.collect();
        let flags = homes.map(|home| findings.flags[*home]).collect();
        let counts = Counts {
            points: board.len(),
            components: patch.components,
            rounds: peeled.rounds,
        };
        Judged {
            board,
            counts,
            rows,
            residuals,
            flags,
            tally,
            fills,
        }
    }

    fn answer(&self, fault: Fault) -> Answer {
        let points = Points {
            board: &self.board,
            rows: &self.rows,
            residuals: &self.residuals,
        };
        let end = End {
            tally: &self.tally,
            fills: &self.fills,
        };
        Answer::Accepted {
            points: self.counts.points,
            components: self.counts.components,
            rounds: self.counts.rounds,
            rows: self.rows.clone(),
            tally: self.tally,
            fills: self.fills.clone(),
            listing: rows::listing(&points, self.counts, &end, fault),
        }
    }

    fn filled(&self) -> Filled {
        Filled {
            points: self.counts.points,
            fills: self.fills.clone(),
        }
    }

    fn map(&self, fault: Fault) -> Map {
        map::draw(&self.board, &self.rows, fault)
    }
}

/// What the filters after the first three find.
struct Patches {
    peeled: Peeled,
    component: Vec<bool>,
    components: usize,
}

/// For each rank whether one of some filters marks it.
fn any_of<'a>(board: &Board, marks: impl IntoIterator<Item = &'a Vec<bool>>) -> Vec<bool> {
    let mut any = vec![false; board.len()];
    for marked in marks {
        any.iter_mut()
            .zip(marked)
            .for_each(|(any, marked)| *any |= marked);
    }
    any
}

impl Patches {
    /// "it starts from the marks of the three earlier filters and runs before the component filter".
    fn new(sheet: &file::Sheet, board: &Board, earlier: [&Vec<bool>; 3], fault: Fault) -> Patches {
        let three = any_of(board, earlier);
        let peel = |dropped: &[bool]| match (sheet.fraction, fault) {
            (None, _) | (_, Fault::NoPeel) => Peeled::nothing(board.len()),
            _ if fault == Fault::PeelBySwitch && sheet.settings.largest_patch == 0 => {
                Peeled::nothing(board.len())
            }
            (Some(fraction), _) => peel::weak_leaf_peel(board, fraction, dropped, fault),
        };
        if fault == Fault::PeelAfterComponent {
            let (component, components) = components(&sheet.settings, board, &three, fault);
            let peeled = peel(&any_of(board, [&three, &component]));
            return Patches {
                peeled,
                component,
                components,
            };
        }
        let dropped = match fault {
            Fault::PeelFromNothing => any_of(board, []),
            Fault::PeelBeforeWrong => any_of(board, [earlier[0], earlier[1]]),
            _ => three.clone(),
        };
        let peeled = peel(&dropped);
        let four = match fault {
            Fault::ComponentWithoutLeaf => three,
            _ => any_of(board, [&three, &peeled.marked]),
        };
        let (component, components) = components(&sheet.settings, board, &four, fault);
        Patches {
            peeled,
            component,
            components,
        }
    }
}

/// The component marks and count, from the marks of the earlier filters.
fn components(
    settings: &file::Settings,
    board: &Board,
    dropped: &[bool],
    fault: Fault,
) -> (Vec<bool>, usize) {
    let (marks, count) = match settings.largest_patch {
        0 => (vec![false; board.len()], 0),
        _ => labels::component(board, dropped, fault),
    };
    match fault {
        Fault::NoComponent => (vec![false; board.len()], count),
        Fault::InventedCount if settings.largest_patch == 1 => (marks, 1),
        _ => (marks, count),
    }
}

/// The answer to a file with a buffer of some length.
pub fn answer(file: &[u8], buffer: usize, fault: Fault) -> Answer {
    if fault == Fault::RefuseAll {
        return Answer::Refused(1);
    }
    match file::read(file, Buffer::for_rows(buffer), fault) {
        Ok(sheet) => Judged::new(sheet, fault).answer(fault),
        Err(number) => Answer::Refused(number),
    }
}

/// The number that a file is refused with, if any, with a buffer of some length.
pub fn refusal(file: &[u8], buffer: usize) -> Option<u8> {
    file::read(file, Buffer::for_rows(buffer), Fault::None).err()
}

/// The answer to two files, a left and a right one, and a buffer's length: that of the joined list.
pub fn join(left: &[u8], right: &[u8], shift: &Shift, buffer: usize, fault: Fault) -> Answer {
    match join::joined([left, right], shift, Buffer::for_rows(buffer), fault) {
        Ok(sheet) => Judged::new(sheet, fault).answer(fault),
        Err(number) => Answer::Refused(number),
    }
}

/// The map of a file: the older numbers first, with room for all rows, then 10.
pub fn map(file: &[u8], fault: Fault) -> Map {
    if fault == Fault::MapRefusedFirst {
        let framed = file::framed(file, fault);
        if framed.is_some_and(|framed| map::too_wide(&framed.sheet.points, fault)) {
            return Err(map::TOO_WIDE);
        }
    }
    Judged::new(file::read(file, Buffer::for_rows(ROOM), fault)?, fault).map(fault)
}

/// The fills of a file with a buffer of some length: the numbers of `answer`, 3 by the bytes of fills.
pub fn fills(file: &[u8], buffer: usize, fault: Fault) -> Fills {
    if fault == Fault::FillRoomOfFills {
        let filled = fills(file, FILLS_ROOM, Fault::None)?;
        let short = buffer < FILL * filled.fills.len();
        return if short { Err(3) } else { Ok(filled) };
    }
    let sheet = file::read(file, Buffer::for_fills(buffer, fault), fault)?;
    Ok(Judged::new(sheet, fault).filled())
}

/// All that is made of a file.
pub struct All {
    /// With a buffer of some length.
    pub answer: Answer,
    pub map: Map,
    /// With room for all fills.
    pub fills: Fills,
    /// Of each point of an accepted sheet that of its index, if there is one.
    pub residuals: Vec<Option<Distance>>,
    /// Likewise how many line flags its index has.
    pub flags: Vec<u32>,
}

impl All {
    /// Of a sheet that is judged once.
    pub fn new(file: &[u8], buffer: usize) -> All {
        let fault = Fault::None;
        let refusal = |buffer| file::read(file, buffer, fault).err();
        match file::read(file, Buffer::for_rows(ROOM), fault) {
            Err(number) => All {
                answer: Answer::Refused(refusal(Buffer::for_rows(buffer)).unwrap_or(number)),
                map: Err(number),
                fills: Err(number),
                residuals: Vec::new(),
                flags: Vec::new(),
            },
            Ok(sheet) => {
                let judged = Judged::new(sheet, fault);
                let answer = match refusal(Buffer::for_rows(buffer)) {
                    Some(number) => Answer::Refused(number),
                    None => judged.answer(fault),
                };
                All {
                    answer,
                    map: judged.map(fault),
                    fills: Ok(judged.filled()),
                    residuals: judged.residuals,
                    flags: judged.flags,
                }
            }
        }
    }

    /// The fills of the same file with a buffer of some length.
    pub fn fills_in(&self, file: &[u8], buffer: usize) -> Fills {
        let fault = Fault::None;
        file::read(file, Buffer::for_fills(buffer, fault), fault)?;
        self.fills.clone()
    }
}
