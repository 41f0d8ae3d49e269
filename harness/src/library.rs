//! The static library in the same process.
//!
//! With the feature `library`, `libhiglaupth.a` is linked from the folder that HIGLAUPTH_LIBRARY
//! names, and the functions here reach it; without it they say that there is none. The C functions,
//! the record's layout and the meaning of what they return (include/higlaupth.h) stand here alone.

use crate::generate::{Pair, Start};
use crate::second::{
    self, All, Answer, Fault, Fills, InRun, Record, Shift, WholeRoot, FILL, FILLS_ROOM, NUMBERS,
    OLD,
};
use crate::sheet::Sheet;

/// A function from a file to a buffer.
pub type Call = unsafe extern "C" fn(*const u8, usize, *mut u8, usize) -> u64;

/// One from the bits of a number to S, power and remainder of its root.
pub type RootCall = unsafe extern "C" fn(u32, *mut Root) -> i32;

/// S, power and remainder: 12 bytes.
pub type Root = [i32; 3];

/// One that takes and hands back the record of a run beside them.
pub type RunCall = unsafe extern "C" fn(*const u8, usize, *mut u8, usize, *mut Run) -> u64;

/// One from a left and a right file, an offset and a shift to a buffer.
pub type JoinCall = unsafe extern "C" fn(
    *const u8,
    usize,
    *const u8,
    usize,
    i32,
    i32,
    f32,
    f32,
    *mut u8,
    usize,
) -> u64;

/// The old sums, kept first.
pub type OldSums = [u32; OLD];

/// The record of a run: 48 bytes.
#[repr(C)]
#[derive(Clone, Copy, Debug, PartialEq)]
pub struct Run {
    pub old_sums: OldSums,
    pub sheets: u32,
    pub new_sums: [u32; NUMBERS - OLD - 1],
}

impl From<Record> for Run {
    fn from(record: Record) -> Run {
        Run {
            old_sums: record.old_sums,
            sheets: record.sheets,
            new_sums: record.new_sums,
        }
    }
}

impl From<Run> for Record {
    fn from(run: Run) -> Record {
        Record {
            old_sums: run.old_sums,
            sheets: run.sheets,
            new_sums: run.new_sums,
        }
    }
}

/// The C functions: from a file to its rows, to its map, to its fills, to its rows in a run; the two that begin
/// a record; from a number to its root; and from two files to the rows of the joined list.
#[derive(Clone, Copy)]
pub struct Calls {
    pub keep: Call,
    pub map: Call,
    pub fills: Call,
    pub keep_in_run: RunCall,
    pub run_new: unsafe extern "C" fn(*mut Run),
    pub run_from_old_sums: unsafe extern "C" fn(*const OldSums, *mut Run),
    pub root: RootCall,
    pub join: JoinCall,
}

/// The C functions as the header declares them.
#[cfg(feature = "library")]
mod linked {
    use super::{OldSums, Root, Run};

    extern "C" {
        pub fn higlaupth_keep(
            file: *const u8,
            file_len: usize,
            rows: *mut u8,
            rows_len: usize,
        ) -> u64;
        pub fn higlaupth_map(
            file: *const u8,
            file_len: usize,
            text: *mut u8,
            text_len: usize,
        ) -> u64;
        pub fn higlaupth_fills(
            file: *const u8,
            file_len: usize,
            fills: *mut u8,
            fills_len: usize,
        ) -> u64;
        pub fn higlaupth_keep_in_run(
            file: *const u8,
            file_len: usize,
            rows: *mut u8,
            rows_len: usize,
            run: *mut Run,
        ) -> u64;
        pub fn higlaupth_run_new(run: *mut Run);
        pub fn higlaupth_run_from_old_sums(old_sums: *const OldSums, run: *mut Run);
        pub fn higlaupth_root(bits: u32, root: *mut Root) -> i32;
        pub fn higlaupth_join(
            left: *const u8,
            left_len: usize,
            right: *const u8,
            right_len: usize,
            du: i32,
            dv: i32,
            dx: f32,
            dy: f32,
            rows: *mut u8,
            rows_len: usize,
        ) -> u64;
    }
}

/// The C functions themselves; none without the library.
#[cfg(feature = "library")]
pub fn functions() -> Option<Calls> {
    Some(Calls {
        keep: linked::higlaupth_keep,
        map: linked::higlaupth_map,
        fills: linked::higlaupth_fills,
        keep_in_run: linked::higlaupth_keep_in_run,
        run_new: linked::higlaupth_run_new,
        run_from_old_sums: linked::higlaupth_run_from_old_sums,
        root: linked::higlaupth_root,
        join: linked::higlaupth_join,
    })
}

#[cfg(not(feature = "library"))]
pub fn functions() -> Option<Calls> {
    None
}

fn on(call: Call, file: &[u8], buffer: &mut [u8]) -> u64 {
    // The library reads `file` and writes within `buffer`; the two do not overlap.
    unsafe { call(file.as_ptr(), file.len(), buffer.as_mut_ptr(), buffer.len()) }
}

fn on_run(call: RunCall, file: &[u8], buffer: &mut [u8], run: &mut Run) -> u64 {
    let (rows, length) = (buffer.as_mut_ptr(), buffer.len());
    // It writes `run` too, which overlaps neither.
    unsafe { call(file.as_ptr(), file.len(), rows, length, run) }
}

fn on_two(call: JoinCall, [left, right]: [&[u8]; 2], shift: &Shift, rows: &mut [u8]) -> u64 {
    let Shift { du, dv, dx, dy } = *shift;
    let [(left, left_len), (right, right_len)] =
        [left, right].map(|file| (file.as_ptr(), file.len()));
    let (rows, rows_len) = (rows.as_mut_ptr(), rows.len());
    // The library reads both files and writes within `rows`, which overlaps neither.
    unsafe {
        call(
            left, left_len, right, right_len, du, dv, dx, dy, rows, rows_len,
        )
    }
}

/// What the library returned for rows: a refusal number of 1 to 9 or 12 to 14, or 2^48 * rounds + 2^32 +
/// 2^16 * points + components; none without the library.
pub fn call(file: &[u8], rows: &mut [u8]) -> Option<u64> {
    functions().map(|calls| on(calls.keep, file, rows))
}

/// What it returned for the rows of two files' joined list: the same, or 15 to 17; none without the library.
pub fn call_join(files: [&[u8]; 2], shift: &Shift, rows: &mut [u8]) -> Option<u64> {
    functions().map(|calls| on_two(calls.join, files, shift, rows))
}

/// What it returned for rows in a run: the same, or 11; none without the library.
pub fn call_in_run(file: &[u8], rows: &mut [u8], run: &mut Run) -> Option<u64> {
    functions().map(|calls| on_run(calls.keep_in_run, file, rows, run))
}

/// What the library returned for a map: the length of its text, or `NO_ROOM`; none without the
/// library.
pub fn call_map(file: &[u8], text: &mut [u8]) -> Option<u64> {
    functions().map(|calls| on(calls.map, file, text))
}

/// What the library returned for fills: a number as for rows, or 2^32 + 2^16 * points + fills; none
/// without the library.
pub fn call_fills(file: &[u8], fills: &mut [u8]) -> Option<u64> {
    functions().map(|calls| on(calls.fills, file, fills))
}

/// The longest map's bytes: a buffer of this length has room for every text.
pub const MAP_SIZE: usize = 4860;

/// What the map's call returns if the buffer is shorter than the text.
pub const NO_ROOM: u64 = u64::MAX;

/// What the library should return for an answer, and the rows that it should write.
pub fn expected(answer: &Answer) -> (u64, &[u8]) {
    match answer {
        Answer::Refused(number) => (u64::from(*number), &[]),
        Answer::Accepted {
            points,
            components,
            rounds,
            rows,
            ..
        } => {
            let [points, components, rounds] = [points, components, rounds].map(|n| *n as u64);
            (
                (rounds << 48) + (1 << 32) + (points << 16) + components,
                rows,
            )
        }
    }
}

/// What the library should return for fills, and the bytes that it should write.
pub fn expected_fills(fills: &Fills) -> (u64, Vec<u8>) {
    match fills {
        Err(number) => (u64::from(*number), Vec::new()),
        Ok(filled) => {
            let [points, fills] = [filled.points, filled.fills.len()].map(|n| n as u64);
            ((1 << 32) + (points << 16) + fills, filled.bytes())
        }
    }
}

/// What the library should return for a number's root, and the bytes that it should write.
pub fn expected_root(found: Option<WholeRoot>) -> (u64, Vec<u8>) {
    match found {
        None => (0, Vec::new()),
        Some(found) => {
            let numbers = found.numbers().into_iter();
            (1, numbers.flat_map(i32::to_le_bytes).collect())
        }
    }
}

/// What the library returned for rows, taken apart as the header does it.
#[derive(Clone, Copy, Debug, PartialEq)]
pub enum Returned {
    Refused(u64),
    Accepted {
        points: usize,
        components: usize,
        rounds: usize,
    },
}

impl Returned {
    pub fn new(number: u64) -> Returned {
        let part = |shift: u32| (number >> shift & 0xFFFF) as usize;
        match number >> 32 {
            0 => Returned::Refused(number),
            _ => Returned::Accepted {
                points: part(16),
                components: part(0),
                rounds: part(48),
            },
        }
    }

    /// The points and rounds of an accepted sheet; none of a refused one.
    pub fn counts(&self) -> (usize, usize) {
        match self {
            Returned::Refused(_) => (0, 0),
            Returned::Accepted { points, rounds, .. } => (*points, *rounds),
        }
    }
}

/// What the library should return for a map's text, and the bytes that it should write: the text, or
/// as much of it as the buffer holds.
pub fn expected_map(text: &str, buffer: usize) -> (u64, &[u8]) {
    match text.as_bytes().get(..buffer) {
        Some(part) if part.len() < text.len() => (NO_ROOM, part),
        _ => (text.len() as u64, text.as_bytes()),
    }
}

/// Bytes kept before and after the buffer, which the library must leave alone.
const GUARD: usize = 64;

/// The first place where a call with a buffer of some length differs from what it should return and
/// write: the number, a byte written, or a byte beyond those that it changed.
fn differs(
    call: impl FnOnce(&mut [u8]) -> u64,
    buffer: usize,
    expected: (u64, &[u8]),
) -> Option<String> {
    let whole: Vec<u8> = (0..buffer + 2 * GUARD)
        .map(|k| (k * 7 + 165) as u8)
        .collect();
    let mut left = whole.clone();
    let returned = call(&mut left[GUARD..GUARD + buffer]);
    let (number, written) = expected;
    if returned != number {
        return Some(format!("returned {returned:#x}, expected {number:#x}"));
    }
    let (front, rest) = whole.split_at(GUARD);
    let right = front.iter().chain(written).chain(&rest[written.len()..]);
    let at = left.iter().zip(right).position(|(a, b)| a != b)?;
    Some(format!("byte {} of the buffer", at as i64 - GUARD as i64))
}

/// The first place where the library's rows differ from an answer.
pub fn difference(file: &[u8], buffer: usize, answer: &Answer) -> Option<String> {
    let call = functions()?.keep;
    let text = differs(|rows| on(call, file, rows), buffer, expected(answer))?;
    Some(format!("library: {text}"))
}

/// The first place where the library's rows of two files' joined list differ from an answer, or where it changes a file.
pub fn join_difference(pair: &Pair, answer: &Answer) -> Option<String> {
    let call = functions()?.join;
    let files = [&pair.left, &pair.right].map(|file| file.as_slice());
    let before = files.map(<[u8]>::to_vec);
    let call = |rows: &mut [u8]| on_two(call, files, &pair.shift, rows);
    let text = differs(call, pair.buffer, expected(answer));
    let changed = before != files;
    let text = text.or_else(|| changed.then(|| "changed a file".into()))?;
    Some(format!("library's join: {text}"))
}

/// The lengths of buffer that a map's text of some length is asked for with.
pub fn map_buffers(length: usize) -> [usize; 5] {
    [0, length.saturating_sub(1), length, length + 1, MAP_SIZE]
}

/// The first place where the library's map differs from a text, with a buffer of each of these
/// lengths.
pub fn map_difference(file: &[u8], text: &str) -> Option<String> {
    let call = functions()?.map;
    map_buffers(text.len()).into_iter().find_map(|buffer| {
        let expected = expected_map(text, buffer);
        let text = differs(|text| on(call, file, text), buffer, expected)?;
        Some(format!("library's map, buffer of {buffer}: {text}"))
    })
}

/// The lengths of buffer that the fills of a file are asked for with: about those of all its points.
pub fn fills_buffers(file: &[u8]) -> [usize; 5] {
    let points = Sheet::from_file(file).map_or(0, |sheet| sheet.points.len());
    let length = FILL * points;
    [0, length.saturating_sub(1), length, length + 1, FILLS_ROOM]
}

/// The first place where the library's fills differ from the second program's, with a buffer of each of
/// these lengths.
pub fn fills_difference(file: &[u8], all: &All) -> Option<String> {
    let call = functions()?.fills;
    fills_buffers(file).into_iter().find_map(|buffer| {
        let (number, bytes) = expected_fills(&all.fills_in(file, buffer));
        let text = differs(|fills| on(call, file, fills), buffer, (number, &bytes))?;
        Some(format!("library's fills, buffer of {buffer}: {text}"))
    })
}

/// What the library's root of a number has otherwise than the second program's: the number returned, one of
/// the three, or one beside them.
pub fn root_difference(x: f32, found: Option<WholeRoot>) -> Option<String> {
    let call = functions()?.root;
    const BEFORE: Root = [i32::from_le_bytes([0xA5; 4]); 3];
    let mut left = [BEFORE; 3];
    // The library writes the three numbers in the middle alone.
    let returned = unsafe { call(x.to_bits(), &mut left[1]) };
    let right = found.map_or(BEFORE, |found| found.numbers());
    let text = |what: String| Some(format!("library's root of {:08X}: {what}", x.to_bits()));
    if (returned, left[1]) != (i32::from(found.is_some()), right) {
        return text(format!("{returned} {:?}, not {found:?}", left[1]));
    }
    if left[0] != BEFORE || left[2] != BEFORE {
        return text("a number beside the three".into());
    }
    None
}

/// The first place where the library's rows, map or fills differ from the second program's.
pub fn difference_of_all(file: &[u8], buffer: usize, all: &All) -> Option<String> {
    difference(file, buffer, &all.answer)
        .or_else(|| map_difference(file, &second::map_text(&all.map)))
        .or_else(|| fills_difference(file, all))
}

/// A record between numbers that the library must leave alone.
#[repr(C)]
#[derive(Clone, Copy, Debug, PartialEq)]
struct Fenced {
    before: [u32; 8],
    run: Run,
    after: [u32; 8],
}

impl Fenced {
    fn new(run: Run) -> Fenced {
        Fenced {
            before: [0xA5A5_A5A5; 8],
            run,
            after: [0x5A5A_5A5A; 8],
        }
    }

    /// What is wrong if it should hold this record.
    fn differs(&self, right: Record) -> Option<String> {
        if *self != Fenced::new(self.run) {
            return Some("a byte beside the record".into());
        }
        let (now, right) = (Record::from(self.run).numbers(), right.numbers());
        (now != right).then(|| format!("record {now:?}, expected {right:?}"))
    }
}

/// The first place where the library's call in a run differs from what the second program hands back.
pub fn run_difference(
    file: &[u8],
    buffer: usize,
    before: &Record,
    handed: &InRun,
) -> Option<String> {
    let call = functions()?.keep_in_run;
    let mut record = Fenced::new((*before).into());
    let number = expected(&handed.answer).0;
    let call = |rows: &mut [u8]| on_run(call, file, rows, &mut record.run);
    let text = differs(call, buffer, (number, &handed.written));
    let text = text.or_else(|| record.differs(handed.record))?;
    Some(format!("library's run: {text}"))
}

/// The first record that the library begins otherwise than the second program.
pub fn start_difference(start: &Start) -> Option<String> {
    let calls = functions()?;
    // What stands there before must not matter.
    let mut record = Fenced::new(Record::from_numbers([0x1234_5678; NUMBERS]).into());
    // The library writes the record alone.
    unsafe {
        match start {
            Start::New => (calls.run_new)(&mut record.run),
            Start::FromOldSums(sums) => (calls.run_from_old_sums)(sums, &mut record.run),
            Start::Given(_) => return None,
        }
    }
    let text = record.differs(start.record(Fault::None))?;
    Some(format!("library's {start:?}: {text}"))
}
