//! The calls with a deliberate fault: the load must notice each.

use crate::clock::processor;
use crate::guarded::{Callee, Right};
use crate::library::{self, Calls, Returned, Root, Run, NO_ROOM};
use crate::second::{self, Fault, Shift, FILL, MAX_POINTS};
use crate::sheet::MOST_RECORDS;
use std::hint::black_box;
use std::sync::atomic::{AtomicUsize, Ordering};
use std::sync::Mutex;
use std::time::Duration;

/// Faults of the call for rows.
const KEEP: [&str; 30] = [
    "reads a byte beyond the file",
    "reads a byte before the file",
    "writes a byte beyond the buffer",
    "writes a byte before the buffer",
    "writes a byte beyond the rows",
    "writes on a refusal",
    "changes the file",
    "refuses with 10",
    "returns 0",
    "counts a component too many",
    "changes a row",
    "answers as in the call before",
    "takes 10 ms more than the limit",
    "takes 400 KB more of the stack",
    "refuses the most points with 2",
    "refuses with 1 what has more",
    "refuses with 2 what no field holds",
    "refuses with 11",
    "counts a round too many",
    "hands back no rounds",
    "hands back as many rounds as points and one",
    "shows weak ends as kept",
    "shows weak ends as of other patches",
    "refuses with 1 a tag 4 of another length",
    "refuses with 7 a strength that is not bounded",
    "refuses with 9 an index with two strengths",
    "refuses with 1 the longest well-framed file",
    "refuses with 12 a byte after it",
    "hands back a round too many of a row that takes longest",
    "loses the last round of a row that takes longest",
];

/// Faults of the call for the map.
const MAP: [&str; 16] = [
    "map: reads a byte beyond the file",
    "map: reads a byte before the file",
    "map: writes a byte beyond the buffer",
    "map: writes a byte before the buffer",
    "map: writes a byte beyond the text",
    "map: changes the file",
    "map: changes the last character",
    "map: counts a byte too many",
    "map: finds no room in a buffer of the text's length",
    "map: finds room in a buffer of one byte less",
    "map: writes nothing without room",
    "map: answers as in the call before",
    "map: takes 10 ms more than the limit",
    "map: takes 400 KB more of the stack",
    "map: shows weak ends as kept",
    "map: gives 13 for 14",
];

/// Faults of the call in a run, those aside that the second program has of its own.
const RUN: [&str; 20] = [
    "run: takes 400 KB more of the stack",
    "run: reads a byte beyond the file",
    "run: writes a byte beyond the buffer",
    "run: writes a byte beyond the rows",
    "run: changes the file",
    "run: changes a row",
    "run: reads a byte beyond the record",
    "run: reads a byte before the record",
    "run: writes a byte beyond the record",
    "run: writes a byte before the record",
    "run: refuses with 10",
    "run: returns 0",
    "run: answers as in the call before",
    "run: hands back the record of the call before",
    "run: takes 10 ms more than the limit",
    "run: writes on a refusal",
    "run: counts a round too many",
    "run: hands back no rounds",
    "run: shows weak ends as kept",
    "run: refuses with 1 a tag 4 of another length",
];

/// Faults of the call for fills, likewise.
const FILLS: [&str; 21] = [
    "fills: takes 400 KB more of the stack",
    "fills: reads a byte beyond the file",
    "fills: reads a byte before the file",
    "fills: writes a byte beyond the buffer",
    "fills: writes a byte before the buffer",
    "fills: writes a byte beyond the fills",
    "fills: writes on a refusal",
    "fills: changes the file",
    "fills: refuses with 10",
    "fills: refuses with 11",
    "fills: returns 0",
    "fills: counts a fill too many",
    "fills: counts the points as fills",
    "fills: counts a point too few",
    "fills: counts rounds",
    "fills: changes the last byte",
    "fills: leaves x and y as they were where there is no pair",
    "fills: answers as in the call before",
    "fills: takes 10 ms more than the limit",
    "fills: refuses the most points with 2",
    "fills: refuses with 1 a tag 4 of another length",
];

/// Faults of the call for a root, likewise.
const ROOT: [&str; 18] = [
    "root: takes 400 KB more of the stack",
    "root: writes a byte beyond the three numbers",
    "root: writes a byte before the three numbers",
    "root: writes on neither",
    "root: writes a zero on neither",
    "root: writes nothing",
    "root: writes S alone",
    "root: writes two numbers alone",
    "root: returns 0 where there is a root",
    "root: returns 1 where there is none",
    "root: returns 2",
    "root: returns S",
    "root: hands back the remainder before the power",
    "root: hands back the power first",
    "root: hands back a remainder that is one too large",
    "root: hands back S less one, with its remainder",
    "root: hands back the numbers of the call before",
    "root: takes 10 ms more than the limit",
];

/// Faults of the call for two files, likewise.
const JOIN: [&str; 20] = [
    "join: takes 400 KB more of the stack",
    "join: reads a byte beyond the left file",
    "join: reads a byte before the left file",
    "join: reads a byte beyond the right file",
    "join: reads a byte before the right file",
    "join: writes a byte beyond the buffer",
    "join: writes a byte before the buffer",
    "join: writes a byte beyond the rows",
    "join: writes on a refusal",
    "join: changes the left file",
    "join: changes the right file",
    "join: changes a row",
    "join: writes the rows of the call before",
    "join: answers as in the call before",
    "join: counts a component too many",
    "join: counts a round too many",
    "join: refuses with 10",
    "join: returns 0",
    "join: takes the left file for the right one",
    "join: takes 10 ms more than the limit",
];

/// A fault of the second program with what is wrong.
type OfSecond = (Fault, &'static str);

/// The faults of the second program's run that one call can show.
fn run_of_second() -> impl Iterator<Item = &'static OfSecond> {
    let of_beginning = |fault| matches!(fault, Fault::RunOldLost | Fault::RunOldIntoNew);
    Fault::RUN
        .iter()
        .filter(move |(fault, _)| !of_beginning(*fault))
}

/// The faults of its fills that the call can show: not those of the listing, nor the one that no sheet shows.
fn fills_of_second() -> impl Iterator<Item = &'static OfSecond> {
    let unseen = |fault| {
        matches!(
            fault,
            Fault::FillLastFirst
                | Fault::FillZerosListed
                | Fault::FillBeforeTally
                | Fault::FillUnlisted
                | Fault::FillLowerCase
                | Fault::FillShortHex
        )
    };
    Fault::FILL.iter().filter(move |(fault, _)| !unseen(*fault))
}

/// The faults of its join that calls on small files can show: rows do not have the indices.
fn join_of_second() -> impl Iterator<Item = &'static OfSecond> {
    let unseen = |fault| {
        matches!(
            fault,
            Fault::JoinLeftGains | Fault::JoinMostWithGone | Fault::JoinRoomFirst
        )
    };
    Fault::JOIN.iter().filter(move |(fault, _)| !unseen(*fault))
}

/// What is wrong under each fault, counted from 0.
pub fn faults() -> impl Iterator<Item = String> {
    let text = |of: &'static str| move |(_, text): &OfSecond| format!("{of}: {text}");
    let calls = KEEP.into_iter().chain(MAP).chain(RUN).map(String::from);
    calls
        .chain(run_of_second().map(text("run")))
        .chain(FILLS.into_iter().map(String::from))
        .chain(fills_of_second().map(text("fills")))
        .chain(ROOT.into_iter().map(String::from))
        .chain(Fault::NUMBER.iter().map(text("root")))
        .chain(JOIN.into_iter().map(String::from))
        .chain(join_of_second().map(text("join")))
}

/// The fault that a call has, counted from 0.
static CHOSEN: AtomicUsize = AtomicUsize::new(0);
static BEFORE: AtomicUsize = AtomicUsize::new(1);
static RECORD_BEFORE: Mutex<Option<Run>> = Mutex::new(None);
static ROOT_BEFORE: Mutex<Root> = Mutex::new([0; 3]);
static ROWS_BEFORE: Mutex<Vec<u8>> = Mutex::new(Vec::new());

/// The library's functions, one of them with a fault.
pub fn calls(right: Calls, fault: usize) -> Calls {
    let of_map = KEEP.len();
    let of_run = of_map + MAP.len();
    let of_fills = of_run + RUN.len() + run_of_second().count();
    let of_root = of_fills + FILLS.len() + fills_of_second().count();
    let of_join = of_root + ROOT.len() + Fault::NUMBER.len();
    let (first, wrong) = match fault {
        _ if fault >= of_join => (of_join, Calls { join, ..right }),
        _ if fault >= of_root => (of_root, Calls { root, ..right }),
        _ if fault >= of_fills => (of_fills, Calls { fills, ..right }),
        _ if fault >= of_run => (
            of_run,
            Calls {
                keep_in_run,
                ..right
            },
        ),
        _ if fault >= of_map => (of_map, Calls { map, ..right }),
        _ => (0, Calls { keep, ..right }),
    };
    CHOSEN.store(fault - first, Ordering::Relaxed);
    wrong
}

unsafe fn flip(at: *mut u8) {
    at.write_volatile(at.read_volatile() ^ 1);
}

unsafe fn look(at: *const u8) {
    black_box(at.read_volatile());
}

/// The bit of a weak end, and that of another patch.
const LEAF: u8 = 16;
const COMPONENT: u8 = 8;

/// Puts another mark, or none, in the place of each weak end's.
unsafe fn unmark(rows: *mut u8, points: usize, mark: u8) {
    for k in 0..points {
        let at = rows.add(28 * k);
        if at.read() & LEAF > 0 {
            at.write(at.read() & !LEAF | mark);
        }
    }
}

/// The number with so many rounds.
fn with_rounds(returned: u64, rounds: usize) -> u64 {
    returned & 0xFFFF_FFFF_FFFF | (rounds as u64) << 48
}

/// The answer of the call before.
fn earlier(returned: u64) -> u64 {
    BEFORE.swap(returned as usize, Ordering::Relaxed) as u64
}

fn linger() {
    let start = processor();
    while processor() - start < super::LIMIT + Duration::from_millis(10) {}
}

/// The library's function for rows, with the chosen fault.
unsafe extern "C" fn keep(file: *const u8, file_len: usize, rows: *mut u8, rows_len: usize) -> u64 {
    let keep = library::functions().unwrap().keep;
    let returned = keep(file, file_len, rows, rows_len);
    let (points, rounds) = Returned::new(returned).counts();
    let accepted = returned >> 32 > 0;
    match CHOSEN.load(Ordering::Relaxed) {
        0 => look(file.wrapping_add(file_len)),
        1 => look(file.wrapping_sub(1)),
        2 => flip(rows.wrapping_add(rows_len)),
        3 => flip(rows.wrapping_sub(1)),
        4 if accepted && rows_len > 28 * points => flip(rows.add(28 * points)),
        5 if !accepted && rows_len > 0 => flip(rows.add(rows_len / 2)),
        6 if file_len > 0 => flip(file.add(file_len / 2).cast_mut()),
        7 if !accepted => return 10,
        8 => return 0,
        9 if points > 0 => return returned + 1,
        10 if points > 0 => flip(rows.add(28 * points - 1)),
        11 => return earlier(returned),
        12 => linger(),
        13 => return deep(Callee::Plain(keep), file, file_len, rows, rows_len),
        14 if points == MAX_POINTS => return 2,
        15 if returned == 2 => return 1,
        16 if returned == 1 && file_len > 20 * MOST_RECORDS => return 2,
        17 if !accepted => return 11,
        18 if accepted => return with_rounds(returned, rounds + 1),
        19 => return with_rounds(returned, 0),
        20 if accepted => return with_rounds(returned, points + 1),
        21 => unmark(rows, points, 0),
        22 => unmark(rows, points, COMPONENT),
        23 if returned == 12 => return 1,
        24 if returned == 13 => return 7,
        25 if returned == 14 => return 9,
        26 if returned == 12 && file_len == LONGEST => return 1,
        27 if returned == 1 && file_len == LONGEST + 1 => return 12,
        28 if rounds > 0 && rounds + 1 == points => return with_rounds(returned, points),
        29 if rounds > 1 && rounds + 1 == points => return with_rounds(returned, rounds - 1),
        _ => {}
    }
    returned
}

/// The library's function for the map, with the chosen fault.
unsafe extern "C" fn map(file: *const u8, file_len: usize, text: *mut u8, text_len: usize) -> u64 {
    let map = library::functions().unwrap().map;
    let before = bytes_at(text, text_len);
    let returned = map(file, file_len, text, text_len);
    let (whole, length) = (returned != NO_ROOM, returned as usize);
    match CHOSEN.load(Ordering::Relaxed) {
        0 => look(file.wrapping_add(file_len)),
        1 => look(file.wrapping_sub(1)),
        2 => flip(text.wrapping_add(text_len)),
        3 => flip(text.wrapping_sub(1)),
        4 if whole && text_len > length => flip(text.add(length)),
        5 if file_len > 0 => flip(file.add(file_len / 2).cast_mut()),
        6 if whole && length > 0 => flip(text.add(length - 1)),
        7 if whole => return returned + 1,
        8 if whole && text_len == length => return NO_ROOM,
        9 if !whole => return text_len as u64 + 1,
        10 if !whole => put(text, &before),
        11 => return earlier(returned),
        12 => linger(),
        13 => return deep(Callee::Plain(map), file, file_len, text, text_len),
        14 if whole => (0..length).for_each(|k| {
            if text.add(k).read() == b'L' {
                text.add(k).write(b'#');
            }
        }),
        15 if whole && length == 11 && text.add(9).read() == b'4' => text.add(9).write(b'3'),
        _ => {}
    }
    returned
}

/// The library's function for rows in a run, with the chosen fault.
unsafe extern "C" fn keep_in_run(
    file: *const u8,
    file_len: usize,
    rows: *mut u8,
    rows_len: usize,
    run: *mut Run,
) -> u64 {
    if let Some(fault) = second_fault(RUN.len(), run_of_second(), file_len) {
        return by_second(fault, (file, file_len), (rows, rows_len), run);
    }
    let callee = Callee::InRun(library::functions().unwrap().keep_in_run, run);
    let chosen = CHOSEN.load(Ordering::Relaxed);
    if chosen == 0 {
        return deep(callee, file, file_len, rows, rows_len);
    }
    let returned = callee.call(file, file_len, rows, rows_len);
    let (points, rounds) = Returned::new(returned).counts();
    let accepted = returned >> 32 > 0;
    match chosen {
        1 => look(file.wrapping_add(file_len)),
        2 => flip(rows.wrapping_add(rows_len)),
        3 if accepted && rows_len > 28 * points => flip(rows.add(28 * points)),
        4 if file_len > 0 => flip(file.add(file_len / 2).cast_mut()),
        5 if points > 0 => flip(rows.add(28 * points - 1)),
        6 => look(run.wrapping_add(1).cast()),
        7 => look(run.cast::<u8>().wrapping_sub(1)),
        8 => flip(run.wrapping_add(1).cast()),
        9 => flip(run.cast::<u8>().wrapping_sub(1)),
        10 if !accepted => return 10,
        11 => return 0,
        12 => return earlier(returned),
        13 if accepted => swap_record(&mut *run),
        14 => linger(),
        15 if !accepted && rows_len > 0 => flip(rows.add(rows_len / 2)),
        16 if accepted => return with_rounds(returned, rounds + 1),
        17 => return with_rounds(returned, 0),
        18 => unmark(rows, points, 0),
        19 if returned == 12 => return 1,
        _ => {}
    }
    returned
}

/// The bytes of the longest well-framed file.
const LONGEST: usize = 131_105;

/// A longer file would take the second program more time than a call may take.
const LONGEST_BY_SECOND: usize = 10_000;

/// The chosen fault, if it is one of the second program's, which come after some of the call's own.
fn second_fault(
    own: usize,
    mut of_second: impl Iterator<Item = &'static OfSecond>,
    file_len: usize,
) -> Option<Fault> {
    let place = CHOSEN.load(Ordering::Relaxed).checked_sub(own)?;
    let (fault, _) = of_second.nth(place)?;
    (file_len <= LONGEST_BY_SECOND).then_some(*fault)
}

/// The bytes at a place.
unsafe fn bytes_at(at: *const u8, length: usize) -> Vec<u8> {
    (0..length).map(|k| at.add(k).read()).collect()
}

/// Puts bytes to a place.
unsafe fn put(at: *mut u8, bytes: &[u8]) {
    let each = bytes.iter().enumerate();
    each.for_each(|(k, byte)| at.add(k).write(*byte));
}

/// The call as the second program makes it with a fault of its own.
unsafe fn by_second(
    fault: Fault,
    (file, file_len): (*const u8, usize),
    (rows, rows_len): (*mut u8, usize),
    run: *mut Run,
) -> u64 {
    let bytes = bytes_at(file, file_len);
    let handed = second::keep_in_run(&bytes, rows_len, &run.read().into(), fault);
    put(rows, &handed.written);
    run.write(handed.record.into());
    library::expected(&handed.answer).0
}

/// The call for fills as the second program makes it with a fault of its own; what does not fit is cut.
unsafe fn fills_by_second(
    fault: Fault,
    (file, file_len): (*const u8, usize),
    (fills, fills_len): (*mut u8, usize),
) -> u64 {
    let bytes = bytes_at(file, file_len);
    let (number, written) = library::expected_fills(&second::fills(&bytes, fills_len, fault));
    put(fills, &written[..written.len().min(fills_len)]);
    number
}

/// The library's function for fills, with the chosen fault.
unsafe extern "C" fn fills(file: *const u8, file_len: usize, out: *mut u8, out_len: usize) -> u64 {
    if let Some(fault) = second_fault(FILLS.len(), fills_of_second(), file_len) {
        return fills_by_second(fault, (file, file_len), (out, out_len));
    }
    let fills = library::functions().unwrap().fills;
    let chosen = CHOSEN.load(Ordering::Relaxed);
    if chosen == 0 {
        return deep(Callee::Plain(fills), file, file_len, out, out_len);
    }
    let before = bytes_at(out, out_len);
    let returned = fills(file, file_len, out, out_len);
    let accepted = returned >> 32 > 0;
    let [count, points] = [0, 16].map(|shift| (returned >> shift & 0xFFFF) as usize);
    match chosen {
        1 => look(file.wrapping_add(file_len)),
        2 => look(file.wrapping_sub(1)),
        3 => flip(out.wrapping_add(out_len)),
        4 => flip(out.wrapping_sub(1)),
        5 if accepted && out_len > FILL * count => flip(out.add(FILL * count)),
        6 if !accepted && out_len > 0 => flip(out.add(out_len / 2)),
        7 if file_len > 0 => flip(file.add(file_len / 2).cast_mut()),
        8 if !accepted => return 10,
        9 if !accepted => return 11,
        10 => return 0,
        11 if accepted => return returned + 1,
        12 if accepted => return returned & !0xFFFF | points as u64,
        13 if points > 0 => return returned - (1 << 16),
        14 if accepted => return returned | 1 << 48,
        15 if accepted && count > 0 => flip(out.add(FILL * count - 1)),
        16 if accepted => without_zeros(out, &before, count),
        17 => return earlier(returned),
        18 => linger(),
        19 if points == MAX_POINTS => return 2,
        20 if returned == 12 => return 1,
        _ => {}
    }
    returned
}

/// The call for a root as the second program makes it with a fault of its own.
unsafe fn root_by_second(fault: Fault, bits: u32, out: *mut Root) -> i32 {
    let found = second::whole_root(f32::from_bits(bits), fault);
    if let Some(found) = found {
        out.write(found.numbers());
    }
    i32::from(found.is_some())
}

/// The library's function for a root, with the chosen fault.
unsafe extern "C" fn root(bits: u32, out: *mut Root) -> i32 {
    if let Some(fault) = second_fault(ROOT.len(), Fault::NUMBER.iter(), 0) {
        return root_by_second(fault, bits, out);
    }
    let callee = Callee::Root(library::functions().unwrap().root, bits);
    let bytes = out.cast::<u8>();
    let chosen = CHOSEN.load(Ordering::Relaxed);
    if chosen == 0 {
        return deep(callee, std::ptr::null(), 0, bytes, 0) as i32;
    }
    let before = bytes_at(bytes, size_of::<Root>());
    let returned = callee.call(std::ptr::null(), 0, bytes, 0) as i32;
    let found = returned == 1;
    let [s, power, remainder] = out.read();
    match chosen {
        1 => flip(bytes.wrapping_add(size_of::<Root>())),
        2 => flip(bytes.wrapping_sub(1)),
        3 if !found => flip(bytes.add(5)),
        4 if !found => out.write([0; 3]),
        5..8 => put(bytes.add(4 * (chosen - 5)), &before[4 * (chosen - 5)..]),
        8 => return 0,
        9 => return 1,
        10 if found => return 2,
        11 if found => return s,
        12 if found => out.write([s, remainder, power]),
        13 if found => out.write([power, s, remainder]),
        14 if found => out.write([s, power, remainder + 1]),
        15 if found && s > 0 => out.write([s - 1, power, remainder + 2 * s - 1]),
        16 if found => *out = std::mem::replace(&mut *ROOT_BEFORE.lock().unwrap(), out.read()),
        17 => linger(),
        _ => {}
    }
    returned
}

/// The call for two files as the second program makes it with a fault of its own.
unsafe fn join_by_second(
    fault: Fault,
    (left, left_len): (*const u8, usize),
    right: &Right,
    (rows, rows_len): (*mut u8, usize),
) -> u64 {
    let (left, other) = (bytes_at(left, left_len), bytes_at(right.file, right.length));
    let answer = second::join(&left, &other, &right.shift, rows_len, fault);
    let (number, written) = library::expected(&answer);
    put(rows, &written[..written.len().min(rows_len)]);
    number
}

/// Puts the rows of the call before in the place of those of this one.
unsafe fn swap_rows(rows: *mut u8, length: usize) {
    let now = bytes_at(rows, length);
    let before = std::mem::replace(&mut *ROWS_BEFORE.lock().unwrap(), now);
    put(rows, &before[..before.len().min(length)]);
}

/// The library's function for two files, with the chosen fault.
unsafe extern "C" fn join(
    left: *const u8,
    left_len: usize,
    other: *const u8,
    length: usize,
    du: i32,
    dv: i32,
    dx: f32,
    dy: f32,
    rows: *mut u8,
    rows_len: usize,
) -> u64 {
    let right = Right {
        file: other,
        length,
        shift: Shift { du, dv, dx, dy },
    };
    let longest = left_len.max(length);
    if let Some(fault) = second_fault(JOIN.len(), join_of_second(), longest) {
        return join_by_second(fault, (left, left_len), &right, (rows, rows_len));
    }
    let callee = Callee::Join(library::functions().unwrap().join, right);
    match CHOSEN.load(Ordering::Relaxed) {
        0 => deep(callee, left, left_len, rows, rows_len),
        18 => callee.call(other, length, rows, rows_len),
        chosen => {
            let returned = callee.call(left, left_len, rows, rows_len);
            join_spoilt(chosen, returned, (left, left_len), &right, (rows, rows_len))
        }
    }
}

/// What is made of a right call for two files, by a fault but the two that call otherwise.
unsafe fn join_spoilt(
    chosen: usize,
    returned: u64,
    (left, left_len): (*const u8, usize),
    right: &Right,
    (rows, rows_len): (*mut u8, usize),
) -> u64 {
    let (points, rounds) = Returned::new(returned).counts();
    let accepted = returned >> 32 > 0;
    let (other, length) = (right.file, right.length);
    match chosen {
        1 => look(left.wrapping_add(left_len)),
        2 => look(left.wrapping_sub(1)),
        3 => look(other.wrapping_add(length)),
        4 => look(other.wrapping_sub(1)),
        5 => flip(rows.wrapping_add(rows_len)),
        6 => flip(rows.wrapping_sub(1)),
        7 if accepted && rows_len > 28 * points => flip(rows.add(28 * points)),
        8 if !accepted && rows_len > 0 => flip(rows.add(rows_len / 2)),
        9 if left_len > 0 => flip(left.add(left_len / 2).cast_mut()),
        10 if length > 0 => flip(other.add(length / 2).cast_mut()),
        11 if points > 0 => flip(rows.add(28 * points - 1)),
        12 if points > 0 => swap_rows(rows, 28 * points),
        13 => return earlier(returned),
        14 if points > 0 => return returned + 1,
        15 if accepted => return with_rounds(returned, rounds + 1),
        16 if !accepted => return 10,
        17 => return 0,
        19 => linger(),
        _ => {}
    }
    returned
}

/// Puts back what stood in the place of x and y where there is no pair.
unsafe fn without_zeros(out: *mut u8, before: &[u8], count: usize) {
    for at in (0..count).map(|k| FILL * k) {
        if bytes_at(out.add(at + 8), 4) == [0; 4] {
            put(out.add(at + 12), &before[at + 12..at + FILL]);
        }
    }
}

/// The record of the call before, for this one.
fn swap_record(run: &mut Run) {
    if let Some(before) = RECORD_BEFORE.lock().unwrap().replace(*run) {
        *run = before;
    }
}

/// The call below an array on the stack.
#[inline(never)]
unsafe fn deep(
    callee: Callee,
    file: *const u8,
    file_len: usize,
    buffer: *mut u8,
    buffer_len: usize,
) -> u64 {
    let below = black_box([1u8; 400_000]);
    let returned = callee.call(file, file_len, buffer, buffer_len);
    black_box(below[returned as usize % below.len()]);
    returned
}
