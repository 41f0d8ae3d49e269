//! One call at the C boundary, with what is wrong with it.

use super::files::{Form, Load, LONGEST_BUFFER, LONGEST_FILE};
use super::LIMIT;
use crate::clock::processor;
use crate::generate::Pair;
use crate::guarded::{Area, Callee, Right, Stack};
use crate::header::STACK_SIZE;
use crate::library::{Calls, Returned, Root, Run, MAP_SIZE, NO_ROOM};
use crate::random::Random;
use crate::second::{Record, Shift, FULL, MAX_POINTS, NUMBERS, ORDER};
use std::ops::Range;
use std::time::Duration;

/// Painted bytes about the buffer and about the record, as far as they are not guard pages.
const MARGIN: usize = 64;

/// The bytes of a record.
const RECORD: usize = 4 * NUMBERS;
const _: () = assert!(size_of::<Run>() == RECORD);

/// Which of the functions is called.
#[derive(Clone, Copy, Debug, PartialEq)]
pub enum Function {
    Keep,
    Map,
    KeepInRun,
    Fills,
    Root,
    Join,
}

/// How many there are.
pub const FUNCTIONS: usize = 6;

/// The stack that each runs on: of the size that the header asks for, and for a root of one page.
pub const STACKS: [usize; FUNCTIONS] = {
    let mut stacks = [STACK_SIZE; FUNCTIONS];
    stacks[Function::Root as usize] = 4096;
    stacks
};

/// A call with what it should return, write, and leave as its record.
pub struct Job<'a> {
    pub function: Function,
    pub form: Form,
    pub file: &'a [u8],
    pub buffer: usize,
    pub number: u64,
    pub written: &'a [u8],
    /// The record before and after, of the call that takes one; else no matter what.
    pub records: [Record; 2],
    /// The number, of the call that takes one instead of a file.
    pub bits: u32,
    /// The right file, and what goes with it, of the call that takes one.
    pub right: &'a [u8],
    pub shift: Shift,
}

impl<'a> Job<'a> {
    /// The call on a file with its own buffer.
    pub fn new(
        load: &'a Load,
        function: Function,
        number: u64,
        written: &'a [u8],
        records: [Record; 2],
    ) -> Job<'a> {
        Job {
            function,
            form: load.form,
            file: &load.file,
            buffer: load.buffer,
            number,
            written,
            records,
            bits: 0,
            right: &[],
            shift: Shift::default(),
        }
    }

    /// The call on two files, while a file of some form is under way.
    pub fn join(form: Form, pair: &'a Pair, number: u64, written: &'a [u8]) -> Job<'a> {
        Job {
            function: Function::Join,
            form,
            file: &pair.left,
            buffer: pair.buffer,
            number,
            written,
            records: [Record::new(); 2],
            bits: 0,
            right: &pair.right,
            shift: pair.shift,
        }
    }

    /// The call on a number, while a file of some form is under way.
    pub fn root(form: Form, bits: u32, number: u64, written: &'a [u8]) -> Job<'a> {
        Job {
            function: Function::Root,
            form,
            file: &[],
            buffer: size_of::<Root>(),
            number,
            written,
            records: [Record::new(); 2],
            bits,
            right: &[],
            shift: Shift::default(),
        }
    }
}

/// What a call returned, its processor time, and what is wrong with it.
pub type Outcome = (u64, Duration, Option<String>);

/// Where the files, buffer and record lie.
enum Memory {
    Guarded(Box<Guarded>),
    /// In heap blocks of exactly their lengths, for a tool that watches those.
    Heap,
}

pub struct Runner {
    calls: Calls,
    memory: Memory,
    /// What a buffer holds before a call, from any place on.
    paint: Vec<u8>,
}

/// Whether a function may return this number at all. Each round removes a point or more, and each patch has
/// a point that is left; of two points or more there are fewer rounds than points. In the place of the
/// components the call for fills has their number, and rounds it has none.
fn possible(function: Function, returned: u64) -> bool {
    let of_sheet = match Returned::new(returned) {
        Returned::Refused(number) => {
            number == 1 || ORDER.iter().any(|one| u64::from(*one) == number)
        }
        Returned::Accepted {
            points,
            components,
            rounds,
        } => {
            let one = returned >> 32 & 0xFFFF == 1;
            let few = components + rounds <= points && rounds < points.max(2);
            one && points <= MAX_POINTS && few
        }
    };
    match function {
        Function::Keep => of_sheet,
        Function::Map => returned <= MAP_SIZE as u64 || returned == NO_ROOM,
        Function::KeepInRun => of_sheet || returned == u64::from(FULL),
        Function::Fills => of_sheet && returned >> 48 == 0,
        Function::Root => returned <= 1,
        Function::Join => of_sheet || (15..=17).contains(&returned),
    }
}

/// What is wrong with the number of a call, if anything.
fn wrong_number(returned: u64, job: &Job) -> Option<String> {
    if !possible(job.function, returned) {
        return Some(format!("returned {returned:#x}"));
    }
    let second = job.number;
    (returned != second).then(|| format!("returned {returned:#x}, the second program {second:#x}"))
}

/// What is wrong with bytes that a call was lent, if anything: one of those that it should have
/// written, or one that it should have left alone. `now` is what was `painted`, and what should be
/// `written` begins after `head` bytes of it.
fn wrong_bytes(now: &[u8], painted: &[u8], head: usize, written: &[u8]) -> Option<&'static str> {
    let end = head + written.len();
    if now[head..end] != *written {
        return Some("a byte differs from the second program's");
    }
    if now[..head] != painted[..head] || now[end..] != painted[end..] {
        return Some("wrote beyond what it should");
    }
    None
}

fn record_bytes(record: &Record) -> Vec<u8> {
    let words = record.numbers();
    words.iter().flat_map(|word| word.to_le_bytes()).collect()
}

fn callee(calls: &Calls, job: &Job, run: *mut Run, right: *const u8) -> Callee {
    let right = Right {
        file: right,
        length: job.right.len(),
        shift: job.shift,
    };
    match job.function {
        Function::Keep => Callee::Plain(calls.keep),
        Function::Map => Callee::Plain(calls.map),
        Function::KeepInRun => Callee::InRun(calls.keep_in_run, run),
        Function::Fills => Callee::Plain(calls.fills),
        Function::Root => Callee::Root(calls.root, job.bits),
        Function::Join => Callee::Join(calls.join, right),
    }
}

impl Runner {
    pub fn new(calls: Calls, heap: bool) -> Runner {
        let mut r = Random::new(0);
        let paint = (0..LONGEST_BUFFER + 1024).map(|_| r.bits() as u8).collect();
        let memory = if heap {
            Memory::Heap
        } else {
            Memory::Guarded(Box::new(Guarded::new()))
        };
        Runner {
            calls,
            memory,
            paint,
        }
    }

    /// The most bytes of stack that a call of each function has used; none in heap blocks.
    pub fn deepest(&self) -> Option<[usize; FUNCTIONS]> {
        match &self.memory {
            Memory::Guarded(places) => Some(places.stacks.each_ref().map(Stack::deepest)),
            Memory::Heap => None,
        }
    }

    /// One call.
    pub fn run(&mut self, job: &Job, r: &mut Random) -> Outcome {
        let paint = &self.paint[r.below(512)..];
        match &mut self.memory {
            Memory::Heap => in_heap(&self.calls, job, paint),
            Memory::Guarded(places) => places.run(&self.calls, job, paint, r),
        }
    }
}

/// A call in heap blocks of exactly the lengths.
fn in_heap(calls: &Calls, job: &Job, paint: &[u8]) -> Outcome {
    let [file, right] = [job.file, job.right].map(|file| file.to_vec().into_boxed_slice());
    let mut buffer = paint[..job.buffer].to_vec().into_boxed_slice();
    let mut record = Box::new(Run::from(job.records[0]));
    let callee = callee(calls, job, &mut *record, right.as_ptr());
    let start = processor();
    // The blocks are ours and apart.
    let returned =
        unsafe { callee.call(file.as_ptr(), file.len(), buffer.as_mut_ptr(), job.buffer) };
    let time = processor() - start;
    let bytes = wrong_bytes(&buffer, &paint[..job.buffer], 0, job.written);
    let changed = *file != *job.file || *right != *job.right;
    let changed = changed.then_some("changed a file");
    let other = (*record != job.records[1].into()).then_some("another record");
    let bytes = bytes.or(changed).or(other).map(String::from);
    (returned, time, wrong_number(returned, job).or(bytes))
}

/// Bytes at one end of an area, with painted ones about them.
struct Lent<'a> {
    begin: usize,
    part: Range<usize>,
    painted: &'a [u8],
}

impl<'a> Lent<'a> {
    /// Lends bytes that hold what the paint has.
    fn new(area: &mut Area, length: usize, paint: &'a [u8], at_end: bool) -> Lent<'a> {
        let begin = area.place(length, at_end);
        let part = begin.saturating_sub(MARGIN)..(begin + length + MARGIN).min(area.size());
        let painted = &paint[..part.len()];
        area.bytes()[part.clone()].copy_from_slice(painted);
        Lent {
            begin,
            part,
            painted,
        }
    }

    fn wrong(&self, area: &mut Area, written: &[u8]) -> Option<&'static str> {
        let head = self.begin - self.part.start;
        wrong_bytes(
            &area.bytes()[self.part.clone()],
            self.painted,
            head,
            written,
        )
    }
}

/// Puts bytes to a place of an area.
fn put(area: &mut Area, at: usize, bytes: &[u8]) {
    area.bytes()[at..at + bytes.len()].copy_from_slice(bytes);
}

/// Puts bytes to one end of an area; where they begin.
fn placed(area: &mut Area, bytes: &[u8], at_end: bool) -> usize {
    let at = area.place(bytes.len(), at_end);
    put(area, at, bytes);
    at
}

/// Whether bytes stand at a place of an area.
fn stands(area: &mut Area, at: usize, bytes: &[u8]) -> bool {
    area.bytes()[at..at + bytes.len()] == *bytes
}

/// The pointer, or null for some of length 0.
fn or_null(at: *mut u8, length: usize, r: &mut Random) -> *mut u8 {
    if length == 0 && r.one_in(3) {
        std::ptr::null_mut()
    } else {
        at
    }
}

/// Memory beside guard pages; calls run on stacks of their own, one for each function.
struct Guarded {
    file: Area,
    right: Area,
    buffer: Area,
    record: Area,
    stacks: [Stack; FUNCTIONS],
    /// The longest call so far, by function and form.
    longest: [[Duration; Form::ALL.len()]; FUNCTIONS],
}

impl Guarded {
    fn new() -> Guarded {
        Guarded {
            file: Area::new(LONGEST_FILE),
            right: Area::new(LONGEST_FILE),
            buffer: Area::new(LONGEST_BUFFER),
            record: Area::new(RECORD),
            stacks: STACKS.map(Stack::new),
            longest: Default::default(),
        }
    }

    fn run(&mut self, calls: &Calls, job: &Job, paint: &[u8], r: &mut Random) -> Outcome {
        let at = placed(&mut self.file, job.file, r.one_in(2));
        let buffer = Lent::new(&mut self.buffer, job.buffer, paint, r.one_in(2));
        let file_at = or_null(self.file.at(at), job.file.len(), r);
        let buffer_at = or_null(self.buffer.at(buffer.begin), job.buffer, r);
        let at_end = job.function == Function::KeepInRun && r.one_in(2);
        let record = Lent::new(&mut self.record, RECORD, paint, at_end);
        let (other, right_at) = self.right_file(job, r);
        let [before, after] = job.records.each_ref().map(record_bytes);
        let once = |places: &mut Guarded| {
            put(&mut places.record, record.begin, &before);
            let run = places.record.at(record.begin).cast();
            let callee = callee(calls, job, run, right_at);
            let stack = &mut places.stacks[job.function as usize];
            let start = processor();
            // The areas are ours and apart.
            let returned =
                unsafe { stack.call(callee, file_at, job.file.len(), buffer_at, job.buffer) };
            (returned, processor() - start)
        };
        let (returned, time) = once(self);
        let bytes = buffer.wrong(&mut self.buffer, job.written);
        let record = record.wrong(&mut self.record, &after);
        let mut fault = wrong_number(returned, job)
            .or(bytes.map(String::from))
            .or(record.map(|text| format!("record: {text}")));
        let changed = !stands(&mut self.file, at, job.file);
        if changed || !stands(&mut self.right, other, job.right) {
            fault = Some("changed a file".into());
        }
        let time = self.least(job, time, once);
        if time > LIMIT {
            fault = Some(format!("took {time:?}"));
        }
        (returned, time, fault)
    }

    /// Where the right file begins in its area, and the pointer to it, of the call that takes one.
    fn right_file(&mut self, job: &Job, r: &mut Random) -> (usize, *mut u8) {
        if job.function != Function::Join {
            return (0, std::ptr::null_mut());
        }
        let at = placed(&mut self.right, job.right, r.one_in(2));
        (at, or_null(self.right.at(at), job.right.len(), r))
    }

    /// The time of a call; if it is the longest so far, the least of three, since a busy machine may
    /// disturb a call, hardly three.
    fn least(
        &mut self,
        job: &Job,
        mut time: Duration,
        once: impl Fn(&mut Guarded) -> (u64, Duration),
    ) -> Duration {
        let longest = self.longest[job.function as usize][job.form as usize];
        for _ in 0..2 {
            if time > longest {
                time = time.min(once(self).1);
            }
        }
        self.longest[job.function as usize][job.form as usize] = time.max(longest);
        time
    }
}
