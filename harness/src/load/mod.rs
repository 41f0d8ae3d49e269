//! Files of all forms through the C boundary: file, buffer and record at the edge of memory that may
//! not be touched, on a stack of the size that the header asks for. Each goes through every function that
//! takes a file, and beside it some numbers through the one that takes a root, on a stack of one page, and two files,
//! made of it and a partner, through the one that joins them.

mod files;
mod fills;
mod fixed;
mod joins;
mod peels;
mod report;
mod runner;
mod wrong;

use crate::generate;
use crate::library;
use crate::random::Random;
use crate::second::{self, All, Answer, Fault, Map, Record};
use files::Load;
use fixed::{Origin, FIXED_FILES};
use report::Report;
use runner::{Function, Job, Runner, FUNCTIONS};
use std::sync::atomic::{AtomicU64, Ordering};
use std::time::{Duration, Instant};

/// A call that takes more processor time fails.
const LIMIT: Duration = Duration::from_millis(50);

/// The file under way, for the message of a fault.
static CASE: AtomicU64 = AtomicU64::new(0);

extern "C" fn on_fault(_: i32) {
    let origin = Origin::of_number(CASE.load(Ordering::Relaxed));
    eprintln!("a call touched a guard page: {origin}");
    std::process::exit(3)
}

fn report_faults() {
    extern "C" {
        fn signal(number: i32, handler: extern "C" fn(i32)) -> usize;
    }
    const SEGMENT_VIOLATION: i32 = 11;
    // The handler ends the process.
    unsafe { signal(SEGMENT_VIOLATION, on_fault) };
}

/// One file, where it comes from, and what it goes through.
struct One<'a> {
    runner: &'a mut Runner,
    report: &'a mut Report,
    origin: Origin,
    load: &'a Load,
    r: Random,
}

impl One<'_> {
    /// Through every function; what is wrong with each call, if anything.
    fn run(mut self) -> [Option<String>; FUNCTIONS] {
        let all = All::new(&self.load.file, self.load.buffer);
        let rows = self.rows(&all.answer);
        let (map, run) = (self.map(&all.map), self.in_run());
        let (fills, roots) = (self.fills(&all), self.roots());
        [rows, map, run, fills, roots, self.join()]
    }

    fn rows(&mut self, answer: &Answer) -> Option<String> {
        let (number, written) = library::expected(answer);
        let records = [Record::new(); 2];
        let job = Job::new(self.load, Function::Keep, number, written, records);
        let (returned, time, wrong) = self.runner.run(&job, &mut self.r);
        self.report.add(self.load, self.origin, returned, time);
        wrong
    }

    fn map(&mut self, map: &Map) -> Option<String> {
        let text = second::map_text(map);
        let buffer = self.origin.map_buffer(&mut self.r, text.len());
        let (number, written) = library::expected_map(&text, buffer);
        let records = [Record::new(); 2];
        let mut job = Job::new(self.load, Function::Map, number, written, records);
        job.buffer = buffer;
        let (returned, time, wrong) = self.runner.run(&job, &mut self.r);
        self.report.add_map(&job, self.origin, map, returned, time);
        wrong.map(|text| format!("map: {text}"))
    }

    /// With a record that a run may begin with; of a fixed file with a new one, which takes a sheet.
    fn in_run(&mut self) -> Option<String> {
        let Load { file, buffer, .. } = self.load;
        let before = match self.origin {
            Origin::Fixed(_) => Record::new(),
            _ => generate::start(&mut self.r).record(Fault::None),
        };
        let handed = second::keep_in_run(file, *buffer, &before, Fault::None);
        let number = library::expected(&handed.answer).0;
        let (written, records) = (&handed.written, [before, handed.record]);
        let job = Job::new(self.load, Function::KeepInRun, number, written, records);
        let (returned, time, wrong) = self.runner.run(&job, &mut self.r);
        self.report.add_run(&job, self.origin, returned, time);
        wrong.map(|text| format!("run: {text}"))
    }

    fn fills(&mut self, all: &All) -> Option<String> {
        let file = &self.load.file;
        let buffer = self.origin.fills_buffer(&mut self.r, file);
        let fills = all.fills_in(file, buffer);
        let (number, written) = library::expected_fills(&fills);
        let records = [Record::new(); 2];
        let mut job = Job::new(self.load, Function::Fills, number, &written, records);
        job.buffer = buffer;
        let (_, time, wrong) = self.runner.run(&job, &mut self.r);
        self.report.add_fills(&job, self.origin, &fills, time);
        wrong.map(|text| format!("fills: {text}"))
    }

    /// Of some numbers; what is wrong with the first.
    fn roots(&mut self) -> Option<String> {
        let numbers = self.origin.numbers_for_roots(&mut self.r);
        numbers.into_iter().find_map(|bits| self.root(bits))
    }

    fn root(&mut self, bits: u32) -> Option<String> {
        let found = second::whole_root(f32::from_bits(bits), Fault::None);
        let (number, written) = library::expected_root(found);
        let job = Job::root(self.load.form, bits, number, &written);
        let (_, time, wrong) = self.runner.run(&job, &mut self.r);
        self.report.add_root(&job, self.origin, time);
        wrong.map(|text| format!("root of {bits:08X}: {text}"))
    }

    /// With a partner.
    fn join(&mut self) -> Option<String> {
        let pair = joins::pair(&mut self.r, self.load, self.origin);
        let answer = pair.answer(Fault::None);
        let (number, written) = library::expected(&answer);
        let job = Job::join(self.load.form, &pair, number, written);
        let (returned, time, wrong) = self.runner.run(&job, &mut self.r);
        self.report.add_join(&job, self.origin, returned, time);
        wrong.map(|text| format!("join: {text}"))
    }
}

/// How many files of seeds there are, without strengths, with them and with dropped points, and the first
/// seed of each.
#[derive(Clone, Copy)]
pub struct Files {
    pub files: u64,
    pub peels: u64,
    pub fills: u64,
    pub seed: u64,
}

impl Files {
    fn origins(&self) -> impl Iterator<Item = Origin> {
        let from = |count: u64| self.seed..self.seed + count;
        (0..FIXED_FILES)
            .map(Origin::Fixed)
            .chain(from(self.files).map(Origin::Seed))
            .chain(from(self.peels).map(Origin::Peel))
            .chain(from(self.fills).map(Origin::Fill))
    }

    fn text(&self) -> String {
        let Files {
            files,
            peels,
            fills,
            ..
        } = self;
        format!(
            "{files} files, {peels} with strengths, {fills} with dropped points and {FIXED_FILES} fixed ones"
        )
    }
}

/// Runs the fixed files and those of some seeds; ends at the first failure if `short`.
fn pass(runner: &mut Runner, files: Files, short: bool) -> Report {
    let mut report = Report::default();
    for origin in files.origins() {
        CASE.store(origin.number(), Ordering::Relaxed);
        let load = origin.load();
        let one = One {
            runner,
            report: &mut report,
            origin,
            load: &load,
            r: Random::new(!origin.number()),
        };
        for text in one.run().into_iter().flatten() {
            report.failed += 1;
            if report.failed <= 20 {
                println!("failed: {:?}, {origin}: {text}", load.form);
            }
        }
        if short && report.failed > 0 {
            break;
        }
    }
    report
}

fn without_library() -> bool {
    println!("built without the static library");
    false
}

/// Runs the fixed files and those of seeds; with `wrong`, through calls with that deliberate fault.
pub fn run(files: Files, heap: bool, wrong: Option<usize>) -> bool {
    let Some(right) = library::functions() else {
        return without_library();
    };
    let calls = wrong.map_or(right, |fault| wrong::calls(right, fault));
    report_faults();
    let start = Instant::now();
    let mut runner = Runner::new(calls, heap);
    let report = pass(&mut runner, files, wrong.is_some());
    report.print(runner.deepest(), start.elapsed());
    println!("{}, {} failed", files.text(), report.failed);
    report.failed == 0
}

/// Runs the same files in several threads at once, each with its own memory and stack.
pub fn threads(count: usize, files: Files) -> bool {
    let Some(calls) = library::functions() else {
        return without_library();
    };
    report_faults();
    let one = || pass(&mut Runner::new(calls, false), files, false).failed;
    let failed: usize = std::thread::scope(|scope| {
        let all: Vec<_> = (0..count).map(|_| scope.spawn(one)).collect();
        all.into_iter().map(|thread| thread.join().unwrap()).sum()
    });
    println!("{count} threads, {} each, {failed} failed", files.text());
    failed == 0
}

/// Whether the load notices each deliberate fault, each in a process of its own.
pub fn faults() -> bool {
    if library::functions().is_none() {
        return without_library();
    }
    let program = std::env::current_exe().unwrap();
    let (mut noticed, mut failed) = (0, 0);
    for (k, name) in wrong::faults().enumerate() {
        let words = ["load", "--files", "2000", "--wrong", &k.to_string()].map(String::from);
        let run = std::process::Command::new(&program)
            .args(words)
            .output()
            .unwrap();
        if run.status.success() {
            println!("not noticed: {name}");
            failed += 1;
        } else {
            noticed += 1;
        }
    }
    println!("{noticed} passed, {failed} failed");
    failed == 0
}
