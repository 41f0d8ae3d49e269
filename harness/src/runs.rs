//! Runs of generated sheets: the library's call beside the second program's, and what document 02 says
//! of every run.

use crate::generate::{self, Run, Start, Step};
use crate::library;
use crate::limits::{run::Seen, Met};
use crate::random::Random;
use crate::second::{
    self, Answer, Fault, InRun, Record, FULL, LAST_NUMBER, MOST_SHEETS, SUMMED, SUM_LIMIT,
};
use crate::sheet::Sheet;
use crate::tally_reader;

/// The record of a run, added up apart from the second program: numbers that cannot wrap, and
/// tallies as the listings print them.
struct Book {
    sheets: u64,
    sums: Vec<(&'static str, u64)>,
    old: [u32; second::OLD],
}

impl Book {
    fn new(start: &Record) -> Book {
        let sum = |word: &'static str| (word, u64::from(start.new_sum(word)));
        Book {
            sheets: u64::from(start.sheets),
            sums: SUMMED.iter().map(|word| sum(word)).collect(),
            old: start.old_sums,
        }
    }

    fn full(&self) -> bool {
        let at_limit = |(_, sum): &(&str, u64)| *sum >= u64::from(SUM_LIMIT);
        self.sheets >= u64::from(MOST_SHEETS) || self.sums.iter().any(at_limit)
    }

    /// The answer that a call must give to a sheet that gets `own` alone; an accepted one is added.
    fn take(&mut self, own: &Answer) -> Answer {
        if self.full() {
            return Answer::Refused(FULL);
        }
        if let Answer::Accepted { listing, .. } = own {
            self.sheets += 1;
            let tally = tally_reader::tally(listing);
            for (word, sum) in &mut self.sums {
                *sum += tally.iter().find(|(one, _)| one == word).unwrap().1;
            }
        }
        own.clone()
    }

    fn is(&self, record: &Record) -> bool {
        let same = |(word, sum): &(&str, u64)| u64::from(record.new_sum(word)) == *sum;
        self.old == record.old_sums
            && self.sheets == u64::from(record.sheets)
            && self.sums.iter().all(same)
    }
}

/// The calls of a run as they are seen one by one, or the first that is not what the book has.
fn seen(run: &Run, handed: Vec<InRun>) -> Result<Vec<Seen>, String> {
    let start = run.start.record(Fault::None);
    let (mut book, mut before) = (Book::new(&start), start);
    let mut calls = Vec::new();
    for (k, (step, handed)) in run.steps.iter().zip(handed).enumerate() {
        let own = second::answer(&step.file, step.buffer, Fault::None);
        let answer = book.take(&own);
        if handed.answer != answer || handed.written != answer.rows() || !book.is(&handed.record) {
            return Err(format!("call {k}: not what its listings add up to"));
        }
        let after = handed.record;
        calls.push(Seen::new(start, before, own, handed));
        before = after;
    }
    Ok(calls)
}

/// The first call, or constructor, on which the library differs from the second program.
fn library_difference(run: &Run, calls: &[Seen]) -> Option<String> {
    let calls = run.steps.iter().zip(calls).enumerate();
    let differs = |(k, (step, seen)): (usize, (&Step, &Seen))| {
        let Step { file, buffer } = step;
        let text = library::run_difference(file, *buffer, &seen.before, &seen.handed)?;
        Some(format!("call {k}: {text}"))
    };
    library::start_difference(&run.start).or_else(|| calls.into_iter().find_map(differs))
}

/// The record that a run ends with, and whether a sheet was refused with 11.
fn outcome(run: &Run) -> (Record, bool) {
    let handed = run.through(Fault::None);
    let full = |handed: &InRun| handed.answer == Answer::Refused(FULL);
    let record = handed.last().map(|handed| handed.record);
    (
        record.unwrap_or_else(|| run.start.record(Fault::None)),
        handed.iter().any(full),
    )
}

/// The run with its sheets in another order.
fn another_order(run: &Run) -> Run {
    let mut other = run.clone();
    Random::new(run.seed).shuffle(&mut other.steps);
    other
}

/// The run with the points of each sheet in another order.
fn other_listings(run: &Run) -> Run {
    let mut other = run.clone();
    let mut r = Random::new(run.seed);
    for step in &mut other.steps {
        if let Some(mut sheet) = Sheet::from_file(&step.file) {
            r.shuffle(&mut sheet.points);
            step.file = sheet.to_file();
        }
    }
    other
}

/// What the runs met.
#[derive(Default)]
pub struct Report {
    runs: usize,
    /// Runs that start now, that started under the old count, and that begin with any record.
    starts: [usize; 3],
    calls: usize,
    accepted: usize,
    refused: [usize; LAST_NUMBER + 1],
    /// Runs whose record is the same in another order of the sheets, none being refused with 11; runs
    /// with 11 in an order; of these, those whose record is another.
    alike: usize,
    with_11: usize,
    other_record: usize,
    pub met: Met<Seen>,
    pub failed: usize,
}

impl Report {
    fn count(&mut self, calls: &[Seen]) {
        for seen in calls {
            self.calls += 1;
            match &seen.handed.answer {
                Answer::Accepted { .. } => self.accepted += 1,
                Answer::Refused(number) => self.refused[usize::from(*number)] += 1,
            }
            self.met.add(seen);
        }
    }

    /// The order of the sheets does not matter to the record while none is refused with 11.
    fn order(&mut self, run: &Run) -> Result<(), String> {
        let ((one, full), (other, also)) = (outcome(run), outcome(&another_order(run)));
        match (one == other, full || also) {
            (true, false) => self.alike += 1,
            (false, false) => return Err("another order of the sheets".into()),
            (same, true) => {
                self.with_11 += 1;
                self.other_record += usize::from(!same);
            }
        }
        Ok(())
    }

    fn check(&mut self, run: &Run) -> Result<(), String> {
        let handed = run.through(Fault::None);
        if other_listings(run).through(Fault::None) != handed {
            return Err("another listing of each sheet".into());
        }
        let calls = seen(run, handed)?;
        self.count(&calls);
        self.order(run)?;
        library_difference(run, &calls).map_or(Ok(()), Err)
    }

    fn add(&mut self, run: &Run) {
        self.runs += 1;
        let start = match run.start {
            Start::New => 0,
            Start::FromOldSums(_) => 1,
            Start::Given(_) => 2,
        };
        self.starts[start] += 1;
        if let Err(text) = self.check(run) {
            self.failed += 1;
            if self.failed <= 20 {
                println!("differs: run {} of {}: {text}", run.seed, run.steps.len());
            }
        }
    }

    pub fn print(&self) {
        let Report { runs, calls, .. } = self;
        let [new, old, given] = self.starts;
        println!("runs: new {new}, from old sums {old}, from other records {given}");
        println!(
            "calls {calls}: accepted {}, refused with 1 to {LAST_NUMBER}: {:?}",
            self.accepted,
            &self.refused[1..]
        );
        println!(
            "another order of the sheets: {} runs without 11, the same record; {} with 11 in an order, {} of them with another record",
            self.alike, self.with_11, self.other_record
        );
        for (name, calls) in self.met.each().filter(|(_, calls)| *calls > 0) {
            println!("{calls:>6} calls with {name}");
        }
        let programs = match library::functions() {
            Some(_) => "through the library and the second program",
            None => "through the second program alone",
        };
        println!("{runs} runs {programs}, {} differ", self.failed);
    }
}

/// Compares runs of so many sheets each, from a seed on.
pub fn run(runs: usize, sheets: usize, seed: u64) -> Report {
    let mut report = Report::default();
    for k in 0..runs as u64 {
        report.add(&generate::run(seed + k, sheets));
    }
    report
}

/// The first run and fault that the book does not notice, where what is handed back is wrong; and how
/// many it noticed.
pub fn first_unnoticed(runs: usize, seed: u64) -> (Option<String>, usize) {
    let mut noticed = 0;
    for k in 0..runs as u64 {
        let run = generate::run(seed + k, generate::RUN_OF);
        let right = run.through(Fault::None);
        for &(fault, _) in Fault::RUN {
            let wrong = run.through(fault);
            if wrong == right {
                continue;
            }
            if seen(&run, wrong).is_ok() {
                return (Some(format!("{}: {fault:?}", run.seed)), noticed);
            }
            noticed += 1;
        }
    }
    (None, noticed)
}
