//! Calls in a run with all that they hand back, for `run_vectors` to replay.
//!
//! Numbers are little-endian u32. `stdin` is the count of cases, then each case:
//!
//! ```text
//! file length, buffer length, the 12 numbers of the record before, refusal number (0: accepted),
//! points, components, rounds, the 12 numbers of the record after
//! the file's bytes
//! the rows, 28 bytes a point (none for a refusal)
//! ```

use super::sheet_file::{long, short, spoilt, weighed};
use super::Vectors;
use crate::generate::{self, Case, Kind, Step};
use crate::second::{
    self, Answer, Fault, Record, MAX_POINTS, MOST_SHEETS, NUMBERS, OLD, ROW, SUMMED, SUM_LIMIT,
};
use crate::shapes::{chain, columns, gated_columns, half_mirrored, longest, SIDE};
use crate::sheet::{Sheet, MOST_RECORDS};
use crate::stars;

/// A buffer that is longer than the rows of every small sheet.
const BUFFER: usize = 1000;

fn step(file: Vec<u8>, buffer: usize) -> Step {
    Step { file, buffer }
}

#[derive(Default)]
struct Cases {
    count: u32,
    bytes: Vec<u8>,
}

impl Cases {
    fn put(&mut self, numbers: &[u32]) {
        let bytes = numbers.iter().flat_map(|number| number.to_le_bytes());
        self.bytes.extend(bytes);
    }

    /// One call; the record that it hands back.
    fn call(&mut self, Step { file, buffer }: &Step, before: &Record) -> Record {
        let handed = second::keep_in_run(file, *buffer, before, Fault::None);
        let answer = match handed.answer {
            Answer::Refused(number) => [u32::from(number), 0, 0, 0],
            Answer::Accepted {
                points,
                components,
                rounds,
                ..
            } => [0, points as u32, components as u32, rounds as u32],
        };
        self.count += 1;
        self.put(&[file.len() as u32, *buffer as u32]);
        self.put(&before.numbers());
        self.put(&answer);
        self.put(&handed.record.numbers());
        self.bytes.extend(file);
        self.bytes.extend(handed.written);
        handed.record
    }

    /// Calls one after the other, each with the record of the one before.
    fn calls<'a>(&mut self, steps: impl IntoIterator<Item = &'a Step>, mut record: Record) {
        for step in steps {
            record = self.call(step, &record);
        }
    }
}

/// A record with each number another.
fn any_record() -> Record {
    Record::from_numbers(std::array::from_fn(|k| 1000 + 7 * k as u32))
}

/// The fullest record that still takes a sheet.
fn almost_full() -> Record {
    let mut numbers = [SUM_LIMIT - 1; NUMBERS];
    numbers[OLD] = MOST_SHEETS - 1;
    Record::from_numbers(numbers)
}

/// A small generated sheet that counts some index under every word.
fn counted_everywhere() -> Step {
    let cases = (0..).map(|seed| generate::drawn(Kind::Weighed, seed));
    let mut small = cases.filter(|case| case.file.len() < 1000);
    let everywhere = |case: &Case| match second::answer(&case.file, BUFFER, Fault::None) {
        Answer::Accepted { tally, .. } => SUMMED.iter().all(|word| tally.of(word) > 0),
        Answer::Refused(_) => false,
    };
    step(small.find(everywhere).unwrap().file, BUFFER)
}

/// The small sheets written out by hand, in runs of each beginning.
fn by_hand(cases: &mut Cases) {
    let files = stars::small_files().into_iter();
    let steps: Vec<Step> = files.map(|file| step(file, BUFFER)).collect();
    cases.calls(&steps, Record::new());
    let old = |sums| Record::from_old_sums(sums, Fault::None);
    cases.calls(&steps[..3], old([10, 20, 30, 40, 50]));
    cases.calls(steps.iter().rev().take(4), old([u32::MAX; OLD]));
}

/// Records at their limits: each is called with a sheet that raises every sum, and what is handed back
/// with a sheet without points.
fn limits(cases: &mut Cases) {
    let (raises, empty) = (counted_everywhere(), step(short(0).to_file(), 0));
    let mut records = Vec::new();
    for k in 0..NUMBERS {
        let numbers: &[u32] = match k {
            OLD => &[MOST_SHEETS - 2, MOST_SHEETS - 1, MOST_SHEETS, u32::MAX],
            _ => &[SUM_LIMIT - 1, SUM_LIMIT, u32::MAX],
        };
        for number in numbers {
            let mut words = any_record().numbers();
            words[k] = *number;
            records.push(words);
        }
    }
    let mut all_old = any_record().numbers();
    all_old[..OLD].fill(u32::MAX);
    records.extend([almost_full().numbers(), all_old, [u32::MAX; NUMBERS]]);
    for words in records {
        let record = cases.call(&raises, &Record::from_numbers(words));
        cases.call(&empty, &record);
    }
}

/// Each number alone, and 11 before it, by the count of sheets or by a sum.
fn numbers(cases: &mut Cases) {
    let mut by_sheets = any_record();
    by_sheets.sheets = MOST_SHEETS;
    let mut by_sum = any_record();
    by_sum.new_sums[0] = SUM_LIMIT;
    for number in (1..=9).chain(12..=14) {
        let (file, buffer) = match number {
            2 => (short(MAX_POINTS + 1).to_file(), BUFFER),
            12.. => spoilt(weighed(long(6)), &[number]),
            number => spoilt(long(6), &[number]),
        };
        let step = step(file, buffer);
        let full = if number % 2 == 0 { by_sheets } else { by_sum };
        cases.call(&step, &any_record());
        cases.call(&step, &full);
    }
}

/// Buffers about the length of the rows.
fn buffers(cases: &mut Cases) {
    for buffer in [0, 27, 28, 55, 56, 57] {
        cases.call(&step(short(2).to_file(), buffer), &any_record());
    }
}

/// In a run, a sheet of the most points, with several marks; one point more, the most points that a field
/// holds, one more than these, the same with all settings and the gate, and the longest well-framed file,
/// each with room for all its rows; a chain of the most points. Then the most points, all kept, as the last
/// sheet of a record with every sum just below its limit.
fn most_points(cases: &mut Cases) {
    let side = SIDE as usize;
    let sheets = [
        half_mirrored(MAX_POINTS, side),
        columns(MAX_POINTS + 1, 1),
        columns(MOST_RECORDS, 1),
        columns(MOST_RECORDS + 1, 1),
        gated_columns(MOST_RECORDS, 1),
        longest(),
        chain(MAX_POINTS),
    ];
    let with_room = |sheet: &Sheet| step(sheet.to_file(), ROW * sheet.points.len());
    cases.calls(&sheets.each_ref().map(with_room), any_record());
    cases.call(&with_room(&columns(MAX_POINTS, side)), &almost_full());
}

/// Generated runs of small files.
fn generated(cases: &mut Cases, count: usize) {
    let runs = (0..).map(|seed| generate::run(seed, generate::RUN_OF));
    let small = runs.filter(|run| run.steps.iter().all(|step| step.file.len() < 500));
    for run in small.take(count) {
        cases.calls(&run.steps, run.start.record(Fault::None));
    }
}

pub fn run() -> Vectors {
    let mut cases = Cases::default();
    by_hand(&mut cases);
    limits(&mut cases);
    numbers(&mut cases);
    buffers(&mut cases);
    most_points(&mut cases);
    generated(&mut cases, 8);
    let mut stdin = cases.count.to_le_bytes().to_vec();
    stdin.extend(cases.bytes);
    Vectors {
        stdin,
        stdout: format!("{} files, 0 differ\n", cases.count).into_bytes(),
    }
}
