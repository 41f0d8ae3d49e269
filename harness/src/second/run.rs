//! A run of sheets, its record and the second form of the call, from document 02, A.2 and A.5.

use super::fault::Fault;
use super::file::ROOM;
use super::tally::Tally;
use super::{answer, Answer};

/// "its five old sums": kept and the four filters there were, for ever.
pub const OLD: usize = 5;

/// "totals of a run, kept and the four filters", and "the run's new sums gain `leaf` before
/// `component`": the words of the tally that have a new sum, in the record's order.
pub const SUMMED: [&str; 6] = [
    "kept",
    "validate",
    "orientation",
    "wrong",
    "leaf",
    "component",
];

/// How many numbers a record has.
pub const NUMBERS: usize = OLD + 1 + SUMMED.len();

/// "if its record counts 65,535 or more accepted ones or has a new sum of 2^31 or more"
pub const MOST_SHEETS: u32 = 65_535;
pub const SUM_LIMIT: u32 = 1 << 31;

/// The number of the run's call alone.
pub const FULL: u8 = 11;

/// The record of a run.
#[derive(Clone, Copy, Debug, Default, PartialEq, Eq)]
pub struct Record {
    /// The sums under the old count, "unchanged in a column of their own".
    pub old_sums: [u32; OLD],
    /// How many accepted sheets are counted.
    pub sheets: u32,
    /// The sums of their tallies.
    pub new_sums: [u32; SUMMED.len()],
}

impl Record {
    /// That of a run that starts now.
    pub fn new() -> Record {
        Record::default()
    }

    /// "A run that started under the old count hands in its five old sums as u32s; they stand unchanged
    /// in a column of their own, the new sums and the count of sheets beside them from 0".
    pub fn from_old_sums(old_sums: [u32; OLD], fault: Fault) -> Record {
        let mut record = Record::new();
        if fault != Fault::RunOldLost {
            record.old_sums = old_sums;
        }
        if fault == Fault::RunOldIntoNew {
            let columns = record.new_sums.iter_mut().zip(old_sums);
            columns.for_each(|(new, old)| *new = old);
        }
        record
    }

    /// The new sum of a word.
    pub fn new_sum(&self, word: &str) -> u32 {
        let place = SUMMED.iter().position(|column| *column == word);
        self.new_sums[place.unwrap_or_else(|| panic!("no {word} in a run"))]
    }

    /// Its numbers in order: the old sums, the count of sheets, the new sums.
    pub fn numbers(&self) -> [u32; NUMBERS] {
        let mut words = [self.sheets; NUMBERS];
        words[..OLD].copy_from_slice(&self.old_sums);
        words[OLD + 1..].copy_from_slice(&self.new_sums);
        words
    }

    /// The record of these numbers.
    pub fn from_numbers(words: [u32; NUMBERS]) -> Record {
        let mut record = Record::new();
        record.old_sums.copy_from_slice(&words[..OLD]);
        record.sheets = words[OLD];
        record.new_sums.copy_from_slice(&words[OLD + 1..]);
        record
    }

    /// "any sheet if its record counts 65,535 or more accepted ones or has a new sum of 2^31 or more"
    fn full(&self, fault: Fault) -> bool {
        let most = match fault {
            Fault::RunTakes65535 => MOST_SHEETS + 1,
            Fault::RunRefuses65534 => MOST_SHEETS - 1,
            _ => MOST_SHEETS,
        };
        let limit = match fault {
            Fault::RunTakesLimit => SUM_LIMIT + 1,
            Fault::RunRefusesBelow => SUM_LIMIT - 1,
            _ => SUM_LIMIT,
        };
        let tested = |place: usize| match fault {
            Fault::RunLastUntested => place < SUMMED.len() - 1,
            Fault::RunLeafUntested => SUMMED[place] != "leaf",
            Fault::RunKeptAlone => place == 0,
            _ => true,
        };
        let new = self.new_sums.iter().enumerate();
        let new: Vec<u32> = new
            .filter(|(k, _)| tested(*k))
            .map(|(_, sum)| *sum)
            .collect();
        let reaches = |sums: &[u32]| sums.iter().any(|sum| *sum >= limit);
        let (sheets, sums) = (self.sheets >= most, reaches(&new));
        match fault {
            Fault::RunBothLimits => sheets && sums,
            Fault::RunOldTested => sheets || sums || reaches(&self.old_sums),
            _ => sheets || sums,
        }
    }

    /// Adds a tally to the new sums. These are below 2^31 and a tally has at most `MAX_POINTS`: only a fault
    /// can wrap.
    fn add(&mut self, tally: &Tally, fault: Fault) {
        let mut columns = SUMMED;
        match fault {
            Fault::RunKeptLast => columns.rotate_left(1),
            Fault::RunLeafLast => columns.swap(4, 5),
            _ => {}
        }
        let numbers = columns.map(|word| match (fault, word) {
            (Fault::RunLeafLost | Fault::RunLeafIntoComponent, "leaf") => 0,
            (Fault::RunLeafIntoComponent, "component") => tally.of("leaf") + tally.of(word),
            _ => tally.of(word),
        });
        let up = |sums: &mut [u32]| {
            let sums = sums.iter_mut().zip(numbers);
            sums.for_each(|(sum, n)| *sum = sum.wrapping_add(n));
        };
        if matches!(fault, Fault::RunOldToo | Fault::RunOldInstead) {
            up(&mut self.old_sums);
        }
        if fault != Fault::RunOldInstead {
            up(&mut self.new_sums);
        }
    }

    fn count(&mut self) {
        self.sheets = self.sheets.wrapping_add(1);
    }

    /// After an accepted sheet with this tally: one sheet more, and each new sum up by its number.
    pub fn after(mut self, tally: &Tally, fault: Fault) -> Record {
        let counted = match fault {
            Fault::RunSheetNotCounted => false,
            Fault::RunEmptyNotCounted => *tally != Tally::default(),
            _ => true,
        };
        if counted {
            self.count();
        }
        self.add(tally, fault);
        self
    }

    /// "a refused sheet adds nothing"
    fn after_refusal(mut self, number: u8, file: &[u8], fault: Fault) -> Record {
        match (fault, number) {
            (Fault::RunCountsRefused, 1..=9 | 12..) => self.count(),
            (Fault::RunCountsNewRefused, 12..) | (Fault::RunCountsFull, FULL) => self.count(),
            (Fault::RunAddsRefused, 3) => {
                if let Answer::Accepted { tally, .. } = answer(file, ROOM, fault) {
                    self.add(&tally, fault);
                }
            }
            (Fault::RunClearedByRefusal, _) => self = Record::new(),
            _ => {}
        }
        self
    }
}

/// What the second form of the call hands back.
#[derive(Clone, Debug, PartialEq)]
pub struct InRun {
    pub answer: Answer,
    /// What stands at the start of the buffer: the rows, or nothing on a refusal.
    pub written: Vec<u8>,
    pub record: Record,
}

/// Whether 11 is given: by the record alone, but for two faults, which look at the sheet's own answer.
fn is_full(record: &Record, own: impl Fn() -> Answer, fault: Fault) -> bool {
    let full = record.full(fault);
    match fault {
        Fault::RunFullLate => full && matches!(own(), Answer::Accepted { .. }),
        Fault::RunLooksAhead => match own() {
            Answer::Accepted { tally, .. } => full || record.after(&tally, fault).full(fault),
            Answer::Refused(_) => full,
        },
        _ => full,
    }
}

/// "a second form of the call takes and hands back" the record: 11 by the record alone, "before
/// reading the file", else the answer to the sheet.
pub fn keep_in_run(file: &[u8], buffer: usize, record: &Record, fault: Fault) -> InRun {
    let own = || answer(file, buffer, fault);
    let answer = if is_full(record, own, fault) {
        Answer::Refused(FULL)
    } else {
        own()
    };
    let written = match (&answer, fault) {
        (Answer::Refused(FULL), Fault::RunWritesFull) => own().rows().to_vec(),
        _ => answer.rows().to_vec(),
    };
    let record = match &answer {
        Answer::Accepted { tally, .. } => record.after(tally, fault),
        Answer::Refused(number) => record.after_refusal(*number, file, fault),
    };
    InRun {
        answer,
        written,
        record,
    }
}
