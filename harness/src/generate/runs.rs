//! Runs: a record to begin with, and sheets that are called with it one after the other.

use super::{damage, Kind};
use crate::random::Random;
use crate::second::{self, Fault, InRun, Record, MOST_SHEETS, NUMBERS, OLD, ROW, SUM_LIMIT};
use crate::sheet::{Point, Rest, Settings, Sheet, Strengths};

/// How a run begins.
#[derive(Clone, Copy, Debug)]
pub enum Start {
    New,
    FromOldSums([u32; OLD]),
    /// With a record of any numbers.
    Given(Record),
}

impl Start {
    pub fn record(&self, fault: Fault) -> Record {
        match self {
            Start::New => Record::new(),
            Start::FromOldSums(sums) => Record::from_old_sums(*sums, fault),
            Start::Given(record) => *record,
        }
    }
}

/// A sheet file of a run with the length of the buffer that it is called with.
#[derive(Clone, Debug)]
pub struct Step {
    pub file: Vec<u8>,
    pub buffer: usize,
}

#[derive(Clone, Debug)]
pub struct Run {
    pub seed: u64,
    pub start: Start,
    pub steps: Vec<Step>,
}

/// How many sheets a run has unless said.
pub const RUN_OF: usize = 6;

impl Run {
    /// What the second program's calls hand back, each given the record of the one before.
    pub fn through(&self, fault: Fault) -> Vec<InRun> {
        let mut record = self.start.record(fault);
        let call = |step: &Step| {
            let handed = second::keep_in_run(&step.file, step.buffer, &record, fault);
            record = handed.record;
            handed
        };
        self.steps.iter().map(call).collect()
    }
}

/// Old sums: none, some, or as large as can be.
fn old_sums(r: &mut Random) -> [u32; OLD] {
    match r.below(4) {
        0 => [0; OLD],
        1 => [(); OLD].map(|()| r.below(100_000) as u32),
        2 => [u32::MAX; OLD],
        _ => [(); OLD].map(|()| r.pick(&[0, 1, SUM_LIMIT - 1, SUM_LIMIT, u32::MAX])),
    }
}

/// A count of sheets at or beside its limit, or so far below that a run reaches it.
fn sheets_at_limit(r: &mut Random) -> u32 {
    match r.below(8) {
        0..3 => MOST_SHEETS - 1,
        3 | 4 => MOST_SHEETS,
        5 => r.pick(&[MOST_SHEETS + 1, SUM_LIMIT, u32::MAX]),
        _ => MOST_SHEETS - r.whole(2, 6) as u32,
    }
}

/// A sum at or beside its limit, or so far below that a sheet may take it there.
fn sum_at_limit(r: &mut Random) -> u32 {
    match r.below(8) {
        0..3 => SUM_LIMIT - 1,
        3 | 4 => SUM_LIMIT,
        5 => r.pick(&[SUM_LIMIT + 1, u32::MAX - 1, u32::MAX]),
        _ => SUM_LIMIT - r.whole(2, 60) as u32,
    }
}

/// A record with the count of sheets, one new sum or both at a limit.
fn at_limit(r: &mut Random) -> Record {
    let mut record = Record::from_old_sums(old_sums(r), Fault::None);
    record.sheets = r.below(1000) as u32;
    record.new_sums.fill_with(|| r.below(1 << 20) as u32);
    let which = r.below(8);
    if which < 3 {
        record.sheets = sheets_at_limit(r);
    }
    if which > 1 {
        let place = r.below(record.new_sums.len());
        record.new_sums[place] = sum_at_limit(r);
    }
    record
}

/// A record to begin with, of every kind.
pub fn start(r: &mut Random) -> Start {
    match r.below(16) {
        0..3 => Start::New,
        3..6 => Start::FromOldSums(old_sums(r)),
        6 => {
            let number = |()| r.bits() as u32 >> r.below(32);
            Start::Given(Record::from_numbers([(); NUMBERS].map(number)))
        }
        7 => Start::Given(Record::from_numbers([u32::MAX; NUMBERS])),
        _ => Start::Given(at_limit(r)),
    }
}

/// Kinds of accepted sheets that are small or have repeated indices, some with strengths.
const KINDS: [Kind; 16] = [
    Kind::Small,
    Kind::Small,
    Kind::Wild,
    Kind::Repeated,
    Kind::Repeated,
    Kind::Shared,
    Kind::Shared,
    Kind::Shared,
    Kind::Patches,
    Kind::Noise,
    Kind::Gated,
    Kind::Several,
    Kind::Chains,
    Kind::Ends,
    Kind::Weighed,
    Kind::Weighed,
];

/// A file that is refused with some number.
fn refused(r: &mut Random) -> Step {
    let number = r.whole(1, 12) as u8;
    match number {
        1 => return damage::framing(r, 0).into(),
        10.. => return super::drawn(Kind::DamagedPeels, r.bits() >> 16).into(),
        _ => {}
    }
    let mut sheet = super::sheet(Kind::Noise, r);
    while sheet.points.len() < 2 {
        sheet = super::sheet(Kind::Noise, r);
    }
    let buffer = damage::put_in(r, &mut sheet, &[number]);
    Step {
        buffer,
        file: sheet.to_file(),
    }
}

impl From<super::Case> for Step {
    fn from(case: super::Case) -> Step {
        Step {
            file: case.file,
            buffer: case.buffer,
        }
    }
}

/// One sheet: accepted, refused, without points, or with a buffer too short.
fn step(r: &mut Random) -> Step {
    let kind = r.pick(&KINDS);
    let mut accepted: Step = super::drawn(kind, r.bits() >> 16).into();
    match r.below(16) {
        0..3 => refused(r),
        3 => damage::scrambled(r, 0).into(),
        4 => Step {
            file: sheet(None, Vec::new()).to_file(),
            buffer: r.below(2) * ROW,
        },
        5 => {
            accepted.buffer = r.below(accepted.buffer + 1);
            accepted
        }
        6 | 7 => Step {
            file: few_indices(r).to_file(),
            buffer: 16 * ROW,
        },
        _ => accepted,
    }
}

fn sheet(rest: Option<Rest>, points: Vec<Point>) -> Sheet {
    Sheet {
        settings: Settings {
            cell_size: 100.0,
            rest,
        },
        gate: None,
        points,
        strengths: Strengths::Missing,
    }
}

/// A block of few indices, each at its own position, without the wrong-label filter: some of its
/// repeated indices are kept.
pub fn few_indices(r: &mut Random) -> Sheet {
    let (height, indices) = (r.whole(1, 4), r.whole(1, 12) as usize);
    let point = |k: i32| {
        let index = r.below(indices) as u32;
        Point::new(
            k / height,
            k % height,
            index,
            100.0 * index as f32,
            10.0 * (index % 3) as f32,
        )
    };
    let mut points: Vec<Point> = (0..height * 4).map(point).collect();
    points.retain(|_| !r.one_in(5));
    let rest = Rest {
        line_tolerance: r.pick(&[0.15, 100.0, 100.0]),
        wrong_label: 0,
        ..Rest::with_three()
    };
    sheet(Some(rest), points)
}

/// The run of a seed, with so many sheets.
pub fn run(seed: u64, sheets: usize) -> Run {
    let mut random = Random::new(!seed);
    let r = &mut random;
    let start = start(r);
    let steps = (0..sheets).map(|_| step(r)).collect();
    Run { seed, start, steps }
}
