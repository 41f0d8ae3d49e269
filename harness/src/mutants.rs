//! Deliberate faults of the second program, and how many sheets, runs or pairs show each.

use crate::generate::{self, Case, Kind, Pair, Run};
use crate::joins;
use crate::random::Random;
use crate::second::{self, Answer, Fault, Fills, InRun, Map, WholeRoot, ROOM};

/// A list of faults, each with what is wrong or with why none can show it.
type Faults = &'static [(Fault, &'static str)];

/// The faults that no sheet shows.
const NO_SHEET: Faults = &[(
    Fault::Rule3ByCell,
    "rule 3 visits only indices without a line flag, and rules 1 to 3 mark only indices with \
     one, so no visit changes what another finds",
)];

/// The fault of the fills that no sheet shows.
const NO_FILLS: Faults = &[(
    Fault::FillLastFirst,
    "there are two pairs at most, and a sum of two numbers from +0 on is the same in either order",
)];

/// The faults of the sheet that takes longest that leave it as many rounds: only its bytes tell.
const NO_ROUNDS: Faults = &[
    (Fault::WorstFirstStrong, "the row goes from its other end"),
    (Fault::WorstCell8, "no two points are closer than 0.2 cells"),
    (Fault::WorstIndexFrom1, "indices only tell points apart"),
    (Fault::WorstCellsFrom1, "a whole move"),
    (Fault::WorstColumn, "a row along v"),
    (Fault::WorstAcross, "the positions lie on another line"),
    (Fault::WorstFalling, "another order"),
    (Fault::WorstShortSettings, "no line flag in a straight row"),
    (Fault::WorstMinimum4, "no line flag in a straight row"),
    (Fault::WorstSwitchOff, "the rounds come before the patches"),
    (Fault::WorstGate, "no point fails it"),
];

/// A fault's count of cases that show it, and the name of the first that does.
type Shown = Vec<(usize, Option<String>)>;

/// Faults of one part of the second program, the cases that should show them, and what is looked at.
pub struct Part<C, T> {
    pub faults: Faults,
    /// What a case is, and what several are.
    pub case: &'static str,
    pub cases: &'static str,
    /// Case i from a seed on.
    nth: fn(u64, usize) -> C,
    name: fn(&C) -> String,
    outcome: fn(&C, Fault) -> T,
    /// Those that no case can show, with why.
    hidden: Faults,
}

fn sheet_name(case: &Case) -> String {
    format!("{:?} {}", case.kind, case.seed)
}

/// The answer to a file.
pub fn answers() -> Part<Case, Answer> {
    Part {
        faults: Fault::ALL,
        case: "sheet",
        cases: "sheets",
        nth: |seed, i| generate::nth(Kind::first(), seed, i),
        name: sheet_name,
        outcome: |case, fault| second::answer(&case.file, case.buffer, fault),
        hidden: NO_SHEET,
    }
}

/// The answer to a file with strengths, and its map.
pub fn peels() -> Part<Case, (Answer, Map)> {
    Part {
        faults: Fault::PEEL,
        case: "sheet",
        cases: "sheets",
        nth: |seed, i| generate::nth(Kind::for_peels(), seed, i),
        name: sheet_name,
        outcome: |case, fault| {
            let answer = second::answer(&case.file, case.buffer, fault);
            (answer, second::map(&case.file, fault))
        },
        hidden: &[],
    }
}

/// The answer to a file, its listing with it, and its fills, asked for with a buffer of the same length.
pub fn fills() -> Part<Case, (Answer, Fills)> {
    Part {
        faults: Fault::FILL,
        case: "sheet",
        cases: "sheets",
        nth: |seed, i| generate::nth(Kind::for_fills(), seed, i),
        name: sheet_name,
        outcome: |case, fault| {
            let answer = second::answer(&case.file, case.buffer, fault);
            (answer, second::fills(&case.file, case.buffer, fault))
        },
        hidden: NO_FILLS,
    }
}

/// The answer to a file, its listing with it.
pub fn roots() -> Part<Case, Answer> {
    Part {
        faults: Fault::ROOT,
        case: "sheet",
        cases: "sheets",
        nth: |seed, i| generate::nth(Kind::for_roots(), seed, i),
        name: sheet_name,
        outcome: |case, fault| second::answer(&case.file, case.buffer, fault),
        hidden: &[],
    }
}

/// The root of a number.
pub fn numbers() -> Part<u32, Option<WholeRoot>> {
    Part {
        faults: Fault::NUMBER,
        case: "number",
        cases: "numbers",
        nth: |seed, i| generate::number(&mut Random::new(seed + i as u64)),
        name: |bits| format!("{bits:08X}"),
        outcome: |bits, fault| second::whole_root(f32::from_bits(*bits), fault),
        hidden: &[],
    }
}

/// The map.
pub fn maps() -> Part<Case, Map> {
    Part {
        faults: Fault::MAP,
        case: "sheet",
        cases: "sheets",
        nth: |seed, i| generate::nth(Kind::for_map(), seed, i),
        name: sheet_name,
        outcome: |case, fault| second::map(&case.file, fault),
        hidden: &[],
    }
}

/// What the calls of a run hand back, one after the other.
pub fn runs() -> Part<Run, Vec<InRun>> {
    Part {
        faults: Fault::RUN,
        case: "run",
        cases: "runs",
        nth: |seed, i| generate::run(seed + i as u64, generate::RUN_OF),
        name: |run| run.seed.to_string(),
        outcome: Run::through,
        hidden: &[],
    }
}

/// The answer to two files.
pub fn joins() -> Part<Pair, Answer> {
    Part {
        faults: Fault::JOIN,
        case: "pair",
        cases: "pairs",
        nth: joins::nth,
        name: Pair::name,
        outcome: Pair::answer,
        hidden: &[],
    }
}

/// Arguments as a person would type them.
fn typed(arguments: &[Vec<u8>]) -> String {
    let word = |bytes: &Vec<u8>| format!("'{}'", bytes.escape_ascii());
    let words: Vec<String> = arguments.iter().map(word).collect();
    match words.len() {
        0 => "no arguments".into(),
        _ => words.join(" "),
    }
}

/// What is written for arguments.
pub fn worst() -> Part<Vec<Vec<u8>>, Vec<u8>> {
    Part {
        faults: Fault::WORST,
        case: "list of arguments",
        cases: "lists of arguments",
        nth: generate::arguments,
        name: |arguments| typed(arguments),
        outcome: |arguments, fault| second::worst(arguments, fault),
        hidden: &[],
    }
}

/// The rounds of what is written for arguments, or its number; none where nothing is written.
pub fn worst_rounds() -> Part<Vec<Vec<u8>>, Option<Result<usize, u8>>> {
    Part {
        faults: Fault::WORST,
        case: "count of rounds",
        cases: "counts of rounds, each of what is written for a list of arguments",
        nth: generate::arguments,
        name: |arguments| typed(arguments),
        outcome: |arguments, fault| {
            let file = second::worst(arguments, fault);
            if file.is_empty() {
                return None;
            }
            Some(match second::answer(&file, ROOM, Fault::None) {
                Answer::Refused(number) => Err(number),
                Answer::Accepted { rounds, .. } => Ok(rounds),
            })
        },
        hidden: NO_ROUNDS,
    }
}

impl<C, T> Part<C, T> {
    /// Why no case shows a fault, if none can.
    pub fn hides(&self, fault: Fault) -> Option<&'static str> {
        let hidden = self.hidden.iter().find(|(one, _)| *one == fault);
        hidden.map(|(_, why)| *why)
    }
}

/// How many of the cases show each fault, in the order of the part's list. With `once` a fault is
/// left alone after the first case that shows it, and the search ends when all are seen.
pub fn run<C, T: PartialEq>(part: &Part<C, T>, cases: usize, seed: u64, once: bool) -> Shown {
    let mut shown: Shown = vec![(0, None); part.faults.len()];
    for i in 0..cases {
        let faults = part.faults.iter().enumerate();
        let open = faults.filter(|(k, _)| !once || shown[*k].0 == 0);
        let open: Vec<(usize, Fault)> = open.map(|(k, &(fault, _))| (k, fault)).collect();
        if once && open.iter().all(|&(_, fault)| part.hides(fault).is_some()) {
            break;
        }
        let case = (part.nth)(seed, i);
        let right = (part.outcome)(&case, Fault::None);
        for (k, fault) in open {
            if (part.outcome)(&case, fault) != right {
                shown[k].0 += 1;
                shown[k].1.get_or_insert_with(|| (part.name)(&case));
            }
        }
    }
    shown
}

/// How many faults went unseen that a case could show, or were shown though none can.
pub fn unseen<C, T>(part: &Part<C, T>, shown: &Shown) -> usize {
    let faults = part.faults.iter().zip(shown);
    faults
        .filter(|((fault, _), (count, _))| (*count == 0) != part.hides(*fault).is_some())
        .count()
}

pub fn print<C, T>(part: &Part<C, T>, cases: usize, shown: &Shown) {
    println!("of {cases} {}, those that show the fault:", part.cases);
    for (&(fault, text), (count, first)) in part.faults.iter().zip(shown) {
        let note = match (first, part.hides(fault)) {
            (Some(name), None) => format!("first {name}"),
            (Some(name), Some(_)) => format!("first {name}, THOUGH NONE CAN"),
            (None, Some(why)) => format!("none can: {why}"),
            (None, None) => "UNSEEN".into(),
        };
        println!("{count:>6} {:<20} {text} ({note})", format!("{fault:?}"));
    }
}
