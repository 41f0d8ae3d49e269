//! Pairs of files to be joined, through every program: the library's call, the second program, and, of the joined list, the
//! original and the file that is made of it.

use crate::compare::{self, Verdict};
use crate::generate::{self, numbers_that_meet, Condition, Expected, JoinKind, Pair};
use crate::joined;
use crate::library;
use crate::limits::{join::Seen, Met};
use crate::random::Random;
use crate::roots;
use crate::second::{self, All, Answer, Fault, FILTERS, LAST_NUMBER, ROW};
use crate::sheet::{Sheet, Strengths, MOST_RECORDS};
use std::collections::BTreeMap;

impl Pair {
    /// What the second program makes of it.
    pub fn answer(&self, fault: Fault) -> Answer {
        second::join(&self.left, &self.right, &self.shift, self.buffer, fault)
    }

    pub fn name(&self) -> String {
        format!("{:?} {}", self.kind, self.seed)
    }
}

/// Pair i of a run: the kinds in turn, each with rising seeds from `seed` on.
pub fn nth(seed: u64, i: usize) -> Pair {
    let kinds = JoinKind::ALL;
    let kind = kinds[i % kinds.len()].0;
    generate::pair(kind, seed + (i / kinds.len()) as u64)
}

/// The same two files with their points in another order.
fn another_listing(pair: &Pair) -> Pair {
    let mut r = Random::new(pair.seed);
    let mut mixed = |file: &[u8]| match Sheet::from_file(file) {
        Some(mut sheet) => {
            r.shuffle(&mut sheet.points);
            sheet.to_file()
        }
        None => file.to_vec(),
    };
    Pair {
        left: mixed(&pair.left),
        right: mixed(&pair.right),
        ..pair.clone()
    }
}

/// The joined sheet of two accepted files that none of 15 to 17 stops, and how many points are gone.
fn sheet(pair: &Pair) -> Option<(Sheet, usize)> {
    let files = [&pair.left, &pair.right];
    let mut numbers = files.iter().map(|file| second::refusal(file, pair.buffer));
    if numbers.any(|number| number.is_some()) {
        return None;
    }
    let [left, right] = files.map(|file| Sheet::from_file(file).unwrap());
    let both = [&left, &right];
    if joined::index_too_large(both) || joined::too_far(&pair.shift) || joined::one_weighed(both) {
        return None;
    }
    let (sheet, gone) = joined::join(&left, &right, &pair.shift);
    Some((sheet, gone.len()))
}

/// Whether the condition of a number holds in a pair.
fn holds(pair: &Pair, condition: Condition) -> bool {
    let [left, right] = [&pair.left, &pair.right].map(|file| Sheet::from_file(file));
    let own = |file: &[u8], number| second::refusal(file, pair.buffer) == Some(number);
    let both = |of: &dyn Fn(&Sheet, &Sheet) -> bool| {
        let sheets = left.as_ref().zip(right.as_ref());
        sheets.is_some_and(|(left, right)| of(left, right))
    };
    match condition {
        Condition::Left(number) => own(&pair.left, number),
        Condition::Right(number) => own(&pair.right, number),
        // Of one file too where the other is framed wrong.
        Condition::Join(15) => {
            let mut framed = [&left, &right].into_iter().flatten();
            framed.any(|one| joined::index_too_large([one, one]))
        }
        Condition::Join(16) => joined::too_far(&pair.shift),
        Condition::Join(_) => both(&|left, right| joined::one_weighed([left, right])),
        Condition::List(number) => both(&|left, right| {
            let (sheet, _) = joined::join(left, right, &pair.shift);
            joined::applies(number, &sheet, pair.buffer)
        }),
    }
}

/// What the generator knows otherwise of an answer.
fn unexpected(pair: &Pair, answer: &Answer) -> Option<String> {
    let found = match answer {
        Answer::Refused(number) => Expected::Refused(*number),
        Answer::Accepted { .. } => Expected::Accepted,
    };
    let wrong = pair.expected != Expected::Unknown && pair.expected != found;
    wrong.then(|| format!("expected {:?}, found {found:?}", pair.expected))
}

/// What is wrong with an answer beside those to other files: the same points in another order; the left file alone, where
/// the right one has no points.
fn beside_others(pair: &Pair, answer: &Answer) -> Option<String> {
    if another_listing(pair).answer(Fault::None) != *answer {
        return Some("another listing of the files".into());
    }
    let right = Sheet::from_file(&pair.right)?;
    let alone = second::answer(&pair.left, pair.buffer, Fault::None);
    let accepted = matches!(answer, Answer::Accepted { .. });
    let other = accepted && right.points.is_empty() && alone != *answer;
    other.then(|| "a right file without points, beside the left one alone".into())
}

/// The answer beside that to the file that is made of the joined list, if a file has room for it, through the second
/// program, the library and the original.
fn beside_file(pair: &Pair, sheet: &Sheet, answer: &Answer) -> Verdict {
    if sheet.points.len() > MOST_RECORDS {
        return match answer {
            Answer::Refused(2) => Verdict::Same,
            _ => Verdict::Different("more points than a field holds, yet not 2".into()),
        };
    }
    let file = sheet.to_file();
    let all = All::new(&file, pair.buffer);
    if all.answer != *answer {
        return Verdict::Different("another answer to the file of the joined list".into());
    }
    if let Answer::Refused(_) = answer {
        return Verdict::Same;
    }
    let library = library::difference_of_all(&file, pair.buffer, &all);
    match library.or_else(|| roots::residual_fault(&all.residuals)) {
        Some(text) => Verdict::Different(format!("the joined list: {text}")),
        None => compare::beside_original(&file, pair.buffer, answer),
    }
}

/// How a pair comes out, beside its joined sheet if that is made.
fn check(pair: &Pair, answer: &Answer, joined: Option<&Sheet>) -> Verdict {
    let wrong = unexpected(pair, answer)
        .or_else(|| library::join_difference(pair, answer))
        .or_else(|| beside_others(pair, answer));
    match (wrong, joined, answer) {
        (Some(text), ..) => Verdict::Different(text),
        (None, Some(sheet), _) => beside_file(pair, sheet, answer),
        (None, None, Answer::Refused(_)) => Verdict::Same,
        _ => Verdict::Different("accepted, though a number stops it".into()),
    }
}

/// Whether all programs agree on a pair.
pub fn agreed(pair: &Pair) -> bool {
    let joined = sheet(pair);
    let answer = pair.answer(Fault::None);
    match check(pair, &answer, joined.as_ref().map(|(sheet, _)| sheet)) {
        Verdict::Same => true,
        Verdict::AcosOnly => false,
        Verdict::Different(text) => panic!("{}: {text}", pair.name()),
    }
}

/// What runs of pairs met.
#[derive(Default)]
pub struct Report {
    pairs: usize,
    by_kind: Vec<[usize; 4]>,
    refused: [usize; LAST_NUMBER + 1],
    /// Of accepted pairs: points of the joined lists, right points that are gone, marks by filter, pairs with strengths,
    /// and rounds.
    points: usize,
    gone: usize,
    marks: [usize; FILTERS.len()],
    weighed: usize,
    rounds: usize,
    met: Met<Seen>,
    /// Pairs by the two conditions that hold in them.
    numbers: BTreeMap<[Condition; 2], usize>,
    acos: usize,
    pub failed: usize,
}

impl Report {
    fn count_accepted(&mut self, sheet: &Sheet, gone: usize, answer: &Answer) {
        let Answer::Accepted { rounds, rows, .. } = answer else {
            return;
        };
        self.points += sheet.points.len();
        self.gone += gone;
        self.rounds += rounds;
        self.weighed += usize::from(sheet.strengths != Strengths::Missing);
        for row in rows.chunks(ROW) {
            for (filter, count) in FILTERS.iter().zip(&mut self.marks) {
                *count += usize::from(filter.marks(row[0]));
            }
        }
    }

    fn add(&mut self, pair: &Pair) {
        let answer = pair.answer(Fault::None);
        let joined = sheet(pair);
        let verdict = check(pair, &answer, joined.as_ref().map(|(sheet, _)| sheet));
        if let Some((sheet, gone)) = &joined {
            self.count_accepted(sheet, *gone, &answer);
        }
        self.pairs += 1;
        self.by_kind.resize(JoinKind::ALL.len(), [0; 4]);
        let kind = &mut self.by_kind[pair.kind as usize];
        kind[0] += 1;
        match answer {
            Answer::Refused(number) => self.refused[usize::from(number)] += 1,
            Answer::Accepted { .. } => kind[1] += 1,
        }
        match verdict {
            Verdict::Same => {}
            Verdict::AcosOnly => {
                kind[2] += 1;
                self.acos += 1;
            }
            Verdict::Different(text) => {
                kind[3] += 1;
                self.failed += 1;
                if self.failed <= 20 {
                    println!("differs: {}: {text}", pair.name());
                }
            }
        }
        let seen = Seen::new(pair, &answer);
        seen.iter().for_each(|seen| self.met.add(seen));
        if let Some(both) = pair.conditions {
            let hold = both.into_iter().all(|one| holds(pair, one));
            *self.numbers.entry(both).or_default() += usize::from(hold);
        }
    }

    /// Each limit with how many pairs met it, then every two numbers that can meet likewise.
    pub fn each(&self) -> impl Iterator<Item = (String, usize)> + '_ {
        let limits = self.met.each();
        let limits = limits.map(|(name, pairs)| (name.to_string(), pairs));
        let numbers = numbers_that_meet().into_iter().map(|(_, _, both)| {
            let pairs = self.numbers.get(&both).copied().unwrap_or(0);
            (format!("{:?} and {:?}", both[0], both[1]), pairs)
        });
        limits.chain(numbers)
    }

    pub fn print(&self) {
        println!("kind           pairs  accepted acos differ");
        let kinds = JoinKind::ALL.iter().zip(&self.by_kind);
        for (&(kind, _), [pairs, accepted, acos, differ]) in kinds.filter(|(_, n)| n[0] > 0) {
            println!(
                "{:<14} {pairs:>6} {accepted:>8} {acos:>4} {differ:>6}",
                format!("{kind:?}")
            );
        }
        let letters: String = FILTERS.iter().map(|filter| filter.letter).collect();
        println!("refused with 1 to {LAST_NUMBER}: {:?}", &self.refused[1..]);
        println!(
            "joined points {} gone {} marks {letters} {:?}; pairs with strengths {}, their rounds {}",
            self.points, self.gone, self.marks, self.weighed, self.rounds
        );
        for (name, pairs) in self.met.each().filter(|(_, pairs)| *pairs > 0) {
            println!("{pairs:>6} pairs with {name}");
        }
        let all = numbers_that_meet().len();
        let least = self.numbers.values().min().copied().unwrap_or(0);
        let met = self.numbers.values().filter(|pairs| **pairs > 0).count();
        let missed = self.each().filter(|(_, pairs)| *pairs == 0);
        missed.for_each(|(name, _)| println!("no pair with {name}"));
        println!("of {all} times two numbers that can meet {met} met, the rarest in {least} pairs");
        let (pairs, acos, failed) = (self.pairs, self.acos, self.failed);
        let programs = match (library::functions().is_some(), cfg!(original_at_hand)) {
            (true, true) => "the library, the second program and the original",
            (true, false) => "the library and the second program",
            (false, true) => "the second program and the original",
            (false, false) => "the second program alone",
        };
        println!("{pairs} pairs through {programs}, {acos} differ by acos alone, {failed} differ");
    }
}

/// Compares so many pairs from a seed on, and one more for every two numbers that can meet.
pub fn run(pairs: usize, seed: u64) -> Report {
    let mut report = Report::default();
    for i in 0..pairs {
        report.add(&nth(seed, i));
    }
    for (kind, place, both) in numbers_that_meet() {
        let pair = generate::pair(kind, place);
        assert_eq!(pair.conditions, Some(both));
        report.add(&pair);
    }
    report
}
