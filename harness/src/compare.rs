//! The original against the second program, sheet by sheet.

use crate::angles;
use crate::bound::Bound;
use crate::generate::{self, Case, Expected, Kind};
use crate::library;
use crate::limits::{self, fills, map, peel, Met};
use crate::roots;
use crate::run_original::{Held, Prepared};
use crate::second::{
    self, All, Answer, Distance, Fault, Fill, InRun, Map, Record, FILTERS, LAST_NUMBER, ROW,
};
use crate::sheet::{Point, Sheet, Strengths};
use crate::text;

/// How one case came out.
#[derive(Debug)]
pub enum Verdict {
    Same,
    /// The two differ, and not if the second program judges angles by the Rust's acos.
    AcosOnly,
    Different(String),
}

/// How often each run of the original is repeated: its hash order is random.
const RUNS: usize = 2;

/// A row of the second program with the Rust's angle in the place of each cosine.
fn row_with_angles(row: &[u8]) -> [u8; ROW] {
    let mut out: [u8; ROW] = row.try_into().unwrap();
    for k in [1, 3] {
        if out[2] >> k & 1 == 1 {
            let at = 8 + 4 * k;
            let cosine = f32::from_le_bytes(out[at..at + 4].try_into().unwrap());
            out[at..at + 4].copy_from_slice(&angles::degrees(cosine).to_le_bytes());
        }
    }
    out
}

/// The first of the dropped points, in cell order, that the original finds another position for; it
/// is given the points that it keeps itself.
fn fill_difference(points: &[&Point], held: &Held, fills: &[Fill]) -> Option<String> {
    let mut ours = fills.iter();
    for p in points.iter().filter(|p| held.row(p.index)[0] > 0) {
        let (pairs, bits) = held.fill(p.u, p.v);
        let theirs = Fill {
            u: p.u,
            v: p.v,
            pairs,
            bits,
        };
        let ours = ours.next();
        if ours != Some(&theirs) {
            return Some(format!("fill: {theirs:X?} and {ours:X?}"));
        }
    }
    ours.next().map(|fill| format!("fill: none and {fill:X?}"))
}

/// The first place where what the original holds differs from an answer.
fn difference(sheet: &Sheet, held: &Held, answer: &Answer) -> Option<String> {
    let Answer::Accepted {
        components,
        rounds,
        rows,
        fills,
        ..
    } = answer
    else {
        return Some("refused".into());
    };
    if held.components() != *components {
        return Some(format!("components {} and {components}", held.components()));
    }
    if held.rounds != *rounds {
        return Some(format!("rounds {} and {rounds}", held.rounds));
    }
    let mut points: Vec<_> = sheet.points.iter().collect();
    points.sort_by_key(|p| (p.u, p.v));
    for (p, row) in points.iter().zip(rows.chunks(ROW)) {
        let (theirs, ours) = (held.row(p.index), row_with_angles(row));
        if theirs != ours {
            return Some(format!(
                "cell {} {}: {theirs:02X?} and {ours:02X?}",
                p.u, p.v
            ));
        }
    }
    fill_difference(&points, held, fills)
}

/// Whether a number, or none, is what the generator knows of it.
fn as_expected(expected: Expected, found: Expected) -> Result<(), String> {
    if expected != Expected::Unknown && found != expected {
        return Err(format!("expected {expected:?}, found {found:?}"));
    }
    Ok(())
}

/// What the generator says otherwise of a map.
fn map_difference(case: &Case, map: &Map) -> Option<String> {
    let refusal = match map {
        Err(number) => Expected::Refused(*number),
        Ok(_) => Expected::Accepted,
    };
    let wrong = as_expected(case.map, refusal).err();
    wrong.map(|text| format!("map: {text}"))
}

/// What the library's call in a run that starts now, where its tally shows, says otherwise of an answer.
fn run_difference(case: &Case, answer: &Answer) -> Option<String> {
    let before = Record::new();
    let record = match answer {
        Answer::Accepted { tally, .. } => before.after(tally, Fault::None),
        Answer::Refused(_) => before,
    };
    let handed = InRun {
        answer: answer.clone(),
        written: answer.rows().to_vec(),
        record,
    };
    library::run_difference(&case.file, case.buffer, &before, &handed)
}

/// Compares one case with all that is made of it.
pub fn check(case: &Case, all: &All) -> Verdict {
    let answer = &all.answer;
    let refusal = match answer {
        Answer::Refused(number) => Expected::Refused(*number),
        Answer::Accepted { .. } => Expected::Accepted,
    };
    if let Err(text) = as_expected(case.expected, refusal) {
        return Verdict::Different(text);
    }
    let library = library::difference_of_all(&case.file, case.buffer, all);
    let library = library.or_else(|| run_difference(case, answer));
    let own = map_difference(case, &all.map).or_else(|| roots::residual_fault(&all.residuals));
    if let Some(text) = library.or(own) {
        return Verdict::Different(text);
    }
    if refusal != Expected::Accepted {
        return Verdict::Same;
    }
    beside_original(&case.file, case.buffer, answer)
}

/// What the original makes of an accepted file, beside an answer.
pub fn beside_original(file: &[u8], buffer: usize, answer: &Answer) -> Verdict {
    let Some(sheet) = Sheet::from_file(file) else {
        return Verdict::Different("accepted, yet not well framed".into());
    };
    let mut verdict = Verdict::Same;
    for _ in 0..RUNS {
        // A fresh preparation has fresh hash maps, hence another order.
        let Some(prepared) = Prepared::new(&sheet) else {
            return Verdict::Same;
        };
        let held = prepared.run();
        if let Some(text) = difference(&sheet, &held, answer) {
            let by_acos = second::answer(file, buffer, Fault::AnglesByAcos);
            if difference(&sheet, &held, &by_acos).is_some() {
                return Verdict::Different(text);
            }
            verdict = Verdict::AcosOnly;
        }
    }
    verdict
}

/// What a run of comparisons met.
#[derive(Default)]
pub struct Report {
    pub sheets: usize,
    pub failed: usize,
    pub acos: usize,
    by_kind: Vec<[usize; 4]>,
    refused: [usize; LAST_NUMBER + 1],
    /// Accepted sheets with an index at several cells, and those with strengths.
    repeated: usize,
    weighed: usize,
    /// Rounds of all sheets, and the most of one.
    rounds: usize,
    most_rounds: usize,
    points: usize,
    /// By filter.
    marks: [usize; FILTERS.len()],
    reasons: [usize; 4],
    without_fit: usize,
    not_a_number: usize,
    infinite: usize,
    exact: usize,
    /// Maps drawn, their lines, and maps refused by number.
    maps: usize,
    lines: usize,
    no_maps: [usize; LAST_NUMBER + 1],
    pub met: Met<map::Seen>,
    pub met_by_peels: Met<peel::Seen>,
    pub met_by_fills: Met<fills::Seen>,
    pub met_by_roots: Met<limits::roots::Seen>,
    /// By pairs.
    fills: [usize; 3],
    /// Sheets with strengths, beside the bound on their rounds.
    pub bound: Bound,
    smallest_acos: Option<(usize, Case)>,
}

impl Report {
    fn count_rows(&mut self, rows: &[u8]) {
        for row in rows.chunks(ROW) {
            self.points += 1;
            for (filter, count) in FILTERS.iter().zip(&mut self.marks) {
                *count += usize::from(filter.marks(row[0]));
            }
            self.reasons[usize::from(row[1])] += 1;
            let residual = f32::from_le_bytes(row[8..12].try_into().unwrap());
            self.without_fit += usize::from(row[2] & 1 == 0);
            self.not_a_number += usize::from(residual.is_nan());
            self.infinite += usize::from(residual.is_infinite());
        }
    }

    fn count_fills(&mut self, sheet: &Sheet, rows: &[u8], fills: &[Fill]) {
        for fill in fills {
            self.fills[fill.pairs as usize] += 1;
        }
        let seen = fills::Seen::new(sheet, rows, fills);
        seen.iter().for_each(|seen| self.met_by_fills.add(seen));
    }

    fn count_residuals(&mut self, sheet: &Sheet, residuals: &[Option<Distance>]) {
        let exact = residuals.iter().flatten();
        self.exact += exact.filter(|one| one.is_exact(Fault::None)).count();
        let indices: Vec<u32> = sheet.points.iter().map(|p| p.index).collect();
        let seen = limits::roots::Seen::new(residuals, &indices);
        seen.iter().for_each(|seen| self.met_by_roots.add(seen));
    }

    fn count_sheet(&mut self, sheet: &Sheet, rows: &[u8], rounds: usize) {
        self.count_rows(rows);
        self.repeated += usize::from(sheet.repeats_index());
        self.rounds += rounds;
        self.most_rounds = self.most_rounds.max(rounds);
        let seen = map::Seen::new(sheet, rows);
        seen.iter().for_each(|seen| self.met.add(seen));
        let seen = peel::Seen::new(sheet, rows, rounds);
        seen.iter().for_each(|seen| self.met_by_peels.add(seen));
    }

    /// Holds the rounds of a sheet with strengths against their bound.
    fn count_rounds(&mut self, sheet: &Sheet, answer: &Answer) -> Option<String> {
        if sheet.strengths == Strengths::Missing {
            return None;
        }
        self.weighed += 1;
        self.bound.add(sheet, answer)
    }

    fn count_map(&mut self, map: &Map) {
        match map {
            Err(number) => self.no_maps[usize::from(*number)] += 1,
            Ok(text) => {
                self.maps += 1;
                self.lines += text.lines().count();
            }
        }
    }

    /// Counts how a case came out, keeps the smallest that only acos explains and prints the first that differ.
    fn count_verdict(&mut self, case: &Case, verdict: Verdict) {
        let kind = &mut self.by_kind[case.kind as usize];
        match verdict {
            Verdict::Same => {}
            Verdict::AcosOnly => {
                kind[2] += 1;
                self.acos += 1;
                let size = case.file.len();
                if self
                    .smallest_acos
                    .as_ref()
                    .is_none_or(|(least, _)| size < *least)
                {
                    self.smallest_acos = Some((size, case.clone()));
                }
            }
            Verdict::Different(text) => {
                kind[3] += 1;
                self.failed += 1;
                if self.failed <= 20 {
                    println!("differs: {:?} seed {}: {text}", case.kind, case.seed);
                }
            }
        }
    }

    fn add(&mut self, case: &Case) {
        let all = All::new(&case.file, case.buffer);
        let answer = &all.answer;
        self.count_map(&all.map);
        self.sheets += 1;
        self.by_kind.resize(Kind::ALL.len(), [0; 4]);
        let kind = &mut self.by_kind[case.kind as usize];
        kind[0] += 1;
        match answer {
            Answer::Refused(number) => self.refused[usize::from(*number)] += 1,
            Answer::Accepted { .. } => kind[1] += 1,
        }
        let mut verdict = check(case, &all);
        if let Answer::Accepted {
            rows,
            rounds,
            fills,
            ..
        } = answer
        {
            let sheet = Sheet::from_file(&case.file).unwrap();
            self.count_sheet(&sheet, rows, *rounds);
            self.count_fills(&sheet, rows, fills);
            self.count_residuals(&sheet, &all.residuals);
            if let Some(text) = self.count_rounds(&sheet, answer) {
                verdict = Verdict::Different(text);
            }
        }
        self.count_verdict(case, verdict);
    }

    fn print_sheets(&self) {
        let letters: String = FILTERS.iter().map(|filter| filter.letter).collect();
        println!("refused with 1 to {LAST_NUMBER}: {:?}", &self.refused[1..]);
        println!(
            "points {} marks {letters} {:?} reasons 1 to 3 {:?}; sheets with a repeated index {}",
            self.points,
            self.marks,
            &self.reasons[1..],
            self.repeated
        );
        println!(
            "accepted sheets with strengths {}, their rounds {}, the most of one {}",
            self.weighed, self.rounds, self.most_rounds
        );
        self.bound.print();
        println!("fills of no pair, one, two: {:?}", self.fills);
        println!(
            "residuals: none {} NaN {} infinite {} exact {}",
            self.without_fit, self.not_a_number, self.infinite, self.exact
        );
    }

    fn print_maps(&self) {
        println!(
            "maps {} lines {} refused with 1 to {LAST_NUMBER}: {:?}",
            self.maps,
            self.lines,
            &self.no_maps[1..]
        );
        let met = self.met.each().chain(self.met_by_peels.each());
        let met = met.chain(self.met_by_fills.each());
        let met = met.chain(self.met_by_roots.each());
        for (name, sheets) in met.filter(|(_, sheets)| *sheets > 0) {
            println!("{sheets:>6} sheets with {name}");
        }
    }

    pub fn print(&self) {
        println!("kind           sheets accepted acos differ");
        let kinds = Kind::ALL.iter().zip(&self.by_kind);
        for (&(kind, _), [sheets, accepted, acos, differ]) in kinds.filter(|(_, n)| n[0] > 0) {
            println!(
                "{:<14} {sheets:>6} {accepted:>8} {acos:>4} {differ:>6}",
                format!("{kind:?}")
            );
        }
        self.print_sheets();
        self.print_maps();
        if let Some((_, case)) = &self.smallest_acos {
            println!(
                "smallest sheet that only acos explains ({:?} seed {}):",
                case.kind, case.seed
            );
            print!("{}", text::to_text(&Sheet::from_file(&case.file).unwrap()));
        }
        let (sheets, acos, failed) = (self.sheets, self.acos, self.failed);
        if cfg!(original_at_hand) {
            let alike = sheets - acos - failed;
            println!(
                "{sheets} sheets, {alike} alike, {acos} differ by acos alone, {failed} differ"
            );
        } else {
            println!("{sheets} sheets through the second program alone, {failed} differ");
        }
    }
}

/// Compares `sheets` cases from a seed on, of some kinds in turn.
pub fn run(kinds: &[(Kind, &str)], sheets: usize, seed: u64) -> Report {
    let mut report = Report::default();
    for i in 0..sheets {
        report.add(&generate::nth(kinds, seed, i));
    }
    report
}
