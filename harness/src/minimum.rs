//! Document 02, A.9: generated sheets with short settings, the same with 4 spelled out, which must come out
//! alike, and with 3, which may not.

use crate::compare::{self, Verdict};
use crate::generate::{self, Case, Expected, Kind};
use crate::listing::Listing;
use crate::second::{All, FILTERS};
use crate::sheet::{self, Sheet};
use crate::text;

/// What may differ in a listing.
const PARTS: [&str; 5] = ["marks", "component counts", "rounds", "tallies", "fills"];

/// What the sheets came to.
#[derive(Default)]
pub struct Report {
    sheets: usize,
    pub failed: usize,
    /// Listings that 3 changes, of any kind and in each part, and in each mark's letter.
    pub differ: usize,
    parts: [usize; PARTS.len()],
    letters: [usize; FILTERS.len()],
    /// Of these with the fewest points, and of those without a repeated index.
    smallest: Option<Sheet>,
    distinct: Option<Sheet>,
}

/// The sheet of a case with short settings, if it is accepted.
fn short(case: &Case) -> Option<Sheet> {
    let sheet = Sheet::from_file(&case.file)?;
    let short = sheet.settings.rest.is_none();
    (short && case.expected == Expected::Accepted).then_some(sheet)
}

/// The case with all settings spelled out.
fn with(case: &Case, line_minimum: u16) -> Case {
    Case {
        file: sheet::spelled_out(&case.file, line_minimum),
        ..case.clone()
    }
}

fn fewer(held: &mut Option<Sheet>, sheet: &Sheet) {
    if held
        .as_ref()
        .is_none_or(|h| sheet.points.len() < h.points.len())
    {
        *held = Some(sheet.clone());
    }
}

impl Report {
    fn fails(&mut self, case: &Case, text: &str) {
        self.failed += 1;
        if self.failed <= 20 {
            println!("differs: {:?} {}: {text}", case.kind, case.seed);
        }
    }

    /// Counts in which parts two listings differ.
    fn count(&mut self, one: &Listing, other: &Listing) {
        let letters = |l: &Listing| -> Vec<String> {
            l.points.iter().map(|words| words[3].to_string()).collect()
        };
        let (one_marks, other_marks) = (letters(one), letters(other));
        let differ = [
            one_marks != other_marks,
            one.counts[3] != other.counts[3],
            one.counts[5] != other.counts[5],
            one.tally != other.tally,
            one.fills != other.fills,
        ];
        for (count, differs) in self.parts.iter_mut().zip(differ) {
            *count += usize::from(differs);
        }
        for (k, count) in self.letters.iter_mut().enumerate() {
            let pairs = one_marks.iter().zip(&other_marks);
            let differs = |(a, b): (&String, &String)| a.as_bytes()[k] != b.as_bytes()[k];
            *count += usize::from(pairs.clone().any(differs));
        }
    }

    /// One sheet: the three forms through every program.
    fn add(&mut self, case: &Case, sheet: &Sheet) {
        self.sheets += 1;
        let forms = [case.clone(), with(case, 4), with(case, 3)];
        let all = forms
            .each_ref()
            .map(|form| All::new(&form.file, form.buffer));
        for (form, all) in forms.iter().zip(&all) {
            if let Verdict::Different(text) = compare::check(form, all) {
                self.fails(form, &text);
            }
        }
        let [short, four, three] = all;
        if short.answer != four.answer || short.map != four.map || short.fills != four.fills {
            self.fails(case, "short and with 4");
        }
        let (one, other) = (short.answer.listing(), three.answer.listing());
        if one != other {
            self.differ += 1;
            fewer(&mut self.smallest, sheet);
            if !sheet.repeats_index() {
                fewer(&mut self.distinct, sheet);
            }
            if let (Some(one), Some(other)) = (Listing::new(&one), Listing::new(&other)) {
                self.count(&one, &other);
            }
        }
    }

    pub fn print(&self) {
        println!(
            "{} sheets with short settings: alike with 4 spelled out, {} fail; {} listings differ with 3",
            self.sheets, self.failed, self.differ
        );
        for (part, count) in PARTS.iter().zip(self.parts) {
            println!("  {count} in {part}");
        }
        for (filter, count) in FILTERS.iter().zip(self.letters) {
            println!("  {count} in the mark {}", filter.letter);
        }
        let shown = [
            ("of these", &self.smallest),
            ("without a repeated index", &self.distinct),
        ];
        for (what, sheet) in shown {
            if let Some(sheet) = sheet {
                println!("the smallest {what}:\n{}", text::to_text(sheet));
            }
        }
    }
}

/// So many accepted sheets with short settings, of all kinds in turn.
pub fn run(sheets: usize, seed: u64) -> Report {
    let mut report = Report::default();
    let mut i = 0;
    while report.sheets < sheets {
        let case = generate::nth_drawn(Kind::ALL, seed, i);
        i += 1;
        if let Some(sheet) = short(&case) {
            report.add(&case, &sheet);
        }
    }
    report
}
