//! The checks of the gate.

use crate::compare::{self, Report};
use crate::generate::{self, Kind};
use crate::joins;
use crate::minimum;
use crate::mutants::{self, Part};
use crate::properties;
use crate::roots;
use crate::runs;
use crate::sheet::Sheet;
use crate::stars;
use crate::text;
use crate::vectors::{self, Choice, Vectors};
use crate::worst;

/// Sheets with a gate, with strengths, and with a tag 4 of another length.
fn text_and_back() -> bool {
    let kinds = [Kind::Gated, Kind::Weighed, Kind::DamagedPeels];
    let mut seeds = (0..200).flat_map(|seed| kinds.map(|kind| (kind, seed)));
    seeds.all(|(kind, seed)| {
        let file = generate::case(kind, seed).file;
        let sheet = Sheet::from_file(&file).unwrap();
        text::from_text(&text::to_text(&sheet)).unwrap().to_file() == file
    })
}

/// Generated sheets of some kinds through both programs, or through the second alone.
fn comparison(of: &str, report: &Report) -> (String, bool) {
    report.print();
    let name = if cfg!(original_at_hand) {
        "the original and the second program agree"
    } else {
        "damaged files get their numbers, the others none"
    };
    (format!("{of}: {name}"), report.failed == 0)
}

/// The sheets of the first kinds, then those made for the map, those with strengths, those with dropped points and
/// those about roots, which must meet each limit of theirs.
fn comparisons() -> Vec<(String, bool)> {
    let sheets = compare::run(Kind::first(), 4600, 1);
    let maps = compare::run(Kind::for_map(), 900, 1);
    let peels = compare::run(Kind::for_peels(), 4800, 1);
    let fills = compare::run(Kind::for_fills(), 3600, 1);
    let roots = compare::run(Kind::for_roots(), 2100, 1);
    let mut checks = vec![
        comparison("sheets of the first kinds", &sheets),
        comparison("sheets made for the map", &maps),
        comparison("sheets with strengths", &peels),
        comparison("sheets with dropped points", &fills),
        comparison("sheets about roots", &roots),
    ];
    checks.push((
        "sheets that reach the bound on the rounds, of each class".into(),
        peels.bound.met(),
    ));
    let met = maps.met.each().chain(peels.met_by_peels.each());
    let met = met.chain(fills.met_by_fills.each());
    let met = met.chain(roots.met_by_roots.each());
    checks.extend(met.map(|(name, sheets)| (format!("a sheet with {name}"), sheets > 0)));
    checks
}

/// The sheets that take longest, those of the kinds beside them, and the bound on the rounds on all sheets of small
/// blocks.
fn longest() -> Vec<(String, bool)> {
    let report = worst::run(None);
    report.print();
    let beside = compare::run(Kind::for_worst(), 300, 1);
    let blocks = worst::blocks(worst::CELLS);
    blocks.print();
    vec![
        (
            "the sheets that take longest: n - 1 rounds".into(),
            report.failed == 0,
        ),
        comparison("the sheets that take longest and others", &beside),
        (
            format!(
                "the bound on the rounds, all small blocks: {:?}",
                blocks.failure
            ),
            blocks.failure.is_none() && blocks.bound.met(),
        ),
    ]
}

/// Sheets with short settings, with 4 and with 3 spelled out.
fn short_settings() -> Vec<(String, bool)> {
    let report = minimum::run(900, 1);
    report.print();
    vec![
        ("short settings: as with 4".into(), report.failed == 0),
        ("a listing that 3 changes".into(), report.differ > 0),
    ]
}

/// Runs from records of every kind, which must meet each limit of a run.
fn runs() -> Vec<(String, bool)> {
    let report = runs::run(900, generate::RUN_OF, 1);
    report.print();
    let name = "runs: sums, another order, another listing";
    let mut checks = vec![(name.to_string(), report.failed == 0)];
    let met = report.met.each();
    checks.extend(met.map(|(name, calls)| (format!("a call with {name}"), calls > 0)));
    let (unnoticed, noticed) = runs::first_unnoticed(60, 2);
    println!("{noticed} wrong runs, which the book notices");
    checks.push((
        format!("the book notices every wrong run: {unnoticed:?}"),
        unnoticed.is_none() && noticed > 0,
    ));
    checks
}

/// Pairs of files to be joined, which must meet each limit of a join and every two numbers that can meet.
fn joined() -> Vec<(String, bool)> {
    let report = joins::run(1620, 1);
    report.print();
    let name = "joins: the file of the joined list, another listing, the original";
    let mut checks = vec![(name.to_string(), report.failed == 0)];
    checks.extend(
        report
            .each()
            .map(|(name, pairs)| (format!("a pair with {name}"), pairs > 0)),
    );
    checks
}

/// Whether some generated case shows each fault of a part that one can show.
fn faults<C, T: PartialEq>(part: &Part<C, T>) -> Vec<(String, bool)> {
    let shown = mutants::run(part, 27_000, 0, true);
    let faults = part.faults.iter().zip(shown);
    let can = faults.filter(|((fault, _), _)| part.hides(*fault).is_none());
    can.map(|((_, text), (seen, _))| (format!("a {} shows the fault: {text}", part.case), seen > 0))
        .collect()
}

/// What holds of every tally.
fn tallies(kinds: &[(Kind, &str)]) -> (String, bool) {
    let (failure, repeated) = properties::first_tally_failure(kinds, 810, 2);
    println!("of 810 tallies {repeated} with a repeated index");
    let holds = failure.is_none() && repeated > 0;
    (
        format!("tallies: indices, cells, listing: {failure:?}"),
        holds,
    )
}

/// What holds of all weak ends.
fn peels() -> Vec<(String, bool)> {
    let of_strengths = properties::peels(Kind::for_peels(), 1800, 2);
    let of_others = properties::peels(Kind::first(), 270, 2);
    println!(
        "of 1800 sheets with strengths {} with rounds, {} of them kept by a whole move, {} with a tag 4 of another length",
        of_strengths.with_rounds, of_strengths.moved, of_strengths.misfits
    );
    let (unread, noticed) = properties::first_unread_peel(300, 2);
    println!("{noticed} wrong peels, which the reader notices");
    vec![
        (
            format!("weak ends: {:?}", of_strengths.failure),
            of_strengths.failure.is_none() && of_strengths.moved > 0 && of_strengths.misfits > 0,
        ),
        (
            format!("no weak ends without strengths: {:?}", of_others.failure),
            of_others.failure.is_none() && of_others.with_rounds == 0,
        ),
        (
            format!("the reader notices every wrong peel: {unread:?}"),
            unread.is_none() && noticed > 0,
        ),
    ]
}

/// What holds of all fills.
fn fills() -> Vec<(String, bool)> {
    let of = |name: &str, kinds, sheets| {
        let filled = properties::fills(kinds, sheets, 2);
        println!(
            "of {sheets} {name} {} with a pair; of these {} taken along by a whole move, {} with other dropped points",
            filled.with_pairs, filled.moved, filled.changed
        );
        let some = filled.with_pairs > 0 && filled.moved > 0 && filled.changed > 0;
        let holds = filled.failure.is_none() && some;
        (format!("fills of {name}: {:?}", filled.failure), holds)
    };
    let (unread, noticed) = properties::first_unread_fill(300, 2);
    println!("{noticed} wrong listings of fills, which the reader notices");
    vec![
        of("sheets with dropped points", Kind::for_fills(), 1800),
        of("sheets of the first kinds", Kind::first(), 810),
        of("sheets with strengths", Kind::for_peels(), 810),
        (
            format!("the reader notices every wrong fill: {unread:?}"),
            unread.is_none() && noticed > 0,
        ),
    ]
}

/// The roots of many numbers, and what a listing shows of those of residuals.
fn roots() -> Vec<(String, bool)> {
    let numbers = roots::numbers(300_000, 1);
    numbers.print();
    let of = |name: &str, kinds, sheets| {
        let (failure, read) = properties::first_residual_failure(kinds, sheets, 2);
        println!("of {sheets} {name}: {read:?}");
        let holds = failure.is_none() && read.equal > 0;
        (format!("residuals of {name}: {failure:?}"), holds)
    };
    let (unread, noticed) = properties::first_unread_residual(700, 2);
    println!("{noticed} wrong listings of residuals, which the reader notices");
    vec![
        ("roots over whole numbers".into(), roots::every(4099)),
        (
            format!("roots of special numbers: {:?}", numbers.failure),
            numbers.failure.is_none(),
        ),
        of("sheets about roots", Kind::for_roots(), 2100),
        of("sheets of the first kinds", Kind::first(), 810),
        (
            format!("the reader notices every `=` that digits rule out: {unread:?}"),
            unread.is_none() && noticed > 0,
        ),
    ]
}

/// What holds of every sheet and every map.
fn properties() -> Vec<(String, bool)> {
    let sheets = |kinds| {
        let failure = properties::first_failure(kinds, 810, 2);
        (
            format!("order, move and switches: {failure:?}"),
            failure.is_none(),
        )
    };
    let maps = |kinds| {
        let (failure, moved) = properties::first_map_failure(kinds, 810, 2);
        println!("of 810 maps {moved} with a whole move that keeps the validate marks");
        let holds = failure.is_none() && moved > 0;
        (format!("maps: form, order and move: {failure:?}"), holds)
    };
    let (unread, noticed) = properties::first_unread(150, 2);
    println!("{noticed} wrong maps, which the reader notices");
    let reader = (
        format!("the reader notices every wrong map: {unread:?}"),
        unread.is_none() && noticed > 0,
    );
    let mut checks = vec![
        sheets(Kind::first()),
        sheets(Kind::for_peels()),
        sheets(Kind::for_fills()),
        sheets(Kind::for_roots()),
        reader,
    ];
    let all = [
        Kind::first(),
        Kind::for_map(),
        Kind::for_peels(),
        Kind::for_fills(),
    ];
    checks.extend(all.map(maps));
    checks.extend(all.map(tallies));
    checks.extend(peels());
    checks.extend(fills());
    checks
}

/// Whether the recorded files of the vector crates are those that are made here. The sheets are
/// chosen with the original's help.
fn recorded() -> Vec<(String, bool)> {
    let check = |crate_name: &str, made: Vectors| {
        let holds = made.recorded(crate_name);
        (format!("the recorded files of {crate_name}"), holds)
    };
    let mut checks = vec![
        check("float_vectors", vectors::float()),
        check("sheet_file_vectors", vectors::sheet_file()),
        check("run_vectors", vectors::run()),
    ];
    if cfg!(original_at_hand) {
        let made = vectors::sheet(&Choice::RECORDED);
        checks.push(check("sheet_vectors", made));
        checks.push(check("join_vectors", vectors::join()));
    }
    checks
}

/// Runs all checks; true if all hold.
pub fn run() -> bool {
    let mut checks = stars::checks();
    checks.extend(comparisons());
    checks.extend(longest());
    checks.extend(short_settings());
    checks.extend(runs());
    checks.extend(joined());
    checks.extend(faults(&mutants::answers()));
    checks.extend(faults(&mutants::maps()));
    checks.extend(faults(&mutants::runs()));
    checks.extend(faults(&mutants::peels()));
    checks.extend(faults(&mutants::fills()));
    checks.extend(faults(&mutants::roots()));
    checks.extend(faults(&mutants::numbers()));
    checks.extend(faults(&mutants::worst()));
    checks.extend(faults(&mutants::worst_rounds()));
    checks.extend(faults(&mutants::joins()));
    checks.extend(properties());
    checks.push(("text and back".into(), text_and_back()));
    checks.extend(roots());
    checks.extend(recorded());
    let failed = checks.iter().filter(|(_, holds)| !holds).count();
    for (name, _) in checks.iter().filter(|(_, holds)| !holds) {
        println!("failed: {name}");
    }
    println!("{} passed, {failed} failed", checks.len() - failed);
    failed == 0
}
