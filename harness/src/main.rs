//! The harness: the Rust original, a second program, generated sheets, and what runs them.

mod angles;
mod bench;
mod bound;
mod clock;
mod compare;
mod fill_reader;
mod floats;
mod generate;
mod guarded;
mod header;
mod joined;
mod joins;
mod library;
mod limits;
mod listing;
mod load;
mod map_reader;
mod minimum;
mod mutants;
mod peel_reader;
mod properties;
mod quick;
mod random;
mod residual_reader;
mod roots;
#[cfg(not(original_at_hand))]
#[path = "no_original.rs"]
mod run_original;
#[cfg(original_at_hand)]
mod run_original;
mod runs;
mod second;
mod shapes;
mod sheet;
mod stars;
mod tally_reader;
mod text;
mod vectors;
mod worst;

use generate::{JoinKind, Kind};
use second::Fault;
use sheet::Sheet;
use std::ffi::OsString;
use std::io::{Read, Write};
use std::os::unix::ffi::OsStrExt;
use std::process::ExitCode;

const USE: &str = "\
harness quick                         the checks of the gate
harness compare [--sheets N] [--seed S] [--kind KIND | --maps | --peels | --fills | --roots]
                                      original against second program; --maps: sheets made for
                                      the map; --peels: sheets with strengths; --fills: sheets
                                      with dropped points; --roots: sheets about residuals, then
                                      a hundred times as many numbers and their roots
harness compare --runs [--runs-of N] [--sheets N] [--seed S]
                                      runs of N sheets each, from records of every kind: library
                                      against second program
harness compare --worst [--step N] [--cells N] [--sheets N] [--seed S]
                                      the sheets that take longest, --step: of every N-th number of
                                      points too; sheets beside these; the bound on the rounds on
                                      all sheets of blocks of N cells
harness compare --joins [--sheets N] [--seed S]
                                      pairs of files to be joined, N of them: library, second
                                      program, and the original on the joined list
harness compare --minimum [--sheets N] [--seed S]
                                      sheets with short settings, the same with the line minimum 4
                                      spelled out, and with 3: how many listings 3 changes
harness mutants [--sheets N] [--seed S]
                [--maps | --runs | --peels | --fills | --roots | --worst | --joins]
                                      how many sheets show each deliberate fault of the answers,
                                      or of the maps, or how many runs each of the run, or how
                                      many sheets with strengths each of what is made of these, or
                                      how many with dropped points each of the fills, or how many
                                      sheets and numbers each of the roots, or how many arguments
                                      each of the sheet that takes longest, or how many pairs each
                                      of the join
harness acos [COSINE ..]              what the Rust's acos makes of 30 degrees and of least cosines
harness generate KIND SEED            a sheet file to standard output
harness kinds                         the kinds of generated sheets, and of pairs to be joined
harness generate-pair KIND SEED FOLDER
                                      a pair of files to be joined into a folder, left.bin and
                                      right.bin; prints the arguments of `join` for it
harness second [BUFFER]               listing of the sheet file on standard input
harness map                           map of the sheet file on standard input
harness join LEFT RIGHT DU DV DX DY [BUFFER]
                                      listing of the sheet that two files make: names of files,
                                      whole numbers, floats in eight hexadecimal digits
harness worst N                       the sheet file that takes longest, of N points; nothing for
                                      anything else
harness original                      rows and fills of the original for the sheet file on standard
                                      input
harness vectors float|sheet_file|run|join FOLDER
harness vectors sheet FOLDER [--sheets N] [--seed S] [--most BYTES] [--full N] [--maps N]
                [--full-lines N] [--peels N] [--fills N] [--roots N]
                                      the recorded files of a vector crate, stdin and stdout
harness roots [--step N]              the machine's root against whole numbers, and remainders
harness float-check [time]            the static library of float_c against Rust's own functions
                                      and the second program's roots
harness load [--files N] [--peels N] [--fills N] [--seed S] [--heap] [--threads N] [--wrong K]
                                      the static library under load, at guard pages or in heap blocks;
                                      --peels: files with strengths, --fills: with dropped points,
                                      half as many of each as of the others unless said
harness load faults                   whether the load notices deliberate faults
harness bench [--runs N] [--rounds N] [--into FILE]
                                      microseconds a call, in tables
harness bench --peels [--runs N]      those of sheets with strengths alone
harness bench --joins [--runs N]      that of joins alone
harness dearest [--tries N] [--seed S]
                                      looks for the dearest call
harness text to-file | from-file      lines of text to a sheet file and back
";

/// The value after `--name`, or a default.
fn option(args: &[String], name: &str, default: u64) -> u64 {
    let at = args.iter().position(|a| a == name);
    match at.map(|k| args.get(k + 1).map(|v| v.parse())) {
        None => default,
        Some(Some(Ok(value))) => value,
        _ => fail(&format!("{name} takes a number")),
    }
}

/// Whether a word stands among the arguments.
fn has(args: &[String], word: &str) -> bool {
    args.iter().any(|a| a == word)
}

fn fail(message: &str) -> ! {
    eprintln!("{message}");
    std::process::exit(2)
}

fn input() -> Vec<u8> {
    let mut bytes = Vec::new();
    std::io::stdin()
        .read_to_end(&mut bytes)
        .unwrap_or_else(|e| fail(&e.to_string()));
    bytes
}

fn output(bytes: &[u8]) {
    std::io::stdout()
        .write_all(bytes)
        .unwrap_or_else(|e| fail(&e.to_string()));
}

fn save(file: &str, bytes: &[u8]) {
    std::fs::write(file, bytes).unwrap_or_else(|e| fail(&e.to_string()));
}

/// One line if the Rust files were not at hand when this was built.
fn say_without_original() {
    if !cfg!(original_at_hand) {
        println!("left out: the Rust original, which is not at hand (HIGLAUPTH_RUST)");
    }
}

/// A line for the original and one for the static library, if this was built without it.
fn say_left_out() {
    say_without_original();
    if library::functions().is_none() {
        println!("left out: the static library, which is not linked (HIGLAUPTH_LIBRARY)");
    }
}

/// Runs of generated sheets.
fn compare_runs(args: &[String]) -> bool {
    let sheets = option(args, "--sheets", 12_000) as usize;
    let each = option(args, "--runs-of", generate::RUN_OF as u64).max(1) as usize;
    let report = runs::run(sheets / each, each, option(args, "--seed", 0));
    report.print();
    report.failed == 0
}

/// The sheets that take longest, sheets of the kinds beside them, and those of small blocks.
fn compare_worst(args: &[String]) -> bool {
    let step = option(args, "--step", 0) as usize;
    let longest = worst::run((step > 0).then_some(step));
    longest.print();
    let sheets = option(args, "--sheets", 300) as usize;
    let beside = compare::run(Kind::for_worst(), sheets, option(args, "--seed", 0));
    beside.print();
    let blocks = worst::blocks(option(args, "--cells", worst::CELLS as u64) as usize);
    blocks.print();
    let wrong = blocks.failure.iter();
    wrong.for_each(|text| println!("differs: {text}"));
    longest.failed + beside.failed == 0 && blocks.failure.is_none()
}

/// Sheets with short settings, and the same with 4 and with 3 spelled out.
fn compare_minimum(args: &[String]) -> bool {
    let sheets = option(args, "--sheets", 2300) as usize;
    let report = minimum::run(sheets, option(args, "--seed", 0));
    report.print();
    report.failed == 0
}

/// Pairs of files to be joined.
fn compare_joins(args: &[String]) -> bool {
    let pairs = option(args, "--sheets", 2700) as usize;
    let report = joins::run(pairs, option(args, "--seed", 0));
    report.print();
    report.failed == 0
}

fn compare(args: &[String]) -> bool {
    say_left_out();
    if has(args, "--joins") {
        return compare_joins(args);
    }
    if has(args, "--runs") {
        return compare_runs(args);
    }
    if has(args, "--worst") {
        return compare_worst(args);
    }
    if has(args, "--minimum") {
        return compare_minimum(args);
    }
    let kind = args
        .iter()
        .position(|a| a == "--kind")
        .and_then(|k| args.get(k + 1));
    let named =
        |name: &String| Kind::from_name(name).unwrap_or_else(|| fail(&format!("no kind {name}")));
    let kinds = match kind {
        Some(name) => vec![(named(name), "")],
        None if has(args, "--maps") => Kind::for_map().to_vec(),
        None if has(args, "--peels") => Kind::for_peels().to_vec(),
        None if has(args, "--fills") => Kind::for_fills().to_vec(),
        None if has(args, "--roots") => Kind::for_roots().to_vec(),
        None => Kind::first().to_vec(),
    };
    let sheets = option(args, "--sheets", 2300) as usize;
    let seed = option(args, "--seed", 0);
    let report = compare::run(&kinds, sheets, seed);
    report.print();
    report.failed == 0 && (!has(args, "--roots") || compare_numbers(100 * sheets, seed))
}

/// The roots of special numbers and so many others.
fn compare_numbers(count: usize, seed: u64) -> bool {
    let numbers = roots::numbers(count, seed);
    numbers.print();
    numbers.failure.is_none()
}

/// How many cases show each fault of one part; whether all are seen that can be.
fn shown<C, T: PartialEq>(part: &mutants::Part<C, T>, cases: usize, seed: u64) -> bool {
    let shown = mutants::run(part, cases, seed, false);
    mutants::print(part, cases, &shown);
    mutants::unseen(part, &shown) == 0
}

fn mutants(args: &[String]) -> bool {
    let sheets = option(args, "--sheets", 2700) as usize;
    let seed = option(args, "--seed", 0);
    if has(args, "--maps") {
        shown(&mutants::maps(), sheets, seed)
    } else if has(args, "--runs") {
        shown(&mutants::runs(), sheets / generate::RUN_OF, seed)
    } else if has(args, "--peels") {
        shown(&mutants::peels(), sheets, seed)
    } else if has(args, "--fills") {
        shown(&mutants::fills(), sheets, seed)
    } else if has(args, "--roots") {
        let listings = shown(&mutants::roots(), sheets, seed);
        shown(&mutants::numbers(), sheets, seed) && listings
    } else if has(args, "--worst") {
        let bytes = shown(&mutants::worst(), sheets, seed);
        shown(&mutants::worst_rounds(), sheets, seed) && bytes
    } else if has(args, "--joins") {
        shown(&mutants::joins(), sheets, seed)
    } else {
        shown(&mutants::answers(), sheets, seed)
    }
}

fn load(args: &[String]) -> bool {
    let files = option(args, "--files", 20_000);
    let files = load::Files {
        files,
        peels: option(args, "--peels", files / 2),
        fills: option(args, "--fills", files / 2),
        seed: option(args, "--seed", 0),
    };
    let threads = option(args, "--threads", 1) as usize;
    if threads > 1 {
        return load::threads(threads, files);
    }
    let heap = has(args, "--heap");
    let wrong = option(args, "--wrong", u64::MAX);
    let wrong = (wrong != u64::MAX).then_some(wrong as usize);
    load::run(files, heap, wrong)
}

/// All floats against 30 degrees, or the floats that acos cannot tell from given cosines.
fn acos(cosines: &[&str]) {
    if cosines.is_empty() {
        return angles::sweep();
    }
    for word in cosines {
        match text::float(word) {
            Ok(least) if least.abs() <= 1.0 => angles::alike(least),
            _ => fail("acos takes cosines from -1 to 1"),
        }
    }
}

fn original_rows() {
    let Some(sheet) = Sheet::from_file(&input()) else {
        fail("not well framed")
    };
    let Some(prepared) = run_original::Prepared::new(&sheet) else {
        return say_without_original();
    };
    let held = prepared.run();
    println!(
        "points {} components {} rounds {}",
        sheet.points.len(),
        held.components(),
        held.rounds
    );
    let mut points = sheet.points.clone();
    points.sort_by_key(|p| (p.u, p.v));
    for p in &points {
        println!("{} {} {} {:02X?}", p.u, p.v, p.index, held.row(p.index));
    }
    for p in points.iter().filter(|p| held.row(p.index)[0] > 0) {
        let (pairs, bits) = held.fill(p.u, p.v);
        println!("{} {} {pairs} {bits:08X?}", p.u, p.v);
    }
}

fn to_file() -> Vec<u8> {
    let lines = String::from_utf8(input()).unwrap_or_else(|e| fail(&e.to_string()));
    text::from_text(&lines)
        .unwrap_or_else(|e| fail(&e))
        .to_file()
}

fn generated(kind: &str, seed: &str) -> Vec<u8> {
    match (Kind::from_name(kind), seed.parse()) {
        (Some(kind), Ok(seed)) => generate::case(kind, seed).file,
        _ => fail("generate takes a kind and a seed"),
    }
}

/// A generated pair of files into a folder.
fn generated_pair(kind: &str, seed: &str, folder: &str) {
    let (Some(kind), Ok(seed)) = (JoinKind::from_name(kind), seed.parse()) else {
        fail("generate-pair takes a kind, a seed and a folder")
    };
    let pair = generate::pair(kind, seed);
    let [left, right] = ["left", "right"].map(|name| format!("{folder}/{name}.bin"));
    save(&left, &pair.left);
    save(&right, &pair.right);
    let second::Shift { du, dv, dx, dy } = pair.shift;
    let [dx, dy] = [dx, dy].map(f32::to_bits);
    println!("{left} {right} {du} {dv} {dx:08X} {dy:08X} {}", pair.buffer);
}

/// The files of a vector crate into its folder.
fn vectors(crate_of: &str, folder: &str, args: &[String]) {
    let made = match crate_of {
        "float" => vectors::float(),
        "sheet_file" => vectors::sheet_file(),
        "run" => vectors::run(),
        "join" => {
            say_without_original();
            vectors::join()
        }
        "sheet" => {
            say_without_original();
            let recorded = vectors::Choice::RECORDED;
            vectors::sheet(&vectors::Choice {
                sheets: option(args, "--sheets", recorded.sheets as u64) as usize,
                seed: option(args, "--seed", recorded.seed),
                most: option(args, "--most", recorded.most as u64) as usize,
                full: option(args, "--full", recorded.full as u64) as usize,
                maps: option(args, "--maps", recorded.maps as u64) as usize,
                full_lines: option(args, "--full-lines", recorded.full_lines as u64) as usize,
                peels: option(args, "--peels", recorded.peels as u64) as usize,
                fills: option(args, "--fills", recorded.fills as u64) as usize,
                roots: option(args, "--roots", recorded.roots as u64) as usize,
            })
        }
        _ => fail("vectors takes float, sheet_file, sheet, run or join, and a folder"),
    };
    save(&format!("{folder}/stdin"), &made.stdin);
    save(&format!("{folder}/stdout"), &made.stdout);
}

/// A float from its eight hexadecimal digits.
fn float_of_bits(digits: &str) -> f32 {
    match u32::from_str_radix(digits, 16) {
        Ok(bits) if digits.len() == 8 => f32::from_bits(bits),
        _ => fail("DX and DY are floats in eight hexadecimal digits"),
    }
}

/// The listing of the sheet that two files make.
fn joined_listing([left, right, du, dv, dx, dy]: [&str; 6], buffer: usize) -> String {
    let file = |name: &str| std::fs::read(name).unwrap_or_else(|e| fail(&format!("{name}: {e}")));
    let whole = |word: &str| {
        word.parse()
            .unwrap_or_else(|_| fail("DU and DV are whole numbers"))
    };
    let shift = second::Shift {
        du: whole(du),
        dv: whole(dv),
        dx: float_of_bits(dx),
        dy: float_of_bits(dy),
    };
    second::join(&file(left), &file(right), &shift, buffer, Fault::None).listing()
}

/// What the program `worst` writes for arguments of any bytes.
fn worst_sheet(arguments: &[OsString]) {
    let bytes: Vec<Vec<u8>> = arguments.iter().map(|a| a.as_bytes().to_vec()).collect();
    output(&second::worst(&bytes, Fault::None));
}

fn main() -> ExitCode {
    let given: Vec<OsString> = std::env::args_os().skip(1).collect();
    if let [command, arguments @ ..] = given.as_slice() {
        if command == "worst" {
            worst_sheet(arguments);
            return ExitCode::SUCCESS;
        }
    }
    let text = |word: OsString| word.into_string();
    let args: Result<Vec<String>, OsString> = given.into_iter().map(text).collect();
    let args = args.unwrap_or_else(|word| fail(&format!("not text: {word:?}")));
    let words: Vec<&str> = args.iter().map(String::as_str).collect();
    let mut holds = true;
    match words.as_slice() {
        ["quick"] => {
            say_left_out();
            holds = quick::run();
        }
        ["compare", ..] => holds = compare(&args),
        ["mutants", ..] => holds = mutants(&args),
        ["acos", cosines @ ..] => acos(cosines),
        ["generate", kind, seed] => output(&generated(kind, seed)),
        ["kinds"] => {
            let of_sheets = Kind::ALL
                .iter()
                .map(|(kind, text)| format!("{kind:?}: {text}"));
            let of_pairs = JoinKind::ALL.iter();
            let of_pairs = of_pairs.map(|(kind, text)| format!("pair {kind:?}: {text}"));
            of_sheets
                .chain(of_pairs)
                .for_each(|line| println!("{line}"));
        }
        ["generate-pair", kind, seed, folder] => generated_pair(kind, seed, folder),
        ["second", buffer @ ..] => {
            let buffer = buffer.first();
            let buffer = buffer.map_or(second::ROOM, |b| b.parse().unwrap_or(0));
            output(
                second::answer(&input(), buffer, Fault::None)
                    .listing()
                    .as_bytes(),
            );
        }
        ["map"] => {
            let map = second::map(&input(), Fault::None);
            output(second::map_text(&map).as_bytes());
        }
        ["join", left, right, du, dv, dx, dy, buffer @ ..] => {
            let buffer = buffer.first();
            let buffer = buffer.map_or(second::ROOM, |b| b.parse().unwrap_or(0));
            let listing = joined_listing([left, right, du, dv, dx, dy], buffer);
            output(listing.as_bytes());
        }
        ["original"] => original_rows(),
        ["vectors", crate_of, folder, ..] => vectors(crate_of, folder, &args),
        ["float-check"] => holds = floats::check(false),
        ["float-check", "time"] => holds = floats::check(true),
        ["roots", ..] => holds = roots::every(option(&args, "--step", 1).max(1) as usize),
        ["load", "faults"] => holds = load::faults(),
        ["load", ..] => holds = load(&args),
        ["bench", ..] if has(&args, "--peels") => {
            if has(&args, "--into") {
                fail("bench --peels prints its tables and takes no --into");
            }
            bench::peels(option(&args, "--runs", 60) as usize);
        }
        ["bench", ..] if has(&args, "--joins") => {
            bench::joins(option(&args, "--runs", 60) as usize);
        }
        ["bench", rest @ ..] => {
            let into = rest.iter().position(|a| *a == "--into");
            let file = into.map(|k| {
                *rest
                    .get(k + 1)
                    .unwrap_or_else(|| fail("--into takes a file"))
            });
            let runs = option(&args, "--runs", 60) as usize;
            bench::run(runs, option(&args, "--rounds", 1) as usize, file);
        }
        ["dearest", ..] => {
            let tries = option(&args, "--tries", 1000) as usize;
            bench::dearest_call(tries, option(&args, "--seed", 0));
        }
        ["text", "to-file"] => output(&to_file()),
        ["text", "from-file"] => match Sheet::from_file(&input()) {
            Some(sheet) => output(text::to_text(&sheet).as_bytes()),
            None => fail("not well framed"),
        },
        _ => {
            eprint!("{USE}");
            return ExitCode::from(2);
        }
    }
    ExitCode::from(u8::from(!holds))
}
