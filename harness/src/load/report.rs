//! What a run of the load met.

use super::files::{Form, Load};
use super::fixed::{Origin, FIXED};
use super::runner::{Job, FUNCTIONS, STACKS};
use crate::library::{Returned, NO_ROOM};
use crate::second::{Fills, Map, LAST_NUMBER, MAX_POINTS};
use std::time::Duration;

fn micros(time: Duration) -> f64 {
    time.as_secs_f64() * 1e6
}

/// All calls of one function, and the longest.
#[derive(Default)]
struct Times {
    all: Duration,
    longest: Duration,
    longest_at: Option<(Form, Origin)>,
}

impl Times {
    fn add(&mut self, form: Form, origin: Origin, time: Duration) {
        self.all += time;
        if time > self.longest {
            self.longest = time;
            self.longest_at = Some((form, origin));
        }
    }

    /// With the deepest use of a stack and its size.
    fn print(&self, name: &str, deepest: Option<(usize, usize)>) {
        if let Some((form, origin)) = self.longest_at {
            println!(
                "{name}: longest call {:.0} µs ({form:?}, {origin}); all calls {:.1} s",
                micros(self.longest),
                self.all.as_secs_f64()
            );
        }
        if let Some((deepest, size)) = deepest {
            println!("{name}: deepest stack {deepest} bytes of {size}");
        }
    }
}

/// How many by refusal number; the first counts what is none.
type ByNumber = [usize; LAST_NUMBER + 1];

fn count(refused: &mut ByNumber, number: u64) {
    let place = usize::try_from(number).ok().filter(|n| *n <= LAST_NUMBER);
    refused[place.unwrap_or(0)] += 1;
}

#[derive(Default)]
pub struct Report {
    /// Files, accepted ones, their points, longest call, by form.
    forms: [(usize, usize, usize, Duration); Form::ALL.len()],
    refused: ByNumber,
    empty_buffers: usize,
    full: usize,
    /// Accepted sheets with rounds, their rounds, and the most of one.
    with_rounds: usize,
    rounds: usize,
    most_rounds: usize,
    /// How many of each fixed file, and its bytes.
    fixed: [(usize, usize); FIXED.len()],
    rows: Times,
    /// Maps drawn, their lines, maps refused by number.
    maps: usize,
    lines: usize,
    no_maps: ByNumber,
    /// Maps asked for with a buffer of length 0, and with one too short.
    empty_map_buffers: usize,
    no_room: usize,
    map: Times,
    /// Sheets that a run took, and those that it refused by number.
    taken: usize,
    not_taken: ByNumber,
    run: Times,
    /// Fills handed back, by pairs; calls refused by number; calls with a buffer of length 0.
    filled: [usize; 3],
    not_filled: ByNumber,
    empty_fill_buffers: usize,
    fills: Times,
    /// Numbers without a root, with one, and with an exact one.
    roots: [usize; 3],
    root: Times,
    /// Pairs that were joined, their points, pairs refused by number, buffers of length 0.
    joined: usize,
    joined_points: usize,
    not_joined: ByNumber,
    empty_join_buffers: usize,
    join: Times,
    pub failed: usize,
}

impl Report {
    /// Counts a call for rows.
    pub fn add(&mut self, load: &Load, origin: Origin, returned: u64, time: Duration) {
        let form = &mut self.forms[load.form as usize];
        form.0 += 1;
        form.3 = form.3.max(time);
        match Returned::new(returned) {
            Returned::Accepted { points, rounds, .. } => {
                form.1 += 1;
                form.2 += points;
                self.full += usize::from(points == MAX_POINTS);
                self.with_rounds += usize::from(rounds > 0);
                self.rounds += rounds;
                self.most_rounds = self.most_rounds.max(rounds);
            }
            Returned::Refused(number) => count(&mut self.refused, number),
        }
        self.empty_buffers += usize::from(load.buffer == 0);
        if let Some(which) = origin.which_fixed() {
            let (count, bytes) = &mut self.fixed[which];
            (*count, *bytes) = (*count + 1, load.file.len());
        }
        self.rows.add(load.form, origin, time);
    }

    /// Counts a call for the map, which the second program drew or refused.
    pub fn add_map(&mut self, job: &Job, origin: Origin, map: &Map, returned: u64, time: Duration) {
        match map {
            Ok(text) => {
                self.maps += 1;
                self.lines += text.lines().count();
            }
            Err(number) => count(&mut self.no_maps, (*number).into()),
        }
        self.empty_map_buffers += usize::from(job.buffer == 0);
        self.no_room += usize::from(returned == NO_ROOM);
        self.map.add(job.form, origin, time);
    }

    /// Counts a call in a run.
    pub fn add_run(&mut self, job: &Job, origin: Origin, returned: u64, time: Duration) {
        match Returned::new(returned) {
            Returned::Accepted { .. } => self.taken += 1,
            Returned::Refused(number) => count(&mut self.not_taken, number),
        }
        self.run.add(job.form, origin, time);
    }

    /// Counts a call for fills, which the second program found or refused.
    pub fn add_fills(&mut self, job: &Job, origin: Origin, fills: &Fills, time: Duration) {
        match fills {
            Ok(filled) => filled
                .fills
                .iter()
                .for_each(|fill| self.filled[fill.pairs as usize] += 1),
            Err(number) => count(&mut self.not_filled, (*number).into()),
        }
        self.empty_fill_buffers += usize::from(job.buffer == 0);
        self.fills.add(job.form, origin, time);
    }

    /// Counts a call for a root, which the second program found or not.
    pub fn add_root(&mut self, job: &Job, origin: Origin, time: Duration) {
        let exact = job.written.ends_with(&[0; 4]);
        self.roots[job.number as usize + usize::from(exact)] += 1;
        self.root.add(job.form, origin, time);
    }

    /// Counts a call for two files.
    pub fn add_join(&mut self, job: &Job, origin: Origin, returned: u64, time: Duration) {
        match Returned::new(returned) {
            Returned::Accepted { points, .. } => {
                self.joined += 1;
                self.joined_points += points;
            }
            Returned::Refused(number) => count(&mut self.not_joined, number),
        }
        self.empty_join_buffers += usize::from(job.buffer == 0);
        self.join.add(job.form, origin, time);
    }

    /// How many fixed files there were.
    fn print_fixed(&self) {
        let fixed = FIXED.iter().zip(self.fixed);
        let each = fixed.map(|((what, points, _), (count, bytes))| {
            format!("{count} of {points} points in {bytes} bytes ({what})")
        });
        println!("fixed: {}", each.collect::<Vec<_>>().join(", "));
    }

    /// The files by form, and what the calls for rows made of them.
    fn print_rows(&self) {
        println!(
            "| files | number | accepted | points | longest call, µs |\n|---|---|---|---|---|"
        );
        let (mut accepted, mut points) = (0, 0);
        for ((_, name, _), (files, taken, size, longest)) in Form::ALL.iter().zip(self.forms) {
            println!(
                "| {name} | {files} | {taken} | {size} | {:.0} |",
                micros(longest)
            );
            accepted += taken;
            points += size;
        }
        println!(
            "accepted {accepted} sheets with {points} points, {} sheets of {MAX_POINTS}; refused with 1 to {LAST_NUMBER}: {:?}; buffers of length 0: {}",
            self.full,
            &self.refused[1..],
            self.empty_buffers
        );
        println!(
            "{} sheets with rounds, {} rounds, the most of one {}",
            self.with_rounds, self.rounds, self.most_rounds
        );
    }

    /// What the other calls made of them.
    fn print_others(&self) {
        println!(
            "maps: {} drawn with {} lines; refused with 1 to {LAST_NUMBER}: {:?}; buffers of length 0: {}, too short for the text: {}",
            self.maps,
            self.lines,
            &self.no_maps[1..],
            self.empty_map_buffers,
            self.no_room
        );
        println!(
            "runs: {} sheets taken; refused with 1 to {LAST_NUMBER}: {:?}",
            self.taken,
            &self.not_taken[1..]
        );
        println!(
            "fills of no pair, one, two: {:?}; refused with 1 to {LAST_NUMBER}: {:?}; buffers of length 0: {}",
            self.filled,
            &self.not_filled[1..],
            self.empty_fill_buffers
        );
        let [without, with, exact] = self.roots;
        println!("roots: none {without}, not exact {with}, exact {exact}");
        println!(
            "joins: {} of {} points; refused with 1 to {LAST_NUMBER}: {:?}; buffers of length 0: {}",
            self.joined,
            self.joined_points,
            &self.not_joined[1..],
            self.empty_join_buffers
        );
    }

    pub fn print(&self, deepest: Option<[usize; FUNCTIONS]>, whole: Duration) {
        self.print_rows();
        self.print_fixed();
        self.print_others();
        let calls = [
            ("rows", &self.rows),
            ("map", &self.map),
            ("run", &self.run),
            ("fills", &self.fills),
            ("root", &self.root),
            ("join", &self.join),
        ];
        for (k, (name, times)) in calls.into_iter().enumerate() {
            times.print(name, deepest.map(|deepest| (deepest[k], STACKS[k])));
        }
        println!("the run {:.0} s", whole.as_secs_f64());
    }
}
