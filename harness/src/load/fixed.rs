//! Files about the most points, which every run of the load has, beside those of seeds.

use super::files::{self, Form, Load, LONGEST_BUFFER};
use super::{fills, peels};
use crate::generate::{self, SPECIAL};
use crate::random::Random;
use crate::second::{self, FILL, MAX_POINTS, ROW};
use crate::shapes;
use crate::sheet::{Point, Sheet, Strengths, MOST_RECORDS};
use std::fmt::{self, Display, Formatter};

/// A fixed file: what it is, its points and its bytes.
pub type Fixed = (&'static str, usize, fn(usize) -> Vec<u8>);

/// As high as a map may be.
const HEIGHT: usize = 60;

fn all_fields(points: usize) -> Sheet {
    shapes::gated_columns(points, HEIGHT)
}

/// All fields, tag 4 too, nothing weak.
fn weighed(points: usize) -> Sheet {
    shapes::with_strengths(all_fields(points), 0.5, |_| 1.0)
}

fn one_missing(points: usize) -> Vec<u8> {
    let mut sheet = all_fields(points);
    sheet.strengths = Strengths::Misfit(vec![0; 4 * points]);
    sheet.to_file()
}

fn last_infinite(points: usize) -> Vec<u8> {
    let mut sheet = weighed(points);
    sheet.points[points - 1].strength = f32::INFINITY;
    sheet.to_file()
}

/// The last point has the first one's index and position, and another strength.
fn two_strengths(points: usize) -> Vec<u8> {
    let mut sheet = weighed(points);
    let Point { index, x, y, .. } = sheet.points[0];
    let last = &mut sheet.points[points - 1];
    (last.index, last.x, last.y, last.strength) = (index, x, y, 2.0);
    sheet.to_file()
}

fn longest(_: usize) -> Vec<u8> {
    shapes::longest().to_file()
}

fn one_after(points: usize) -> Vec<u8> {
    [longest(points), vec![0]].concat()
}

/// The most points and one more, the most that a field holds and one more, whose length is cut; the same
/// with strengths, and each number of these; the rows that take longest; the longest well-framed file and a byte after it;
/// the most points, every other one dropped.
pub const FIXED: [Fixed; 18] = [
    ("all fields but tag 4", MAX_POINTS, |n| {
        all_fields(n).to_file()
    }),
    ("all fields but tag 4", MAX_POINTS + 1, |n| {
        all_fields(n).to_file()
    }),
    ("few fields", MOST_RECORDS, |n| {
        shapes::columns(n, HEIGHT).to_file()
    }),
    ("few fields", MOST_RECORDS + 1, |n| {
        shapes::columns(n, HEIGHT).to_file()
    }),
    ("all fields but tag 4", MOST_RECORDS, |n| {
        all_fields(n).to_file()
    }),
    ("all fields", MAX_POINTS, |n| weighed(n).to_file()),
    ("all fields", MAX_POINTS + 1, |n| weighed(n).to_file()),
    ("all fields", MOST_RECORDS, |n| weighed(n).to_file()),
    ("a strength missing", MAX_POINTS, one_missing),
    ("a strength missing", MAX_POINTS + 1, one_missing),
    ("an infinite strength", MAX_POINTS, last_infinite),
    ("two strengths of an index", MAX_POINTS, two_strengths),
    ("the row that takes longest", MAX_POINTS, second::worst_of),
    ("the row that takes longest", MAX_POINTS + 1, |n| {
        shapes::chain(n).to_file()
    }),
    ("the row that takes longest", 2, second::worst_of),
    ("the longest well-framed file", MOST_RECORDS, longest),
    ("a byte after the longest", MOST_RECORDS, one_after),
    ("every other point dropped", MAX_POINTS, |n| {
        shapes::checkered(n, HEIGHT).to_file()
    }),
];

/// The length of a buffer beside that of all that could be written there.
#[derive(Clone, Copy, Debug)]
enum Room {
    Exact,
    Short,
    Large,
}

const ROOMS: [Room; 3] = [Room::Exact, Room::Short, Room::Large];

/// Each with each buffer.
pub const FIXED_FILES: usize = FIXED.len() * ROOMS.len();

impl Room {
    fn of(self, length: usize) -> usize {
        match self {
            Room::Exact => length,
            Room::Short => length - 1,
            Room::Large => LONGEST_BUFFER,
        }
    }
}

/// Where a file comes from: a seed, a seed of files with strengths or of files with dropped points, or a
/// place among the fixed ones and their buffers.
#[derive(Clone, Copy)]
pub enum Origin {
    Seed(u64),
    Peel(u64),
    Fill(u64),
    Fixed(usize),
}

/// The place in `FIXED` and the buffer of a fixed file.
fn taken_apart(place: usize) -> (usize, Room) {
    (place / ROOMS.len(), ROOMS[place % ROOMS.len()])
}

fn fixed(place: usize) -> Load {
    let (which, room) = taken_apart(place);
    let (_, points, file) = FIXED[which];
    Load {
        form: Form::Fixed,
        file: file(points),
        buffer: room.of(ROW * points),
    }
}

/// Seeds of files with strengths, and of those with dropped points, have a bit in the number of their origin.
const OF_PEEL: u64 = 1 << 62;
const OF_FILL: u64 = 1 << 61;

impl Origin {
    /// One number for all: the largest ones stand for the fixed files.
    pub fn number(self) -> u64 {
        match self {
            Origin::Seed(seed) => seed,
            Origin::Peel(seed) => OF_PEEL | seed,
            Origin::Fill(seed) => OF_FILL | seed,
            Origin::Fixed(place) => u64::MAX - place as u64,
        }
    }

    pub fn of_number(number: u64) -> Origin {
        match (u64::MAX - number) as usize {
            place if place < FIXED_FILES => Origin::Fixed(place),
            _ if number & OF_PEEL > 0 => Origin::Peel(number ^ OF_PEEL),
            _ if number & OF_FILL > 0 => Origin::Fill(number ^ OF_FILL),
            _ => Origin::Seed(number),
        }
    }

    /// The place in `FIXED`, of a fixed file.
    pub fn which_fixed(self) -> Option<usize> {
        match self {
            Origin::Fixed(place) => Some(taken_apart(place).0),
            _ => None,
        }
    }

    pub fn load(self) -> Load {
        match self {
            Origin::Seed(seed) => files::nth(seed),
            Origin::Peel(seed) => peels::nth(seed),
            Origin::Fill(seed) => fills::nth(seed),
            Origin::Fixed(place) => fixed(place),
        }
    }

    /// The length of the buffer that a map's text of some length is asked for with.
    pub fn map_buffer(self, r: &mut Random, length: usize) -> usize {
        match self {
            Origin::Fixed(place) => taken_apart(place).1.of(length),
            _ => files::map_buffer(r, length),
        }
    }

    /// The length of the buffer that the fills of a file are asked for with.
    pub fn fills_buffer(self, r: &mut Random, file: &[u8]) -> usize {
        match self {
            Origin::Fixed(place) => {
                let (which, room) = taken_apart(place);
                room.of(FILL * FIXED[which].1)
            }
            _ => files::fills_buffer(r, file),
        }
    }

    /// The place of its buffer's length among the three, of a fixed file.
    pub fn which_room(self) -> Option<usize> {
        match self {
            Origin::Fixed(place) => Some(place % ROOMS.len()),
            _ => None,
        }
    }

    /// The length of the buffer for the joined rows, of a fixed file, of so many points.
    pub fn join_buffer(self, points: usize) -> Option<usize> {
        match self {
            Origin::Fixed(place) => Some(taken_apart(place).1.of(ROW * points.max(1))),
            _ => None,
        }
    }

    /// The bits of numbers to take roots of: beside a fixed file the special ones.
    pub fn numbers_for_roots(self, r: &mut Random) -> Vec<u32> {
        match self {
            Origin::Fixed(_) => SPECIAL.to_vec(),
            _ => (0..16).map(|_| generate::number(r)).collect(),
        }
    }
}

impl Display for Origin {
    fn fmt(&self, f: &mut Formatter) -> fmt::Result {
        match *self {
            Origin::Seed(seed) => write!(f, "--files 1 --peels 0 --fills 0 --seed {seed}"),
            Origin::Peel(seed) => write!(f, "--files 0 --peels 1 --fills 0 --seed {seed}"),
            Origin::Fill(seed) => write!(f, "--files 0 --peels 0 --fills 1 --seed {seed}"),
            Origin::Fixed(place) => {
                let (which, room) = taken_apart(place);
                let (what, points, _) = FIXED[which];
                write!(f, "--files 0: {points} points, {what}, buffer {room:?}")
            }
        }
    }
}
