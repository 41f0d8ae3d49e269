//! Sheet files of many kinds, the same for the same kind and seed.

macro_rules! kinds {
    ($(#[$doc:meta])* $type:ident; $($name:ident: $text:literal,)*) => {
        $(#[$doc])*
        #[derive(Clone, Copy, Debug, PartialEq, Eq)]
        pub enum $type { $($name,)* }

        impl $type {
            /// Every kind with what it holds.
            pub const ALL: &'static [($type, &'static str)] = &[$(($type::$name, $text),)*];

            pub fn from_name(name: &str) -> Option<$type> {
                let matches =
                    |(kind, _): &&($type, &str)| format!("{kind:?}").eq_ignore_ascii_case(name);
                $type::ALL.iter().find(matches).map(|&(kind, _)| kind)
            }
        }
    };
}

mod boards;
mod changes;
mod damage;
mod fills;
mod joins;
mod pages;
mod peels;
mod roots;
mod runs;
mod settings;
mod small;
mod worst;

pub use joins::{numbers_that_meet, pair, Condition, JoinKind, Pair};
pub use roots::{number, SPECIAL};
pub use runs::{few_indices, run, start, Run, Start, Step, RUN_OF};
pub use worst::{arguments, REFUSED};

use crate::random::Random;
use crate::second::ROW;
use crate::sheet::{self, Sheet};

kinds! {
    /// What a sheet file is.
    Kind;
    Clean: "clean perspective boards",
    Noise: "boards with noise",
    TooFar: "corners labelled one cell too far",
    Missing: "boards with missing corners",
    Patches: "several patches and ties between them",
    Mirrored: "mirrored blocks, exact ties of votes among them",
    Repeated: "repeated indices with equal position bits at several cells",
    Shared: "indices shared between patches, the wrong-label switch off",
    Ragged: "ragged frontiers with stretched ends",
    Rows: "one or two rows with edges about 1.5 and 1.6 times the others",
    Close: "coincident points and points 0.2 cell sizes apart",
    Steps: "step flag with thresholds",
    Rounding: "clean boards with tolerances so small that rounding decides",
    Gated: "edge gate with cosines inside, above 1 and below -1",
    GateLimit: "edge gate with limits beside the figures met",
    Turned: "edges turned about 30 degrees",
    Extreme: "extreme settings",
    Perpendicular: "sides at right angles, cosines of zero of either sign",
    Degenerate: "positions on a line or on few spots",
    Tiny: "zero, negative zero, subnormal and tiny positions",
    FarCells: "cells at and beside the limits of 8,000",
    Small: "0 to 6 points in small shapes",
    Wild: "small whole positions at random",
    Large: "boards to the largest square one and to the most points of a sheet",
    Damaged: "damaged files, several damages at once among them",
    Framing: "files whose fields, lengths or end are wrong",
    Scrambled: "files with bytes changed at random",
    Spans: "spans at and beside 72 values of u and 60 of v, of few points or many",
    Holes: "rows and columns that no point has",
    FullLines: "lines without a gap, as many as a sheet has points for among them",
    Several: "points that several filters mark",
    FarPages: "spans at the map's limits, cells at the limits of 8,000",
    DamagedPages: "damaged files, too wide for a map at times",
    Chains: "strengths: chains, straight or bent",
    Combs: "strengths: combs with teeth of several lengths",
    Rings: "strengths: rings, with tails and chords",
    Trees: "strengths: trees",
    Joined: "strengths: patches joined by one cell or a few",
    Ends: "strengths: repeated indices of which some cell is an end",
    Scattered: "strengths: cells at random",
    Weighed: "strengths: sheets of the first kinds, which the earlier filters mark",
    Long: "strengths: chains, combs, spirals and stairs of many points, to the most of a sheet",
    DamagedPeels: "strengths: damaged files, several damages at once among them",
    FramingPeels: "strengths: files whose fields, lengths or end are wrong",
    ScrambledPeels: "strengths: files with bytes changed at random",
    Worst: "the sheet that takes longest, of few points or many",
    NearWorst: "the same, changed: other order, place, strengths, fraction, points or settings",
    DamagedWorst: "the same, damaged: any numbers but 2, fields, bytes",
    Smudged: "fills: boards with points smudged: inside, at the rim, at corners, side by side",
    Checkered: "fills: boards of which just some cells are dropped, every other one among them",
    Gaps: "fills: cells without a point beside dropped ones",
    Zeros: "fills: positions of zero, of either sign, and subnormal ones",
    Outermost: "fills: positions at and beside 16,384",
    Uneven: "fills: positions of any size, whose sums are rounded",
    Twice: "fills: repeated indices, kept or dropped",
    Letters: "fills: points dropped by each filter, strengths and switches among them",
    Lines: "fills: one row or one column",
    Many: "fills: many points, to the most of a sheet",
    AllOrNone: "fills: sheets of which everything is dropped, or nothing",
    ShortBuffers: "fills: buffers about 20 and 28 bytes a point, damaged files among them",
    Triangles: "roots: a corner amid four, off by the sides of a whole triangle or by nothing",
    BesideSquares: "roots: a corner off by steps whose sum of squares is a square or beside one",
    Straight: "roots: a corner off along one axis",
    Smallest: "roots: a corner off by steps whose squares are subnormal or 0",
    Parallel: "roots: a corner whose neighbours lie on two parallel lines or on one",
    LastCells: "roots: an index at cells of different residuals",
    Squares: "roots: boards of even spacing, some points off by whole triangles",
}

/// What the generator knows of the answer.
#[derive(Clone, Copy, Debug, PartialEq, Eq)]
pub enum Expected {
    Accepted,
    Refused(u8),
    Unknown,
}

/// A sheet file with the length of the buffer that it is called with.
#[derive(Clone, Debug)]
pub struct Case {
    pub kind: Kind,
    pub seed: u64,
    pub file: Vec<u8>,
    pub buffer: usize,
    pub expected: Expected,
    /// What is known of the map.
    pub map: Expected,
}

/// How many kinds there were before those for the map: the seeds of the first ones go by it.
const FIRST: usize = 27;

/// How many there were before those with strengths.
const BEFORE_PEELS: usize = 33;

/// How many there were before those about the sheet that takes longest.
const BEFORE_WORST: usize = 45;

/// How many there were before those with dropped points.
const BEFORE_FILLS: usize = 48;

/// How many there were before those about roots.
const BEFORE_ROOTS: usize = 60;

impl Kind {
    /// The kinds of all sheets.
    pub fn first() -> &'static [(Kind, &'static str)] {
        &Kind::ALL[..FIRST]
    }

    /// The kinds made for the map.
    pub fn for_map() -> &'static [(Kind, &'static str)] {
        &Kind::ALL[FIRST..BEFORE_PEELS]
    }

    /// The kinds without strengths.
    pub fn without_strengths() -> &'static [(Kind, &'static str)] {
        &Kind::ALL[..BEFORE_PEELS]
    }

    /// The kinds with strengths.
    pub fn for_peels() -> &'static [(Kind, &'static str)] {
        &Kind::ALL[BEFORE_PEELS..BEFORE_WORST]
    }

    /// The kinds about the sheet that takes longest.
    pub fn for_worst() -> &'static [(Kind, &'static str)] {
        &Kind::ALL[BEFORE_WORST..BEFORE_FILLS]
    }

    /// The kinds with dropped points of every pattern.
    pub fn for_fills() -> &'static [(Kind, &'static str)] {
        &Kind::ALL[BEFORE_FILLS..BEFORE_ROOTS]
    }

    /// The kinds with residuals of every kind of root.
    pub fn for_roots() -> &'static [(Kind, &'static str)] {
        &Kind::ALL[BEFORE_ROOTS..]
    }
}

/// The case of a kind and a seed: of every other seed with 3 spelled out for short settings, so that lines of
/// three count there.
pub fn case(kind: Kind, seed: u64) -> Case {
    let mut case = drawn(kind, seed);
    if seed % 2 == 1 {
        case.file = sheet::spelled_out(&case.file, 3);
    }
    case
}

/// The same with short settings wherever they were drawn.
pub fn drawn(kind: Kind, seed: u64) -> Case {
    let place = kind as u64;
    let mut own = Random::new(seed ^ place << 56);
    if kind as usize >= BEFORE_ROOTS {
        return roots::case(kind, &mut own, seed);
    }
    if kind as usize >= BEFORE_FILLS {
        return fills::case(kind, &mut own, seed);
    }
    if kind as usize >= BEFORE_WORST {
        return worst::case(kind, &mut own, seed);
    }
    if kind as usize >= BEFORE_PEELS {
        return peels::case(kind, &mut own, seed);
    }
    if kind as usize >= FIRST {
        return pages::case(kind, &mut own, seed);
    }
    let mut random = Random::new(seed * FIRST as u64 + place);
    let r = &mut random;
    match kind {
        Kind::Damaged => damage::several(r, seed),
        Kind::Framing => damage::framing(r, seed),
        Kind::Scrambled => damage::scrambled(r, seed),
        _ => {
            let sheet = sheet(kind, r);
            accepted(kind, r, seed, &sheet)
        }
    }
}

/// The case of a sheet that is accepted.
fn accepted(kind: Kind, r: &mut Random, seed: u64, sheet: &Sheet) -> Case {
    Case {
        kind,
        seed,
        buffer: sheet.points.len() * ROW + r.pick(&[0, 0, 1, 27, 28, 100]),
        file: sheet.to_file(),
        expected: Expected::Accepted,
        map: pages::expected(sheet),
    }
}

/// A sheet of the most points, changed and with settings of many kinds.
pub fn full(seed: u64) -> Case {
    let mut random = Random::new(seed);
    let r = &mut random;
    let mut sheet = boards::full(r);
    changes::any(r, &mut sheet);
    if r.one_in(2) {
        changes::any(r, &mut sheet);
    }
    if r.one_in(2) {
        settings::gate(r, &mut sheet);
    }
    if r.one_in(2) {
        settings::varied(r, &mut sheet);
    }
    changes::settle(r, &mut sheet);
    Case {
        kind: Kind::Large,
        seed,
        buffer: sheet.points.len() * ROW + r.pick(&[0, 1, 100]),
        file: sheet.to_file(),
        expected: Expected::Accepted,
        map: pages::expected(&sheet),
    }
}

/// Kind and seed i of a run: some kinds in turn, each with rising seeds from `seed` on.
fn place(kinds: &[(Kind, &str)], seed: u64, i: usize) -> (Kind, u64) {
    (kinds[i % kinds.len()].0, seed + (i / kinds.len()) as u64)
}

/// Case i of a run.
pub fn nth(kinds: &[(Kind, &str)], seed: u64, i: usize) -> Case {
    let (kind, seed) = place(kinds, seed, i);
    case(kind, seed)
}

/// The same with short settings wherever they were drawn.
pub fn nth_drawn(kinds: &[(Kind, &str)], seed: u64, i: usize) -> Case {
    let (kind, seed) = place(kinds, seed, i);
    drawn(kind, seed)
}

/// An accepted sheet of a kind.
pub fn sheet(kind: Kind, r: &mut Random) -> Sheet {
    let mut s = match kind {
        Kind::Small => small::shapes(r),
        Kind::Wild => small::wild(r),
        Kind::Degenerate => small::degenerate(r),
        Kind::Tiny => small::tiny(r),
        Kind::Perpendicular => small::perpendicular(r),
        Kind::Rows => small::rows(r),
        Kind::Shared => small::shared(r),
        Kind::GateLimit if r.one_in(2) => small::bent(r),
        Kind::Steps if r.one_in(10) => small::two_steps(r),
        Kind::Steps if r.one_in(2) => small::rows(r),
        Kind::Patches => boards::patches(r),
        Kind::Large => boards::large(r),
        Kind::Clean => boards::clean(r),
        Kind::Missing => {
            let mut s = boards::clean(r);
            changes::remove_some(r, &mut s);
            s
        }
        _ => boards::varied(r),
    };
    match kind {
        Kind::Noise => changes::noise(r, &mut s),
        Kind::TooFar => changes::too_far(r, &mut s),
        Kind::Mirrored => changes::mirror(r, &mut s),
        Kind::Repeated => changes::repeat_indices(r, &mut s),
        Kind::Ragged => changes::ragged(r, &mut s),
        Kind::Close => changes::close(r, &mut s),
        Kind::Turned => changes::turn(r, &mut s),
        Kind::Extreme => settings::extreme(r, &mut s),
        Kind::FarCells => changes::far_cells(r, &mut s),
        Kind::Tiny if r.one_in(2) => settings::gate(r, &mut s),
        Kind::Rounding => {
            if r.one_in(2) {
                changes::noise(r, &mut s);
            }
            settings::rounding(r, &mut s);
        }
        Kind::Steps if s.settings.rest.is_none() => {
            changes::stretch(r, &mut s);
            if r.one_in(3) {
                changes::repeat_indices(r, &mut s);
            }
            settings::steps(r, &mut s);
        }
        Kind::Gated => {
            changes::any(r, &mut s);
            settings::gate(r, &mut s);
        }
        Kind::GateLimit => {
            if s.points.len() > 4 {
                changes::any(r, &mut s);
            }
            settings::gate_at_limit(r, &mut s);
        }
        _ => {}
    }
    let plain = matches!(kind, Kind::Clean | Kind::Shared | Kind::Perpendicular);
    let limit = kind == Kind::GateLimit;
    if !plain && !limit && r.one_in(4) {
        changes::any(r, &mut s);
    }
    if !limit && r.one_in(4) {
        settings::gate(r, &mut s);
    }
    if r.one_in(5) {
        settings::varied(r, &mut s);
    }
    changes::settle(r, &mut s);
    s
}
