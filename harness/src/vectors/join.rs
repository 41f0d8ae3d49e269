//! Pairs of files to be joined with their whole answers, for `join_vectors` to replay.
//!
//! Numbers are little-endian u32. `stdin` is the count of cases, then each case:
//!
//! ```text
//! left file's length, right file's length, du, dv (i32), the bits of dx, of dy, buffer length, refusal number (0:
//! accepted), points, components, rounds, listing length
//! the left file's bytes
//! the right file's bytes
//! the rows, 28 bytes a point (none for a refusal)
//! the listing's bytes, by a buffer with room for every sheet
//! ```
//!
//! A generated pair stands there only if the original agrees with the second program, where it is at hand.

use super::Vectors;
use crate::generate::{self, numbers_that_meet, JoinKind, Pair};
use crate::joins;
use crate::second::{Answer, Fault, ROOM};
use crate::stars;

fn put(out: &mut Vec<u8>, numbers: &[u32]) {
    out.extend(numbers.iter().flat_map(|number| number.to_le_bytes()));
}

/// One case.
fn encode(pair: &Pair) -> Vec<u8> {
    let answer = pair.answer(Fault::None);
    let roomy = Pair {
        buffer: ROOM,
        ..pair.clone()
    };
    let listing = roomy.answer(Fault::None).listing();
    let counts = match &answer {
        Answer::Refused(number) => [usize::from(*number), 0, 0, 0],
        Answer::Accepted {
            points,
            components,
            rounds,
            ..
        } => [0, *points, *components, *rounds],
    };
    let shift = &pair.shift;
    let mut out = Vec::new();
    put(
        &mut out,
        &[pair.left.len(), pair.right.len()].map(|n| n as u32),
    );
    put(&mut out, &[shift.du, shift.dv].map(|offset| offset as u32));
    put(&mut out, &[shift.dx, shift.dy].map(f32::to_bits));
    put(&mut out, &[pair.buffer as u32]);
    put(&mut out, &counts.map(|n| n as u32));
    put(&mut out, &[listing.len() as u32]);
    out.extend(&pair.left);
    out.extend(&pair.right);
    out.extend(answer.rows());
    out.extend(listing.as_bytes());
    out
}

/// Both files of a small pair have fewer bytes together.
const SMALL: usize = 1200;

/// How many pairs there are of each kind that is not about two numbers.
const OF_KIND: usize = 10;

fn small(pair: &Pair) -> bool {
    pair.left.len() + pair.right.len() <= SMALL
}

/// The first pairs of a kind, small ones that the original agrees with, or those about the most points as they come.
fn of_kind(kind: JoinKind) -> Vec<Pair> {
    let pairs = (0..).map(|seed| generate::pair(kind, seed));
    match kind {
        JoinKind::Full => pairs.take(OF_KIND).filter(joins::agreed).collect(),
        _ => pairs
            .filter(small)
            .filter(joins::agreed)
            .take(OF_KIND)
            .collect(),
    }
}

/// A small pair for every two numbers that can meet, but those of 2.
fn numbers() -> impl Iterator<Item = Pair> {
    let pairs = numbers_that_meet().into_iter();
    pairs
        .map(|(kind, seed, _)| generate::pair(kind, seed))
        .filter(|pair| pair.left.len().max(pair.right.len()) < 4 * SMALL)
}

pub fn join() -> Vectors {
    let kinds = JoinKind::ALL.iter().map(|(kind, _)| *kind);
    let kinds = kinds.filter(|kind| !kind.is_of_numbers());
    let pairs = stars::joined_pairs().into_iter();
    let pairs = pairs.chain(kinds.flat_map(of_kind)).chain(numbers());
    let cases: Vec<Vec<u8>> = pairs.map(|pair| encode(&pair)).collect();
    let mut stdin = Vec::new();
    put(&mut stdin, &[cases.len() as u32]);
    stdin.extend(cases.concat());
    let stdout = format!("{} files, 0 differ\n", cases.len());
    Vectors {
        stdin,
        stdout: stdout.into_bytes(),
    }
}
