//! The limits of a run.

use super::{Limit, Limits};
use crate::second::{Answer, InRun, Record, FULL, MOST_SHEETS, NUMBERS, OLD, SUMMED, SUM_LIMIT};
use crate::tally_reader;

/// A call of a run.
pub struct Seen {
    /// The record that the run began with, and that before this call.
    pub start: Record,
    pub before: Record,
    /// What the call on the sheet alone answers.
    pub own: Answer,
    pub handed: InRun,
    /// Whether some kept index of it stands at several cells, and whether some marked one does.
    kept_repeated: bool,
    marked_repeated: bool,
}

impl Seen {
    pub fn new(start: Record, before: Record, own: Answer, handed: InRun) -> Seen {
        let listing = handed.answer.listing();
        let indices = tally_reader::indices(&listing).unwrap_or_default();
        let repeated = || indices.iter().filter(|index| index.cells > 1);
        Seen {
            kept_repeated: repeated().any(|index| index.place() == 0),
            marked_repeated: repeated().any(|index| index.place() > 0),
            start,
            before,
            own,
            handed,
        }
    }

    fn accepted(&self) -> bool {
        matches!(self.handed.answer, Answer::Accepted { .. })
    }
    fn full(&self) -> bool {
        self.handed.answer == Answer::Refused(FULL)
    }
    fn sheets(&self, sheets: u32) -> bool {
        self.before.sheets == sheets
    }
    /// The new sum of one word stands at a number, all others and the count of sheets far from their
    /// limits.
    fn alone(&self, word: &str, sum: u32) -> bool {
        let others = || SUMMED.iter().filter(|other| **other != word);
        self.before.sheets < MOST_SHEETS - 1
            && self.before.new_sum(word) == sum
            && others().all(|other| self.before.new_sum(other) < BELOW)
    }
    fn some_at_limit(record: &Record) -> bool {
        record.new_sums.iter().any(|sum| *sum >= SUM_LIMIT)
    }
    /// 11 is given where the sheet alone gets this number.
    fn beside(&self, number: u8) -> bool {
        self.full() && self.own == Answer::Refused(number)
    }
    /// A sheet takes the new sum of one word from the largest that is taken to the limit or beyond.
    fn taken_over(&self, word: &str) -> bool {
        self.alone(word, BELOW) && self.handed.record.new_sum(word) > BELOW
    }
}

const BELOW: u32 = SUM_LIMIT - 1;

impl Limits for Seen {
    const LIMITS: &'static [Limit<Seen>] = &[
        ("65,534 sheets, one more accepted", |s| {
            s.sheets(MOST_SHEETS - 1) && s.accepted()
        }),
        ("65,535 sheets, 11", |s| s.sheets(MOST_SHEETS) && s.full()),
        ("65,535 sheets reached in the run, 11", |s| {
            s.start.sheets < MOST_SHEETS && s.sheets(MOST_SHEETS) && s.full()
        }),
        ("more than 65,535 sheets, 11", |s| {
            s.before.sheets > MOST_SHEETS && s.full()
        }),
        ("kept at 2^31 - 1, accepted", |s| {
            s.alone("kept", BELOW) && s.accepted()
        }),
        ("kept at 2^31, 11", |s| {
            s.alone("kept", SUM_LIMIT) && s.full()
        }),
        ("validate at 2^31 - 1, accepted", |s| {
            s.alone("validate", BELOW) && s.accepted()
        }),
        ("validate at 2^31, 11", |s| {
            s.alone("validate", SUM_LIMIT) && s.full()
        }),
        ("orientation at 2^31 - 1, accepted", |s| {
            s.alone("orientation", BELOW) && s.accepted()
        }),
        ("orientation at 2^31, 11", |s| {
            s.alone("orientation", SUM_LIMIT) && s.full()
        }),
        ("wrong at 2^31 - 1, accepted", |s| {
            s.alone("wrong", BELOW) && s.accepted()
        }),
        ("wrong at 2^31, 11", |s| {
            s.alone("wrong", SUM_LIMIT) && s.full()
        }),
        ("leaf at 2^31 - 1, accepted", |s| {
            s.alone("leaf", BELOW) && s.accepted()
        }),
        ("leaf at 2^31, 11", |s| {
            s.alone("leaf", SUM_LIMIT) && s.full()
        }),
        ("component at 2^31 - 1, accepted", |s| {
            s.alone("component", BELOW) && s.accepted()
        }),
        ("component at 2^31, 11", |s| {
            s.alone("component", SUM_LIMIT) && s.full()
        }),
        ("kept taken beyond 2^31 - 1", |s| s.taken_over("kept")),
        ("validate taken beyond 2^31 - 1", |s| {
            s.taken_over("validate")
        }),
        ("orientation taken beyond 2^31 - 1", |s| {
            s.taken_over("orientation")
        }),
        ("wrong taken beyond 2^31 - 1", |s| s.taken_over("wrong")),
        ("leaf taken beyond 2^31 - 1", |s| s.taken_over("leaf")),
        ("component taken beyond 2^31 - 1", |s| {
            s.taken_over("component")
        }),
        ("a sum of 2^31 or more reached in the run, 11", |s| {
            !Seen::some_at_limit(&s.start) && Seen::some_at_limit(&s.before) && s.full()
        }),
        ("sheets and a new sum at their limits, 11", |s| {
            s.before.sheets >= MOST_SHEETS && Seen::some_at_limit(&s.before) && s.full()
        }),
        ("an old sum of 2^31 or more, accepted", |s| {
            s.before.old_sums.iter().any(|sum| *sum >= SUM_LIMIT) && s.accepted()
        }),
        ("all old sums at 2^32 - 1, accepted", |s| {
            s.before.old_sums == [u32::MAX; OLD] && s.accepted()
        }),
        ("every number at 2^32 - 1, 11", |s| {
            s.before.numbers() == [u32::MAX; NUMBERS] && s.full()
        }),
        ("11 where the sheet alone is accepted", |s| {
            s.full() && matches!(s.own, Answer::Accepted { .. })
        }),
        ("11 where the file alone is refused with 1", |s| s.beside(1)),
        ("11 where the file alone is refused with 2", |s| s.beside(2)),
        ("11 where the file alone is refused with 3", |s| s.beside(3)),
        ("11 where the file alone is refused with 4", |s| s.beside(4)),
        ("11 where the file alone is refused with 5", |s| s.beside(5)),
        ("11 where the file alone is refused with 6", |s| s.beside(6)),
        ("11 where the file alone is refused with 7", |s| s.beside(7)),
        ("11 where the file alone is refused with 8", |s| s.beside(8)),
        ("11 where the file alone is refused with 9", |s| s.beside(9)),
        ("11 where the file alone is refused with 12", |s| {
            s.beside(12)
        }),
        ("11 where the file alone is refused with 13", |s| {
            s.beside(13)
        }),
        ("11 where the file alone is refused with 14", |s| {
            s.beside(14)
        }),
        ("an accepted sheet without points", |s| {
            s.accepted() && s.handed.written.is_empty()
        }),
        ("a kept index at several cells", |s| s.kept_repeated),
        ("a marked index at several cells", |s| s.marked_repeated),
    ];
}
