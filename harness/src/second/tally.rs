//! The tally of a sheet: document 01 for its words and filters, document 02, A.2, for what it counts.

use super::board::Board;
use super::fault::Fault;
use super::file::ROW;
use super::filters::{self, FILTERS};

/// How many indices are kept, then how many are counted under each filter of the table.
#[derive(Clone, Copy, Debug, Default, PartialEq, Eq)]
pub struct Tally([u32; 1 + FILTERS.len()]);

/// The place in the tally of an index with these marks: 0 if it is kept, else that of the first
/// filter that marks it.
fn place(byte: u8, fault: Fault) -> usize {
    let filter = match fault {
        Fault::TallyLastFilter => filters::last(byte),
        _ => filters::first(byte),
    };
    filter.map_or(0, |k| k + 1)
}

impl Tally {
    /// "A repeated index is one corner on paper .. From now on the tally counts indices": each once, at
    /// its home, since its cells share their marks.
    pub fn new(board: &Board, rows: &[u8], fault: Fault) -> Tally {
        let mut numbers = [0; 1 + FILTERS.len()];
        for (k, row) in rows.chunks(ROW).enumerate() {
            let place = place(row[0], fault);
            let by_cell = match fault {
                Fault::TallyByCell => true,
                Fault::TallyKeptByCell => place == 0,
                Fault::TallyMarkedByCell => place > 0,
                _ => false,
            };
            if by_cell || board.home[k] == k {
                numbers[place] += 1;
            }
        }
        if fault == Fault::LeafAfterComponent {
            numbers.swap(4, 5);
        }
        Tally(numbers)
    }

    /// Each word with its number, in the order of the listing.
    pub fn each(&self) -> impl Iterator<Item = (&'static str, u32)> {
        let filters = FILTERS.iter().map(|filter| filter.word);
        std::iter::once("kept").chain(filters).zip(self.0)
    }

    /// The number of a word.
    pub fn of(&self, word: &str) -> u32 {
        let mut numbers = self.each();
        let found = numbers.find(|(one, _)| *one == word);
        found.unwrap_or_else(|| panic!("no {word} in the tally")).1
    }
}
