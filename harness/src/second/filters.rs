//! The filters in the order of the tally: rows, listing, tally and map go by this one table.

pub struct Filter {
    /// The number of its bit in byte 0 of a row.
    pub bit: u8,
    /// Its letter in the listing's marks and on the map.
    pub letter: char,
    /// Its word in the tally.
    pub word: &'static str,
}

const fn filter(bit: u8, letter: char, word: &'static str) -> Filter {
    Filter { bit, letter, word }
}

/// Document 02, A.5: "Its mark is bit 4, letter L between W and C"; the tally gains "`leaf` before
/// `component`".
pub const FILTERS: [Filter; 5] = [
    filter(0, 'V', "validate"),
    filter(1, 'O', "orientation"),
    filter(2, 'W', "wrong"),
    filter(4, 'L', "leaf"),
    filter(3, 'C', "component"),
];

impl Filter {
    /// Whether it marks a point whose byte of marks this is.
    pub fn marks(&self, byte: u8) -> bool {
        byte >> self.bit & 1 == 1
    }
}

/// The place in the table of the first filter that marks a point.
pub fn first(byte: u8) -> Option<usize> {
    FILTERS.iter().position(|filter| filter.marks(byte))
}

/// That of the last, for a fault.
pub fn last(byte: u8) -> Option<usize> {
    FILTERS.iter().rposition(|filter| filter.marks(byte))
}
