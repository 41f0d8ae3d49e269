//! Reads a listing back, apart from the program that prints it, and holds its tally against its points.

use crate::listing::Listing;
use std::collections::HashMap;

/// What a listing has of an index.
#[derive(Clone, Copy)]
pub struct Index<'a> {
    pub cells: usize,
    pub marks: &'a str,
}

impl Index<'_> {
    /// Its place in the tally: 0 if it is kept, else that of its first letter.
    pub fn place(&self) -> usize {
        let letter = self.marks.bytes().position(|m| m != b'-');
        letter.map_or(0, |k| k + 1)
    }
}

/// The different indices of a listing, if the cells of each share their marks; none of a refusal.
pub fn indices(listing: &str) -> Option<Vec<Index<'_>>> {
    let mut indices: HashMap<&str, Index> = HashMap::new();
    for words in Listing::new(listing).map_or(Vec::new(), |listing| listing.points) {
        let (index, marks) = (words[2], words[3]);
        let one = indices.entry(index).or_insert(Index { cells: 0, marks });
        one.cells += 1;
        if one.marks != marks {
            return None;
        }
    }
    Some(indices.into_values().collect())
}

/// The tally of a listing, words and numbers; nothing for a refusal.
pub fn tally(listing: &str) -> Vec<(&str, u64)> {
    let line = Listing::new(listing).map_or("", |listing| listing.tally);
    let words: Vec<&str> = line.split(' ').collect();
    let pairs = words.chunks_exact(2);
    pairs
        .map(|pair| (pair[0], pair[1].parse().unwrap()))
        .collect()
}

/// The first thing that is wrong with the tally of a listing.
pub fn fault(listing: &str) -> Option<String> {
    let tally = tally(listing);
    let Some(indices) = indices(listing) else {
        return Some("cells of one index with different marks".into());
    };
    let counted = |place: usize| indices.iter().filter(|i| i.place() == place).count() as u64;
    let mut numbers = tally.iter().enumerate();
    let (place, (word, number)) = numbers.find(|(k, (_, number))| *number != counted(*k))?;
    Some(format!("{word} {number}, yet {} indices", counted(place)))
}
