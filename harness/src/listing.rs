//! A listing taken apart, apart from the program that prints it.

/// The words of a line.
pub type Words<'a> = Vec<&'a str>;

pub struct Listing<'a> {
    /// The first line, and that of each point.
    pub counts: Words<'a>,
    pub points: Vec<Words<'a>>,
    /// The line after the points, and all lines after it.
    pub tally: &'a str,
    pub fills: Vec<Words<'a>>,
}

fn words(line: &str) -> Words<'_> {
    line.split(' ').collect()
}

impl<'a> Listing<'a> {
    /// The listing of an accepted sheet; none of a refused one.
    pub fn new(text: &'a str) -> Option<Listing<'a>> {
        let mut lines = text.lines();
        let counts = words(lines.next()?);
        let ["points", points, ..] = counts[..] else {
            return None;
        };
        let points = lines.by_ref().take(points.parse().ok()?).map(words);
        Some(Listing {
            points: points.collect(),
            counts,
            tally: lines.next()?,
            fills: lines.map(words).collect(),
        })
    }
}

/// The cell of a line that begins with one.
pub fn cell(words: &Words) -> Option<(i32, i32)> {
    let [u, v, ..] = words[..] else {
        return None;
    };
    Some((u.parse().ok()?, v.parse().ok()?))
}
