//! Reads the residuals off a listing, apart from the program that finds them: their form, and what their digits say of
//! `=` after them.

use crate::listing::Listing;

/// What the digits of a residual say of `=`.
#[derive(Clone, Copy, Debug, PartialEq)]
enum Equal {
    Must,
    MustNot,
    /// The digits are the root of a number that they are exact for, and of another.
    Either,
}

/// The f32s whose root has these digits: none is farther than two from the square.
fn numbers_of(residual: f32) -> Vec<f32> {
    let square = residual * residual;
    let (down, up) = (square.next_down(), square.next_up());
    let near = [down.next_down(), down, square, up, up.next_up()];
    let has = |number: &f32| number.sqrt().to_bits() == residual.to_bits();
    near.into_iter().filter(has).collect()
}

/// `=` stands where the number is the residual's square; infinite and NaN residuals have none. Nothing where no number
/// has this root.
fn of_digits(residual: f32) -> Option<Equal> {
    if residual.is_nan() || residual == f32::INFINITY {
        return Some(Equal::MustNot);
    }
    if residual == 0.0 {
        return residual.is_sign_positive().then_some(Equal::Must);
    }
    let numbers = numbers_of(residual);
    let square = f64::from(residual) * f64::from(residual);
    let exact = numbers.iter().any(|number| f64::from(*number) == square);
    match (numbers.len(), exact) {
        (0, _) => None,
        (1, true) => Some(Equal::Must),
        (_, true) => Some(Equal::Either),
        (_, false) => Some(Equal::MustNot),
    }
}

/// Eight hexadecimal digits, letters large.
fn bits(digits: &str) -> Option<u32> {
    let digit = |c: u8| c.is_ascii_digit() || (b'A'..=b'F').contains(&c);
    let well = digits.len() == 8 && digits.bytes().all(digit);
    well.then(|| u32::from_str_radix(digits, 16).unwrap())
}

/// How many residuals a listing has, of which `=` stands after, and of how many their digits alone decide that.
#[derive(Clone, Copy, Debug, Default)]
pub struct Read {
    pub residuals: usize,
    pub equal: usize,
    pub decided: usize,
}

impl Read {
    /// The first thing that is wrong with the residuals of an accepted sheet's listing: a word of another form, or an
    /// `=` too many or missing by the digits before it.
    pub fn fault(&mut self, text: &str) -> Option<String> {
        let listing = Listing::new(text)?;
        listing.points.iter().find_map(|words| {
            let [_, _, _, _, _, residual] = words[..] else {
                return Some(format!("a line of {} words", words.len()));
            };
            self.wrong(residual)
                .then(|| format!("residual {residual:?}"))
        })
    }

    fn wrong(&mut self, word: &str) -> bool {
        if word == "-" {
            return false;
        }
        let (digits, equal) = match word.strip_suffix('=') {
            Some(digits) => (digits, true),
            None => (word, false),
        };
        let says = bits(digits).map(f32::from_bits).and_then(of_digits);
        let nan = digits != "7FC00000" && bits(digits).is_some_and(|b| f32::from_bits(b).is_nan());
        self.residuals += 1;
        self.equal += usize::from(equal);
        self.decided += usize::from(says != Some(Equal::Either));
        match says {
            None => true,
            Some(Equal::Must) => !equal,
            Some(Equal::MustNot) => equal || nan,
            Some(Equal::Either) => false,
        }
    }
}
