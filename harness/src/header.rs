//! Numbers of include/higlaupth.h, read while this is compiled.

const HEADER: &str = include_str!("../../include/higlaupth.h");

/// Whether a text stands at a place of the header.
const fn stands_at(place: usize, text: &str) -> bool {
    let (header, text) = (HEADER.as_bytes(), text.as_bytes());
    let mut k = 0;
    while k < text.len() {
        if place + k >= header.len() || header[place + k] != text[k] {
            return false;
        }
        k += 1;
    }
    true
}

/// The whole number after a text, which stands at the start of a line, and before a space.
const fn number_after(text: &str) -> usize {
    let header = HEADER.as_bytes();
    let mut at = 1;
    while !(header[at - 1] == b'\n' && stands_at(at, text)) {
        at += 1;
        assert!(at < header.len(), "the header has no such line");
    }
    at += text.len();
    let (first, mut number) = (at, 0);
    while header[at].is_ascii_digit() {
        number = 10 * number + (header[at] - b'0') as usize;
        at += 1;
    }
    assert!(at > first && header[at] == b' ', "no plain number");
    number
}

/// The most points of a sheet.
pub const MOST_POINTS: usize = number_after("#define HIGLAUPTH_MOST_POINTS ");

/// The stack that a call asks for, in bytes.
pub const STACK_SIZE: usize = number_after("#define HIGLAUPTH_STACK_SIZE ");
