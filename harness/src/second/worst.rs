//! Document 02, A.6: "the worst sheet of n points, n from 2 to 2,304", from a program's arguments to the
//! bytes of its file.

use super::fault::Fault;
use super::file::MAX_POINTS;

/// The digits of an argument; under a fault without what is passed over.
fn digits(argument: &[u8], fault: Fault) -> &[u8] {
    let is_zero = |byte: &u8| *byte == b'0';
    let is_digit = |byte: &u8| byte.is_ascii_digit();
    let after = |other: fn(&u8) -> bool| argument.iter().position(|byte| !other(byte));
    match fault {
        Fault::WorstLeadingZeros => &argument[after(is_zero).unwrap_or(argument.len())..],
        Fault::WorstSign => argument.strip_prefix(b"+").unwrap_or(argument),
        Fault::WorstSpaces => argument.trim_ascii(),
        Fault::WorstTail => &argument[..after(is_digit).unwrap_or(argument.len())],
        _ => argument,
    }
}

/// "printed like an index": "in decimal, first digit first, without leading zeros". The only number with a
/// zero in front is 0, which is no n.
fn number(argument: &[u8], fault: Fault) -> Option<usize> {
    if argument.is_empty() || argument[0] == b'0' {
        return None;
    }
    let mut number: usize = 0;
    for byte in argument {
        let digit = byte.is_ascii_digit().then(|| usize::from(byte - b'0'))?;
        number = match fault {
            Fault::WorstWraps => (10 * number + digit) % (1 << 32),
            _ => number.checked_mul(10)?.checked_add(digit)?,
        };
    }
    Some(number)
}

/// The n that is asked for; none for anything else.
fn asked(arguments: &[Vec<u8>], fault: Fault) -> Option<usize> {
    let argument = match arguments {
        [argument] => argument,
        [argument, ..] if fault == Fault::WorstMoreArguments => argument,
        _ => return None,
    };
    let (least, most) = match fault {
        Fault::WorstTakes1 => (1, MAX_POINTS),
        Fault::WorstRefuses2 => (3, MAX_POINTS),
        Fault::WorstRefusesMost => (2, MAX_POINTS - 1),
        Fault::WorstTakesMore => (2, MAX_POINTS + 1),
        _ => (2, MAX_POINTS),
    };
    let n = number(digits(argument, fault), fault)?;
    (least <= n && n <= most).then_some(n)
}

/// "cell size 7", and "all 21 bytes with 3"
fn settings(fault: Fault) -> Vec<u8> {
    let cell_size: f32 = match fault {
        Fault::WorstCell8 => 8.0,
        Fault::WorstCell100 => 100.0,
        _ => 7.0,
    };
    let minimum: u16 = match fault {
        Fault::WorstMinimum4 => 4,
        _ => 3,
    };
    let largest_patch = u8::from(fault != Fault::WorstSwitchOff);
    let mut data = cell_size.to_le_bytes().to_vec();
    if fault != Fault::WorstShortSettings {
        data.extend(0.15f32.to_le_bytes());
        data.extend(minimum.to_le_bytes());
        data.extend(0.2f32.to_le_bytes());
        data.push(0);
        data.extend(0f32.to_le_bytes());
        data.extend([1, largest_patch]);
    }
    data
}

/// A gate that no point fails.
fn gate() -> Vec<u8> {
    let floats = [-2f32, 16384.0, -2.0, 16384.0];
    let mut data = vec![0];
    data.extend(floats.into_iter().flat_map(f32::to_le_bytes));
    data
}

/// "cells (u,0) with index u at (7u,0)"
fn point(u: u32, fault: Fault) -> [[u8; 4]; 5] {
    let cell = match fault {
        Fault::WorstColumn => [0, u],
        Fault::WorstCellsFrom1 => [u + 1, 0],
        _ => [u, 0],
    };
    let index = match fault {
        Fault::WorstIndexFrom1 => u + 1,
        _ => u,
    };
    let at = match fault {
        Fault::WorstApart8 => [8 * u, 0],
        Fault::WorstAcross => [0, 7 * u],
        _ => [7 * u, 0],
    };
    // No u is negative, and whole numbers below 2^24 are floats.
    let [x, y] = at.map(|whole| (whole as f32).to_le_bytes());
    let [cell_u, cell_v] = cell.map(u32::to_le_bytes);
    [cell_u, cell_v, index.to_le_bytes(), x, y]
}

/// "all strengths 1 but the last, which is 2"
fn strength(n: u32, u: u32, fault: Fault) -> f32 {
    let strong = match fault {
        Fault::WorstLastAlike => n,
        Fault::WorstFirstStrong => 0,
        Fault::WorstMiddleStrong => n / 2,
        _ => n - 1,
    };
    if u == strong {
        2.0
    } else {
        1.0
    }
}

/// "fraction 2", and the strengths of the points in their order.
fn strengths(n: u32, order: &[u32], fault: Fault) -> Vec<u8> {
    let fraction: f32 = match fault {
        Fault::WorstFraction1 => 1.0,
        _ => 2.0,
    };
    let of_points = order.iter().map(|u| strength(n, *u, fault));
    let floats = std::iter::once(fraction).chain(of_points);
    let mut data: Vec<u8> = floats.flat_map(f32::to_le_bytes).collect();
    if fault == Fault::WorstStrengthMissing {
        data.truncate(data.len() - 4);
    }
    data
}

/// The file for n: tags 1, 3 and 4.
fn file(n: usize, fault: Fault) -> Vec<u8> {
    let n = match fault {
        Fault::WorstOneFewer => n - 1,
        Fault::WorstOneMore => n + 1,
        _ => n,
    } as u32;
    let mut order: Vec<u32> = (0..n).collect();
    if fault == Fault::WorstFalling {
        order.reverse();
    }
    let points = order.iter().flat_map(|u| point(*u, fault));
    let fields = [
        (1, settings(fault)),
        (2, gate()),
        (3, points.flatten().collect()),
        (4, strengths(n, &order, fault)),
    ];
    let mut out = Vec::new();
    for (tag, data) in fields {
        let left_out = match tag {
            2 => fault != Fault::WorstGate,
            4 => fault == Fault::WorstNoStrengths,
            _ => false,
        };
        if !left_out {
            out.push(tag);
            out.extend((data.len() as u16).to_le_bytes());
            out.extend(data);
        }
    }
    out
}

/// What the program `worst` writes for a list of arguments: "For anything else it writes nothing."
pub fn worst(arguments: &[Vec<u8>], fault: Fault) -> Vec<u8> {
    match asked(arguments, fault) {
        Some(n) => file(n, fault),
        None if fault == Fault::WorstSaysWhy => b"a number from 2 to 2304\n".to_vec(),
        None => Vec::new(),
    }
}

/// What it writes for a number.
pub fn worst_of(n: usize) -> Vec<u8> {
    worst(&[n.to_string().into_bytes()], Fault::None)
}
