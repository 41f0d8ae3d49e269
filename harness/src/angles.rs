//! The Rust's angle of a cosine: the one thing that no document defines.

use crate::second::over_30_degrees;

/// Degrees as the original computes them.
pub fn degrees(cosine: f32) -> f32 {
    cosine.acos().to_degrees()
}

/// The limit that the original is given for a least cosine of tag 2.
pub fn limit(least: f32) -> f32 {
    if least > 1.0 {
        -1.0
    } else if least < -1.0 {
        181.0
    } else {
        degrees(least)
    }
}

/// All floats from -1 to 1: whether acos ever rises with its cosine, so that the largest angle
/// is that of the least cosine; and which floats it judges otherwise at 30 degrees.
pub fn sweep() {
    let mut c = -1f32;
    let mut last = degrees(c);
    let (mut floats, mut rises, mut otherwise) = (1u64, 0u64, Vec::new());
    while c < 1.0 {
        c = c.next_up();
        let angle = degrees(c);
        floats += 1;
        rises += u64::from(angle > last);
        if (angle > 30.0) != over_30_degrees(c) {
            otherwise.push(c);
        }
        last = angle;
    }
    println!("{floats} floats from -1 to 1; acos rises with its cosine at {rises} of them");
    println!("judged otherwise at 30 degrees: {}", otherwise.len());
    for c in otherwise {
        println!("  {:08X} {c}", c.to_bits());
    }
}

/// The floats that acos cannot tell from a cosine, at most a million each way.
pub fn alike(cosine: f32) {
    let reach = |next: fn(f32) -> f32| {
        let mut at = cosine;
        let mut count = 0;
        while count < 1_000_000 && degrees(next(at)) == degrees(cosine) {
            at = next(at);
            count += 1;
        }
        (at, count)
    };
    let (low, below) = reach(f32::next_down);
    let (high, above) = reach(f32::next_up);
    println!(
        "{:08X} {cosine}: {:08X} to {:08X}, {below} below it and {above} above",
        cosine.to_bits(),
        low.to_bits(),
        high.to_bits()
    );
}
