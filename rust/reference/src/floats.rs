//! Floats that count as a given number of thousandths.

/// The float nearest to this number of thousandths, up to 200,000. It is less
/// than a hundredth of a thousandth away, so it counts as just this number.
pub fn float_of(number: u32) -> f32 {
    number as f32 / 1_000.0
}

/// How many floats beside its number a reading can be.
pub const BESIDE: usize = 5;

/// Floats between two thousandths that count as this number, up to 200,000:
/// the first two past the half below it, one a bit nearer on either side, and
/// the last before the half above. Where a float can hold the half below, which
/// is rare, all are that half. Those below 0 or above the limit are missing.
pub fn floats_beside(number: u32) -> [f32; BESIDE] {
    let first = first_from_half_below(number);
    // (number - 1/2) / 1,000 is (2 number - 1) / (16 x 125).
    if 2 * number % 125 == 1 {
        return [first; BESIDE];
    }
    let last = first_from_half_below(number + 1).next_down();
    let off = |by: f64| ((f64::from(number) + by) / 1_000.0) as f32;
    [first, first.next_up(), off(-0.45), off(0.45), last]
}

/// The float nearest to this part of a pair.
pub fn part_of(part: i32) -> f32 {
    with_sign_of(part, float_of(part.unsigned_abs()))
}

/// Floats between two thousandths that count as this part, as far from 0 as
/// those beside its magnitude; beside 0 they have either sign.
pub fn parts_beside(part: i32) -> [f32; BESIDE] {
    match part {
        0 => {
            let [.., off, last] = floats_beside(0);
            [-0.0, off, -off, last, -last]
        }
        _ => floats_beside(part.unsigned_abs()).map(|float| with_sign_of(part, float)),
    }
}

fn with_sign_of(part: i32, float: f32) -> f32 {
    if part < 0 {
        -float
    } else {
        float
    }
}

/// The first float not below the half before this number of thousandths: the
/// half itself where a float can hold it.
fn first_from_half_below(number: u32) -> f32 {
    let half = f64::from(number) - 0.5;
    let nearest = (half / 1_000.0) as f32;
    // Exact: 24 bits and the 10 of 1,000 fit into the 53 of f64.
    match f64::from(nearest) * 1_000.0 < half {
        true => nearest.next_up(),
        false => nearest,
    }
}
