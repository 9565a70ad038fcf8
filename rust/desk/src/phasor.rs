//! Pairs of readings, real and imaginary part, by their magnitude and angle.

use library::{Sample, INVALID};

/// The parts of a phasor, each to the nearest millionth, so that a quarter of a turn leaves a part of 0.
pub fn parts(size: f64, degrees: f64) -> [f32; 2] {
    let (sin, cos) = degrees.to_radians().sin_cos();
    [cos, sin].map(|part| millionth(size * part))
}

/// The nearest millionth as a float; 0 has no sign.
fn millionth(number: f64) -> f32 {
    ((number * 1e6).round() / 1e6 + 0.0) as f32
}

/// The pair with so much more magnitude, at its angle. One that has no angle stays as it is.
pub fn lengthened(pair: [Sample; 2], more: f64) -> [Sample; 2] {
    if more == 0.0 || !has_angle(pair) {
        return pair;
    }
    let times = (size(pair) + more).max(0.0) / size(pair);
    pair.map(|part| Sample { value: millionth(f64::from(part.value) * times), ..part })
}

/// Its magnitude, with the worse quality of its parts.
pub fn magnitude(pair: [Sample; 2]) -> Sample {
    Sample { quality: worst(&pair), value: size(pair) as f32 }
}

fn size(pair: [Sample; 2]) -> f64 {
    let [re, im] = pair.map(|part| f64::from(part.value));
    re.hypot(im)
}

/// The degrees by which a pair is ahead of another, above -180 and up to 180; Invalid where one has no angle.
pub fn ahead(pair: [Sample; 2], of: [Sample; 2]) -> Sample {
    if !has_angle(pair) || !has_angle(of) {
        return Sample { quality: INVALID, value: 0.0 };
    }
    let turn = angle(pair) - angle(of);
    let value = match turn {
        _ if turn > 180.0 => turn - 360.0,
        _ if turn <= -180.0 => turn + 360.0,
        _ => turn,
    };
    Sample { quality: worst(&[pair, of].concat()), value: value as f32 }
}

fn angle(pair: [Sample; 2]) -> f64 {
    let [re, im] = pair.map(|part| f64::from(part.value));
    im.atan2(re).to_degrees()
}

fn has_angle(pair: [Sample; 2]) -> bool {
    let known = |part: Sample| part.quality != INVALID && part.value.is_finite();
    pair.into_iter().all(known) && size(pair) > 0.0
}

fn worst(samples: &[Sample]) -> u32 {
    samples.iter().map(|sample| sample.quality).max().unwrap_or(INVALID)
}
