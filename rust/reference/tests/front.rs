//! Ticket 4: the first step against what every fraction would give, and the
//! conversion through both steps against the papers' plain words.

use reference::dice::Dice;
use reference::front::{Front, Quality, Sign};
use reference::reading::Reading;
use reference::values;

/// The limits of a voltage, a 1 A and a 5 A current.
const CHANNELS: [u32; 3] = [200, 40, 200];

const QUALITIES: [Quality; 3] = [Quality::Good, Quality::Held, Quality::Invalid];

const SIGNS: [Sign; 2] = [Sign::Plus, Sign::Minus];

/// The last fraction, all of whose 23 bits are set.
const LAST: u32 = 0x007F_FFFF;

/// Every quality, sign and exponent.
fn fronts() -> Vec<Front> {
    let mut fronts = Vec::new();
    for quality in QUALITIES {
        for sign in SIGNS {
            fronts.extend((0..=255).map(|exponent| Front { quality, sign, exponent }));
        }
    }
    fronts
}

/// The number that this fraction makes whole.
fn number(front: Front, fraction: u32) -> f32 {
    assert!(fraction <= LAST);
    let sign = match front.sign {
        Sign::Plus => 0,
        Sign::Minus => 0x8000_0000,
    };
    f32::from_bits(sign | (u32::from(front.exponent) << 23) | fraction)
}

fn reading(front: Front, fraction: u32) -> Reading {
    match front.quality {
        Quality::Good => Reading::Good(number(front, fraction)),
        Quality::Held => Reading::Held(number(front, fraction)),
        Quality::Invalid => Reading::Invalid,
    }
}

/// The papers' words on a reading from `low` to `high`, in f64: it holds every
/// float and its thousandfold exactly, and its `round` takes a half away from zero.
fn plain(front: Front, fraction: u32, low: f64, high: f64) -> Option<i32> {
    let x = f64::from(number(front, fraction));
    let missing = front.quality == Quality::Invalid || !x.is_finite() || x < low || x > high;
    match missing {
        true => None,
        false => Some((x * 1_000.0).round() as i32),
    }
}

fn plain_scalar(front: Front, fraction: u32, limit: u32) -> Option<i32> {
    plain(front, fraction, 0.0, limit.into())
}

fn plain_part(front: Front, fraction: u32, limit: u32) -> Option<i32> {
    plain(front, fraction, -f64::from(limit), limit.into())
}

/// What the conversion answers where Held counts.
fn scalar(front: Front, fraction: u32, limit: u32) -> Option<i32> {
    reading(front, fraction).good_or_held(limit).map(|n| n as i32)
}

fn part(front: Front, fraction: u32, limit: u32) -> Option<i32> {
    reading(front, fraction).good_part(limit)
}

/// The first and the last, those of 200 and 40 and beside them, powers of two
/// and beside them, and chance ones.
fn fractions_that_matter() -> Vec<u32> {
    let mut about = vec![0, LAST];
    about.extend([200.0_f32, 40.0].map(|limit| limit.to_bits() & LAST));
    about.extend((0..23).map(|bit| 1 << bit));
    let mut dice = Dice::new(4);
    about.extend((0..40).map(|_| dice.between(0, LAST)));
    let beside = |fraction: u32| fraction.saturating_sub(1)..=LAST.min(fraction + 1);
    about.into_iter().flat_map(beside).collect()
}

#[test]
fn the_fractions_of_the_limits_are_tried() {
    let fractions = fractions_that_matter();
    for fraction in [0, 1, LAST - 1, LAST, 0x48_0000, 0x48_0001, 0x47_FFFF, 0x20_0000, 0x20_0001, 0x1F_FFFF] {
        assert!(fractions.contains(&fraction), "{fraction:#x}");
    }
}

#[test]
fn a_front_has_all_but_the_fraction() {
    let fractions = fractions_that_matter();
    for front in fronts() {
        for &fraction in &fractions {
            assert_eq!(Front::of(front.quality, number(front, fraction)), front, "{fraction:#x}");
        }
    }
}

#[test]
fn missing_exactly_where_every_fraction_would_be() {
    let fractions = fractions_that_matter();
    for limit in CHANNELS {
        for front in fronts() {
            let some = fractions.iter().any(|&fraction| plain_scalar(front, fraction, limit).is_some());
            assert_eq!(front.passes(limit), some, "{front:?} to {limit}");
        }
    }
}

#[test]
fn a_part_is_missing_exactly_where_every_fraction_would_be() {
    let fractions = fractions_that_matter();
    for limit in CHANNELS {
        for front in fronts() {
            let some = fractions.iter().any(|&fraction| plain_part(front, fraction, limit).is_some());
            assert_eq!(front.part_passes(limit), some, "{front:?} to {limit}");
        }
    }
}

#[test]
fn no_answer_changes() {
    let fractions = fractions_that_matter();
    for limit in CHANNELS {
        for front in fronts() {
            let is_good = front.quality == Quality::Good;
            for &fraction in &fractions {
                let reading = reading(front, fraction);
                let answer = plain_scalar(front, fraction, limit).map(|n| n as u32);
                assert_eq!(reading.good_or_held(limit), answer, "{front:?} {fraction:#x} to {limit}");
                assert_eq!(reading.good(limit), answer.filter(|_| is_good), "{front:?} {fraction:#x} to {limit}");
                let answer = plain_part(front, fraction, limit).filter(|_| is_good);
                assert_eq!(reading.good_part(limit), answer, "{front:?} {fraction:#x} to {limit}");
            }
        }
    }
}

/// The exponents at the ends, those of 40 and 200, and those beside each.
const EDGES: [u8; 11] = [0, 1, 2, 131, 132, 133, 134, 135, 253, 254, 255];

/// Tries all fractions of Good numbers at the edges: what `converted` answers,
/// and whether the first step answers missing just where `expected` always is.
fn try_all_fractions(
    limit: u32,
    passes: fn(Front, u32) -> bool,
    converted: impl Fn(Front, u32, u32) -> Option<i32>,
    expected: impl Fn(Front, u32, u32) -> Option<i32>,
) {
    for sign in SIGNS {
        for exponent in EDGES {
            let front = Front { quality: Quality::Good, sign, exponent };
            let mut some = false;
            for fraction in 0..=LAST {
                let answer = expected(front, fraction, limit);
                assert_eq!(converted(front, fraction, limit), answer, "{front:?} {fraction:#x} to {limit}");
                some |= answer.is_some();
            }
            assert_eq!(passes(front, limit), some, "{front:?} to {limit}");
        }
    }
}

#[test]
fn all_fractions_to_200() {
    try_all_fractions(200, Front::passes, scalar, plain_scalar);
}

#[test]
fn all_fractions_to_40() {
    try_all_fractions(40, Front::passes, scalar, plain_scalar);
}

#[test]
fn all_fractions_of_parts_to_200() {
    try_all_fractions(200, Front::part_passes, part, plain_part);
}

#[test]
fn all_fractions_of_parts_to_40() {
    try_all_fractions(40, Front::part_passes, part, plain_part);
}

/// The exponents that pass the first step.
fn passing(limit: u32, quality: Quality, sign: Sign, passes: fn(Front, u32) -> bool) -> Vec<u8> {
    (0..=255).filter(|&exponent| passes(Front { quality, sign, exponent }, limit)).collect()
}

#[test]
fn exponents_that_pass() {
    // 200 is 1.5625 x 2^7 and 40 is 1.25 x 2^5; the field is 127 more.
    for (limit, last) in [(200, 134), (40, 132)] {
        for quality in [Quality::Good, Quality::Held] {
            let up_to_limit: Vec<u8> = (0..=last).collect();
            assert_eq!(passing(limit, quality, Sign::Plus, Front::passes), up_to_limit);
            // -0.0 is not below 0.
            assert_eq!(passing(limit, quality, Sign::Minus, Front::passes), [0]);
            for sign in SIGNS {
                assert_eq!(passing(limit, quality, sign, Front::part_passes), up_to_limit);
            }
        }
        for sign in SIGNS {
            assert_eq!(passing(limit, Quality::Invalid, sign, Front::passes), []);
            assert_eq!(passing(limit, Quality::Invalid, sign, Front::part_passes), []);
        }
    }
}

#[test]
fn the_fraction_decides_where_the_exponent_does_not() {
    let volts = |bits| Reading::Good(f32::from_bits(bits)).good_or_held(200);
    assert_eq!([0x4348_0000, 0x4348_0001].map(volts), [Some(200_000), None]);
    assert_eq!([0x8000_0000, 0x8000_0001, 0x807F_FFFF].map(volts), [Some(0), None, None]);
    let part = |bits| Reading::Good(f32::from_bits(bits)).good_part(40);
    assert_eq!([0xC220_0000, 0xC220_0001].map(part), [Some(-40_000), None]);
    assert_eq!([0x8000_0000, 0x8000_0001, 0x807F_FFFF].map(part), [Some(0); 3]);
}

#[test]
fn lines_of_values() {
    let mut bytes = Vec::new();
    values::print(&mut bytes).unwrap();
    let text = String::from_utf8(bytes).unwrap();
    let mut lines = text.lines().skip_while(|line| !line.starts_with("readings "));
    lines.next();
    for (limit, plus) in [(200, 135), (40, 133), (200, 135)] {
        for (quality, passing) in [("good", [plus, 1]), ("held", [plus, 1]), ("invalid", [0, 0])] {
            for (sign, first) in ["plus", "minus"].into_iter().zip(passing) {
                let answers = "1".repeat(first) + &"0".repeat(256 - first);
                assert_eq!(lines.next(), Some(&*format!("front {limit} {quality} {sign} {answers}")));
            }
        }
    }
    assert!(lines.next().unwrap().starts_with("part "));
}
