//! Readings and their exact conversion to whole thousandths, in two steps: the
//! fraction is touched only after the rest of the number has passed.

use crate::front::{Front, Quality};

/// One measured quantity, in V or A, with its quality.
#[derive(Clone, Copy, Debug, PartialEq)]
pub enum Reading {
    Good(f32),
    Held(f32),
    Invalid,
}

/// The highest voltage that is not missing, in V.
pub const VOLT_LIMIT: u32 = 200;

/// The highest current that is not missing, in A, for a module of `k` A.
pub fn amp_limit(k: u32) -> u32 {
    40 * k
}

impl Reading {
    /// The value for the organs: Good and Held both count.
    pub fn good_or_held(self, limit: u32) -> Option<u32> {
        let (quality, x) = self.handed_over();
        match Front::of(quality, x).passes(limit) {
            true => counted(x, limit),
            false => None,
        }
    }

    /// The value for everything else: Held is as good as missing.
    pub fn good(self, limit: u32) -> Option<u32> {
        self.unless_held().good_or_held(limit)
    }

    /// The value as one part of a pair; Held is as good as missing.
    pub fn good_part(self, limit: u32) -> Option<i32> {
        let (quality, x) = self.unless_held().handed_over();
        match Front::of(quality, x).part_passes(limit) {
            true => counted_part(x, limit),
            false => None,
        }
    }

    /// The quality and the number, which with Invalid says nothing.
    fn handed_over(self) -> (Quality, f32) {
        match self {
            Reading::Good(x) => (Quality::Good, x),
            Reading::Held(x) => (Quality::Held, x),
            Reading::Invalid => (Quality::Invalid, 0.0),
        }
    }

    /// The reading where Held does not count.
    fn unless_held(self) -> Reading {
        match self {
            Reading::Held(_) => Reading::Invalid,
            _ => self,
        }
    }
}

/// "... each part a reading in the range −200 to 200 V or −40k to 40k A, rounded
/// by magnitude with the sign kept": nothing if `x` is not finite, below `-limit`
/// or above `limit`; -0.0 is 0.
pub fn signed_thousandths(x: f32, limit: u32) -> Option<i32> {
    Reading::Good(x).good_part(limit)
}

/// The whole number of thousandths nearest to `x`, a half going up; nothing if
/// `x` is missing: not finite, below 0, or above `limit` (a whole number of V
/// or A).
pub fn thousandths(x: f32, limit: u32) -> Option<u32> {
    Reading::Good(x).good(limit)
}

/// The second step, for a part that passed the first.
fn counted_part(x: f32, limit: u32) -> Option<i32> {
    let magnitude = counted(x.abs(), limit)?;
    let magnitude = i32::try_from(magnitude).expect("at most 200,000 by the range test");
    Some(if x < 0.0 { -magnitude } else { magnitude })
}

/// The second step, which alone goes by the fraction, for a number that passed
/// the first: the range test, on the float itself, and then the thousandths.
fn counted(x: f32, limit: u32) -> Option<u32> {
    let below = x < 0.0;
    let above = x > limit as f32;
    match below || above {
        true => None,
        false => Some(nearest_to_thousandfold(x.to_bits())),
    }
}

/// The whole number nearest to 1000 x, a half going up, where x is given by
/// its bits, is not negative and is at most 200 or so: then
/// x = significand / 2^shift with a positive shift.
fn nearest_to_thousandfold(bits: u32) -> u32 {
    let exponent = (bits >> 23) & 0xFF;
    let fraction = u64::from(bits & 0x007F_FFFF);
    // Exponent 0 has no hidden leading 1 and the scale of exponent 1.
    let (significand, scale) = match exponent {
        0 => (fraction, 1),
        _ => (fraction | 0x0080_0000, exponent),
    };
    let shift = 150 - scale;
    // The whole part of 1000 x + 1/2, over the denominator 2^(shift + 1).
    // 1000 significand is below 2^34, so from shift 35 on 1000 x is below 1/2.
    let nearest = match shift {
        0..=34 => (2000 * significand + (1 << shift)) >> (shift + 1),
        _ => 0,
    };
    u32::try_from(nearest).expect("at most 200,000 by the range test")
}
