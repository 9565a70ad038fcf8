//! Ticket 4's first step: a reading judged by what the module hands over before
//! the fraction.

/// How far a reading can be trusted.
#[derive(Clone, Copy, Debug, PartialEq, Eq)]
pub enum Quality {
    Good,
    Held,
    Invalid,
}

/// The sign bit of a float; 0 has one too.
#[derive(Clone, Copy, Debug, PartialEq, Eq)]
pub enum Sign {
    Plus,
    Minus,
}

/// A reading without its fraction.
#[derive(Clone, Copy, Debug, PartialEq, Eq)]
pub struct Front {
    pub quality: Quality,
    pub sign: Sign,
    /// The float's exponent field, 0 to 255.
    pub exponent: u8,
}

impl Front {
    /// What is handed over before the fraction of this number.
    pub fn of(quality: Quality, x: f32) -> Front {
        let sign = match x.is_sign_negative() {
            true => Sign::Minus,
            false => Sign::Plus,
        };
        Front { quality, sign, exponent: exponent_of(x) }
    }

    /// Whether a reading from 0 to `limit` passes: not if it is missing with
    /// every fraction. Of the floats with a minus only -0.0 is not below 0.
    pub fn passes(self, limit: u32) -> bool {
        let within_reach = match self.sign {
            Sign::Plus => self.exponent <= exponent_of(limit as f32),
            Sign::Minus => self.exponent == 0,
        };
        self.quality != Quality::Invalid && within_reach
    }

    /// Whether a part of a pair passes, from `-limit` to `limit`: whatever its
    /// sign, it goes as far as a reading with a plus.
    pub fn part_passes(self, limit: u32) -> bool {
        Front { sign: Sign::Plus, ..self }.passes(limit)
    }
}

/// The exponent field of a float. It is 255 if the float is not finite, which is
/// more than that of any limit.
fn exponent_of(x: f32) -> u8 {
    ((x.to_bits() >> 23) & 0xFF) as u8
}
