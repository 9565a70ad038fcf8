//! Pairs of readings, real and imaginary part, and the phasors they count as.

use std::ops::{Add, Sub};

use crate::reading::Reading;

/// A measured phasor, each part a reading of its own.
#[derive(Clone, Copy, Debug, PartialEq)]
pub struct Pair {
    pub re: Reading,
    pub im: Reading,
}

impl Pair {
    /// The phasor; nothing if a part is missing or Held.
    pub fn good(self, limit: u32) -> Option<Phasor> {
        Some(Phasor { re: self.re.good_part(limit)?, im: self.im.good_part(limit)? })
    }
}

/// A phasor in whole mV or mA.
#[derive(Clone, Copy, Debug, PartialEq, Eq)]
pub struct Phasor {
    pub re: i32,
    pub im: i32,
}

/// Part by part.
impl Add for Phasor {
    type Output = Phasor;

    fn add(self, other: Phasor) -> Phasor {
        Phasor { re: self.re + other.re, im: self.im + other.im }
    }
}

/// Part by part.
impl Sub for Phasor {
    type Output = Phasor;

    fn sub(self, other: Phasor) -> Phasor {
        Phasor { re: self.re - other.re, im: self.im - other.im }
    }
}
