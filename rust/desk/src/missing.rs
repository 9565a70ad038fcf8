//! Readings that count as missing to the unit: document 01's 'A number that is not finite, below 0, or above 200 V or 40 × k A
//! is missing, as is Invalid'. A part of a pair may be below 0, and is missing beyond the same bound either way. This only tells
//! of it; what is missing is the unit's word, and a test holds this to it.

use library::{Sample, INVALID, READINGS as COUNT};

use crate::inputs::{READINGS, SCALARS};

/// Why a reading is missing.
#[derive(Clone, Copy, Debug, PartialEq, Eq)]
pub enum Why {
    Invalid,
    NoNumber,
    BelowZero,
    Beyond,
}

const REASONS: [Why; 4] = [Why::Invalid, Why::NoNumber, Why::BelowZero, Why::Beyond];

/// The most volts, and the most amperes for each of the module's rated ones.
const MOST_VOLTS: u32 = 200;
const MOST_RATED: u32 = 40;

/// The largest number that counts, of a reading, with a module of so many rated amperes.
pub fn most(reading: usize, rated: u32) -> u32 {
    match READINGS[reading].unit {
        "V" => MOST_VOLTS,
        _ => MOST_RATED * rated,
    }
}

/// Why a reading is missing, or none if it counts.
pub fn why(reading: usize, sample: Sample, rated: u32) -> Option<Why> {
    let value = f64::from(sample.value);
    match value {
        _ if sample.quality == INVALID => Some(Why::Invalid),
        _ if !value.is_finite() => Some(Why::NoNumber),
        _ if value < 0.0 && reading < SCALARS => Some(Why::BelowZero),
        _ if value.abs() > f64::from(most(reading, rated)) => Some(Why::Beyond),
        _ => None,
    }
}

/// The reason in words: `above 200 V`.
pub fn words(why: Why, reading: usize, rated: u32) -> String {
    match why {
        Why::Invalid => "invalid".to_string(),
        Why::NoNumber => "no number".to_string(),
        Why::BelowZero => "below 0".to_string(),
        Why::Beyond => format!("beyond {} {}", most(reading, rated), READINGS[reading].unit),
    }
}

/// On how many ticks each reading was missing, and why.
#[derive(Default)]
pub struct Missing {
    ticks: [[u32; REASONS.len()]; COUNT],
}

impl Missing {
    /// Counts a tick: the readings that are missing on it, a bit each.
    pub fn count(&mut self, readings: &[Sample; COUNT], rated: u32) -> u32 {
        let mut mask = 0;
        for (at, sample) in readings.iter().enumerate() {
            if let Some(why) = why(at, *sample, rated) {
                mask |= 1 << at;
                self.ticks[at][why as usize] += 1;
            }
        }
        mask
    }

    /// The reasons that came, each with its reading and its ticks.
    pub fn came(&self) -> impl Iterator<Item = (usize, Why, u32)> + '_ {
        let of = move |at: usize| REASONS.into_iter().map(move |why| (at, why, self.ticks[at][why as usize]));
        (0..COUNT).flat_map(of).filter(|(.., ticks)| *ticks > 0)
    }
}
