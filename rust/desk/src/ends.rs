//! The ends of the simulated drive: the taps between which it moves, and which way they are numbered.

use crate::drive::{Nature, Way};
use crate::names::{N_L, N_POS, N_R};
use crate::sheet::is_reversed;

/// The lowest and the highest tap.
#[derive(Clone, Copy, Debug, PartialEq, Eq)]
pub struct Ends {
    pub lowest: u8,
    pub highest: u8,
    /// A raise goes to the lower number, as the unit counts then.
    pub reversed: bool,
}

impl Ends {
    /// Those that the scenario gives, or else the sheet; where the drive begins outside, they reach as far as that.
    pub fn new(nature: &Nature, list: &[u32]) -> Ends {
        let (lowest, highest) = given(nature, list);
        let first = first_tap(nature, list);
        Ends { lowest: lowest.min(first), highest: highest.max(first), reversed: is_reversed(list) }
    }

    /// The tap after a move from this one, or none at the end.
    pub fn next(self, tap: u8, way: Way) -> Option<u8> {
        match (way == Way::Raise) != self.reversed {
            true => (tap < self.highest).then(|| tap + 1),
            false => (tap > self.lowest).then(|| tap - 1),
        }
    }

    /// Whether a move that way may begin at a tap.
    pub fn free(self, tap: u8, way: Way) -> bool {
        self.next(tap, way).is_some()
    }

    /// How many raises lead from one tap to another; below 0, lowers.
    pub fn raises(self, from: u8, to: u8) -> i32 {
        let up = i32::from(to) - i32::from(from);
        match self.reversed {
            true => -up,
            false => up,
        }
    }
}

/// The tap at which the drive begins.
pub fn first_tap(nature: &Nature, list: &[u32]) -> u8 {
    nature.tap.unwrap_or(list[N_POS] as u8)
}

/// The lowest and the highest tap, of the scenario or else of the sheet, whose taps are below 41.
fn given(nature: &Nature, list: &[u32]) -> (u8, u8) {
    (nature.lowest.unwrap_or(list[N_L] as u8), nature.highest.unwrap_or(list[N_R] as u8))
}

/// Whether the ends that the scenario gives are in order.
pub fn in_order(nature: &Nature) -> Result<(), String> {
    match (nature.lowest, nature.highest) {
        (Some(lowest), Some(highest)) if lowest >= highest => {
            Err(format!("drive_lowest: {lowest} is not below drive_highest, {highest}"))
        }
        _ => Ok(()),
    }
}

/// Whether what the scenario says of the drive's taps goes with the sheet, and what to do if not.
pub fn check(nature: &Nature, list: &[u32]) -> Result<(), String> {
    let (lowest, highest) = given(nature, list);
    if lowest >= highest {
        return Err(match nature.lowest {
            Some(_) => format!("drive_lowest, {lowest}, is not below the sheet's N_R = {highest}: give drive_highest too"),
            None => format!("drive_highest, {highest}, is not above the sheet's N_L = {lowest}: give drive_lowest too"),
        });
    }
    let first = first_tap(nature, list);
    match nature.tap.is_some() || (lowest..=highest).contains(&first) {
        true => Ok(()),
        false => Err(format!(
            "the drive begins at the sheet's N_pos = {first}, outside its taps {lowest} to {highest}: give drive_tap"
        )),
    }
}
