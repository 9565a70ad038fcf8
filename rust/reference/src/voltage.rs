//! Rule 6: the regulated voltage U and its place against the band.

use std::ops::{Add, Sub};

use crate::input::{bit, Contacts, Input};
use crate::line;
use crate::reading::{amp_limit, VOLT_LIMIT};
use crate::record::Side;
use crate::sheet::{module_k, slot, Settings};

/// The numbers of slot 3: how U is compensated.
pub mod compensated {
    pub const NOT: u32 = 0;
    pub const BY_U_COMP: u32 = 1;
    pub const ALONG_LINE: u32 = 2;
}

/// U, in mV and possibly below 0, and on which side of the band it is.
#[derive(Clone, Copy, Debug, PartialEq, Eq)]
pub struct Voltage {
    /// Nothing if U is missing.
    pub u: Option<i64>,
    /// Nothing in the band, or if U is missing.
    pub side: Option<Side>,
}

impl Voltage {
    /// U is there and neither low nor high.
    pub fn in_band(&self) -> bool {
        self.u.is_some() && self.side.is_none()
    }
}

/// U and its side on this tick.
pub fn judge(settings: &Settings, input: &Input) -> Voltage {
    let u = regulated(settings, input);
    let support = support(settings, input.contacts);
    let side = u.and_then(|u| side_of(u, support, settings[slot::DU]));
    Voltage { u, side }
}

/// U by slot 3's way; nothing if a reading that this way needs is missing or Held.
fn regulated(settings: &Settings, input: &Input) -> Option<i64> {
    match settings[slot::COMPENSATION] {
        compensated::NOT => u_ab(input),
        compensated::BY_U_COMP => less_u_comp(settings, input),
        _ => along_line(settings, input),
    }
}

/// Good U_AB.
fn u_ab(input: &Input) -> Option<i64> {
    input.u_ab.good(VOLT_LIMIT).map(i64::from)
}

/// Good U_AB, less U_comp's share of the current.
fn less_u_comp(settings: &Settings, input: &Input) -> Option<i64> {
    let k = module_k(settings);
    let amps = amp_limit(k);
    let bus = input.i_bus.good(amps).map(i64::from);
    let coupler = input.i_coupler.good(amps).map(i64::from);
    let current = picked(settings, bus, coupler)?;
    Some(u_ab(input)? - compensation(settings[slot::U_COMP], current, k, Ratings::of(settings)))
}

/// Ticket 3's U, by the pairs alone: U_AB itself is not needed.
fn along_line(settings: &Settings, input: &Input) -> Option<i64> {
    let amps = amp_limit(module_k(settings));
    let u_ab = input.u_ab_pair.good(VOLT_LIMIT)?;
    let current = picked(settings, input.i_bus_pair.good(amps), input.i_coupler_pair.good(amps))?;
    Some(line::remaining(settings[slot::R], settings[slot::X], u_ab, current))
}

/// The current of slot 4; only those that it names are needed.
pub fn picked<I: Add<Output = I> + Sub<Output = I>>(settings: &Settings, bus: Option<I>, coupler: Option<I>) -> Option<I> {
    match settings[slot::COMPENSATION_CURRENT] {
        0 => bus,
        1 => coupler,
        2 => Some(bus? - coupler?),
        _ => Some(bus? + coupler?),
    }
}

/// The primary ratings of the current transformer and the breaker, in A.
#[derive(Clone, Copy, Debug, PartialEq, Eq)]
pub struct Ratings {
    pub transformer: u32,
    pub breaker: u32,
}

impl Ratings {
    /// Those of slots 66 and 67.
    pub fn of(settings: &Settings) -> Ratings {
        Ratings { transformer: settings[slot::TRANSFORMER_RATING], breaker: settings[slot::BREAKER_RATING] }
    }
}

/// Ticket 5's drop, in mV: "U_comp × I × slot 66, divided once by 1,000k × slot
/// 67, toward zero". On sheets that are taken the product is at most 40,000 ×
/// 400,000 × 20,000, below 2^49.
pub fn compensation(u_comp: u32, current: i64, k: u32, ratings: Ratings) -> i64 {
    let product = i64::from(u_comp) * current * i64::from(ratings.transformer);
    product / (1_000 * i64::from(k) * i64::from(ratings.breaker))
}

/// U_supp of the highest set bit of 18, 17, 16, else U_supp 1.
fn support(settings: &Settings, contacts: Contacts) -> u32 {
    let chosen = if contacts.on(bit::U_SUPP4) {
        3
    } else if contacts.on(bit::U_SUPP3) {
        2
    } else if contacts.on(bit::U_SUPP2) {
        1
    } else {
        0
    };
    settings[slot::U_SUPP + chosen]
}

/// Low if 2U <= 2U_supp - dU, high if 2U >= 2U_supp + dU.
pub fn side_of(u: i64, support: u32, du: u32) -> Option<Side> {
    let (support, du) = (i64::from(support), i64::from(du));
    if 2 * u <= 2 * support - du {
        Some(Side::Low)
    } else if 2 * u >= 2 * support + du {
        Some(Side::High)
    } else {
        None
    }
}
