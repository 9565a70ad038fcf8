//! What a tick brings.

use crate::phasor::Pair;
use crate::reading::Reading;

/// How many readings a tick brings.
pub const READINGS: usize = 12;

/// How many contacts there are; the bits after them are ignored.
pub const CONTACTS: u32 = 24;

/// The inputs of one tick.
#[derive(Clone, Copy, Debug, PartialEq)]
pub struct Input {
    pub u_ab: Reading,
    /// 3U0, the zero-sequence voltage.
    pub u_zero: Reading,
    /// U2, the negative-sequence voltage.
    pub u_negative: Reading,
    pub i_high: Reading,
    pub i_bus: Reading,
    pub i_coupler: Reading,
    /// U_AB once more, as a phasor; so are the two currents.
    pub u_ab_pair: Pair,
    pub i_bus_pair: Pair,
    pub i_coupler_pair: Pair,
    pub contacts: Contacts,
    /// Bits 0-3 units, 4-6 tens, 7 ignored.
    pub bcd: u8,
    pub sensor: u8,
}

impl Input {
    /// What a tick brings, its readings in the order of a recording.
    pub fn of(readings: [Reading; READINGS], contacts: u32, bcd: u8, sensor: u8) -> Input {
        let [u_ab, u_zero, u_negative, i_high, i_bus, i_coupler, pairs @ ..] = readings;
        let [u_re, u_im, bus_re, bus_im, coupler_re, coupler_im] = pairs;
        Input {
            u_ab,
            u_zero,
            u_negative,
            i_high,
            i_bus,
            i_coupler,
            u_ab_pair: Pair { re: u_re, im: u_im },
            i_bus_pair: Pair { re: bus_re, im: bus_im },
            i_coupler_pair: Pair { re: coupler_re, im: coupler_im },
            contacts: Contacts(contacts),
            bcd,
            sensor,
        }
    }

    /// The readings in that order.
    pub fn readings(&self) -> [Reading; READINGS] {
        let (u, bus, coupler) = (self.u_ab_pair, self.i_bus_pair, self.i_coupler_pair);
        [
            self.u_ab,
            self.u_zero,
            self.u_negative,
            self.i_high,
            self.i_bus,
            self.i_coupler,
            u.re,
            u.im,
            bus.re,
            bus.im,
            coupler.re,
            coupler.im,
        ]
    }
}

/// The contacts, one bit each.
#[derive(Clone, Copy, Debug, PartialEq, Eq)]
pub struct Contacts(pub u32);

impl Contacts {
    /// Whether the contact of this bit is set.
    pub fn on(self, bit: u32) -> bool {
        (self.0 >> bit) & 1 == 1
    }

    /// Whether any of these contacts is set.
    pub fn any(self, bits: &[u32]) -> bool {
        bits.iter().any(|&bit| self.on(bit))
    }
}

/// The contacts' bits by name.
pub mod bit {
    pub const BREAKER_CLOSED: u32 = 0;
    pub const SWITCHING: u32 = 1;
    pub const SUPPLY_OFF: u32 = 2;
    pub const OIL_COLD: u32 = 3;
    pub const OIL_LOW: u32 = 4;
    pub const OIL_HIGH: u32 = 5;
    pub const END_UP: u32 = 6;
    pub const END_DOWN: u32 = 7;
    pub const EXTERNAL_OVERCURRENT: u32 = 8;
    pub const EXTERNAL_BLOCK: u32 = 9;
    pub const EXTERNAL_RAISE_BLOCK: u32 = 10;
    pub const EXTERNAL_LOWER_BLOCK: u32 = 11;
    pub const RESET: u32 = 12;
    pub const OUT: u32 = 13;
    pub const AUTOMATIC: u32 = 14;
    pub const LOCAL_DRIVE: u32 = 15;
    pub const U_SUPP2: u32 = 16;
    pub const U_SUPP3: u32 = 17;
    pub const U_SUPP4: u32 = 18;
    /// The panel's buttons.
    pub const RAISE_BUTTON: u32 = 19;
    pub const LOWER_BUTTON: u32 = 20;
    /// Ticket 7: set in remote mode, clear in local mode.
    pub const REMOTE: u32 = 21;
    /// Ticket 7: "the dispatcher's raise and lower".
    pub const REMOTE_RAISE: u32 = 22;
    pub const REMOTE_LOWER: u32 = 23;
}
