//! Rule 8: what is blocked.

use crate::input::{bit, Contacts};
use crate::record::{Direction, Fault, CURRENT_ORGANS, ORGANS};
use crate::sheet::{slot, Settings};
use crate::tap::source;

/// The blocks in force on a tick; each contains the common block.
#[derive(Clone, Copy, Debug, PartialEq, Eq)]
pub struct Blocks {
    pub automatic: bool,
    pub manual: bool,
    pub raise: bool,
    pub lower: bool,
}

impl Blocks {
    /// Whether this way is blocked.
    pub fn way(&self, direction: Direction) -> bool {
        match direction {
            Direction::Raise => self.raise,
            Direction::Lower => self.lower,
        }
    }

    /// These blocks, and the fault's: it is a common block.
    pub fn with_fault(self, fault: Fault) -> Blocks {
        match fault {
            Fault::None => self,
            _ => Blocks { automatic: true, manual: true, raise: true, lower: true },
        }
    }
}

/// What rule 8 looks at besides the fault, all of it from this tick.
pub struct Sight<'a> {
    pub settings: &'a Settings,
    pub contacts: Contacts,
    pub section: bool,
    pub voltage_missing: bool,
    pub trips: [bool; ORGANS],
    pub tap: u32,
}

/// Bits that block everything.
const COMMON: [u32; 7] = [
    bit::SUPPLY_OFF,
    bit::OIL_COLD,
    bit::OIL_LOW,
    bit::OIL_HIGH,
    bit::EXTERNAL_OVERCURRENT,
    bit::EXTERNAL_BLOCK,
    bit::LOCAL_DRIVE,
];

/// Rule 8, the fault left aside.
pub fn judge(sight: &Sight) -> Blocks {
    let common = sight.contacts.any(&COMMON);
    Blocks {
        automatic: common || automatic(sight),
        manual: common || manual(sight),
        raise: common || raise(sight),
        lower: common || lower(sight),
    }
}

fn automatic(sight: &Sight) -> bool {
    let settings = sight.settings;
    let currents = settings[slot::CURRENT_ORGANS_PASS] == 0 && any(&sight.trips[..CURRENT_ORGANS]);
    let voltages = settings[slot::VOLTAGE_ORGANS_PASS] == 0 && any(&sight.trips[CURRENT_ORGANS..]);
    !sight.section || sight.voltage_missing || currents || voltages || tap_unknown(sight)
}

/// Tap 0 although a source is set and the end taps are to block.
fn tap_unknown(sight: &Sight) -> bool {
    let settings = sight.settings;
    settings[slot::BLOCK_AT_END_TAP] == 1 && settings[slot::TAP_SOURCE] != source::NOTHING && sight.tap == 0
}

fn manual(sight: &Sight) -> bool {
    sight.settings[slot::ORGANS_BLOCK_MANUAL] == 1 && any(&sight.trips)
}

fn raise(sight: &Sight) -> bool {
    let contacts = [bit::END_UP, bit::EXTERNAL_RAISE_BLOCK];
    let end = match reversed(sight) {
        false => slot::N_R,
        true => slot::N_L,
    };
    sight.contacts.any(&contacts) || at_end(sight, end)
}

fn lower(sight: &Sight) -> bool {
    let contacts = [bit::END_DOWN, bit::EXTERNAL_LOWER_BLOCK];
    let end = match reversed(sight) {
        false => slot::N_L,
        true => slot::N_R,
    };
    sight.contacts.any(&contacts) || at_end(sight, end)
}

fn reversed(sight: &Sight) -> bool {
    sight.settings[slot::TAP_SOURCE] == source::COUNTED_REVERSED
}

fn at_end(sight: &Sight, end: usize) -> bool {
    sight.settings[slot::BLOCK_AT_END_TAP] == 1 && sight.tap == sight.settings[end]
}

fn any(trips: &[bool]) -> bool {
    trips.contains(&true)
}
