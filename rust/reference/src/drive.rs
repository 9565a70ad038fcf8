//! Rule 7 for a drive with a switching contact: what the contact tells of it.

use crate::input::{bit, Contacts};
use crate::record::{Direction, Drive, Fault, Record};
use crate::sheet::{slot, Settings};
use crate::tap::is_sliding;

/// The drive after rule 7.
#[derive(Clone, Copy, Debug, PartialEq, Eq)]
pub struct Supervised {
    pub drive: Drive,
    pub fault: Fault,
    /// Direction of a move that ended on this tick.
    pub ended: Option<Direction>,
    /// Whether an operation ended on this tick: a move, or, without the
    /// contact, a command.
    pub operation: bool,
}

impl Supervised {
    pub fn goes_on(drive: Drive) -> Supervised {
        Supervised { drive, fault: Fault::None, ended: None, operation: false }
    }

    /// A fault brings rest.
    pub fn rests_with(fault: Fault) -> Supervised {
        Supervised { drive: Drive::Rest, fault, ended: None, operation: false }
    }
}

/// Rule 7. `fault` is what rule 2 left of the fault, `tap` is rule 4's.
pub fn step(record: &Record, fault: Fault, contacts: Contacts, tap: u32) -> Supervised {
    if contacts.on(bit::LOCAL_DRIVE) {
        return Supervised::rests_with(fault);
    }
    let settings = &record.settings;
    let closed = contacts.on(bit::SWITCHING);
    match record.drive {
        Drive::Rest if closed && fault == Fault::None => unasked(record, tap),
        Drive::Rest => Supervised::rests_with(fault),
        Drive::Asked { direction, .. } if closed => {
            Supervised::goes_on(Drive::Moving { direction, length: 1, commanded: true })
        }
        Drive::Asked { direction, age, automatic } => still_asked(settings, direction, age, automatic),
        Drive::Moving { direction, length, commanded } if closed => still_moving(settings, direction, length, commanded),
        Drive::Moving { direction, length, commanded } => ended(settings, direction, length, commanded),
    }
}

/// The contact closed without a command: run-away, unless the drive slides on
/// from a sliding tap in its last direction.
fn unasked(record: &Record, tap: u32) -> Supervised {
    match record.last_direction {
        Some(direction) if is_sliding(&record.settings, tap) => {
            Supervised::goes_on(Drive::Moving { direction, length: 1, commanded: false })
        }
        _ => Supervised::rests_with(Fault::RunAway),
    }
}

/// Open on the T5th tick after the command's first: not started.
fn still_asked(settings: &Settings, direction: Direction, age: u32, automatic: bool) -> Supervised {
    let age = age + 1;
    if age >= settings[slot::T5] {
        return Supervised::rests_with(Fault::NotStarted);
    }
    Supervised::goes_on(Drive::Asked { direction, age, automatic })
}

/// Closed for more than T4 ticks: long.
fn still_moving(settings: &Settings, direction: Direction, length: u32, commanded: bool) -> Supervised {
    let length = length + 1;
    if length > settings[slot::T4] {
        return Supervised::rests_with(Fault::Long);
    }
    Supervised::goes_on(Drive::Moving { direction, length, commanded })
}

/// Opened: the move is over, and was fast if commanded and shorter than T6.
fn ended(settings: &Settings, direction: Direction, length: u32, commanded: bool) -> Supervised {
    let fast = commanded && length < settings[slot::T6];
    let fault = if fast { Fault::Fast } else { Fault::None };
    Supervised { drive: Drive::Rest, fault, ended: Some(direction), operation: true }
}
