//! The regulator's record: all that one tick hands to the next.

use crate::sheet::{check, check_settings, is_continuous, slot, Refusal, Settings, SLOTS};

/// How many organs there are (slots 6-12 switch them on).
pub const ORGANS: usize = 7;

/// How many of them, the first ones, watch a current.
pub const CURRENT_ORGANS: usize = 3;

/// The longest wait a record may hold.
pub const LONGEST_WAIT: u32 = 35_999;

/// Where the count of operations is held.
pub const MOST_OPERATIONS: u32 = 999_999;

/// Which way a command or a move goes.
#[derive(Clone, Copy, Debug, PartialEq, Eq)]
pub enum Direction {
    Raise,
    Lower,
}

/// On which side of the band the voltage is.
#[derive(Clone, Copy, Debug, PartialEq, Eq)]
pub enum Side {
    Low,
    High,
}

impl Side {
    /// The command that brings the voltage back.
    pub fn remedy(self) -> Direction {
        match self {
            Side::Low => Direction::Raise,
            Side::High => Direction::Lower,
        }
    }
}

/// One organ's memory.
#[derive(Clone, Copy, Debug, Default, PartialEq, Eq)]
pub struct Organ {
    pub marked: bool,
    /// Marked ticks in a row, held at the organ's delay.
    pub count: u32,
}

/// What the drive is doing, as far as the regulator knows.
#[derive(Clone, Copy, Debug, PartialEq, Eq)]
pub enum Drive {
    Rest,
    /// A command was given and the contact has not closed yet; without the
    /// contact, the command is held.
    Asked {
        direction: Direction,
        /// Ticks after the command's first.
        age: u32,
        /// The mode of the command's first tick. With the contact nothing goes
        /// by it.
        automatic: bool,
    },
    /// The switching contact is closed.
    Moving {
        direction: Direction,
        /// Ticks closed so far.
        length: u32,
        /// By a command; otherwise the drive's own move over a sliding tap.
        commanded: bool,
    },
}

/// The latched fault of the drive.
#[derive(Clone, Copy, Debug, PartialEq, Eq)]
pub enum Fault {
    None,
    RunAway,
    NotStarted,
    Long,
    Fast,
}

/// How long an unblocked deviation has lasted.
#[derive(Clone, Copy, Debug, PartialEq, Eq)]
pub enum Wait {
    None,
    ToLow(u32),
    ToHigh(u32),
}

impl Wait {
    /// A wait of `ticks` to `side`.
    pub fn to(side: Side, ticks: u32) -> Wait {
        match side {
            Side::Low => Wait::ToLow(ticks),
            Side::High => Wait::ToHigh(ticks),
        }
    }

    /// The ticks waited to `side`: 0 if the wait is to the other one.
    pub fn ticks_to(self, side: Side) -> u32 {
        match (self, side) {
            (Wait::ToLow(ticks), Side::Low) | (Wait::ToHigh(ticks), Side::High) => ticks,
            _ => 0,
        }
    }

    /// The ticks waited, to whichever side.
    pub fn ticks(self) -> u32 {
        match self {
            Wait::None => 0,
            Wait::ToLow(ticks) | Wait::ToHigh(ticks) => ticks,
        }
    }
}

/// The record.
#[derive(Clone, Debug, PartialEq, Eq)]
pub struct Record {
    pub settings: Settings,
    pub organs: [Organ; ORGANS],
    pub drive: Drive,
    pub fault: Fault,
    /// Ticks the fault has lasted, its first included, held at T8.
    pub fault_age: u32,
    pub wait: Wait,
    /// Side of the last automatic command, while T2 still applies to it.
    pub repeat: Option<Side>,
    /// Direction of the last ended move.
    pub last_direction: Option<Direction>,
    pub counted_tap: u32,
    pub operations: u32,
    /// The panel's buttons as they were on the previous tick.
    pub raise_button: bool,
    pub lower_button: bool,
    /// Ticket 6: the press made while a command or move was unfinished. At rest
    /// the tick to come is the first one there, and carries it out.
    pub remembered: Option<Direction>,
    /// Ticket 7: the dispatcher's buttons as they were on the previous tick.
    pub remote_raise: bool,
    pub remote_lower: bool,
    /// Ticket 7: whether the mode of the previous tick was remote.
    pub remote: bool,
}

impl Record {
    /// Takes a list as the fresh record that carries it, or refuses it.
    pub fn start(list: &[u32]) -> Result<Record, Refusal> {
        check(list).map(Record::fresh)
    }

    /// The fresh record of rule 1: the buttons of both pairs "pressed when fresh",
    /// and local mode.
    pub fn fresh(settings: Settings) -> Record {
        Record {
            counted_tap: settings[slot::N_POS],
            operations: settings[slot::N_START],
            raise_button: true,
            lower_button: true,
            remote_raise: true,
            remote_lower: true,
            settings,
            ..Record::zeros()
        }
    }

    /// The record of zeros that goes with a refused sheet.
    pub fn zeros() -> Record {
        Record {
            settings: [0; SLOTS],
            organs: [Organ::default(); ORGANS],
            drive: Drive::Rest,
            fault: Fault::None,
            fault_age: 0,
            wait: Wait::None,
            repeat: None,
            last_direction: None,
            counted_tap: 0,
            operations: 0,
            raise_button: false,
            lower_button: false,
            remembered: None,
            remote_raise: false,
            remote_lower: false,
            remote: false,
        }
    }
}

/// The paper's "Limits of a record", as tickets 2 and 6 change them.
pub fn within_limits(record: &Record) -> bool {
    let settings = &record.settings;
    check_settings(settings).is_ok()
        && wait_within(record)
        && drive_within(record)
        && fault_within(record)
        && organs_within(record)
        && (settings[slot::N_L]..=settings[slot::N_R]).contains(&record.counted_tap)
        && record.operations <= MOST_OPERATIONS
}

/// Wait at most 35,999, and 0 unless the drive rests.
fn wait_within(record: &Record) -> bool {
    match record.drive {
        Drive::Rest => record.wait.ticks() <= LONGEST_WAIT,
        _ => record.wait.ticks() == 0,
    }
}

/// Age of an asked command below T5, length of a move 1 to T4. Without the
/// contact "no move", and "a held command's age is below T4".
fn drive_within(record: &Record) -> bool {
    let settings = &record.settings;
    match record.drive {
        Drive::Rest => true,
        Drive::Asked { age, .. } if is_continuous(settings) => age < settings[slot::T4],
        Drive::Asked { age, .. } => age < settings[slot::T5],
        Drive::Moving { length, .. } => !is_continuous(settings) && (1..=settings[slot::T4]).contains(&length),
    }
}

/// A fault only at rest, its age at most T8; no age without a fault. Without
/// the contact "no fault but 'long'". "An accepted record remembers no press
/// beside a fault".
fn fault_within(record: &Record) -> bool {
    let settings = &record.settings;
    match record.fault {
        Fault::None => record.fault_age == 0,
        fault if is_continuous(settings) && fault != Fault::Long => false,
        _ if record.remembered.is_some() => false,
        _ => record.drive == Drive::Rest && record.fault_age <= settings[slot::T8],
    }
}

/// Every count at most its organ's delay, and 0 if the organ is not marked.
fn organs_within(record: &Record) -> bool {
    let delays = &record.settings[slot::T9..];
    record.organs.iter().zip(delays).all(|(organ, &delay)| match organ.marked {
        true => organ.count <= delay,
        false => organ.count == 0,
    })
}
