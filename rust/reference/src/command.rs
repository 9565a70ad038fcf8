//! Rule 9: the wait, and when a command begins. Rule 10: while it is on. Ticket
//! 6: the press that is remembered until the drive is at rest.

use crate::blocks::Blocks;
use crate::buttons;
use crate::input::{bit, Contacts};
use crate::record::{Direction, Drive, Fault, Record, Side, Wait};
use crate::sheet::{is_continuous, slot, Settings};
use crate::voltage::Voltage;

/// What rule 9 decides.
#[derive(Clone, Copy, Debug, PartialEq, Eq)]
pub struct Decision {
    pub wait: Wait,
    /// A command that begins on this tick.
    pub begun: Option<Direction>,
    /// Side of the last automatic command, while T2 still applies to it.
    pub repeat: Option<Side>,
}

/// Rule 9. `rests` says that the drive still rests after rule 7.
pub fn decide(record: &Record, rests: bool, contacts: Contacts, voltage: &Voltage, blocks: &Blocks) -> Decision {
    let ready = rests && record.drive == Drive::Rest;
    let repeat = repeat_still(record.repeat, contacts, voltage);
    let idle = Decision { wait: Wait::None, begun: None, repeat };
    if !ready {
        return idle;
    }
    if contacts.on(bit::AUTOMATIC) {
        match deviation(voltage, blocks) {
            Some(side) => automatic(record, repeat, voltage, side),
            None => idle,
        }
    } else {
        let begun = manual(record, contacts, blocks);
        Decision { begun, ..idle }
    }
}

/// T2 applies no longer after a tick in band, to the other side, or in manual
/// mode. A tick with U missing is none of these.
fn repeat_still(repeat: Option<Side>, contacts: Contacts, voltage: &Voltage) -> Option<Side> {
    let manual_mode = !contacts.on(bit::AUTOMATIC);
    let other_side = voltage.side.is_some() && voltage.side != repeat;
    match manual_mode || other_side || voltage.in_band() {
        true => None,
        false => repeat,
    }
}

/// The side of an unblocked deviation.
fn deviation(voltage: &Voltage, blocks: &Blocks) -> Option<Side> {
    voltage.side.filter(|side| !blocks.automatic && !blocks.way(side.remedy()))
}

/// One more tick of waiting to `side`; at the delay, the command.
fn automatic(record: &Record, repeat: Option<Side>, voltage: &Voltage, side: Side) -> Decision {
    let waited = record.wait.ticks_to(side) + 1;
    if waited >= delay(&record.settings, repeat, voltage, side) {
        return Decision { wait: Wait::None, begun: Some(side.remedy()), repeat: Some(side) };
    }
    Decision { wait: Wait::to(side, waited), begun: None, repeat }
}

/// T3 if high and U > U_set5, else T2 for a repeated command, else T1. Without
/// the contact "T3 where it names T3, else T1, never T2".
fn delay(settings: &Settings, repeat: Option<Side>, voltage: &Voltage, side: Side) -> u32 {
    let fast_lower = i64::from(settings[slot::U_SET5]);
    let far_above = voltage.u.is_some_and(|u| u > fast_lower);
    if side == Side::High && far_above {
        settings[slot::T3]
    } else if repeat == Some(side) && !is_continuous(settings) {
        settings[slot::T2]
    } else {
        settings[slot::T1]
    }
}

/// A press that nothing blocks; without one on this tick the remembered press,
/// "carried out as if pressed alone then". "A real press on that tick wins", and
/// one that is blocked is a press all the same.
fn manual(record: &Record, contacts: Contacts, blocks: &Blocks) -> Option<Direction> {
    latest_press(record, contacts).filter(|&direction| !blocks.manual && !blocks.way(direction))
}

/// A press on this tick, of the pair of its mode; without one the press that was
/// remembered. Ticket 7: "a change of mode drops a remembered press", so on its
/// tick only a press of the new mode's pair counts.
fn latest_press(record: &Record, contacts: Contacts) -> Option<Direction> {
    let remembered = record.remembered.filter(|_| !buttons::mode_changes(record, contacts));
    buttons::press(record, contacts).or(remembered)
}

/// The press that the tick leaves in the record: one "made on a tick that starts
/// with a command or move unfinished", "the latest replacing the earlier one". A
/// tick that starts at rest leaves none. "Fault, automatic, local drive and out
/// drop it", also if it is made on their tick; out is rule 1's. `fault` is what
/// rule 7 leaves.
pub fn remembered_after(record: &Record, contacts: Contacts, fault: Fault) -> Option<Direction> {
    let unfinished = record.drive != Drive::Rest;
    let dropped = fault != Fault::None || contacts.any(&[bit::AUTOMATIC, bit::LOCAL_DRIVE]);
    match unfinished && !dropped {
        true => latest_press(record, contacts),
        false => None,
    }
}

/// Rule 10: a command is on while asked (without the contact: while held), and
/// in its move while length <= T7.
/// The drive's own moves have no command.
pub fn command_on(settings: &Settings, drive: Drive) -> Option<Direction> {
    match drive {
        Drive::Asked { direction, .. } => Some(direction),
        Drive::Moving { direction, length, commanded: true } if length <= settings[slot::T7] => Some(direction),
        _ => None,
    }
}
