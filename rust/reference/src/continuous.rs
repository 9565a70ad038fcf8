//! Rule 7 for a drive without a switching contact, as ticket 2 asks: nothing
//! tells of a move, and the command is held until it has served.

use crate::blocks::Blocks;
use crate::drive::Supervised;
use crate::input::{bit, Contacts};
use crate::record::{Direction, Drive, Fault, Record};
use crate::sheet::slot;
use crate::voltage::Voltage;

/// Rule 7 without the contact: "Bit 1 is ignored, 'long' is the one fault".
/// `fault` is what rule 2 left of the fault, `blocks` leaves the fault aside.
pub fn step(record: &Record, fault: Fault, contacts: Contacts, voltage: &Voltage, blocks: &Blocks) -> Supervised {
    if contacts.on(bit::LOCAL_DRIVE) {
        return Supervised::rests_with(fault);
    }
    let Drive::Asked { direction, age, automatic } = record.drive else {
        return Supervised::rests_with(fault);
    };
    let age = age + 1;
    let at_t4 = age >= record.settings[slot::T4];
    if automatic && serves_no_more(direction, contacts, voltage, blocks) {
        return command_ended();
    }
    // "... on the T4th tick after its first, if none came, that tick included and
    // its new fault left aside, it ends as 'long'"; "A manual command stays for T4
    // ticks".
    match (at_t4, automatic) {
        (false, _) => Supervised::goes_on(Drive::Asked { direction, age, automatic }),
        (true, true) => Supervised::rests_with(Fault::Long),
        (true, false) => command_ended(),
    }
}

/// "... an automatic command stays until the first tick that is in band, on the
/// other side, manual or blocked for it".
fn serves_no_more(direction: Direction, contacts: Contacts, voltage: &Voltage, blocks: &Blocks) -> bool {
    let other_side = voltage.side.is_some_and(|side| side.remedy() != direction);
    let manual = !contacts.on(bit::AUTOMATIC);
    let blocked = blocks.automatic || blocks.way(direction);
    voltage.in_band() || other_side || manual || blocked
}

/// "... each command counts as one operation when it ends without a fault, local
/// drive or out". It is no move: no last direction comes of it.
fn command_ended() -> Supervised {
    Supervised { operation: true, ..Supervised::rests_with(Fault::None) }
}
