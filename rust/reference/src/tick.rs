//! One tick: the ten rules in their order, and the outputs.

use crate::blocks::{self, Blocks, Sight};
use crate::command::{self, Decision};
use crate::continuous;
use crate::drive::{self, Supervised};
use crate::input::{bit, Contacts, Input};
use crate::organs;
use crate::record::{within_limits, Direction, Drive, Fault, Organ, Record, Side, MOST_OPERATIONS, ORGANS};
use crate::section;
use crate::sheet::{is_continuous, slot, Settings};
use crate::tap::{self, Tap};
use crate::voltage::{self, Voltage};

/// How many outputs a tick gives.
pub const OUTPUTS: usize = 28;

/// The reply to a tick.
#[derive(Clone, Debug, PartialEq, Eq)]
pub struct Ticked {
    /// 0, or 4 for a record outside its limits.
    pub refusal: u32,
    pub outputs: [u32; OUTPUTS],
    pub next: Record,
}

/// Advances the record by one tick.
pub fn tick(record: &Record, input: &Input) -> Ticked {
    if !within_limits(record) {
        return silent(4, record.clone());
    }
    let out = input.contacts.on(bit::OUT);
    if out || record.settings[slot::IN_SERVICE] == 0 {
        return silent(0, Record::fresh(record.settings)); // rule 1
    }
    live(record, input)
}

/// A reply with all outputs 0.
fn silent(refusal: u32, next: Record) -> Ticked {
    Ticked { refusal, outputs: [0; OUTPUTS], next }
}

/// What rules 2 to 9 find on a live tick.
struct Findings {
    /// The fault's age before this tick; 0 if rule 2 cleared it.
    age_before: u32,
    section: bool,
    tap: Tap,
    organs: [Organ; ORGANS],
    trips: [bool; ORGANS],
    voltage: Voltage,
    supervised: Supervised,
    blocks: Blocks,
    decision: Decision,
}

/// Rules 2 to 10.
fn live(record: &Record, input: &Input) -> Ticked {
    let findings = find(record, input);
    let next = advance(record, input, &findings);
    let outputs = show(record, input, &findings, &next);
    Ticked { refusal: 0, outputs, next }
}

/// Rules 2 to 9, in order; of rule 8 only the fault's block waits for rule 7.
fn find(record: &Record, input: &Input) -> Findings {
    let (settings, contacts) = (&record.settings, input.contacts);
    let (fault, age_before) = after_reset(record, contacts);
    let section = section::present(settings, input);
    let tap = tap::read(record, input);
    let (organs, trips) = organs::step(record, input, section);
    let voltage = voltage::judge(settings, input);
    let voltage_missing = voltage.u.is_none();
    let blocks = blocks::judge(&Sight { settings, contacts, section, voltage_missing, trips, tap: tap.number });
    let supervised = match is_continuous(settings) {
        false => drive::step(record, fault, contacts, tap.number),
        true => continuous::step(record, fault, contacts, &voltage, &blocks),
    };
    let blocks = blocks.with_fault(supervised.fault);
    let rests = supervised.drive == Drive::Rest;
    let decision = command::decide(record, rests, contacts, &voltage, &blocks);
    Findings { age_before, section, tap, organs, trips, voltage, supervised, blocks, decision }
}

/// Rule 2: reset clears the fault.
fn after_reset(record: &Record, contacts: Contacts) -> (Fault, u32) {
    match contacts.on(bit::RESET) {
        true => (Fault::None, 0),
        false => (record.fault, record.fault_age),
    }
}

/// The record after the tick.
fn advance(record: &Record, input: &Input, findings: &Findings) -> Record {
    let settings = record.settings;
    let Supervised { fault, ended, operation, .. } = findings.supervised;
    let (counted_tap, _) = tap::counted_after(record, ended);
    Record {
        settings,
        organs: findings.organs,
        drive: drive_after(input.contacts, findings),
        fault,
        fault_age: fault_age(&settings, fault, findings.age_before),
        wait: findings.decision.wait,
        repeat: findings.decision.repeat,
        last_direction: ended.or(record.last_direction),
        counted_tap,
        operations: operations_after(record, operation),
        raise_button: input.contacts.on(bit::RAISE_BUTTON),
        lower_button: input.contacts.on(bit::LOWER_BUTTON),
        remembered: command::remembered_after(record, input.contacts, fault),
        remote_raise: input.contacts.on(bit::REMOTE_RAISE),
        remote_lower: input.contacts.on(bit::REMOTE_LOWER),
        remote: input.contacts.on(bit::REMOTE),
    }
}

/// A command begun on this tick is asked, with no tick after its first yet.
fn drive_after(contacts: Contacts, findings: &Findings) -> Drive {
    match findings.decision.begun {
        Some(direction) => Drive::Asked { direction, age: 0, automatic: contacts.on(bit::AUTOMATIC) },
        None => findings.supervised.drive,
    }
}

/// Ticks the fault has lasted, this one included, held at T8.
fn fault_age(settings: &Settings, fault: Fault, before: u32) -> u32 {
    match fault {
        Fault::None => 0,
        _ => settings[slot::T8].min(before + 1),
    }
}

/// One more after an operation, if slot 17 counts them.
fn operations_after(record: &Record, operation: bool) -> u32 {
    match operation && record.settings[slot::WEAR_COUNT] == 1 {
        true => MOST_OPERATIONS.min(record.operations + 1),
        false => record.operations,
    }
}

/// The outputs, by the paper's field.
fn show(record: &Record, input: &Input, found: &Findings, next: &Record) -> [u32; OUTPUTS] {
    let settings = &record.settings;
    let command = command::command_on(settings, next.drive);
    let (_, past_end) = tap::counted_after(record, found.supervised.ended);
    let (operations, worn) = wear(next);
    let mut outputs = [0; OUTPUTS];
    outputs[0] = u32::from(command == Some(Direction::Raise));
    outputs[1] = u32::from(command == Some(Direction::Lower));
    outputs[2] = u32::from(found.section);
    outputs[3] = found.tap.number;
    outputs[4] = u32::from(found.tap.wrong_code);
    outputs[5] = u32::from(found.tap.range_error || past_end);
    for (i, &trip) in found.trips.iter().enumerate() {
        outputs[6 + i] = u32::from(trip);
    }
    outputs[13] = u32::from(found.blocks.automatic);
    outputs[14] = u32::from(found.blocks.manual);
    outputs[15] = u32::from(found.blocks.raise);
    outputs[16] = u32::from(found.blocks.lower);
    outputs[17] = u32::from(found.voltage.side == Some(Side::Low));
    outputs[18] = u32::from(found.voltage.side == Some(Side::High));
    outputs[19] = u32::from(next.fault == Fault::RunAway);
    outputs[20] = u32::from(next.fault == Fault::NotStarted);
    outputs[21] = u32::from(next.fault == Fault::Long);
    outputs[22] = u32::from(next.fault == Fault::Fast);
    outputs[23] = u32::from(supply_trip(next, found.age_before));
    outputs[24] = u32::from(next.drive != Drive::Rest);
    outputs[25] = operations;
    outputs[26] = u32::from(worn);
    outputs[27] = u32::from(input.contacts.on(bit::AUTOMATIC));
    outputs
}

/// Run-away or long: lasting, or during the fault's first T8 ticks.
fn supply_trip(next: &Record, age_before: u32) -> bool {
    let settings = &next.settings;
    let lasting = settings[slot::LASTING_SUPPLY_TRIP] == 1;
    matches!(next.fault, Fault::RunAway | Fault::Long) && (lasting || age_before < settings[slot::T8])
}

/// Operations, and whether they reach N_max; nothing without slot 17.
fn wear(next: &Record) -> (u32, bool) {
    let settings = &next.settings;
    match settings[slot::WEAR_COUNT] {
        0 => (0, false),
        _ => (next.operations, next.operations >= settings[slot::N_MAX]),
    }
}
