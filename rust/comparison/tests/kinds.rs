//! The numbers of `c/avr.h` for what an image, a reading and an answer hold, beside those that the library writes.

mod sources;

use library::{ahead, start, tick, Brought, Image, Outputs, Sample, FIELDS, LONGEST_HORIZON, READINGS, SLOTS};
use reference::sheet::slot;
use reference::values::BASE;
use sources::{find, read, rows, Row};

/// A unit on the desk, and the header's names.
struct Unit {
    image: Image,
    brought: Brought,
    outputs: Outputs,
    names: Vec<Row>,
}

const ENUMS: [&str; 8] =
    ["avr_answer", "avr_quality", "avr_drive_kind", "avr_direction", "avr_way", "avr_fault", "avr_wait_side", "avr_contact"];

impl Unit {
    /// The worked values' sheet with T4, T5 and T6 20, 20 and 10 ticks, organs off, tap 20 counted and sliding from 21.
    fn new() -> Unit {
        let mut sheet = BASE;
        sheet[slot::ORGANS_ON..slot::CURRENT_ORGANS_PASS].fill(0);
        for (slot, number) in [(slot::TAP_SOURCE, 3), (slot::T4, 20), (slot::T5, 20), (slot::T6, 10), (slot::SLIDING, 21)] {
            sheet[slot] = number;
        }
        let header = read("c/avr.h");
        let names = ENUMS.iter().flat_map(|name| rows(&header, name)).collect();
        let brought = Brought { readings: [Sample { quality: 0, value: 100.0 }; READINGS], ..Brought::default() };
        let mut unit = Unit { image: start(&sheet).image, brought, outputs: Outputs { fields: [0; FIELDS] }, names };
        unit.contacts(&["BREAKER_CLOSED", "AUTOMATIC"]);
        unit
    }

    /// Just these contacts.
    fn contacts(&mut self, names: &[&str]) {
        self.brought.contacts = names.iter().map(|name| self.number(&format!("AVR_CONTACT_{name}"))).sum();
    }

    fn number(&self, name: &str) -> u32 {
        find(&self.names, name) as u32
    }

    /// So many ticks at this U_AB.
    fn ticks(&mut self, volts: f32, count: u32) {
        self.brought.readings[0].value = volts;
        for _ in 0..count {
            let answer = tick(&mut self.image, &self.brought, &mut self.outputs);
            assert_eq!(answer, self.number("AVR_ACCEPTED"));
        }
    }

    fn hold(&self, number: u32, name: &str) {
        assert_eq!(number, self.number(name), "{name}");
    }

    /// A raise asked for after T1.
    fn asked() -> Unit {
        let mut unit = Unit::new();
        unit.ticks(98.0, 20);
        unit.hold(unit.image.drive.kind, "AVR_DRIVE_ASKED");
        unit
    }

    /// The contact closed for so long, and open again.
    fn moved(&mut self, volts: f32, count: u32) {
        self.contacts(&["BREAKER_CLOSED", "AUTOMATIC", "SWITCHING"]);
        self.ticks(volts, count);
        self.contacts(&["BREAKER_CLOSED", "AUTOMATIC"]);
    }
}

#[test]
fn drives_directions_and_ways() {
    let mut unit = Unit::new();
    unit.hold(unit.image.drive.kind, "AVR_DRIVE_RESTING");
    unit.hold(unit.image.repeat, "AVR_WAY_NEITHER");
    unit.hold(unit.image.last, "AVR_WAY_NEITHER");
    unit = Unit::asked();
    unit.hold(unit.image.drive.direction, "AVR_DIRECTION_RAISE");
    unit.hold(unit.image.repeat, "AVR_WAY_RAISE");
    unit.moved(98.0, 12);
    unit.hold(unit.image.drive.kind, "AVR_DRIVE_COMMANDED_MOVE");
    unit.ticks(98.0, 1);
    unit.hold(unit.image.last, "AVR_WAY_RAISE");
    unit.moved(98.0, 1);
    unit.hold(unit.image.drive.kind, "AVR_DRIVE_OWN_MOVE");
    unit = Unit::new();
    unit.contacts(&["BREAKER_CLOSED"]);
    unit.ticks(98.0, 1);
    unit.contacts(&["BREAKER_CLOSED", "RAISE_BUTTON"]);
    unit.ticks(98.0, 1);
    unit.hold(unit.image.drive.kind, "AVR_DRIVE_ASKED_MANUALLY");
    unit = Unit::new();
    unit.ticks(102.0, 20);
    unit.hold(unit.image.drive.direction, "AVR_DIRECTION_LOWER");
    unit.hold(unit.image.repeat, "AVR_WAY_LOWER");
    unit.moved(102.0, 12);
    unit.ticks(102.0, 1);
    unit.hold(unit.image.last, "AVR_WAY_LOWER");
}

/// A press in manual mode while the drive runs, and the other one as the move ends; carried out, none is left.
#[test]
fn remembered_presses() {
    let mut unit = Unit::asked();
    unit.hold(unit.image.remembered, "AVR_WAY_NEITHER");
    unit.contacts(&["BREAKER_CLOSED", "SWITCHING"]);
    unit.ticks(100.0, 12);
    unit.contacts(&["BREAKER_CLOSED", "SWITCHING", "LOWER_BUTTON"]);
    unit.ticks(100.0, 1);
    unit.hold(unit.image.remembered, "AVR_WAY_LOWER");
    unit.contacts(&["BREAKER_CLOSED", "RAISE_BUTTON"]);
    unit.ticks(100.0, 1);
    unit.hold(unit.image.drive.kind, "AVR_DRIVE_RESTING");
    unit.hold(unit.image.remembered, "AVR_WAY_RAISE");
    unit.contacts(&["BREAKER_CLOSED"]);
    unit.ticks(100.0, 1);
    unit.hold(unit.image.drive.kind, "AVR_DRIVE_ASKED_MANUALLY");
    unit.hold(unit.image.drive.direction, "AVR_DIRECTION_RAISE");
    unit.hold(unit.image.remembered, "AVR_WAY_NEITHER");
}

/// The dispatcher's buttons act in remote mode, the panel's in local mode; the image has both pairs and the mode.
#[test]
fn two_pairs() {
    let mut unit = Unit::new();
    let keys = |unit: &Unit| [unit.image.keys.remote_raise, unit.image.keys.remote_lower, unit.image.keys.remote];
    assert_eq!(keys(&unit), [1, 1, 0]);
    unit.contacts(&["BREAKER_CLOSED", "REMOTE"]);
    unit.ticks(100.0, 1);
    assert_eq!(keys(&unit), [0, 0, 1]);
    unit.contacts(&["BREAKER_CLOSED", "REMOTE", "RAISE_BUTTON"]);
    unit.ticks(100.0, 1);
    unit.hold(unit.image.drive.kind, "AVR_DRIVE_RESTING");
    unit.contacts(&["BREAKER_CLOSED", "REMOTE", "RAISE_BUTTON", "REMOTE_LOWER"]);
    unit.ticks(100.0, 1);
    assert_eq!(keys(&unit), [0, 1, 1]);
    unit.hold(unit.image.drive.kind, "AVR_DRIVE_ASKED_MANUALLY");
    unit.hold(unit.image.drive.direction, "AVR_DIRECTION_LOWER");
    unit.contacts(&["BREAKER_CLOSED", "REMOTE_RAISE"]);
    unit.ticks(100.0, 1);
    assert_eq!(keys(&unit), [1, 0, 0]);
    unit.hold(unit.image.remembered, "AVR_WAY_NEITHER");
}

#[test]
fn waits() {
    let mut unit = Unit::new();
    unit.hold(unit.image.wait.side, "AVR_WAIT_NONE");
    unit.ticks(98.0, 1);
    unit.hold(unit.image.wait.side, "AVR_WAIT_LOW");
    unit.ticks(102.0, 1);
    unit.hold(unit.image.wait.side, "AVR_WAIT_HIGH");
}

#[test]
fn faults() {
    let mut unit = Unit::new();
    unit.hold(unit.image.fault, "AVR_FAULT_NONE");
    unit.moved(100.0, 1);
    unit.hold(unit.image.fault, "AVR_FAULT_RUN_AWAY");
    unit = Unit::asked();
    unit.ticks(98.0, 20);
    unit.hold(unit.image.fault, "AVR_FAULT_NOT_STARTED");
    unit = Unit::asked();
    unit.moved(98.0, 21);
    unit.hold(unit.image.fault, "AVR_FAULT_LONG");
    unit = Unit::asked();
    unit.moved(98.0, 9);
    unit.ticks(98.0, 1);
    unit.hold(unit.image.fault, "AVR_FAULT_FAST");
}

/// Held voltage is no U, and still feeds the organ of low voltage; Invalid feeds nothing.
#[test]
fn qualities() {
    let watched = |quality: &str| {
        let mut unit = Unit::new();
        unit.image.settings[slot::ORGANS_ON + 4] = 1;
        unit.brought.readings[0].quality = unit.number(quality);
        unit.ticks(80.0, 1);
        (unit.outputs.fields[17], unit.image.organ_marks[4])
    };
    assert_eq!(watched("AVR_QUALITY_GOOD"), (1, 1));
    assert_eq!(watched("AVR_QUALITY_HELD"), (0, 1));
    assert_eq!(watched("AVR_QUALITY_INVALID"), (0, 0));
}

#[test]
fn refusals() {
    let mut unit = Unit::new();
    let sheet = unit.image.settings;
    let changed = |slot: usize, number: u32| {
        let mut sheet = sheet;
        sheet[slot] = number;
        start(&sheet).number
    };
    unit.hold(start(&sheet[..SLOTS - 1]).number, "AVR_REFUSED_LENGTH");
    unit.hold(changed(slot::T8, 0), "AVR_REFUSED_RANGE");
    unit.hold(changed(slot::N_POS, 1), "AVR_ACCEPTED");
    unit.hold(changed(slot::N_L, 21), "AVR_REFUSED_TAP_ORDER");
    unit.hold(changed(slot::CONTINUOUS, 1), "AVR_REFUSED_COUNTED");
    unit.image.fault = unit.number("AVR_FAULT_FAST") + 1;
    let answer = tick(&mut unit.image, &unit.brought, &mut unit.outputs);
    unit.hold(answer, "AVR_REFUSED_IMAGE");
}

/// T1 is 20 ticks.
#[test]
fn outlooks() {
    let mut unit = Unit::new();
    for (volts, horizon, way) in [
        (98.0, 20, "AVR_WAY_RAISE"),
        (102.0, 20, "AVR_WAY_LOWER"),
        (98.0, 19, "AVR_WAY_NEITHER"),
        (100.0, 20, "AVR_WAY_NEITHER"),
    ] {
        unit.brought.readings[0].value = volts;
        let outlook = ahead(unit.image, unit.brought, horizon);
        unit.hold(outlook.refusal, "AVR_ACCEPTED");
        unit.hold(outlook.way, way);
        assert_eq!(outlook.tick, if way == "AVR_WAY_NEITHER" { 0 } else { 20 });
    }
    let refusal = |unit: &Unit, horizon: u32| ahead(unit.image, unit.brought, horizon).refusal;
    unit.hold(refusal(&unit, 0), "AVR_REFUSED_HORIZON");
    unit.hold(refusal(&unit, LONGEST_HORIZON), "AVR_ACCEPTED");
    unit.hold(refusal(&unit, LONGEST_HORIZON + 1), "AVR_REFUSED_HORIZON");
    unit.image.fault = unit.number("AVR_FAULT_FAST") + 1;
    unit.hold(refusal(&unit, 0), "AVR_REFUSED_IMAGE");
}
