//! Lanes: a row of bars for each thing that is on or off.

use std::ops::RangeInclusive;

use library::ORGANS;

use crate::boxes::Numbers;
use crate::drive::Way;
use crate::inputs::{is_on, CONTACTS, READINGS, SWITCHING};
use crate::names::WEAR;
use crate::outputs::{
    short, BLOCKS, FAULTS, HIGH, LOW, LOWER, OPERATIONS, RAISE, RANGE_ERROR, SHORT, SUPPLY_TRIP, TAP, TRIPS, WORN, WRONG_CODE,
};
use crate::press;
use crate::seen::{spans, Changes, Seen};
use crate::svg::{BLACK, BLUE, GREEN, ORANGE, PURPLE, SKY, VERMILLION, YELLOW};

/// A mark at the start of a bar.
#[derive(Clone, Copy, PartialEq)]
pub enum Tip {
    None,
    Up,
    Down,
}

/// A lane. `on` are ticks from, and up to which it is off again.
pub struct Lane {
    pub label: String,
    pub colour: &'static str,
    pub tip: Tip,
    pub timed: bool,
    pub on: Vec<(u32, u32)>,
}

/// Lanes that belong together.
pub type Group = Vec<Lane>;

/// What is regulated: low and high, commands, the switching contact if the drive has one.
pub fn moving(seen: &Seen, continuous: bool) -> Group {
    let contact = (!continuous).then(|| {
        let label = CONTACTS[SWITCHING as usize].name.to_string() + " contact";
        lane(label, BLACK, contact_on(seen, SWITCHING))
    });
    let lanes = [
        output(seen, LOW, "voltage low", ORANGE),
        output(seen, HIGH, "voltage high", PURPLE),
        Lane { tip: Tip::Up, timed: true, ..output(seen, RAISE, "raise command", BLUE) },
        Lane { tip: Tip::Down, timed: true, ..output(seen, LOWER, "lower command", VERMILLION) },
    ];
    lanes.into_iter().chain(contact).collect()
}

/// The four blocks.
pub fn blocks(seen: &Seen) -> Group {
    BLOCKS.map(|field| output(seen, field, SHORT[field], YELLOW)).collect()
}

/// Trips and faults: a lane for each that came, and one for each kind if none did; the supply trip.
pub fn alarms(seen: &Seen, continuous: bool) -> Group {
    let mut group = some_or_one(seen, continuous, TRIPS..=TRIPS + ORGANS - 1, "trip", PURPLE);
    group.extend(some_or_one(seen, continuous, FAULTS, "fault", VERMILLION));
    group.push(Lane { timed: true, ..output(seen, SUPPLY_TRIP, SHORT[SUPPLY_TRIP], VERMILLION) });
    group
}

fn some_or_one(seen: &Seen, continuous: bool, fields: RangeInclusive<usize>, kind: &str, colour: &'static str) -> Group {
    let lanes = fields.map(|field| output(seen, field, &format!("{kind}: {}", short(field, continuous)), colour));
    let came: Group = lanes.filter(|lane| !lane.on.is_empty()).map(|lane| Lane { timed: true, ..lane }).collect();
    match came.is_empty() {
        true => vec![lane(format!("{kind}s: none"), colour, Vec::new())],
        false => came,
    }
}

/// The tap, and the operations where the sheet has them counted.
pub fn numbers<'a>(seen: &Seen<'a>, list: &[u32]) -> Vec<Numbers<'a>> {
    let tap = Numbers { label: SHORT[TAP], changes: seen.outputs[TAP], zero_is_none: true };
    let operations = Numbers { label: SHORT[OPERATIONS], changes: seen.outputs[OPERATIONS], zero_is_none: false };
    [Some(tap), (list[WEAR] == 1).then_some(operations)].into_iter().flatten().collect()
}

/// The tick on which the operations reach N_max.
pub fn worn(seen: &Seen) -> Option<u32> {
    let on = spans(seen.outputs[WORN], seen.to, |worn| *worn != 0);
    on.into_iter().map(|(from, _)| from).find(|from| *from >= seen.from)
}

/// Readings that are missing to the unit, wrong tap codes, range errors and wear, where they come.
pub fn notes(seen: &Seen) -> Group {
    let missing = bits(seen.missing).map(|bit| {
        let on = spans(seen.missing, seen.to, |missing| is_on(*missing, bit));
        lane(format!("missing: {}", READINGS[bit as usize].name), ORANGE, on)
    });
    let others = [WRONG_CODE, RANGE_ERROR, WORN].map(|field| output(seen, field, SHORT[field], SKY));
    let came = missing.chain(others).filter(|lane| !lane.on.is_empty());
    came.map(|lane| Lane { timed: true, ..lane }).collect()
}

/// Contacts and keys that are ever on, but for the switching contact that has a lane of its own.
pub fn contacts(seen: &Seen, continuous: bool) -> Group {
    let bits = bits(seen.contacts).filter(|bit| *bit != SWITCHING || continuous);
    bits.map(|bit| lane(format!("in: {}", CONTACTS[bit as usize].name), GREEN, contact_on(seen, bit))).collect()
}

/// The bits that are ever on.
fn bits(masks: Changes<u32>) -> impl Iterator<Item = u32> {
    let ever = masks.iter().fold(0, |ever, (_, mask)| ever | mask);
    (0..u32::BITS).filter(move |bit| is_on(ever, *bit))
}

/// A lane for each way in which a press was ever remembered, in the colour of its command.
pub fn remembered(seen: &Seen) -> Group {
    let lanes = [(Way::Raise, BLUE, Tip::Up), (Way::Lower, VERMILLION, Tip::Down)].map(|(way, colour, tip)| {
        let on = spans(seen.remembered, seen.to, |press| *press == Some(way));
        Lane { tip, ..lane(press::short(way).to_string(), colour, on) }
    });
    lanes.into_iter().filter(|lane| !lane.on.is_empty()).collect()
}

fn output(seen: &Seen, field: usize, label: &str, colour: &'static str) -> Lane {
    lane(label.to_string(), colour, spans(seen.outputs[field], seen.to, |value| *value != 0))
}

fn contact_on(seen: &Seen, bit: u32) -> Vec<(u32, u32)> {
    spans(seen.contacts, seen.to, |contacts| is_on(*contacts, bit))
}

fn lane(label: String, colour: &'static str, on: Vec<(u32, u32)>) -> Lane {
    Lane { label, colour, tip: Tip::None, timed: false, on }
}
