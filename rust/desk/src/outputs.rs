//! The names of the outputs.

use std::ops::RangeInclusive;

use library::FIELDS;

use crate::same::same;

pub const RAISE: usize = at("raise");
pub const LOWER: usize = at("lower");
pub const SECTION: usize = at("section");
pub const TAP: usize = at("tap");
pub const WRONG_CODE: usize = at("wrong BCD code");
pub const RANGE_ERROR: usize = at("tap range error");
/// The first of the organs' trips.
pub const TRIPS: usize = at("I_high over I_set1");
/// From the first block to the last.
pub const BLOCKS: RangeInclusive<usize> = AUTOMATIC_BLOCKED..=LOWER_BLOCKED;
pub const AUTOMATIC_BLOCKED: usize = at("automatic blocked");
pub const MANUAL_BLOCKED: usize = at("manual blocked");
pub const RAISE_BLOCKED: usize = at("raise blocked");
pub const LOWER_BLOCKED: usize = at("lower blocked");
pub const LOW: usize = at("low");
pub const HIGH: usize = at("high");
/// From the first fault to the last.
pub const FAULTS: RangeInclusive<usize> = at("run-away")..=at("fast move");
pub const LONG: usize = at("long move");
pub const SUPPLY_TRIP: usize = at("supply trip");
pub const BUSY: usize = at("drive busy");
pub const OPERATIONS: usize = at("operations");
pub const WORN: usize = at("worn: N_max reached");
pub const AUTOMATIC: usize = at("automatic");

/// The field of a short name, found while the tool is compiled.
pub const fn at(name: &str) -> usize {
    let mut field = 0;
    while !same(SHORT[field], name) {
        field += 1;
    }
    field
}

/// Short names, for the picture.
pub const SHORT: [&str; FIELDS] = [
    "raise",
    "lower",
    "section",
    "tap",
    "wrong BCD code",
    "tap range error",
    "I_high over I_set1",
    "I_bus over I_set2",
    "I_bus under I_set3",
    "U_AB over U_set1",
    "U_AB under U_set2",
    "3U0 over U_set3",
    "U2 over U_set4",
    "automatic blocked",
    "manual blocked",
    "raise blocked",
    "lower blocked",
    "low",
    "high",
    "run-away",
    "not started",
    "long move",
    "fast move",
    "supply trip",
    "drive busy",
    "operations",
    "worn: N_max reached",
    "automatic",
];

/// What a table says of a field that is on, and of one that is off again.
const WORDS: [(&str, &str); FIELDS] = [
    ("RAISE command", "raise command off"),
    ("LOWER command", "lower command off"),
    ("section present", "section absent"),
    ("", "tap not known"),
    ("wrong BCD code", "BCD code right again"),
    ("tap range error", "tap range error gone"),
    ("TRIP: I_high over I_set1", "trip gone: I_high over I_set1"),
    ("TRIP: I_bus over I_set2", "trip gone: I_bus over I_set2"),
    ("TRIP: I_bus under I_set3", "trip gone: I_bus under I_set3"),
    ("TRIP: U_AB over U_set1", "trip gone: U_AB over U_set1"),
    ("TRIP: U_AB under U_set2", "trip gone: U_AB under U_set2"),
    ("TRIP: 3U0 over U_set3", "trip gone: 3U0 over U_set3"),
    ("TRIP: U2 over U_set4", "trip gone: U2 over U_set4"),
    ("automatic blocked", "automatic free"),
    ("manual blocked", "manual free"),
    ("raise blocked", "raise free"),
    ("lower blocked", "lower free"),
    ("voltage low", "voltage no longer low"),
    ("voltage high", "voltage no longer high"),
    ("FAULT: run-away", "fault cleared: run-away"),
    ("FAULT: drive not started", "fault cleared: drive not started"),
    ("FAULT: long move", "fault cleared: long move"),
    ("FAULT: fast move", "fault cleared: fast move"),
    ("SUPPLY TRIP", "supply trip off"),
    ("drive busy", "drive at rest"),
    ("", "operations 0"),
    ("worn: operations have reached N_max", "operations below N_max"),
    ("automatic mode", "manual mode"),
];

/// Fields with other words without a switching contact, where only the command is known: the short name, on and off again.
const UNSEEN: [(usize, &str, (&str, &str)); 2] = [
    (LONG, "long command", ("FAULT: long command", "fault cleared: long command")),
    (BUSY, "drive asked", ("drive asked", "drive not asked")),
];

/// The short name of a field and its words, for the kind of regulation.
fn named(field: usize, continuous: bool) -> (&'static str, (&'static str, &'static str)) {
    match UNSEEN.iter().find(|(unseen, ..)| continuous && *unseen == field) {
        Some((_, short, words)) => (short, *words),
        None => (SHORT[field], WORDS[field]),
    }
}

/// The short name of a field, for the kind of regulation.
pub fn short(field: usize, continuous: bool) -> &'static str {
    named(field, continuous).0
}

/// A field that became `now`, in words, for the kind of regulation.
pub fn words(field: usize, now: u32, continuous: bool) -> String {
    let (on, off) = named(field, continuous).1;
    match (field, now) {
        (TAP, tap) if tap > 0 => format!("tap {tap}"),
        (OPERATIONS, operations) if operations > 0 => format!("operations {operations}"),
        (_, 0) => off.to_string(),
        _ => on.to_string(),
    }
}
