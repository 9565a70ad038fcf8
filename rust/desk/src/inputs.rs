//! The names of what a tick brings: its readings, and the contacts and keys by bit.

use library::READINGS as COUNT;

use crate::same::same;

/// A reading: its name and unit.
pub struct Reading {
    pub name: &'static str,
    pub unit: &'static str,
}

pub const READINGS: [Reading; COUNT] = [
    reading("U_AB", "V"),
    reading("3U0", "V"),
    reading("U2", "V"),
    reading("I_high", "A"),
    reading("I_bus", "A"),
    reading("I_coupler", "A"),
    reading("U_AB_re", "V"),
    reading("U_AB_im", "V"),
    reading("I_bus_re", "A"),
    reading("I_bus_im", "A"),
    reading("I_coupler_re", "A"),
    reading("I_coupler_im", "A"),
];

const fn reading(name: &'static str, unit: &'static str) -> Reading {
    Reading { name, unit }
}

/// The place of a reading, found while the tool is compiled.
pub const fn reading_at(name: &str) -> usize {
    let mut place = 0;
    while !same(READINGS[place].name, name) {
        place += 1;
    }
    place
}

pub const U_AB: usize = reading_at("U_AB");
pub const I_BUS: usize = reading_at("I_bus");
pub const I_COUPLER: usize = reading_at("I_coupler");

/// How many readings come before the parts of pairs.
pub const SCALARS: usize = reading_at("U_AB_re");

/// What a tick also brings as real and imaginary part: its name, the column of its phasor, and the places of the two.
pub struct Pair {
    pub name: &'static str,
    pub phasor: &'static str,
    pub parts: [usize; 2],
}

pub const PAIRS: [Pair; 3] = [
    pair("U_AB", "U_AB_phasor", ["U_AB_re", "U_AB_im"]),
    pair("I_bus", "I_bus_phasor", ["I_bus_re", "I_bus_im"]),
    pair("I_coupler", "I_coupler_phasor", ["I_coupler_re", "I_coupler_im"]),
];

pub const U_AB_PAIR: usize = 0;
pub const I_BUS_PAIR: usize = 1;
pub const I_COUPLER_PAIR: usize = 2;

const fn pair(name: &'static str, phasor: &'static str, parts: [&str; 2]) -> Pair {
    Pair { name, phasor, parts: [reading_at(parts[0]), reading_at(parts[1])] }
}

/// A contact or key: its column, and what a table says when it is on and off.
pub struct Contact {
    pub name: &'static str,
    pub on: &'static str,
    pub off: &'static str,
}

pub const BREAKER: u32 = bit("breaker");
pub const SWITCHING: u32 = bit("switching");
pub const SUPPLY_OFF: u32 = bit("supply_off");
pub const END_UP: u32 = bit("end_up");
pub const END_DOWN: u32 = bit("end_down");
pub const RESET: u32 = bit("reset");
pub const OUT: u32 = bit("out");
pub const AUTOMATIC: u32 = bit("automatic");
pub const U_SUPP2: u32 = bit("U_supp2");
pub const REMOTE: u32 = bit("remote");

/// By bit; the unit ignores those after `remote_lower`. `local` is local drive, and `remote` off is local mode.
pub const CONTACTS: [Contact; 32] = [
    contact("breaker", "breaker closed", "breaker open"),
    contact("switching", "switching contact closed", "switching contact open"),
    contact("supply_off", "drive supply off", "drive supply on"),
    contact("oil_cold", "oil cold", "oil not cold"),
    contact("oil_low", "oil level low", "oil level not low"),
    contact("oil_high", "oil level high", "oil level not high"),
    contact("end_up", "upper end contact closed", "upper end contact open"),
    contact("end_down", "lower end contact closed", "lower end contact open"),
    contact("ext_overcurrent", "external overcurrent", "external overcurrent gone"),
    contact("ext_block", "external block", "external block gone"),
    contact("ext_raise_block", "external raise block", "external raise block gone"),
    contact("ext_lower_block", "external lower block", "external lower block gone"),
    contact("reset", "reset pressed", "reset released"),
    contact("out", "key: regulator out", "key: regulator in"),
    contact("automatic", "key: automatic", "key: manual"),
    contact("local", "key: local drive", "key: local drive off"),
    contact("U_supp2", "key: U_supp2", "key: U_supp2 off"),
    contact("U_supp3", "key: U_supp3", "key: U_supp3 off"),
    contact("U_supp4", "key: U_supp4", "key: U_supp4 off"),
    contact("raise", "raise button pressed", "raise button released"),
    contact("lower", "lower button pressed", "lower button released"),
    contact("remote", "key: remote mode", "key: local mode"),
    contact("remote_raise", "dispatcher's raise pressed", "dispatcher's raise released"),
    contact("remote_lower", "dispatcher's lower pressed", "dispatcher's lower released"),
    contact("bit24", "bit 24 set", "bit 24 clear"),
    contact("bit25", "bit 25 set", "bit 25 clear"),
    contact("bit26", "bit 26 set", "bit 26 clear"),
    contact("bit27", "bit 27 set", "bit 27 clear"),
    contact("bit28", "bit 28 set", "bit 28 clear"),
    contact("bit29", "bit 29 set", "bit 29 clear"),
    contact("bit30", "bit 30 set", "bit 30 clear"),
    contact("bit31", "bit 31 set", "bit 31 clear"),
];

/// The bit of a contact, found while the tool is compiled.
pub const fn bit(name: &str) -> u32 {
    let mut bit = 0;
    while !same(CONTACTS[bit].name, name) {
        bit += 1;
    }
    bit as u32
}

const fn contact(name: &'static str, on: &'static str, off: &'static str) -> Contact {
    Contact { name, on, off }
}

pub fn is_on(contacts: u32, bit: u32) -> bool {
    contacts >> bit & 1 == 1
}

pub fn with(contacts: u32, bit: u32, on: bool) -> u32 {
    match on {
        true => contacts | 1 << bit,
        false => contacts & !(1 << bit),
    }
}
