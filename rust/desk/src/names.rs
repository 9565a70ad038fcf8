//! The names, units, words, defaults and ranges of the slots, after the maker's table of settings (source document 002,
//! table 2.2.1.2). The ranges only explain a refusal; whether a sheet is refused is the library's word. A test holds them to it.

use library::SLOTS;

use crate::same::same;

pub const MODULE: usize = at("I_nom");
pub const COMPENSATION: usize = at("XB4");
pub const COMPENSATION_CURRENT: usize = at("XB5");
pub const TAP_SOURCE: usize = at("XB6");
pub const WEAR: usize = at("XB18");
pub const U_SUPP: usize = at("U_supp1");
pub const D_U: usize = at("dU_set");
pub const N_POS: usize = at("N_pos");
pub const N_R: usize = at("N_R");
pub const N_L: usize = at("N_L");
pub const CONTINUOUS: usize = at("XB2");
pub const CT_RATING: usize = at("Inom_ct1");
pub const BREAKER_RATING: usize = at("Inom_bus1");

/// The slot of a name of the table, found while the tool is compiled.
pub const fn at(name: &str) -> usize {
    let mut slot = 0;
    while !same(TABLE[slot].name, name) {
        slot += 1;
    }
    slot
}

/// How a person writes a slot's number.
#[derive(Clone, Copy, Debug, PartialEq)]
pub enum Kind {
    /// One of these words: the first is 0.
    Words(&'static [&'static str]),
    /// V; the slot counts mV.
    Volts,
    /// A; the slot counts mA.
    Amps,
    /// Ω; the slot counts mΩ.
    Ohms,
    /// A of the primary side; the slot counts A.
    PrimaryAmps,
    /// Seconds; the slot counts ticks.
    Seconds,
    /// A plain number.
    Number,
    /// A tap, or `empty` for 0.
    TapOrEmpty,
}

/// How a slot's numbers for a 5 A module come from those for a 1 A one.
#[derive(Clone, Copy, Debug, PartialEq)]
pub enum Module {
    /// They are the same.
    Same,
    /// Five times as much.
    Times,
    /// A fifth.
    Over,
}

/// A slot. Low, high and default are for a 1 A module.
#[derive(Clone, Copy, Debug)]
pub struct Slot {
    pub name: &'static str,
    pub meaning: &'static str,
    pub kind: Kind,
    pub low: u32,
    pub high: u32,
    pub step: u32,
    pub default: u32,
    pub module: Module,
}

const ON_OFF: &[&str] = &["off", "on"];
const CURRENTS: &[&str] = &["bus", "coupler", "bus-coupler", "bus+coupler"];
const TAP_SOURCES: &[&str] = &["off", "BCD", "sensor", "counted", "counted-reversed"];
const MODES: &[&str] = &["block", "stabilise"];

pub const TABLE: [Slot; SLOTS] = [
    words("XB1", "the regulator is in service", ON_OFF),
    words("I_nom", "rated current of the protection module (P4: 1 A, P3: 5 A)", &["1 A", "5 A"]),
    words("XB3", "section chosen by least load current, I_set3", ON_OFF),
    words("XB4", "compensation of the voltage: by U_comp, or along R_set and X_set", &["off", "U_comp", "RX"]),
    words("XB5", "current of the compensation", CURRENTS),
    words("XB6", "where the tap is read", TAP_SOURCES),
    words("XB7", "watch overload of the tap changer, I_high over I_set1", ON_OFF),
    words("XB8", "watch overload of the infeed, I_bus over I_set2", ON_OFF),
    words("XB9", "watch least load of the infeed, I_bus under I_set3", ON_OFF),
    words("XB10", "watch high voltage, U_AB over U_set1", ON_OFF),
    words("XB11", "watch low voltage, U_AB under U_set2", ON_OFF),
    words("XB12", "watch 3U0 over U_set3", ON_OFF),
    words("XB13", "watch U2 over U_set4", ON_OFF),
    words("XB14", "automatic when a current is out of bounds", MODES),
    words("XB15", "automatic when a voltage is out of bounds", MODES),
    words("XB16", "block at an end tap", ON_OFF),
    words("XB17", "trip of the drive's supply", &["pulse", "lasting"]),
    words("XB18", "count the wear of the drive", ON_OFF),
    words("XB20", "what is watched also blocks manual", ON_OFF),
    volts("U_supp1", "voltage to hold 1", 80_000, 140_000, 100_000),
    volts("U_supp2", "voltage to hold 2", 80_000, 140_000, 100_000),
    volts("U_supp3", "voltage to hold 3", 80_000, 140_000, 100_000),
    volts("U_supp4", "voltage to hold 4", 80_000, 140_000, 100_000),
    volts("dU_set", "width of the dead band", 1_000, 40_000, 2_000),
    volts("U_comp", "voltage drop of the line at the breaker's rating", 1_000, 40_000, 5_000),
    amps("I_set1", "overload of the tap changer", 100, 40_000, 1_000),
    amps("I_set2", "overload of the infeed", 100, 40_000, 1_000),
    amps("I_set3", "least load current", 50, 5_000, 100),
    volts("U_set1", "high voltage of the section", 5_000, 200_000, 120_000),
    volts("U_set2", "low voltage of the section", 5_000, 100_000, 80_000),
    volts("U_set3", "3U0 too high", 2_000, 100_000, 10_000),
    volts("U_set4", "U2 too high", 2_000, 60_000, 5_000),
    volts("U_set5", "above it a lower comes with acceleration", 5_000, 200_000, 110_000),
    seconds("T1", "delay of the first automatic command", 20, 36_000, 24_000),
    seconds("T2", "delay of a repeated automatic command", 20, 36_000, 12_000),
    seconds("T3", "delay of an accelerated lower", 20, 36_000, 4_000),
    seconds("T4", "longest move of the drive, or longest continuous command", 20, 36_000, 3_000),
    seconds("T5", "longest wait for the drive to start", 20, 36_000, 1_000),
    seconds("T6", "shortest move of the drive", 0, 36_000, 0),
    seconds("T7", "a command stays so long after the move began", 0, 36_000, 0),
    seconds("T8", "pulse that trips the drive's supply", 20, 2_000, 2_000),
    seconds("T9", "delay of the tap changer's overload", 0, 36_000, 1_800),
    seconds("T10", "delay of the infeed's overload", 0, 36_000, 1_800),
    seconds("T11", "delay of the least load current", 0, 36_000, 10),
    seconds("T12", "delay of the high voltage", 0, 36_000, 10),
    seconds("T13", "delay of the low voltage", 0, 36_000, 10),
    seconds("T14", "delay of 3U0", 0, 36_000, 10),
    seconds("T15", "delay of U2", 0, 36_000, 10),
    number("N_pos", "tap at the start", 1, 40, 20),
    number("N_R", "highest tap", 1, 40, 40),
    number("N_L", "lowest tap", 1, 40, 1),
    number("N_start", "operations at the start", 0, 499_999, 0),
    number("N_max", "operations at which the drive is worn", 1, 500_000, 50_000),
    sliding("N1", "sliding tap 1"),
    sliding("N2", "sliding tap 2"),
    sliding("N3", "sliding tap 3"),
    sliding("N4", "sliding tap 4"),
    sliding("N5", "sliding tap 5"),
    sliding("N6", "sliding tap 6"),
    sliding("N7", "sliding tap 7"),
    sliding("N8", "sliding tap 8"),
    sliding("N9", "sliding tap 9"),
    sliding("N10", "sliding tap 10"),
    words("XB2", "regulation: by the drive's switching contact, or without one", &["impulse", "continuous"]),
    ohms("R_set", "resistance of the line", 0, 400_000, 0),
    ohms("X_set", "reactance of the line", 0, 400_000, 0),
    rating("Inom_ct1", "primary rating of the current transformer"),
    rating("Inom_bus1", "primary rating of the breaker"),
];

/// Names that the maker's table has and this unit has not, and other spellings.
pub const ABSENT: [(&str, &str); 3] =
    [("XB19", "this unit takes 3U0 as it is brought"), ("dU", "write dU_set"), ("U_set9", "write U_set5")];

const fn slot(name: &'static str, meaning: &'static str, kind: Kind, range: (u32, u32, u32), default: u32) -> Slot {
    let (low, high, step) = range;
    Slot { name, meaning, kind, low, high, step, default, module: Module::Same }
}

const fn words(name: &'static str, meaning: &'static str, words: &'static [&'static str]) -> Slot {
    slot(name, meaning, Kind::Words(words), (0, words.len() as u32 - 1, 1), 0)
}

const fn volts(name: &'static str, meaning: &'static str, low: u32, high: u32, default: u32) -> Slot {
    slot(name, meaning, Kind::Volts, (low, high, 100), default)
}

const fn amps(name: &'static str, meaning: &'static str, low: u32, high: u32, default: u32) -> Slot {
    Slot { module: Module::Times, ..slot(name, meaning, Kind::Amps, (low, high, 1), default) }
}

const fn ohms(name: &'static str, meaning: &'static str, low: u32, high: u32, default: u32) -> Slot {
    Slot { module: Module::Over, ..slot(name, meaning, Kind::Ohms, (low, high, 1), default) }
}

const fn rating(name: &'static str, meaning: &'static str) -> Slot {
    slot(name, meaning, Kind::PrimaryAmps, (1, 20_000, 1), 2_000)
}

const fn seconds(name: &'static str, meaning: &'static str, low: u32, high: u32, default: u32) -> Slot {
    slot(name, meaning, Kind::Seconds, (low, high, 1), default)
}

const fn number(name: &'static str, meaning: &'static str, low: u32, high: u32, default: u32) -> Slot {
    slot(name, meaning, Kind::Number, (low, high, 1), default)
}

const fn sliding(name: &'static str, meaning: &'static str) -> Slot {
    slot(name, meaning, Kind::TapOrEmpty, (0, 40, 1), 0)
}

impl Slot {
    /// Low and high for the module of a sheet, whose slot 1 is `module`.
    pub fn bounds(&self, module: u32) -> (u32, u32) {
        (self.for_module(self.low, module), self.for_module(self.high, module))
    }

    /// The default for that module.
    pub fn default_for(&self, module: u32) -> u32 {
        self.for_module(self.default, module)
    }

    /// What a number for a 1 A module is for that one.
    fn for_module(&self, number: u32, module: u32) -> u32 {
        let k = rated_amps(module);
        match self.module {
            Module::Same => number,
            Module::Times => number * k,
            Module::Over => number / k,
        }
    }
}

/// The rated current of a sheet's module; a wrong number counts as the default, 1 A.
pub fn rated_amps(module: u32) -> u32 {
    match module {
        1 => 5,
        _ => 1,
    }
}

/// The slot of a name.
pub fn find(name: &str) -> Option<usize> {
    TABLE.iter().position(|slot| slot.name == name)
}

/// The name that differs from this one only in capitals.
pub fn near(name: &str) -> Option<&'static str> {
    TABLE.iter().map(|slot| slot.name).find(|known| known.eq_ignore_ascii_case(name))
}
