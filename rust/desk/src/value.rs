//! A slot's number as a person writes it, and back.

use crate::decimal;
use crate::names::{rated_amps, Kind, Module, Slot};
use crate::shown;

/// A tick in ms.
pub const TICK_MS: u64 = 5;

/// A unit, and how many of its thousandths make one of the slot's numbers. The first of a list is meant where none is written.
struct Measure {
    unit: &'static str,
    thousandths: u64,
}

const VOLTS: [Measure; 2] = [measure("V", 1), measure("mV", 1000)];
const AMPS: [Measure; 2] = [measure("A", 1), measure("mA", 1000)];
const OHMS: [Measure; 4] = [measure("ohm", 1), measure("mohm", 1000), measure("Ω", 1), measure("mΩ", 1000)];
const PRIMARY_AMPS: [Measure; 2] = [measure("A", 1000), measure("kA", 1)];
const SECONDS: [Measure; 3] = [measure("s", TICK_MS), measure("ms", 1000 * TICK_MS), measure("ticks", 1000)];

/// Unicode's sign for the unit, which is not the letter that looks like it.
const OHM_SIGN: char = '\u{2126}';

const fn measure(unit: &'static str, thousandths: u64) -> Measure {
    Measure { unit, thousandths }
}

/// The slot's number as text.
pub fn text(slot: &Slot, number: u32) -> String {
    let thousandths = u64::from(number);
    match slot.kind {
        Kind::Words(words) => word(words, number),
        Kind::Volts => format!("{} V", decimal::text(thousandths)),
        Kind::Amps => format!("{} A", decimal::text(thousandths)),
        Kind::Ohms => format!("{} ohm", decimal::text(thousandths)),
        Kind::PrimaryAmps => format!("{number} A"),
        Kind::Seconds => format!("{} s", decimal::text(thousandths * TICK_MS)),
        Kind::TapOrEmpty if number == 0 => "empty".to_string(),
        Kind::Number | Kind::TapOrEmpty => number.to_string(),
    }
}

/// The word, or, for a number without one, `raw` and the number.
fn word(words: &[&str], number: u32) -> String {
    match words.get(number as usize) {
        Some(word) => word.to_string(),
        None => format!("raw {number}"),
    }
}

/// The slot's number from text, or why it is none.
pub fn number(slot: &Slot, text: &str) -> Result<u32, String> {
    if let Some(raw) = text.strip_prefix("raw ") {
        return raw.trim().parse().map_err(|_| format!("`{}` is no number of 32 bits", shown::text(raw)));
    }
    match slot.kind {
        Kind::Words(words) => from_words(words, text),
        Kind::Volts => from_measure(&VOLTS, text),
        Kind::Amps => from_measure(&AMPS, text),
        Kind::Ohms => from_measure(&OHMS, text),
        Kind::PrimaryAmps => from_measure(&PRIMARY_AMPS, text),
        Kind::Seconds => from_measure(&SECONDS, text),
        Kind::TapOrEmpty if text.eq_ignore_ascii_case("empty") => Ok(0),
        Kind::Number | Kind::TapOrEmpty => whole(text),
    }
}

/// `5 A` may be written without its unit, as a number may.
fn from_words(words: &[&str], text: &str) -> Result<u32, String> {
    let plain = squeeze(text);
    let number = |word: &str| word.split(' ').next() == Some(&plain);
    match words.iter().position(|word| squeeze(word) == plain || number(word)) {
        Some(at) => Ok(at as u32),
        None => Err("is none of its words".to_string()),
    }
}

/// Small letters, without blanks: `5 A` and `5a` are one word.
fn squeeze(text: &str) -> String {
    text.split_whitespace().collect::<String>().to_ascii_lowercase()
}

fn whole(text: &str) -> Result<u32, String> {
    let thousandths = decimal::thousandths(text).map_err(|bad| bad.words().to_string())?;
    match thousandths % 1000 {
        0 => fit(thousandths / 1000),
        _ => Err("is not a whole number".to_string()),
    }
}

fn from_measure(measures: &[Measure], text: &str) -> Result<u32, String> {
    let text = text.replace(OHM_SIGN, "Ω");
    let (digits, unit) = split_unit(&text);
    let known = measures.iter().find(|m| unit.is_empty() || m.unit == unit);
    let Some(measure) = known else {
        let units: Vec<&str> = measures.iter().map(|m| m.unit).collect();
        return Err(format!("has the unit `{}`, and not {}", shown::text(unit), units.join(" or ")));
    };
    let thousandths = decimal::thousandths(digits).map_err(|bad| bad.words().to_string())?;
    match thousandths % measure.thousandths {
        0 => fit(thousandths / measure.thousandths),
        _ => Err("is finer than a sheet can hold".to_string()),
    }
}

/// `1.5 s` and `1.5s` are 1.5 with the unit s.
fn split_unit(text: &str) -> (&str, &str) {
    let at = text.find(char::is_alphabetic).unwrap_or(text.len());
    (text[..at].trim(), text[at..].trim())
}

fn fit(number: u64) -> Result<u32, String> {
    u32::try_from(number).map_err(|_| "is too large".to_string())
}

/// What a slot takes, in words, for the module of the sheet; where that counts, with the other module too.
pub fn range(slot: &Slot, module: u32) -> String {
    let takes = match slot.kind {
        Kind::Words(words) => return format!("takes {}", words.join(" or ")),
        _ => format!("takes {} in steps of {}", span(slot, module), step(slot)),
    };
    let other = u32::from(module != 1);
    let with = |module: u32| format!("with I_nom = {} A", rated_amps(module));
    match slot.module {
        Module::Same => takes,
        Module::Times | Module::Over => format!("{takes} {}, and {} {}", with(module), span(slot, other), with(other)),
    }
}

/// From low to high, for a module.
pub fn span(slot: &Slot, module: u32) -> String {
    let (low, high) = slot.bounds(module);
    match slot.kind {
        Kind::TapOrEmpty => format!("{}, or 1 to {high}", text(slot, low)),
        _ => format!("{} to {}", text(slot, low), text(slot, high)),
    }
}

pub fn step(slot: &Slot) -> String {
    match slot.kind {
        Kind::TapOrEmpty => slot.step.to_string(),
        _ => text(slot, slot.step),
    }
}
