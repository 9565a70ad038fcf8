//! The cells of a scenario: readings, contacts, BCD lines, the sensor, and times.

use library::{Sample, GOOD, HELD, INVALID};

use crate::decimal::{self, Bad};
use crate::phasor;
use crate::shown;
use crate::value::TICK_MS;

/// `98.2`, `98.2 held`, `invalid`; `bits 0x7fc00000` for a float that has no number.
pub fn reading(text: &str) -> Result<Sample, String> {
    let (number, quality) = graded(text);
    match float(number) {
        _ if quality == INVALID => Ok(Sample { quality, value: 0.0 }),
        Some(value) => Ok(Sample { quality, value }),
        None => Err(format!("`{}` is no reading: 98.2, 98.2 held or invalid", shown::text(text))),
    }
}

/// A magnitude and degrees, `0.8@-30`, `0.8@-30 held`, `invalid`, as the two parts.
pub fn phasor(text: &str) -> Result<[Sample; 2], String> {
    let (numbers, quality) = graded(text);
    match size_and_angle(numbers) {
        _ if quality == INVALID => Ok([Sample { quality, value: 0.0 }; 2]),
        Some((size, degrees)) => Ok(phasor::parts(size, degrees).map(|value| Sample { quality, value })),
        None => Err(format!(
            "`{}` is no phasor: a magnitude from 0 on and degrees, 0.8@-30 or 0.8@-30 held, or invalid",
            shown::text(text)
        )),
    }
}

fn size_and_angle(text: &str) -> Option<(f64, f64)> {
    let (size, degrees) = text.split_once('@')?;
    let number = |text: &str| text.trim().parse::<f64>().ok().filter(|number| number.is_finite());
    Some((number(size).filter(|size| *size >= 0.0)?, number(degrees)?))
}

/// A cell without the word of its quality, and that quality.
fn graded(text: &str) -> (&str, u32) {
    match text.strip_suffix("held") {
        _ if text == "invalid" => ("", INVALID),
        Some(rest) => (rest.trim(), HELD),
        None => (text, GOOD),
    }
}

fn float(text: &str) -> Option<f32> {
    match text.strip_prefix("bits 0x") {
        Some(hex) => u32::from_str_radix(hex, 16).ok().map(f32::from_bits),
        None => text.parse().ok(),
    }
}

/// The cell of a reading; the number of an Invalid one is not kept.
pub fn reading_text(sample: Sample) -> String {
    match sample.quality {
        GOOD => float_text(sample.value),
        HELD => format!("{} held", float_text(sample.value)),
        _ => "invalid".to_string(),
    }
}

/// `98.2 held` in V is `98.2 V held`.
pub fn with_unit(text: &str, unit: &str) -> String {
    match text.strip_suffix(" held") {
        Some(number) => format!("{number} {unit} held"),
        None if text == "invalid" => text.to_string(),
        None => format!("{text} {unit}"),
    }
}

fn float_text(value: f32) -> String {
    let size = value.abs();
    match value {
        _ if value.is_nan() => format!("bits 0x{:08x}", value.to_bits()),
        _ if size != 0.0 && size.is_finite() && !(1e-6..1e9).contains(&size) => format!("{value:e}"),
        _ => value.to_string(),
    }
}

/// A contact or key.
pub fn contact(text: &str) -> Result<bool, String> {
    match text.to_ascii_lowercase().as_str() {
        "1" | "on" | "closed" => Ok(true),
        "0" | "off" | "open" => Ok(false),
        _ => Err(format!("`{}` is no contact: 1 or 0, on or off, closed or open", shown::text(text))),
    }
}

/// The highest number on the BCD lines, of which three are for the tens.
const MOST_OF_LINES: u8 = 79;

/// `24` is tap 24 on the lines, `0x1a` the lines themselves.
pub fn bcd(text: &str) -> Result<u8, String> {
    let wrong = || format!("`{}` is no BCD code: a tap from 0 to 79, or lines from 0x00 to 0xff", shown::text(text));
    if let Some(hex) = text.strip_prefix("0x") {
        return u8::from_str_radix(hex, 16).map_err(|_| wrong());
    }
    match text.parse::<u8>() {
        Ok(tap) if tap <= MOST_OF_LINES => Ok(lines_of(tap)),
        _ => Err(wrong()),
    }
}

/// The BCD lines of a tap below 100.
pub fn lines_of(tap: u8) -> u8 {
    ((tap / 10) << 4) | (tap % 10)
}

pub fn bcd_text(lines: u8) -> String {
    let (tens, units) = (lines >> 4, lines & 15);
    match tens * 10 + units {
        number if units < 10 && number <= MOST_OF_LINES => number.to_string(),
        _ => format!("0x{lines:02x}"),
    }
}

pub fn sensor(text: &str) -> Result<u8, String> {
    text.parse().map_err(|_| format!("`{}` is no sensor number: 0 to 255", shown::text(text)))
}

/// The longest run, in ticks: a little more than a day. No time is beyond it.
pub const LONGEST: u32 = 20_000_000;

/// What is said of all that is longer.
pub fn beyond_longest() -> String {
    format!("beyond {} s, {LONGEST} ticks, the longest run", seconds_text(LONGEST))
}

/// Seconds as ticks.
pub fn seconds(text: &str) -> Result<u32, String> {
    let ms = match decimal::thousandths(text) {
        Ok(ms) => ms,
        Err(Bad::TooLarge) => u64::MAX,
        Err(bad) => return Err(format!("the time `{}` {}", shown::text(text), bad.words())),
    };
    match ms % TICK_MS {
        _ if ms > u64::from(LONGEST) * TICK_MS => Err(too_late(text)),
        0 => Ok((ms / TICK_MS) as u32),
        _ => Err(format!("the time `{}` s is no whole number of ticks of 0.005 s", shown::text(text))),
    }
}

/// A time in ticks.
pub fn ticks(text: &str) -> Result<u32, String> {
    let digits = !text.is_empty() && text.bytes().all(|b| b.is_ascii_digit());
    match text.parse() {
        Ok(ticks) if ticks <= LONGEST => Ok(ticks),
        _ if digits => Err(too_late(text)),
        _ => Err(format!("the time `{}` is no whole number of ticks", shown::text(text))),
    }
}

/// A time on the command line as ticks: `12.5`, `12.5 s` or `2500 ticks`.
pub fn time(text: &str) -> Result<u32, String> {
    match text.strip_suffix("ticks") {
        Some(number) => ticks(number.trim()),
        None => seconds(text.strip_suffix('s').unwrap_or(text).trim()),
    }
}

fn too_late(text: &str) -> String {
    format!("the time `{}` is {}", shown::text(text), beyond_longest())
}

pub fn seconds_text(ticks: u32) -> String {
    decimal::text(u64::from(ticks) * TICK_MS)
}

/// Signed volts.
pub fn volts(text: &str) -> Result<f64, String> {
    match text.parse::<f64>() {
        Ok(volts) if volts.abs() <= 200.0 => Ok(volts),
        _ => Err(format!("`{}` is no voltage from -200 to 200 V", shown::text(text))),
    }
}

/// A tap of the simulated drive.
pub fn tap(text: &str) -> Result<u8, String> {
    match text.parse::<u8>() {
        Ok(tap) if (1..=79).contains(&tap) => Ok(tap),
        _ => Err(format!("`{}` is no tap of a drive: 1 to 79", shown::text(text))),
    }
}

/// Taps with blanks between them, or `none`.
pub fn taps(text: &str) -> Result<Vec<u8>, String> {
    match text {
        "none" => Ok(Vec::new()),
        _ => text.split_whitespace().map(tap).collect(),
    }
}
