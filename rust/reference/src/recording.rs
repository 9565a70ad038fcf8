//! The files: sheets and recordings, numbers with their least byte first.

use crate::input::{Input, READINGS};
use crate::reading::Reading;
use crate::sheet::{Settings, SLOTS};

/// Bytes of a whole sheet file.
pub const SHEET_BYTES: usize = 4 * SLOTS;

/// Bytes of one reading: its quality and its float.
pub const READING_BYTES: usize = 5;

/// Where the contacts stand in a recorded tick, the BCD byte and the sensor byte.
const CONTACTS_AT: usize = READINGS * READING_BYTES;
const BCD_AT: usize = CONTACTS_AT + 4;
const SENSOR_AT: usize = BCD_AT + 1;

/// Bytes of one recorded tick.
pub const TICK_BYTES: usize = SENSOR_AT + 1;

/// A byte of a tick that says nothing: the quality byte at this place.
#[derive(Clone, Copy, Debug, PartialEq, Eq)]
pub struct BadQuality {
    pub at: usize,
    pub byte: u8,
}

/// The numbers of a sheet file. A file of any other length than a whole
/// sheet's is a list of another length.
pub fn sheet_from_bytes(bytes: &[u8]) -> Vec<u32> {
    if bytes.len() != SHEET_BYTES {
        return Vec::new();
    }
    bytes.chunks_exact(4).map(number).collect()
}

/// The bytes of a sheet file.
pub fn sheet_to_bytes(settings: &Settings) -> Vec<u8> {
    settings.iter().flat_map(|n| n.to_le_bytes()).collect()
}

/// Reads one recorded tick.
pub fn tick_from_bytes(bytes: &[u8; TICK_BYTES]) -> Result<Input, BadQuality> {
    let mut readings = [Reading::Invalid; READINGS];
    for (i, reading) in readings.iter_mut().enumerate() {
        *reading = reading_at(bytes, i * READING_BYTES)?;
    }
    let contacts = number(&bytes[CONTACTS_AT..BCD_AT]);
    Ok(Input::of(readings, contacts, bytes[BCD_AT], bytes[SENSOR_AT]))
}

fn reading_at(bytes: &[u8; TICK_BYTES], at: usize) -> Result<Reading, BadQuality> {
    let float = f32::from_bits(number(&bytes[at + 1..at + READING_BYTES]));
    match bytes[at] {
        0 => Ok(Reading::Good(float)),
        1 => Ok(Reading::Held(float)),
        2 => Ok(Reading::Invalid),
        byte => Err(BadQuality { at, byte }),
    }
}

/// Writes one recorded tick.
pub fn tick_to_bytes(input: &Input) -> [u8; TICK_BYTES] {
    let mut bytes = [0; TICK_BYTES];
    let places = bytes.chunks_exact_mut(READING_BYTES);
    for (reading, place) in input.readings().into_iter().zip(places) {
        let (quality, float) = match reading {
            Reading::Good(x) => (0, x),
            Reading::Held(x) => (1, x),
            Reading::Invalid => (2, 0.0),
        };
        place[0] = quality;
        place[1..].copy_from_slice(&float.to_bits().to_le_bytes());
    }
    bytes[CONTACTS_AT..BCD_AT].copy_from_slice(&input.contacts.0.to_le_bytes());
    bytes[BCD_AT] = input.bcd;
    bytes[SENSOR_AT] = input.sensor;
    bytes
}

/// A 32-bit number, least byte first.
fn number(bytes: &[u8]) -> u32 {
    bytes.iter().rev().fold(0, |sum, &byte| (sum << 8) | u32::from(byte))
}
