//! Rule 4: the tap of this tick; and rule 7's step of the counted tap.

use crate::input::Input;
use crate::record::{Direction, Record};
use crate::sheet::{slot, Settings, SLIDING_TAPS};

/// The numbers of slot 5.
pub mod source {
    pub const NOTHING: u32 = 0;
    pub const BCD: u32 = 1;
    pub const SENSOR: u32 = 2;
    pub const COUNTED: u32 = 3;
    pub const COUNTED_REVERSED: u32 = 4;
}

/// What slot 5's source says.
#[derive(Clone, Copy, Debug, PartialEq, Eq)]
pub struct Tap {
    /// 0 if there is none.
    pub number: u32,
    pub wrong_code: bool,
    pub range_error: bool,
}

impl Tap {
    fn is(number: u32) -> Tap {
        Tap { number, wrong_code: false, range_error: false }
    }
}

/// Reads the tap from the one source that slot 5 names.
pub fn read(record: &Record, input: &Input) -> Tap {
    let settings = &record.settings;
    match settings[slot::TAP_SOURCE] {
        source::BCD => from_bcd(settings, input.bcd),
        source::SENSOR => in_range(settings, u32::from(input.sensor)),
        source::COUNTED | source::COUNTED_REVERSED => Tap::is(record.counted_tap),
        _ => Tap::is(0),
    }
}

/// Units above 9 are a wrong code and no range error.
fn from_bcd(settings: &Settings, lines: u8) -> Tap {
    let units = u32::from(lines & 0x0F);
    let tens = u32::from((lines >> 4) & 0x07);
    if units > 9 {
        return Tap { wrong_code: true, ..Tap::is(0) };
    }
    in_range(settings, 10 * tens + units)
}

/// A number outside N_L to N_R is a range error and gives tap 0.
fn in_range(settings: &Settings, number: u32) -> Tap {
    if (settings[slot::N_L]..=settings[slot::N_R]).contains(&number) {
        return Tap::is(number);
    }
    Tap { range_error: true, ..Tap::is(0) }
}

/// Whether this tap is one that the drive slides over. Tap 0 never is: an
/// empty sliding slot is no tap.
pub fn is_sliding(settings: &Settings, tap: u32) -> bool {
    tap != 0 && settings[slot::SLIDING..][..SLIDING_TAPS].contains(&tap)
}

/// The counted tap at tick end, and whether the step went past an end.
pub fn counted_after(record: &Record, ended: Option<Direction>) -> (u32, bool) {
    let settings = &record.settings;
    let tap = record.counted_tap;
    let Some(upward) = ended.and_then(|direction| counts_up(settings, direction)) else {
        return (tap, false);
    };
    match upward {
        true if tap >= settings[slot::N_R] => (tap, true),
        true => (tap + 1, false),
        false if tap <= settings[slot::N_L] => (tap, true),
        false => (tap - 1, false),
    }
}

/// Whether a move this way counts up; nothing if taps are not counted.
fn counts_up(settings: &Settings, direction: Direction) -> Option<bool> {
    match settings[slot::TAP_SOURCE] {
        source::COUNTED => Some(direction == Direction::Raise),
        source::COUNTED_REVERSED => Some(direction == Direction::Lower),
        _ => None,
    }
}
