//! Chance records within their limits, and chance ticks.

use reference::dice::Dice;
use reference::floats::float_of;
use reference::input::{bit, Input, READINGS};
use reference::make_sheet;
use reference::reading::Reading;
use reference::record::{Direction, Drive, Fault, Organ, Record, Side, Wait, ORGANS};
use reference::sheet::{is_continuous, slot, Settings};

/// Any reading at all, often a sensible one.
fn any_reading(dice: &mut Dice) -> Reading {
    let float = match dice.one_in(4) {
        true => f32::from_bits(dice.bits()),
        false => float_of(dice.between(0, 200_000) >> dice.between(0, 10)),
    };
    match dice.between(0, 9) {
        0 => Reading::Invalid,
        1 => Reading::Held(float),
        _ => Reading::Good(float),
    }
}

/// The reading, or one of the other sign.
fn either_sign(dice: &mut Dice, reading: Reading) -> Reading {
    match reading {
        Reading::Good(x) if dice.one_in(2) => Reading::Good(-x),
        same => same,
    }
}

/// Any tick that is not out.
pub fn any_input(dice: &mut Dice) -> Input {
    // Few contacts that take the regulator out or block it.
    let blocking = 0b1000_1111_1111_1100;
    let contacts = match dice.one_in(3) {
        true => dice.bits(),
        false => dice.bits() & !blocking,
    };
    let mut readings = [(); READINGS].map(|()| any_reading(dice));
    for part in &mut readings[6..] {
        *part = either_sign(dice, *part);
    }
    Input::of(readings, contacts & !(1 << bit::OUT), dice.bits() as u8, dice.between(0, 45) as u8)
}

/// Low end, high end, or anything between.
fn any_up_to(dice: &mut Dice, low: u32, high: u32) -> u32 {
    match dice.between(0, 3) {
        0 => low,
        1 => high,
        _ => dice.between(low, high),
    }
}

fn any_direction(dice: &mut Dice) -> Direction {
    dice.pick(&[Direction::Raise, Direction::Lower])
}

/// The highest age of an asked or held command.
fn longest_asked(settings: &Settings) -> u32 {
    match is_continuous(settings) {
        true => settings[slot::T4] - 1,
        false => settings[slot::T5] - 1,
    }
}

fn any_drive(dice: &mut Dice, record: &Record) -> Drive {
    let direction = any_direction(dice);
    match dice.between(0, 2) {
        0 => Drive::Rest,
        1 => Drive::Asked { direction, age: any_up_to(dice, 0, longest_asked(&record.settings)), automatic: dice.one_in(2) },
        _ if is_continuous(&record.settings) => Drive::Rest,
        _ => Drive::Moving { direction, length: any_up_to(dice, 1, record.settings[slot::T4]), commanded: dice.one_in(2) },
    }
}

/// Any record within its limits, whether ticks lead there or not.
pub fn any_record(dice: &mut Dice) -> Record {
    let mut record = Record::fresh(make_sheet::sheet(dice));
    let settings = record.settings;
    record.drive = any_drive(dice, &record);
    if record.drive == Drive::Rest {
        let faults: &[Fault] = match is_continuous(&settings) {
            true => &[Fault::Long],
            false => &[Fault::RunAway, Fault::NotStarted, Fault::Long, Fault::Fast],
        };
        if dice.one_in(2) {
            record.fault = dice.pick(faults);
        }
        let side = dice.pick(&[Side::Low, Side::High]);
        record.wait = Wait::to(side, any_up_to(dice, 0, 35_999));
    }
    if record.fault != Fault::None {
        record.fault_age = any_up_to(dice, 0, settings[slot::T8]);
    }
    for i in 0..ORGANS {
        let count = any_up_to(dice, 0, settings[slot::T9 + i]);
        if dice.one_in(2) {
            let marked = true;
            record.organs[i] = Organ { marked, count };
        }
    }
    record.repeat = dice.pick(&[None, Some(Side::Low), Some(Side::High)]);
    record.last_direction = Some(any_direction(dice)).filter(|_| dice.one_in(2));
    record.counted_tap = any_up_to(dice, settings[slot::N_L], settings[slot::N_R]);
    record.operations = any_up_to(dice, 0, 999_999);
    record.raise_button = dice.one_in(2);
    record.lower_button = dice.one_in(2);
    record.remote_raise = dice.one_in(2);
    record.remote_lower = dice.one_in(2);
    record.remote = dice.one_in(2);
    record.remembered = Some(any_direction(dice)).filter(|_| record.fault == Fault::None && dice.one_in(2));
    record
}
