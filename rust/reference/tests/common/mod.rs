//! What the tests share: a calm substation and a regulator in it.

#![allow(dead_code)]

pub mod any;
pub mod courses;
pub mod journals;
pub mod modes;
pub mod scenes;

use reference::floats::{float_of, part_of};
use reference::input::{bit, Input, READINGS};
use reference::phasor::Pair;
use reference::reading::Reading;
use reference::record::Record;
use reference::sheet::slot;
use reference::tick::{tick, OUTPUTS};
use reference::values::BASE;

pub type Outputs = [u32; OUTPUTS];

/// A Good reading of just so many mV or mA.
pub fn good(thousandths: u32) -> Reading {
    Reading::Good(float_of(thousandths))
}

/// A Held reading of just so many mV or mA.
pub fn held(thousandths: u32) -> Reading {
    Reading::Held(float_of(thousandths))
}

/// A Good pair of just so many mV or mA.
pub fn pair(re: i32, im: i32) -> Pair {
    Pair { re: Reading::Good(part_of(re)), im: Reading::Good(part_of(im)) }
}

/// The fresh record of the base sheet with some slots changed.
pub fn fresh(changes: &[(usize, u32)]) -> Record {
    let mut list = BASE;
    for &(slot, number) in changes {
        list[slot] = number;
    }
    Record::start(&list).expect("a sheet that is taken")
}

/// The fresh record of the base sheet for a drive without the contact, with T4
/// 30 and some slots changed. T5 to T7 are short, since nothing goes by them.
pub fn fresh_continuous(changes: &[(usize, u32)]) -> Record {
    let without_contact = [(slot::CONTINUOUS, 1), (slot::T4, 30), (slot::T5, 20), (slot::T6, 25), (slot::T7, 0)];
    fresh(&[&without_contact, changes].concat())
}

/// Breaker closed, manual, the voltage in the band, all organs quiet.
pub fn calm() -> Input {
    let input = Input::of([good(0); READINGS], 1 << bit::BREAKER_CLOSED, 0x20, 20);
    Input { u_ab: good(100_000), i_high: good(500), i_bus: good(500), ..input }
}

/// Calm, with these contacts besides the breaker.
pub fn with(bits: &[u32]) -> Input {
    let mut input = calm();
    for bit in bits {
        input.contacts.0 |= 1 << bit;
    }
    input
}

/// Automatic, at this voltage, with these contacts besides.
pub fn auto(millivolts: u32, bits: &[u32]) -> Input {
    let mut input = with(bits);
    input.contacts.0 |= 1 << bit::AUTOMATIC;
    input.u_ab = good(millivolts);
    input
}

/// Advances the record by one accepted tick and gives the outputs.
pub fn step(record: &mut Record, input: &Input) -> Outputs {
    let ticked = tick(record, input);
    assert_eq!(ticked.refusal, 0);
    *record = ticked.next;
    ticked.outputs
}

/// So many ticks of the same input; the last outputs.
pub fn steps(record: &mut Record, input: &Input, ticks: u32) -> Outputs {
    assert!(ticks > 0);
    (0..ticks).map(|_| step(record, input)).last().unwrap()
}

/// A manual raise command: no button, then the raise button.
pub fn press_raise(record: &mut Record) -> Outputs {
    step(record, &calm());
    step(record, &with(&[bit::RAISE_BUTTON]))
}

/// A manual lower command.
pub fn press_lower(record: &mut Record) -> Outputs {
    step(record, &calm());
    step(record, &with(&[bit::LOWER_BUTTON]))
}

/// A whole commanded move of so many ticks; the outputs of its last tick.
pub fn whole_move(record: &mut Record, raise: bool, ticks: u32) -> Outputs {
    let asked = match raise {
        true => press_raise(record),
        false => press_lower(record),
    };
    assert_eq!((asked[0], asked[1]), (u32::from(raise), u32::from(!raise)));
    steps(record, &with(&[bit::SWITCHING]), ticks);
    step(record, &calm())
}
