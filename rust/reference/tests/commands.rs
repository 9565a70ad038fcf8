//! Scenarios for rules 9 and 10: waits, delays, commands.

mod common;

use common::*;
use reference::input::{bit, Input};
use reference::reading::Reading;
use reference::record::{Record, Wait};
use reference::sheet::slot;

const DELAYS: [(usize, u32); 3] = [(slot::T1, 50), (slot::T2, 30), (slot::T3, 20)];

/// The number of the tick, of this input, on which a command begins.
fn begins_on(record: &mut Record, input: &Input) -> Option<u32> {
    (1..=200).find(|_| {
        let outputs = step(record, input);
        outputs[0] + outputs[1] == 1
    })
}

/// The rest of a commanded move, with this voltage input all along.
fn finish(record: &mut Record, input: &Input) {
    let mut closed = *input;
    closed.contacts.0 |= 1 << bit::SWITCHING;
    steps(record, &closed, 15);
    let outputs = step(record, input);
    assert_eq!(outputs[24], 0);
    assert_eq!(record.wait, Wait::None);
}

#[test]
fn t1_then_t2_while_it_stays_low() {
    let mut record = fresh(&DELAYS);
    let low = auto(99_000, &[]);
    assert_eq!(begins_on(&mut record, &low), Some(50));
    finish(&mut record, &low);
    assert_eq!(begins_on(&mut record, &low), Some(30));
    finish(&mut record, &low);
    assert_eq!(begins_on(&mut record, &low), Some(30));
}

/// Raises, passes one tick of `between` and says how long the next wait is.
fn next_delay(between: &Input) -> Option<u32> {
    let mut record = fresh(&DELAYS);
    let low = auto(99_000, &[]);
    begins_on(&mut record, &low);
    finish(&mut record, &low);
    step(&mut record, between);
    begins_on(&mut record, &low)
}

#[test]
fn what_ends_t2() {
    let mut manual = auto(99_000, &[]);
    manual.contacts.0 &= !(1 << bit::AUTOMATIC);
    assert_eq!(next_delay(&auto(100_000, &[])), Some(50)); // in band
    assert_eq!(next_delay(&auto(101_000, &[])), Some(50)); // other side
    assert_eq!(next_delay(&manual), Some(50));
    assert_eq!(next_delay(&auto(100_000, &[bit::EXTERNAL_BLOCK])), Some(50));
}

#[test]
fn what_does_not_end_t2() {
    let mut missing = auto(99_000, &[]);
    missing.u_ab = Reading::Invalid;
    let mut held_u = auto(99_000, &[]);
    held_u.u_ab = held(100_000);
    assert_eq!(next_delay(&missing), Some(30));
    assert_eq!(next_delay(&held_u), Some(30));
    assert_eq!(next_delay(&auto(99_000, &[bit::EXTERNAL_BLOCK])), Some(30));
    assert_eq!(next_delay(&auto(99_000, &[bit::LOCAL_DRIVE])), Some(30));
}

#[test]
fn a_tick_in_band_during_the_move_ends_t2() {
    let mut record = fresh(&DELAYS);
    let low = auto(99_000, &[]);
    begins_on(&mut record, &low);
    step(&mut record, &auto(100_000, &[bit::SWITCHING]));
    finish(&mut record, &low);
    assert_eq!(begins_on(&mut record, &low), Some(50));
}

#[test]
fn out_ends_t2() {
    assert_eq!(next_delay(&auto(99_000, &[bit::OUT])), Some(50));
}

#[test]
fn t3_far_above() {
    for (millivolts, delay) in [(110_001, 20), (110_000, 50)] {
        let mut record = fresh(&DELAYS);
        let high = auto(millivolts, &[]);
        assert_eq!(begins_on(&mut record, &high), Some(delay));
        assert_eq!(step(&mut record, &high)[0..=1], [0, 1]);
    }
}

#[test]
fn a_wait_already_beyond_t3_commands_at_once() {
    let mut record = fresh(&DELAYS);
    steps(&mut record, &auto(105_000, &[]), 40);
    assert_eq!(begins_on(&mut record, &auto(111_000, &[])), Some(1));
}

#[test]
fn t3_is_for_high_only() {
    // With U_set5 far down, a low U is above it and still waits for T1.
    let mut record = fresh(&[&DELAYS[..], &[(slot::U_SET5, 5_000)]].concat());
    assert_eq!(begins_on(&mut record, &auto(99_000, &[])), Some(50));
}

#[test]
fn the_wait_starts_anew() {
    let low = auto(99_000, &[]);
    for gap in [auto(100_000, &[]), auto(101_000, &[]), auto(99_000, &[bit::OIL_COLD]), auto(99_000, &[bit::END_UP]), with(&[])]
    {
        let mut record = fresh(&DELAYS);
        steps(&mut record, &low, 49);
        assert_eq!(record.wait, Wait::ToLow(49));
        step(&mut record, &gap);
        assert_eq!(begins_on(&mut record, &low), Some(50));
    }
}

#[test]
fn a_new_side_waits_from_0() {
    let mut record = fresh(&DELAYS);
    steps(&mut record, &auto(99_000, &[]), 49);
    step(&mut record, &auto(101_000, &[]));
    assert_eq!(record.wait, Wait::ToHigh(1));
    assert_eq!(begins_on(&mut record, &auto(101_000, &[])), Some(49));
}

#[test]
fn a_block_of_the_other_way_does_not_hinder() {
    let mut record = fresh(&DELAYS);
    let low = auto(99_000, &[bit::END_DOWN, bit::EXTERNAL_LOWER_BLOCK]);
    assert_eq!(begins_on(&mut record, &low), Some(50));
}

#[test]
fn later_blocks_do_not_drop_a_command() {
    let mut record = fresh(&[(slot::T7, 3)]);
    press_raise(&mut record);
    let blocks = [bit::EXTERNAL_BLOCK, bit::END_UP];
    assert_eq!(step(&mut record, &with(&blocks))[0], 1);
    let closed = with(&[bit::EXTERNAL_BLOCK, bit::SWITCHING]);
    assert_eq!(steps(&mut record, &closed, 3)[0], 1);
    let outputs = step(&mut record, &closed);
    assert_eq!((outputs[0], outputs[24]), (0, 1));
}

#[test]
fn a_change_of_mode_does_not_drop_a_command() {
    let mut record = fresh(&DELAYS);
    begins_on(&mut record, &auto(99_000, &[]));
    let outputs = step(&mut record, &calm());
    assert_eq!((outputs[0], outputs[24], outputs[27]), (1, 1, 0));
}

#[test]
fn buttons() {
    let (raise, lower) = (bit::RAISE_BUTTON, bit::LOWER_BUTTON);
    // Each press after a tick without buttons.
    for (pressed, expected) in [(vec![raise], [1, 0]), (vec![lower], [0, 1]), (vec![raise, lower], [0, 0])] {
        let mut record = fresh(&[]);
        step(&mut record, &calm());
        assert_eq!(step(&mut record, &with(&pressed))[0..=1], expected);
    }
    // One of two held buttons let go: the other was there before.
    let mut record = fresh(&[]);
    step(&mut record, &calm());
    step(&mut record, &with(&[raise, lower]));
    assert_eq!(step(&mut record, &with(&[raise]))[0], 0);
    // From one button straight to the other.
    let mut record = fresh(&[]);
    step(&mut record, &with(&[lower]));
    assert_eq!(step(&mut record, &with(&[raise]))[0], 1);
}

#[test]
fn buttons_do_nothing_in_automatic_but_are_remembered() {
    let mut record = fresh(&[]);
    step(&mut record, &auto(100_000, &[]));
    assert_eq!(step(&mut record, &auto(100_000, &[bit::RAISE_BUTTON]))[0], 0);
    assert_eq!(step(&mut record, &with(&[bit::RAISE_BUTTON]))[0], 0);
    step(&mut record, &calm());
    assert_eq!(step(&mut record, &with(&[bit::RAISE_BUTTON]))[0], 1);
}

#[test]
fn a_blocked_press_is_lost() {
    let mut record = fresh(&[]);
    step(&mut record, &calm());
    let blocked = with(&[bit::RAISE_BUTTON, bit::END_UP]);
    assert_eq!(step(&mut record, &blocked)[0], 0);
    assert_eq!(step(&mut record, &with(&[bit::RAISE_BUTTON]))[0], 0);
}

#[test]
fn no_command_on_the_tick_a_move_ends() {
    let mut record = fresh(&[]);
    press_raise(&mut record);
    steps(&mut record, &with(&[bit::SWITCHING]), 20);
    let outputs = step(&mut record, &with(&[bit::LOWER_BUTTON]));
    assert_eq!((outputs[1], outputs[24]), (0, 0));
}

#[test]
fn manual_works_without_section_and_voltage() {
    let mut record = fresh(&[]);
    step(&mut record, &calm());
    let mut dark = with(&[bit::RAISE_BUTTON]);
    dark.contacts.0 &= !(1 << bit::BREAKER_CLOSED);
    dark.u_ab = Reading::Invalid;
    assert_eq!(step(&mut record, &dark)[0], 1);
}
