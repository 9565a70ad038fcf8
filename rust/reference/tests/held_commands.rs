//! Scenarios for ticket 2's drives without a switching contact: manual commands,
//! bit 1, operations, and what of rule 7 is left.

mod common;

use common::*;
use reference::input::{bit, Input};
use reference::reading::Reading;
use reference::record::{Direction, Drive, Fault, Record, Wait};
use reference::sheet::slot;

/// The T4 of these sheets.
const T4: u32 = 30;

/// A manual raise on its first tick.
fn raised(changes: &[(usize, u32)]) -> Record {
    let mut record = fresh_continuous(changes);
    assert_eq!(press_raise(&mut record)[0], 1);
    record
}

/// An automatic raise on its first tick.
fn raised_by_itself(changes: &[(usize, u32)]) -> Record {
    let mut record = fresh_continuous(changes);
    assert_eq!(steps(&mut record, &auto(98_000, &[]), 20)[0], 1);
    record
}

// Manual commands.

/// Ticks that a manual command outlasts: every contact but local drive and out,
/// in both modes, at any voltage.
fn whatever_arises() -> Vec<Input> {
    let mut inputs = vec![];
    for u_ab in [good(98_000), good(100_000), good(102_000), good(150_000), held(100_000), Reading::Invalid] {
        let bits = (0..=20).filter(|bit| ![bit::LOCAL_DRIVE, bit::OUT].contains(bit));
        for bit in bits {
            for mode in [0, 1 << bit::AUTOMATIC] {
                let mut input = with(&[]);
                input.contacts.0 = (input.contacts.0 ^ (1 << bit)) | mode;
                input.u_ab = u_ab;
                inputs.push(input);
            }
        }
    }
    inputs
}

#[test]
fn a_manual_command_stays_for_t4_ticks_whatever_arises() {
    let sheet = [(slot::ORGANS_BLOCK_MANUAL, 1), (slot::T9 + 3, 0), (slot::BLOCK_AT_END_TAP, 1), (slot::TAP_SOURCE, 2)];
    for input in whatever_arises() {
        let mut record = raised(&sheet);
        for _ in 1..T4 {
            let outputs = step(&mut record, &input);
            assert_eq!((outputs[0], outputs[1], outputs[24], outputs[25]), (1, 0, 1, 0), "{input:?}");
        }
        let outputs = step(&mut record, &input);
        assert_eq!((outputs[0], outputs[1], outputs[24], outputs[25]), (0, 0, 0, 1), "{input:?}");
        assert_eq!((record.drive, record.fault, record.wait), (Drive::Rest, Fault::None, Wait::None));
    }
}

#[test]
fn a_manual_lower_stays_as_long() {
    let mut record = fresh_continuous(&[]);
    assert_eq!(press_lower(&mut record)[1], 1);
    assert_eq!(steps(&mut record, &calm(), T4 - 1)[1], 1);
    let outputs = step(&mut record, &calm());
    assert_eq!((outputs[1], outputs[24], outputs[25]), (0, 0, 1));
}

#[test]
fn a_manual_command_stays_through_a_switch_to_automatic() {
    for at in [1, 10, T4 - 1] {
        let mut record = raised(&[]);
        steps(&mut record, &calm(), at);
        for _ in at + 1..T4 {
            assert_eq!(step(&mut record, &auto(100_000, &[]))[0], 1);
        }
        let outputs = step(&mut record, &auto(98_000, &[]));
        assert_eq!((outputs[0], outputs[21], outputs[25]), (0, 0, 1));
        // Only from here does automatic wait.
        assert_eq!(record.wait, Wait::None);
        step(&mut record, &auto(98_000, &[]));
        assert_eq!(record.wait, Wait::ToLow(1));
    }
}

#[test]
fn an_automatic_command_does_not_outlast_a_switch_to_manual_and_back() {
    let mut record = raised_by_itself(&[]);
    let mut manual = auto(98_000, &[]);
    manual.contacts.0 &= !(1 << bit::AUTOMATIC);
    assert_eq!(step(&mut record, &manual)[24], 0);
    assert_eq!(step(&mut record, &auto(98_000, &[]))[24], 0);
}

#[test]
fn local_drive_and_out_end_a_manual_command() {
    for at in [0, 10, T4 - 1] {
        for away in [bit::LOCAL_DRIVE, bit::OUT] {
            let mut record = raised(&[]);
            (0..at).for_each(|_| assert_eq!(step(&mut record, &calm())[0], 1));
            let outputs = step(&mut record, &with(&[away]));
            assert_eq!((outputs[0], outputs[24], outputs[25]), (0, 0, 0));
            assert_eq!((record.drive, record.operations), (Drive::Rest, 0));
        }
    }
}

#[test]
fn buttons_do_nothing_to_a_held_command() {
    // The raise button is the one held on; of a new press see ticket 6's tests.
    for buttons in [&[bit::RAISE_BUTTON][..], &[bit::RAISE_BUTTON, bit::LOWER_BUTTON]] {
        let mut record = raised(&[]);
        for _ in 1..T4 {
            assert_eq!(step(&mut record, &with(buttons))[0..=1], [1, 0]);
        }
        // On the tick on which it ends, and held on, they command nothing.
        assert_eq!(step(&mut record, &with(buttons))[24], 0);
        assert_eq!(step(&mut record, &with(buttons))[24], 0);
    }
}

// Bit 1.

#[test]
fn bit_1_at_rest_is_no_run_away() {
    let mut record = fresh_continuous(&[]);
    let outputs = steps(&mut record, &with(&[bit::SWITCHING]), 300);
    assert_eq!(outputs[13..=24], [0; 12]);
    assert_eq!((record.drive, record.fault), (Drive::Rest, Fault::None));
}

#[test]
fn bit_1_starts_no_own_move() {
    let mut record = fresh_continuous(&[(slot::TAP_SOURCE, 2), (slot::SLIDING, 20)]);
    record.last_direction = Some(Direction::Raise);
    let outputs = step(&mut record, &with(&[bit::SWITCHING]));
    assert_eq!((outputs[3], outputs[19], outputs[24]), (20, 0, 0));
    assert_eq!(record.last_direction, Some(Direction::Raise));
}

#[test]
fn the_wait_runs_whatever_bit_1_says() {
    let mut record = fresh_continuous(&[]);
    assert_eq!(steps(&mut record, &auto(98_000, &[bit::SWITCHING]), 19)[0], 0);
    assert_eq!(step(&mut record, &auto(98_000, &[bit::SWITCHING]))[0], 1);
    let mut record = fresh_continuous(&[]);
    step(&mut record, &with(&[bit::SWITCHING]));
    assert_eq!(step(&mut record, &with(&[bit::SWITCHING, bit::RAISE_BUTTON]))[0], 1);
}

#[test]
fn bit_1_tells_nothing_of_a_held_command() {
    // Closed from some tick on, and open again: no move, no end, not fast.
    for (mut record, input) in [(raised(&[]), calm()), (raised_by_itself(&[]), auto(98_000, &[]))] {
        let mut closed = input;
        closed.contacts.0 |= 1 << bit::SWITCHING;
        for tick in 1..T4 {
            let outputs = step(&mut record, if tick % 10 < 5 { &closed } else { &input });
            assert_eq!((outputs[0], outputs[24]), (1, 1));
            assert!(matches!(record.drive, Drive::Asked { age, .. } if age == tick));
        }
    }
}

#[test]
fn t5_t6_and_t7_do_not_matter() {
    // T5 is 20, T6 25 and T7 0: not 'not started', not 'fast', not dropped.
    let mut record = raised_by_itself(&[]);
    assert_eq!(steps(&mut record, &auto(98_000, &[]), 20)[0], 1);
    let mut record = raised_by_itself(&[]);
    assert_eq!(steps(&mut record, &auto(98_000, &[bit::SWITCHING]), 3)[0], 1);
    assert_eq!(step(&mut record, &auto(100_000, &[]))[19..=24], [0; 6]);
}

// Operations and the last direction.

#[test]
fn each_command_that_ends_well_is_one_operation() {
    let mut record = fresh_continuous(&[(slot::N_START, 7), (slot::N_MAX, 9)]);
    for (before, counted, worn) in [(7, 8, 0), (8, 9, 1), (9, 10, 1)] {
        assert_eq!(press_raise(&mut record)[25], before);
        assert_eq!(steps(&mut record, &calm(), T4 - 1)[25], before);
        assert_eq!(step(&mut record, &calm())[25..=26], [counted, worn]);
        assert_eq!(step(&mut record, &calm())[25], counted);
    }
    let low = auto(98_000, &[]);
    assert_eq!(steps(&mut record, &low, 20 + 10)[25], 10);
    assert_eq!(step(&mut record, &auto(100_000, &[]))[25], 11);
}

#[test]
fn long_local_drive_and_out_are_no_operation() {
    let low = auto(98_000, &[]);
    let mut record = raised_by_itself(&[(slot::N_START, 7)]);
    assert_eq!(steps(&mut record, &low, T4)[25], 7);
    assert_eq!(step(&mut record, &auto(98_000, &[bit::RESET]))[25], 7);
    for at in [1, T4 - 1] {
        let mut record = raised_by_itself(&[(slot::N_START, 7)]);
        steps(&mut record, &low, at);
        let outputs = step(&mut record, &auto(98_000, &[bit::LOCAL_DRIVE]));
        assert_eq!((outputs[24], outputs[25]), (0, 7));
        let mut record = raised_by_itself(&[(slot::N_START, 7)]);
        steps(&mut record, &low, at);
        step(&mut record, &auto(98_000, &[bit::OUT]));
        assert_eq!(record, Record::fresh(record.settings));
    }
    // In band on a tick of local drive is still local drive.
    let mut record = raised_by_itself(&[]);
    assert_eq!(step(&mut record, &auto(100_000, &[bit::LOCAL_DRIVE]))[25], 0);
}

#[test]
fn operations_are_held_and_need_slot_17() {
    let mut record = raised_by_itself(&[]);
    record.operations = 999_999;
    assert_eq!(step(&mut record, &auto(100_000, &[]))[25], 999_999);
    let mut record = raised_by_itself(&[(slot::WEAR_COUNT, 0), (slot::N_START, 7)]);
    assert_eq!(step(&mut record, &auto(100_000, &[]))[25], 0);
    assert_eq!(record.operations, 7);
}

#[test]
fn a_command_leaves_no_last_direction_and_counts_no_tap() {
    for before in [None, Some(Direction::Lower)] {
        let (mut by_button, mut by_itself) = (raised(&[]), raised_by_itself(&[]));
        by_button.last_direction = before;
        by_itself.last_direction = before;
        steps(&mut by_button, &calm(), T4);
        step(&mut by_itself, &auto(100_000, &[]));
        for record in [by_button, by_itself] {
            assert_eq!((record.drive, record.operations), (Drive::Rest, 1));
            assert_eq!((record.last_direction, record.counted_tap), (before, 20));
        }
    }
}

// Rule 1 and blocks at rest.

#[test]
fn a_blocked_command_does_not_begin() {
    let mut record = fresh_continuous(&[]);
    let blocked = auto(98_000, &[bit::END_UP]);
    assert_eq!(steps(&mut record, &blocked, 100)[0], 0);
    step(&mut record, &calm());
    assert_eq!(step(&mut record, &with(&[bit::RAISE_BUTTON, bit::EXTERNAL_BLOCK]))[0], 0);
}

#[test]
fn local_drive_at_rest_drops_the_wait() {
    let mut record = fresh_continuous(&[]);
    steps(&mut record, &auto(98_000, &[]), 10);
    assert_eq!(record.wait, Wait::ToLow(10));
    step(&mut record, &auto(98_000, &[bit::LOCAL_DRIVE]));
    assert_eq!((record.wait, record.drive), (Wait::None, Drive::Rest));
}
