//! Scenarios for rule 7: the drive, its faults, the wear and the counted tap.

mod common;

use common::*;
use reference::input::bit;
use reference::record::{Direction, Drive, Fault, Wait};
use reference::sheet::slot;

#[test]
fn run_away() {
    let mut record = fresh(&[]);
    let outputs = step(&mut record, &with(&[bit::SWITCHING]));
    assert_eq!(outputs[19..=22], [1, 0, 0, 0]);
    assert_eq!((outputs[23], outputs[24]), (1, 0));
}

#[test]
fn not_started_on_the_t5th_tick_after_the_first() {
    let mut record = fresh(&[(slot::T5, 20)]);
    assert_eq!(press_raise(&mut record)[0], 1);
    let last = steps(&mut record, &calm(), 19);
    assert_eq!((last[0], last[20], last[24]), (1, 0, 1));
    let fault = step(&mut record, &calm());
    assert_eq!((fault[0], fault[20], fault[23], fault[24]), (0, 1, 0, 0));
}

#[test]
fn started_on_the_t5th_tick_after_the_first() {
    let mut record = fresh(&[(slot::T5, 20)]);
    press_lower(&mut record);
    steps(&mut record, &calm(), 19);
    let outputs = step(&mut record, &with(&[bit::SWITCHING]));
    assert_eq!((outputs[1], outputs[20], outputs[24]), (1, 0, 1));
    let direction = Direction::Lower;
    let (length, commanded) = (1, true);
    assert_eq!(record.drive, Drive::Moving { direction, length, commanded });
}

#[test]
fn long_above_t4() {
    let mut record = fresh(&[(slot::T4, 30)]);
    press_raise(&mut record);
    let closed = with(&[bit::SWITCHING]);
    assert_eq!(steps(&mut record, &closed, 30)[21], 0);
    let outputs = step(&mut record, &closed);
    assert_eq!((outputs[21], outputs[23], outputs[24]), (1, 1, 0));
    // A long move has not ended: no last direction and no operation.
    step(&mut record, &calm());
    assert_eq!((record.last_direction, record.operations), (None, 0));
}

#[test]
fn reset_while_still_closed_is_a_run_away() {
    let mut record = fresh(&[(slot::T4, 20)]);
    press_raise(&mut record);
    steps(&mut record, &with(&[bit::SWITCHING]), 21);
    assert_eq!(record.fault, Fault::Long);
    step(&mut record, &with(&[bit::SWITCHING, bit::RESET]));
    assert_eq!(record.fault, Fault::RunAway);
}

#[test]
fn an_ended_move_counts_fast_or_not() {
    for (ticks, fast) in [(9, 1), (10, 0)] {
        let mut record = fresh(&[]);
        let outputs = whole_move(&mut record, false, ticks);
        assert_eq!((outputs[22], outputs[24], outputs[25]), (fast, 0, 1));
        assert_eq!(record.last_direction, Some(Direction::Lower));
    }
}

#[test]
fn operations() {
    let mut record = fresh(&[(slot::N_START, 9), (slot::N_MAX, 10)]);
    assert_eq!(step(&mut record, &calm())[25..=26], [9, 0]);
    assert_eq!(whole_move(&mut record, true, 20)[25..=26], [10, 1]);
    record.operations = 999_999;
    assert_eq!(whole_move(&mut record, true, 20)[25..=26], [999_999, 1]);
}

#[test]
fn operations_without_wear_count() {
    let mut record = fresh(&[(slot::N_START, 9), (slot::N_MAX, 1), (slot::WEAR_COUNT, 0)]);
    assert_eq!(whole_move(&mut record, true, 20)[25..=26], [0, 0]);
    assert_eq!(record.operations, 9);
}

#[test]
fn counted_tap_steps_at_tick_end() {
    for (source, raise, after) in [(3, true, 21), (3, false, 19), (4, true, 19), (4, false, 21)] {
        let mut record = fresh(&[(slot::TAP_SOURCE, source)]);
        assert_eq!(whole_move(&mut record, raise, 20)[3], 20);
        assert_eq!(step(&mut record, &calm())[3], after);
    }
}

#[test]
fn counted_tap_stays_at_its_ends() {
    for (source, start, raise) in [(3, 40, true), (3, 1, false), (4, 1, true), (4, 40, false)] {
        let mut record = fresh(&[(slot::TAP_SOURCE, source), (slot::N_POS, start)]);
        let outputs = whole_move(&mut record, raise, 20);
        assert_eq!((outputs[3], outputs[5], outputs[25]), (start, 1, 1));
        let after = step(&mut record, &calm());
        assert_eq!((after[3], after[5]), (start, 0));
    }
}

#[test]
fn the_tap_is_counted_only_if_it_is_asked_for() {
    let mut record = fresh(&[(slot::TAP_SOURCE, 2)]);
    whole_move(&mut record, true, 20);
    assert_eq!(record.counted_tap, 20);
}

/// A regulator that counts taps, has raised to tap 21, and slides over it.
fn at_sliding_tap() -> reference::record::Record {
    let mut record = fresh(&[(slot::TAP_SOURCE, 3), (slot::SLIDING + 4, 21)]);
    whole_move(&mut record, true, 20);
    record
}

#[test]
fn own_move_over_a_sliding_tap() {
    let mut record = at_sliding_tap();
    let outputs = step(&mut record, &with(&[bit::SWITCHING]));
    assert_eq!((outputs[0], outputs[3], outputs[19], outputs[24]), (0, 21, 0, 1));
    assert!(matches!(record.drive, Drive::Moving { length: 1, commanded: false, direction: Direction::Raise }));
    // Short as it is, an own move is not fast; it counts like any other.
    let outputs = step(&mut record, &calm());
    assert_eq!((outputs[22], outputs[24], outputs[25]), (0, 0, 2));
    assert_eq!(record.counted_tap, 22);
    // Tap 22 is no sliding one.
    assert_eq!(step(&mut record, &with(&[bit::SWITCHING]))[19], 1);
}

#[test]
fn own_move_can_be_long() {
    let mut record = at_sliding_tap();
    let closed = with(&[bit::SWITCHING]);
    assert_eq!(steps(&mut record, &closed, 100)[21], 0);
    assert_eq!(step(&mut record, &closed)[21], 1);
}

#[test]
fn sliding_needs_a_last_direction() {
    let mut record = fresh(&[(slot::TAP_SOURCE, 3), (slot::SLIDING, 20)]);
    assert_eq!(step(&mut record, &with(&[bit::SWITCHING]))[19], 1);
}

#[test]
fn local_drive_has_no_supervision() {
    let local = bit::LOCAL_DRIVE;
    let mut record = fresh(&[]);
    let outputs = steps(&mut record, &with(&[local, bit::SWITCHING]), 200);
    assert_eq!(outputs[19..=24], [0; 6]);
    // A move is dropped without having ended.
    let mut record = fresh(&[]);
    press_raise(&mut record);
    steps(&mut record, &with(&[bit::SWITCHING]), 5);
    step(&mut record, &with(&[local]));
    assert_eq!((record.drive, record.fault), (Drive::Rest, Fault::None));
    assert_eq!((record.last_direction, record.operations), (None, 0));
}

#[test]
fn local_drive_keeps_a_fault_and_drops_the_wait() {
    let mut record = fresh(&[]);
    step(&mut record, &with(&[bit::SWITCHING]));
    assert_eq!(step(&mut record, &with(&[bit::LOCAL_DRIVE]))[19], 1);
    let mut record = fresh(&[]);
    steps(&mut record, &auto(99_000, &[]), 10);
    assert_eq!(record.wait, Wait::ToLow(10));
    step(&mut record, &auto(99_000, &[bit::LOCAL_DRIVE]));
    assert_eq!(record.wait, Wait::None);
}

#[test]
fn supply_trip_as_a_pulse_or_lasting() {
    for (lasting, at_last) in [(0, 0), (1, 1)] {
        let mut record = fresh(&[(slot::T8, 30), (slot::LASTING_SUPPLY_TRIP, lasting)]);
        let closed = with(&[bit::SWITCHING]);
        for _ in 0..30 {
            assert_eq!(step(&mut record, &closed)[23], 1);
        }
        assert_eq!(steps(&mut record, &closed, 5)[23], at_last);
        assert_eq!(record.fault_age, 30);
    }
}
