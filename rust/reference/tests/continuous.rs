//! Scenarios for ticket 2's drives without a switching contact: delays and
//! automatic commands.

mod common;

use common::*;
use reference::input::{bit, Input};
use reference::reading::Reading;
use reference::record::{Direction, Drive, Fault, Record, Side, Wait};
use reference::sheet::slot;
use reference::tick::OUTPUTS;

/// The T4 of these sheets.
const T4: u32 = 30;

fn low(bits: &[u32]) -> Input {
    auto(98_000, bits)
}

fn high(bits: &[u32]) -> Input {
    auto(102_000, bits)
}

fn in_band() -> Input {
    auto(100_000, &[])
}

/// An automatic raise, or lower, on its first tick.
fn begun(changes: &[(usize, u32)], deviation: &Input) -> Record {
    let mut record = fresh_continuous(changes);
    let outputs = steps(&mut record, deviation, 20);
    assert_eq!(outputs[0] + outputs[1], 1);
    assert!(matches!(record.drive, Drive::Asked { age: 0, automatic: true, .. }));
    record
}

/// The command has ended on this tick, without a fault, and is counted.
fn assert_ended(record: &Record, outputs: &[u32; OUTPUTS]) {
    assert_eq!((outputs[0], outputs[1], outputs[24]), (0, 0, 0));
    assert_eq!((outputs[19..=23].iter().sum::<u32>(), outputs[25]), (0, 1));
    assert_eq!((record.drive, record.fault, record.wait), (Drive::Rest, Fault::None, Wait::None));
}

// Delays.

const DELAYS: [(usize, u32); 3] = [(slot::T1, 50), (slot::T2, 30), (slot::T3, 20)];

/// The number of the tick, of this input, on which a command begins.
fn begins_on(record: &mut Record, input: &Input) -> Option<u32> {
    (1..=200).find(|_| {
        let outputs = step(record, input);
        outputs[0] + outputs[1] == 1
    })
}

#[test]
fn t1_where_t2_would_be_named() {
    for (deviation, side) in [(low(&[]), Side::Low), (high(&[]), Side::High)] {
        let mut record = fresh_continuous(&DELAYS);
        assert_eq!(begins_on(&mut record, &deviation), Some(50));
        for _ in 0..3 {
            // A block ends the command but not T2's memory.
            let mut blocked = deviation;
            blocked.contacts.0 |= 1 << bit::EXTERNAL_BLOCK;
            step(&mut record, &blocked);
            assert_eq!((record.drive, record.repeat), (Drive::Rest, Some(side)));
            assert_eq!(begins_on(&mut record, &deviation), Some(50));
        }
    }
}

#[test]
fn t2_s_memory_is_kept_by_rule_9() {
    for (between, repeat) in [
        (low(&[]), Some(Side::Low)),
        (low(&[bit::EXTERNAL_BLOCK]), Some(Side::Low)),
        (in_band(), None),
        (high(&[]), None),
        (calm(), None),
    ] {
        let mut record = begun(&[], &low(&[]));
        step(&mut record, &between);
        assert_eq!(record.repeat, repeat);
    }
}

#[test]
fn t3_where_it_is_named() {
    for (millivolts, delay) in [(110_001, 20), (110_000, 50)] {
        let mut record = fresh_continuous(&DELAYS);
        let high = auto(millivolts, &[]);
        assert_eq!(begins_on(&mut record, &high), Some(delay));
        step(&mut record, &auto(millivolts, &[bit::EXTERNAL_BLOCK]));
        assert_eq!(begins_on(&mut record, &high), Some(delay));
    }
}

#[test]
fn t1_after_long_and_reset() {
    let mut record = fresh_continuous(&DELAYS);
    begins_on(&mut record, &low(&[]));
    assert_eq!(steps(&mut record, &low(&[]), T4)[21], 1);
    let reset = step(&mut record, &low(&[bit::RESET]));
    assert_eq!((reset[21], record.wait), (0, Wait::ToLow(1)));
    assert_eq!(begins_on(&mut record, &low(&[])), Some(49));
}

// What ends an automatic command.

/// The input without these contacts.
fn without(mut input: Input, bit: u32) -> Input {
    input.contacts.0 &= !(1 << bit);
    input
}

fn with_u(mut input: Input, u_ab: Reading) -> Input {
    input.u_ab = u_ab;
    input
}

/// A deviation's ticks that end a command for it, and are not local drive.
fn endings(deviation: &Input, other: &Input, way: [u32; 2]) -> Vec<Input> {
    let mut endings = vec![
        in_band(),
        *other,
        without(*deviation, bit::AUTOMATIC),
        without(*deviation, bit::BREAKER_CLOSED),
        with_u(*deviation, Reading::Invalid),
        with_u(*deviation, held(98_000)),
    ];
    for block in [2, 3, 4, 5, 8, 9].into_iter().chain(way) {
        let mut blocked = *deviation;
        blocked.contacts.0 |= 1 << block;
        endings.push(blocked);
    }
    endings
}

/// Both kinds of command: the deviation, the other one, what blocks the way.
fn commands() -> [(Input, Vec<Input>); 2] {
    let (low, high) = (low(&[]), high(&[]));
    [(low, endings(&low, &high, [6, 10])), (high, endings(&high, &low, [7, 11]))]
}

#[test]
fn each_cause_ends_an_automatic_command() {
    for (deviation, endings) in commands() {
        // On its second tick, somewhere within, and on the T4th after its first.
        for before in [0, 10, T4 - 2, T4 - 1] {
            for ending in &endings {
                let mut record = begun(&[], &deviation);
                for _ in 0..before {
                    let outputs = step(&mut record, &deviation);
                    assert_eq!((outputs[0] + outputs[1], outputs[24], outputs[25]), (1, 1, 0));
                }
                let outputs = step(&mut record, ending);
                assert_ended(&record, &outputs);
            }
        }
    }
}

#[test]
fn what_does_not_end_an_automatic_command() {
    let nothing = [bit::SWITCHING, bit::RESET, bit::RAISE_BUTTON, bit::LOWER_BUTTON];
    for (deviation, others) in [(low(&[]), [7, 11]), (high(&[]), [6, 10])] {
        for bit in nothing.into_iter().chain(others) {
            let mut record = begun(&[], &deviation);
            let mut input = deviation;
            input.contacts.0 |= 1 << bit;
            let outputs = steps(&mut record, &input, T4 - 1);
            assert_eq!((outputs[0] + outputs[1], outputs[24]), (1, 1), "bit {bit}");
            assert_eq!(step(&mut record, &input)[21], 1, "bit {bit}");
        }
    }
}

#[test]
fn organs_end_a_command_only_if_they_block_automatic() {
    for (passes, ended) in [(0, true), (1, false)] {
        let sheet = [(slot::VOLTAGE_ORGANS_PASS, passes), (slot::T9 + 5, 0)];
        let mut record = begun(&sheet, &low(&[]));
        let mut tripping = low(&[]);
        tripping.u_zero = good(20_000);
        let outputs = step(&mut record, &tripping);
        assert_eq!((outputs[11], outputs[24]), (1, u32::from(!ended)));
    }
}

#[test]
fn an_end_tap_or_a_lost_one_ends_a_command() {
    let sheet = [(slot::TAP_SOURCE, 2), (slot::BLOCK_AT_END_TAP, 1)];
    for (tap, on) in [(39, 1), (40, 0), (1, 1), (41, 0)] {
        let mut record = begun(&sheet, &low(&[]));
        let mut input = low(&[]);
        input.sensor = tap;
        assert_eq!(step(&mut record, &input)[0], on, "tap {tap}");
    }
}

#[test]
fn the_command_of_one_tick_ends_on_the_next() {
    let mut record = begun(&[], &low(&[]));
    let outputs = step(&mut record, &in_band());
    assert_ended(&record, &outputs);
    // The wait starts anew only on the tick after.
    let mut record = begun(&[], &low(&[]));
    let outputs = step(&mut record, &high(&[]));
    assert_ended(&record, &outputs);
    step(&mut record, &high(&[]));
    assert_eq!(record.wait, Wait::ToHigh(1));
}

#[test]
fn no_command_on_the_tick_one_ends() {
    let mut record = begun(&[], &low(&[]));
    let outputs = step(&mut record, &with(&[bit::LOWER_BUTTON]));
    assert_ended(&record, &outputs);
    // The press is remembered, since that tick is in manual mode (ticket 6).
    assert_eq!(step(&mut record, &with(&[bit::LOWER_BUTTON]))[1], 1);
    // In automatic it is not, and held on the button commands nothing.
    let mut record = begun(&[], &low(&[]));
    let outputs = step(&mut record, &auto(100_000, &[bit::LOWER_BUTTON]));
    assert_ended(&record, &outputs);
    assert_eq!(step(&mut record, &with(&[bit::LOWER_BUTTON]))[24], 0);
    step(&mut record, &calm());
    assert_eq!(step(&mut record, &with(&[bit::LOWER_BUTTON]))[1], 1);
}

// 'Long'.

#[test]
fn long_on_the_t4th_tick_after_the_first() {
    for t4 in [20, 21, T4, 500] {
        for deviation in [low(&[]), high(&[])] {
            let mut record = begun(&[(slot::T4, t4)], &deviation);
            let last = steps(&mut record, &deviation, t4 - 1);
            assert_eq!((last[0] + last[1], last[21], last[24]), (1, 0, 1));
            assert_eq!(last[13..=16], [0; 4]);
            let long = step(&mut record, &deviation);
            assert_eq!((long[0], long[1], long[24], long[25]), (0, 0, 0, 0));
            assert_eq!((long[13..=16].to_vec(), long[19..=23].to_vec()), (vec![1; 4], vec![0, 0, 1, 0, 1]));
            assert_eq!((record.drive, record.fault, record.fault_age), (Drive::Rest, Fault::Long, 1));
        }
    }
}

#[test]
fn no_long_on_a_tick_of_local_drive_or_out() {
    for away in [bit::LOCAL_DRIVE, bit::OUT] {
        let mut record = begun(&[], &low(&[]));
        steps(&mut record, &low(&[]), T4 - 1);
        let outputs = step(&mut record, &low(&[away]));
        assert_eq!((outputs[21], outputs[24], outputs[25]), (0, 0, 0));
        assert_eq!((record.drive, record.fault), (Drive::Rest, Fault::None));
    }
}

#[test]
fn reset_on_the_tick_of_long_comes_before_it() {
    let mut record = begun(&[], &low(&[]));
    steps(&mut record, &low(&[]), T4 - 1);
    let outputs = step(&mut record, &low(&[bit::RESET]));
    assert_eq!((outputs[21], outputs[13], record.fault_age), (1, 1, 1));
    assert_eq!(step(&mut record, &low(&[bit::RESET]))[21], 0);
}

#[test]
fn long_stays_until_reset() {
    let mut record = begun(&[], &low(&[]));
    steps(&mut record, &low(&[]), T4);
    for input in [low(&[]), low(&[bit::SWITCHING]), in_band(), with(&[bit::RAISE_BUTTON]), low(&[bit::LOCAL_DRIVE])] {
        let outputs = steps(&mut record, &input, 40);
        assert_eq!((outputs[21], outputs[24], record.wait), (1, 0, Wait::None));
        assert_eq!(outputs[13..=16], [1; 4]);
    }
    // The supply trip is a pulse of T8 ticks here.
    assert_eq!((step(&mut record, &low(&[]))[23], record.fault_age), (0, 20));
    let outputs = step(&mut record, &in_band());
    assert_eq!(outputs[21], 1);
    let outputs = step(&mut record, &auto(100_000, &[bit::RESET]));
    assert_eq!((outputs[21], outputs[13]), (0, 0));
}

#[test]
fn the_supply_trip_of_long() {
    for (lasting, at_last) in [(0, 0), (1, 1)] {
        let mut record = begun(&[(slot::LASTING_SUPPLY_TRIP, lasting)], &low(&[]));
        steps(&mut record, &low(&[]), T4 - 1);
        for _ in 0..20 {
            assert_eq!(step(&mut record, &low(&[]))[23], 1);
        }
        assert_eq!(step(&mut record, &low(&[]))[23], at_last);
    }
}

// What the record says.

#[test]
fn the_record_says_which_mode_began_a_command() {
    let direction = Direction::Raise;
    for continuous in [0, 1] {
        let sheet = [(slot::CONTINUOUS, continuous), (slot::T4, T4)];
        let mut record = fresh(&sheet);
        press_raise(&mut record);
        assert_eq!(record.drive, Drive::Asked { direction, age: 0, automatic: false });
        step(&mut record, &low(&[]));
        assert_eq!(record.drive, Drive::Asked { direction, age: 1, automatic: false });
        let mut record = fresh(&sheet);
        steps(&mut record, &low(&[]), 20);
        assert_eq!(record.drive, Drive::Asked { direction, age: 0, automatic: true });
        step(&mut record, &low(&[]));
        assert_eq!(record.drive, Drive::Asked { direction, age: 1, automatic: true });
    }
}
