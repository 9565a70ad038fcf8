//! Ticket 8, "When would it move?": worked answers.

mod common;

use common::courses::*;
use common::modes::{Mode, MODES};
use common::*;
use reference::ahead::{ahead, Outlook};
use reference::input::{bit, Input};
use reference::record::{Direction, Drive, Fault, Organ, Record, Side, Wait};
use reference::sheet::slot;
use reference::tick::OUTPUTS;

/// A horizon beyond the delays of these sheets.
const FAR: u32 = 1_000;

/// The tick and the way of an answer.
type Answer = (u32, Option<Direction>);

const NONE: Answer = (0, None);

fn on(tick: u32, way: Direction) -> Answer {
    (tick, Some(way))
}

/// The answer to an accepted look, whose outputs and record must be those after
/// as many ticks.
fn look(record: &Record, input: &Input, horizon: u32) -> Answer {
    let Outlook { refusal, tick, way, outputs, next } = ahead(record, input, horizon);
    let mut copy = record.clone();
    let ticks = if tick == 0 { horizon } else { tick };
    assert_eq!(steps(&mut copy, input, ticks), outputs);
    assert_eq!((refusal, next), (0, copy));
    (tick, way)
}

fn low(bits: &[u32]) -> Input {
    auto(98_000, bits)
}

fn high(bits: &[u32]) -> Input {
    auto(102_000, bits)
}

/// The delays apart from each other.
const DELAYS: [(usize, u32); 3] = [(slot::T1, 50), (slot::T2, 30), (slot::T3, 20)];

fn asked(direction: Direction, age: u32) -> Drive {
    Drive::Asked { direction, age, automatic: true }
}

fn asked_by_button(direction: Direction, age: u32) -> Drive {
    Drive::Asked { direction, age, automatic: false }
}

fn moving(direction: Direction, length: u32) -> Drive {
    Drive::Moving { direction, length, commanded: true }
}

fn own_move(direction: Direction, length: u32) -> Drive {
    Drive::Moving { direction, length, commanded: false }
}

/// A record that has seen a tick without buttons in this mode.
fn let_go(mut record: Record, mode: Mode) -> Record {
    step(&mut record, &mode.calm());
    record
}

// Automatic commands.

#[test]
fn low_or_high_from_fresh_it_is_the_t1th_tick() {
    for record in [fresh(&[]), fresh_continuous(&[])] {
        for t1 in [20, 21, 500] {
            let mut record = record.clone();
            record.settings[slot::T1] = t1;
            assert_eq!(look(&record, &auto(99_000, &[]), FAR), on(t1, RAISE));
            assert_eq!(look(&record, &auto(101_000, &[]), FAR), on(t1, LOWER));
        }
        for in_band in [99_001, 100_000, 100_999] {
            assert_eq!(look(&record, &auto(in_band, &[]), FAR), NONE);
        }
    }
}

#[test]
fn the_outputs_and_the_record_are_those_of_its_tick() {
    for record in [fresh(&[]), fresh_continuous(&[])] {
        let Outlook { outputs, next, .. } = ahead(&record, &high(&[]), FAR);
        assert_eq!((outputs[0], outputs[1], outputs[18], outputs[24], outputs[27]), (0, 1, 1, 1, 1));
        assert_eq!((next.drive, next.wait, next.repeat), (asked(LOWER, 0), Wait::None, Some(Side::High)));
        let Outlook { outputs, next, .. } = ahead(&record, &high(&[]), 19);
        assert_eq!((outputs[0], outputs[1], outputs[18], outputs[24], outputs[27]), (0, 0, 1, 0, 1));
        assert_eq!((next.drive, next.wait, next.repeat), (Drive::Rest, Wait::ToHigh(19), None));
    }
}

#[test]
fn a_wait_in_the_record_counts() {
    for mut record in [fresh(&[]), fresh_continuous(&[])] {
        for (wait, tick) in [
            (Wait::ToLow(0), 20),
            (Wait::ToLow(5), 15),
            (Wait::ToLow(18), 2),
            (Wait::ToLow(19), 1),
            (Wait::ToLow(35_999), 1),
            (Wait::ToHigh(19), 20),
        ] {
            record.wait = wait;
            assert_eq!(look(&record, &low(&[]), FAR), on(tick, RAISE), "{wait:?}");
        }
    }
}

#[test]
fn the_delay_is_rule_9_s() {
    for (repeat, input, with_contact, without) in [
        (None, low(&[]), on(50, RAISE), on(50, RAISE)),
        (Some(Side::Low), low(&[]), on(30, RAISE), on(50, RAISE)),
        (Some(Side::High), low(&[]), on(50, RAISE), on(50, RAISE)),
        (Some(Side::High), high(&[]), on(30, LOWER), on(50, LOWER)),
        (Some(Side::High), auto(110_001, &[]), on(20, LOWER), on(20, LOWER)),
        (None, auto(110_000, &[]), on(50, LOWER), on(50, LOWER)),
    ] {
        assert_eq!(look(&Record { repeat, ..fresh(&DELAYS) }, &input, FAR), with_contact);
        assert_eq!(look(&Record { repeat, ..fresh_continuous(&DELAYS) }, &input, FAR), without);
    }
}

#[test]
fn before_the_switch_to_automatic() {
    // In manual mode a low voltage waits for nothing, and T2 is forgotten.
    let mut record = Record { repeat: Some(Side::Low), wait: Wait::ToLow(10), ..fresh(&DELAYS) };
    let mut manual = calm();
    manual.u_ab = good(98_000);
    assert_eq!(look(&record, &manual, FAR), NONE);
    steps(&mut record, &manual, 100);
    assert_eq!(look(&record, &low(&[]), FAR), on(50, RAISE));
}

#[test]
fn only_the_first_command_is_told() {
    // With reset held, one command comes after the other.
    let input = low(&[bit::RESET]);
    for (record, later) in [(fresh(&DELAYS), 100 + 30), (fresh_continuous(&DELAYS), 30 + 50)] {
        let first = ahead(&record, &input, FAR);
        assert_eq!((first.tick, first.next.drive), (50, asked(RAISE, 0)));
        assert_eq!(look(&first.next, &input, FAR), on(later, RAISE));
    }
}

// What does not begin.

#[test]
fn an_asked_command_does_not_begin() {
    let record = |age| Record { drive: asked(RAISE, age), repeat: Some(Side::Low), ..fresh(&DELAYS) };
    for age in [0, 1, 99] {
        // Not started, on the T5th tick after its first; the fault stays.
        assert_eq!(look(&record(age), &low(&[]), FAR), NONE);
        assert_eq!(ahead(&record(age), &low(&[]), FAR).outputs[20], 1);
        assert_eq!(look(&record(age), &low(&[]), 1), NONE);
        // With reset held the fault is gone a tick later, and T2 is waited for.
        assert_eq!(look(&record(age), &low(&[bit::RESET]), FAR), on(100 - age + 30, RAISE));
        // Against the command's way, T2 is not meant.
        assert_eq!(look(&record(age), &high(&[bit::RESET]), FAR), on(100 - age + 50, LOWER));
        // As in manual mode.
        assert_eq!(look(&record(age), &calm(), FAR), NONE);
    }
}

#[test]
fn a_command_on_in_its_move_does_not_begin() {
    // On all along the move, which with the contact closed ends as 'long'.
    for t7 in [0, 10, 36_000] {
        let sheet = [(slot::T7, t7)];
        for drive in [asked(RAISE, 0), asked_by_button(RAISE, 99), moving(RAISE, 1), moving(RAISE, 100), moving(LOWER, 5)] {
            let record = Record { drive, ..fresh(&sheet) };
            for bits in [&[bit::SWITCHING][..], &[bit::SWITCHING, bit::RESET]] {
                assert_eq!(look(&record, &low(bits), FAR), NONE, "{drive:?}");
                assert_eq!(look(&record, &low(bits), 1), NONE, "{drive:?}");
            }
        }
    }
}

#[test]
fn after_a_move_the_wait_starts_on_the_next_tick() {
    for drive in [moving(RAISE, 10), moving(LOWER, 100), own_move(RAISE, 1)] {
        let record = Record { drive, ..fresh(&DELAYS) };
        assert_eq!(look(&record, &low(&[]), FAR), on(1 + 50, RAISE), "{drive:?}");
        let record = Record { repeat: Some(Side::Low), ..record };
        assert_eq!(look(&record, &low(&[]), FAR), on(1 + 30, RAISE), "{drive:?}");
    }
    // Shorter than T6: a fault, which blocks.
    let record = Record { drive: moving(RAISE, 9), ..fresh(&DELAYS) };
    assert_eq!(look(&record, &low(&[]), FAR), NONE);
    assert_eq!(look(&record, &low(&[bit::RESET]), FAR), on(1 + 50, RAISE));
}

#[test]
fn an_own_move_does_not_begin() {
    let sheet = [(slot::TAP_SOURCE, 3), (slot::SLIDING, 20), (slot::T7, 36_000)];
    for direction in [RAISE, LOWER] {
        let record = Record { last_direction: Some(direction), ..fresh(&sheet) };
        for input in [low(&[bit::SWITCHING]), with(&[bit::SWITCHING])] {
            let first = ahead(&record, &input, 1);
            assert_eq!((first.next.drive, first.outputs[24]), (own_move(direction, 1), 1));
            for horizon in [1, 2, FAR] {
                assert_eq!(look(&record, &input, horizon), NONE);
            }
        }
    }
}

#[test]
fn a_drive_that_runs_away_does_not_begin() {
    let record = Record { wait: Wait::ToLow(19), ..fresh(&[]) };
    for bits in [&[bit::SWITCHING][..], &[bit::SWITCHING, bit::RESET]] {
        assert_eq!(ahead(&record, &low(bits), 1).outputs[19], 1);
        assert_eq!(look(&record, &low(bits), FAR), NONE);
    }
    // Without the contact bit 1 is ignored.
    let record = Record { wait: Wait::ToLow(19), ..fresh_continuous(&[]) };
    assert_eq!(look(&record, &low(&[bit::SWITCHING]), FAR), on(1, RAISE));
}

#[test]
fn a_held_command_does_not_begin() {
    for age in [0, 1, 29] {
        let left = 30 - age;
        let record = Record { drive: asked(RAISE, age), ..fresh_continuous(&DELAYS) };
        // Long, on the T4th tick after its first.
        assert_eq!(look(&record, &low(&[]), FAR), NONE);
        assert_eq!(ahead(&record, &low(&[]), left).outputs[21], 1);
        assert_eq!(look(&record, &low(&[bit::RESET]), FAR), on(left + 50, RAISE));
        // Ended on the first tick: in band, on the other side, manual, blocked.
        assert_eq!(look(&record, &auto(100_000, &[]), FAR), NONE);
        assert_eq!(look(&record, &high(&[]), FAR), on(1 + 50, LOWER));
        assert_eq!(look(&record, &calm(), FAR), NONE);
        assert_eq!(look(&record, &low(&[bit::END_UP]), FAR), NONE);
        // A manual one stays for T4 ticks.
        let record = Record { drive: asked_by_button(LOWER, age), ..record };
        assert_eq!(look(&record, &low(&[]), FAR), on(left + 50, RAISE));
        assert_eq!(look(&record, &high(&[]), FAR), on(left + 50, LOWER));
        assert_eq!(look(&record, &calm(), FAR), NONE);
    }
}

// What blocks.

#[test]
fn blocked_it_does_not_move() {
    for record in [fresh(&[]), fresh_continuous(&[])] {
        let record = Record { wait: Wait::ToLow(19), ..record };
        for block in [2, 3, 4, 5, 6, 8, 9, 10, 15] {
            assert_eq!(look(&record, &low(&[block]), FAR), NONE, "bit {block}");
        }
        for other_way in [7, 11] {
            assert_eq!(look(&record, &low(&[other_way]), FAR), on(1, RAISE), "bit {other_way}");
        }
    }
}

#[test]
fn a_fault_blocks_until_it_is_reset() {
    for fault in [Fault::RunAway, Fault::NotStarted, Fault::Long, Fault::Fast] {
        let record = Record { fault, fault_age: 7, ..fresh(&[]) };
        assert_eq!(look(&record, &low(&[]), FAR), NONE);
        assert_eq!(look(&record, &low(&[bit::RESET]), FAR), on(20, RAISE));
    }
    let record = Record { fault: Fault::Long, fault_age: 20, ..fresh_continuous(&[]) };
    assert_eq!(look(&record, &high(&[]), FAR), NONE);
    assert_eq!(look(&record, &high(&[bit::RESET]), FAR), on(20, LOWER));
}

#[test]
fn an_organ_that_trips_in_time_blocks() {
    let under = 4;
    let far_below = auto(89_000, &[]);
    for (t1, delay, passes, count, answer) in [
        // Delay 20: trips on the 21st marked tick.
        (20, 20, 0, 0, on(20, RAISE)),
        (21, 20, 0, 0, NONE),
        (21, 21, 0, 0, on(21, RAISE)),
        (21, 20, 1, 0, on(21, RAISE)),
        // One of them is over as the look starts.
        (20, 20, 0, 1, NONE),
        (20, 21, 0, 1, on(20, RAISE)),
    ] {
        let sheet = [(slot::T1, t1), (slot::T9 + under, delay), (slot::VOLTAGE_ORGANS_PASS, passes)];
        for mut record in [fresh(&sheet), fresh_continuous(&sheet)] {
            record.organs[under] = Organ { marked: count > 0, count };
            assert_eq!(look(&record, &far_below, FAR), answer, "T1 {t1}, delay {delay}, count {count}");
        }
    }
}

#[test]
fn a_mark_that_the_record_brings_is_kept() {
    // 98.5 V keeps a mark under 98 V, and makes none.
    let mut record = fresh(&[(slot::U_SET2, 98_000)]);
    assert_eq!(look(&record, &auto(98_500, &[]), FAR), on(20, RAISE));
    record.organs[4] = Organ { marked: true, count: 10 };
    assert_eq!(look(&record, &auto(98_500, &[]), FAR), NONE);
}

#[test]
fn the_tap_is_counted_on_the_copy() {
    for (source, tap, answer) in
        [(3, 38, on(1 + 20, RAISE)), (3, 39, NONE), (4, 3, on(1 + 20, RAISE)), (4, 2, NONE), (4, 39, on(1 + 20, RAISE))]
    {
        let record = fresh(&[(slot::TAP_SOURCE, source), (slot::BLOCK_AT_END_TAP, 1), (slot::N_POS, tap)]);
        let record = Record { drive: moving(RAISE, 50), ..record };
        assert_eq!(look(&record, &low(&[]), FAR), answer, "source {source}, tap {tap}");
    }
}

// Manual commands.

#[test]
fn a_press_begins_on_the_first_tick_or_never() {
    for (record, mode) in [fresh(&[]), fresh_continuous(&[])].into_iter().flat_map(|r| MODES.map(|mode| (r.clone(), mode))) {
        let released = let_go(record.clone(), mode);
        for side in [RAISE, LOWER] {
            let pressed = mode.with(&[mode.button(side)]);
            assert_eq!(look(&released, &pressed, FAR), on(1, side));
            assert_eq!(look(&released, &pressed, 1), on(1, side));
            let Outlook { outputs, next, .. } = ahead(&released, &pressed, FAR);
            assert_eq!((next.drive, outputs[24], outputs[27]), (asked_by_button(side, 0), 1, 0));
            // Held from before, also from the fresh record, it is none.
            assert_eq!(look(&record, &pressed, FAR), NONE);
            // The other pair does nothing.
            assert_eq!(look(&released, &mode.with(&[mode.other().button(side)]), FAR), NONE);
            // Blocked on the first tick, it is held on the next.
            assert_eq!(look(&released, &mode.with(&[mode.button(side), bit::EXTERNAL_BLOCK]), FAR), NONE);
        }
        assert_eq!(look(&released, &mode.with(&mode.both()), FAR), NONE);
        assert_eq!(look(&released, &mode.calm(), FAR), NONE);
        assert_eq!(look(&released, &mode.with(&[mode.button(RAISE), bit::END_UP]), FAR), NONE);
    }
}

#[test]
fn a_remembered_press_at_rest_begins_on_the_first_tick() {
    for record in [fresh(&[]), fresh_continuous(&[])] {
        for side in [RAISE, LOWER] {
            let record = Record { remembered: Some(side), wait: Wait::ToLow(7), ..let_go(record.clone(), Mode::Local) };
            assert_eq!(look(&record, &calm(), FAR), on(1, side));
            assert_eq!(look(&record, &with(&[button(other(side))]), FAR), on(1, other(side)), "a real press wins");
            assert_eq!(look(&record, &with(&BOTH), FAR), on(1, side));
            // What drops it.
            assert_eq!(look(&record, &Mode::Remote.calm(), FAR), NONE);
            assert_eq!(look(&record, &with(&[bit::EXTERNAL_BLOCK]), FAR), NONE);
            assert_eq!(look(&record, &with(&[bit::LOCAL_DRIVE]), FAR), NONE);
            assert_eq!(look(&record, &with(&[bit::OUT]), FAR), NONE);
            assert_eq!(look(&record, &low(&[]), FAR), on(20 - 7, RAISE), "the wait goes on");
        }
    }
    let slides = [(slot::TAP_SOURCE, 3), (slot::SLIDING, 20)];
    let record = Record { remembered: Some(LOWER), last_direction: Some(RAISE), ..fresh(&slides) };
    assert_eq!(look(&record, &with(&[bit::SWITCHING]), FAR), NONE, "the drive starts by itself");
}

#[test]
fn a_remembered_press_begins_after_the_move() {
    for (drive, side) in [moving(RAISE, 20), own_move(LOWER, 1)].into_iter().flat_map(|drive| [(drive, RAISE), (drive, LOWER)])
    {
        let record = Record { drive, remembered: Some(side), ..let_go(fresh(&[]), Mode::Local) };
        assert_eq!(look(&record, &calm(), FAR), on(2, side));
        assert_eq!(look(&record, &calm(), 1), NONE);
        // Pressed on the tick of the look, on which the move ends: held on the next.
        assert_eq!(look(&record, &with(&[button(other(side))]), FAR), on(2, other(side)));
        assert_eq!(look(&Record { remembered: None, ..record.clone() }, &with(&[button(side)]), FAR), on(2, side));
        assert_eq!(look(&Record { remembered: None, ..record.clone() }, &calm(), FAR), NONE);
        // Dropped: by the mode, by 'long', as the contact stays closed.
        assert_eq!(look(&record, &Mode::Remote.calm(), FAR), NONE);
        assert_eq!(look(&record, &low(&[]), FAR), on(1 + 20, RAISE));
        assert_eq!(look(&record, &with(&[bit::SWITCHING]), FAR), NONE);
    }
    // Asked, and not started.
    let record = Record { drive: asked(RAISE, 3), remembered: Some(LOWER), ..let_go(fresh(&[]), Mode::Local) };
    assert_eq!(look(&record, &calm(), FAR), NONE);
}

#[test]
fn a_remembered_press_begins_after_a_held_command() {
    for (age, side) in [0, 1, 29].into_iter().flat_map(|age| [(age, RAISE), (age, LOWER)]) {
        let record = Record { drive: asked_by_button(RAISE, age), ..let_go(fresh_continuous(&[]), Mode::Local) };
        let remembers = Record { remembered: Some(side), ..record.clone() };
        let after = on(30 - age + 1, side);
        assert_eq!(look(&remembers, &calm(), FAR), after);
        assert_eq!(look(&record, &with(&[button(side)]), FAR), after);
        assert_eq!(look(&record, &calm(), FAR), NONE);
        // An automatic one ends at once, as the mode is manual.
        let record = Record { drive: asked(LOWER, age), ..record };
        assert_eq!(look(&record, &with(&[button(side)]), FAR), on(2, side));
    }
}

// A tick that is out.

#[test]
fn out_is_no_refusal_and_begins_nothing() {
    let drives = [Drive::Rest, asked(RAISE, 5), asked_by_button(LOWER, 0), moving(RAISE, 5), own_move(LOWER, 5)];
    let out_of_service = |record: &Record| {
        let mut record = record.clone();
        record.settings[slot::IN_SERVICE] = 0;
        record
    };
    for (drive, horizon) in drives.into_iter().flat_map(|drive| [1, 2, FAR].map(|horizon| (drive, horizon))) {
        let record = Record { drive, remembered: Some(RAISE), ..let_go(fresh(&[]), Mode::Local) };
        let sleeping = out_of_service(&record);
        let looks = [(&record, low(&[bit::OUT])), (&record, with(&[bit::OUT, bit::RAISE_BUTTON])), (&sleeping, low(&[]))];
        for (record, input) in looks {
            let fresh = Record::fresh(record.settings);
            let silent = Outlook { refusal: 0, tick: 0, way: None, outputs: [0; OUTPUTS], next: fresh };
            assert_eq!(ahead(record, &input, horizon), silent);
        }
    }
}

// The horizon.

#[test]
fn the_horizon_counts_its_last_tick() {
    for record in [fresh(&[]), fresh_continuous(&[])] {
        for (horizon, answer) in [(1, NONE), (19, NONE), (20, on(20, RAISE)), (21, on(20, RAISE)), (36_000, on(20, RAISE))] {
            assert_eq!(look(&record, &low(&[]), horizon), answer, "horizon {horizon}");
        }
    }
}

#[test]
fn the_longest_horizon_reaches_the_longest_delay() {
    for record in [fresh(&[(slot::T1, 36_000)]), fresh_continuous(&[(slot::T1, 36_000)])] {
        assert_eq!(look(&record, &low(&[]), 36_000), on(36_000, RAISE));
        assert_eq!(look(&record, &low(&[]), 35_999), NONE);
        let last = ahead(&record, &low(&[]), 35_999).next;
        assert_eq!(last.wait, Wait::ToLow(35_999));
        assert_eq!(look(&last, &low(&[]), 1), on(1, RAISE));
    }
    // After a tick on which a command ends, it is one tick too far.
    let held = Record { drive: asked_by_button(RAISE, 29), ..fresh_continuous(&[(slot::T1, 36_000)]) };
    assert_eq!(look(&held, &low(&[]), 36_000), NONE);
}

#[test]
fn nothing_within_the_longest_horizon() {
    assert_eq!(look(&fresh(&[]), &auto(100_000, &[]), 36_000), NONE);
    assert_eq!(look(&fresh_continuous(&[]), &calm(), 36_000), NONE);
}

#[test]
fn without_a_command_the_last_tick_stands_there() {
    // Delay 10: an organ trips on the 11th marked tick.
    let mut tripping = auto(100_000, &[bit::RAISE_BUTTON]);
    tripping.u_zero = good(20_000);
    for (horizon, trip) in [(1, 0), (10, 0), (11, 1), (FAR, 1)] {
        let Outlook { outputs, next, .. } = ahead(&fresh(&[]), &tripping, horizon);
        assert_eq!((outputs[11], next.organs[5].count), (trip, horizon.min(10)));
        assert_eq!((next.raise_button, next.lower_button), (true, false));
    }
    // The supply trip lasts for T8 ticks.
    let record = Record { fault: Fault::RunAway, fault_age: 1, ..fresh(&[]) };
    for (horizon, trip) in [(19, 1), (20, 0)] {
        let Outlook { outputs, next, .. } = ahead(&record, &low(&[]), horizon);
        assert_eq!((outputs[19], outputs[23], next.fault_age), (1, trip, 20));
    }
}

// Refusals.

const HORIZONS: [u32; 8] = [0, 1, 19, 20, 36_000, 36_001, 65_536, u32::MAX];

/// Records outside their limits, each by one number.
fn outside() -> Vec<Record> {
    let changes: [fn(&mut Record); 12] = [
        |r| r.settings[slot::DU] = 2_050,
        |r| r.settings[slot::N_L] = 40,
        |r| (r.settings[slot::CONTINUOUS], r.settings[slot::TAP_SOURCE]) = (1, 3),
        |r| r.wait = Wait::ToLow(36_000),
        |r| (r.drive, r.wait) = (asked(RAISE, 0), Wait::ToLow(1)),
        |r| r.drive = asked(RAISE, 100),
        |r| r.drive = moving(RAISE, 0),
        |r| (r.fault, r.drive) = (Fault::Fast, asked(RAISE, 0)),
        |r| (r.fault, r.remembered) = (Fault::Fast, Some(RAISE)),
        |r| r.organs[6] = Organ { marked: false, count: 1 },
        |r| r.counted_tap = 41,
        |r| r.operations = 1_000_000,
    ];
    let changed = changes.map(|change| {
        let mut record = let_go(fresh(&[]), Mode::Local);
        change(&mut record);
        record
    });
    changed.into_iter().chain([Record::zeros()]).collect()
}

fn refused(refusal: u32, record: &Record) -> Outlook {
    Outlook { refusal, tick: 0, way: None, outputs: [0; OUTPUTS], next: record.clone() }
}

/// Ticks with a command on the first, later and never, and one that is out.
fn ticks() -> [Input; 4] {
    [with(&[bit::RAISE_BUTTON]), low(&[]), calm(), low(&[bit::OUT])]
}

#[test]
fn a_record_outside_its_limits_is_4_whatever_the_horizon() {
    for record in outside() {
        for (horizon, input) in HORIZONS.into_iter().flat_map(|horizon| ticks().map(|input| (horizon, input))) {
            assert_eq!(ahead(&record, &input, horizon), refused(4, &record));
        }
    }
}

#[test]
fn a_horizon_of_0_or_above_36_000_is_6() {
    let record = let_go(fresh(&[]), Mode::Local);
    let records = [
        record.clone(),
        Record { wait: Wait::ToLow(19), ..record.clone() },
        Record { drive: asked(RAISE, 3), remembered: Some(LOWER), ..record.clone() },
        Record { drive: moving(LOWER, 3), ..record.clone() },
        Record { fault: Fault::Fast, fault_age: 3, ..record },
        fresh_continuous(&[]),
        fresh(&[(slot::IN_SERVICE, 0)]),
    ];
    for (record, input) in records.iter().flat_map(|record| ticks().map(|input| (record, input))) {
        for horizon in HORIZONS {
            let taken = (1..=36_000).contains(&horizon);
            let outlook = ahead(record, &input, horizon);
            assert_eq!(outlook.refusal, if taken { 0 } else { 6 }, "horizon {horizon}");
            if !taken {
                assert_eq!(outlook, refused(6, record));
            }
        }
    }
}
