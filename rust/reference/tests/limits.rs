//! The limits of a record, and refusal 4.

mod common;

use common::*;
use reference::record::{within_limits, Direction, Drive, Fault, Organ, Record, Side, Wait, ORGANS};
use reference::sheet::slot;
use reference::tick::{tick, OUTPUTS};

const RAISE: Direction = Direction::Raise;

fn asked(age: u32) -> Drive {
    Drive::Asked { direction: RAISE, age, automatic: true }
}

fn asked_by_button(age: u32) -> Drive {
    Drive::Asked { direction: RAISE, age, automatic: false }
}

fn moving(length: u32) -> Drive {
    Drive::Moving { direction: RAISE, length, commanded: true }
}

/// Whether the fresh base record, changed so, is within its limits.
fn holds(change: impl Fn(&mut Record)) -> bool {
    changed_holds(fresh(&[]), change)
}

/// The same for a drive without the contact. Its T4 and T5 differ, either way.
fn continuous_holds(t4: u32, t5: u32, change: impl Fn(&mut Record)) -> bool {
    changed_holds(fresh(&[(slot::CONTINUOUS, 1), (slot::T4, t4), (slot::T5, t5)]), change)
}

/// A record outside its limits is refused and left alone.
fn changed_holds(mut record: Record, change: impl Fn(&mut Record)) -> bool {
    change(&mut record);
    let within = within_limits(&record);
    let ticked = tick(&record, &calm());
    assert_eq!(ticked.refusal, if within { 0 } else { 4 });
    if !within {
        assert_eq!(ticked.outputs, [0; OUTPUTS]);
        assert_eq!(ticked.next, record);
    }
    within
}

#[test]
fn settings() {
    assert!(holds(|_| {}));
    assert!(!holds(|r| r.settings[slot::DU] = 2_050));
    assert!(!holds(|r| r.settings[slot::N_L] = 21));
    assert!(!holds(|r| r.settings[slot::N_L] = 40));
}

#[test]
fn ratings_whatever_slot_3_is() {
    for rating in [slot::TRANSFORMER_RATING, slot::BREAKER_RATING] {
        for compensation in [0, 1, 2] {
            for (number, within) in [(0, false), (1, true), (20_000, true), (20_001, false)] {
                let changed = |r: &mut Record| (r.settings[slot::COMPENSATION], r.settings[rating]) = (compensation, number);
                assert_eq!(holds(changed), within, "slot {rating}: {number}");
            }
        }
    }
}

#[test]
fn wait() {
    assert!(holds(|r| r.wait = Wait::to(Side::Low, 35_999)));
    assert!(holds(|r| r.wait = Wait::to(Side::High, 35_999)));
    assert!(!holds(|r| r.wait = Wait::to(Side::Low, 36_000)));
    assert!(!holds(|r| r.wait = Wait::to(Side::High, u32::MAX)));
    assert!(!holds(|r| (r.wait, r.drive) = (Wait::ToLow(1), asked(0))));
    assert!(holds(|r| (r.wait, r.drive) = (Wait::ToLow(0), asked(0))));
}

#[test]
fn drive() {
    assert!(holds(|r| r.drive = asked(99)));
    assert!(!holds(|r| r.drive = asked(100)));
    assert!(holds(|r| r.drive = moving(1)));
    assert!(holds(|r| r.drive = moving(100)));
    assert!(!holds(|r| r.drive = moving(0)));
    assert!(!holds(|r| r.drive = moving(101)));
}

#[test]
fn with_the_contact_t5_bounds_the_age_of_either_command() {
    for asked in [asked, asked_by_button] {
        for (t4, t5) in [(20, 70), (70, 20)] {
            let within = |age| changed_holds(fresh(&[(slot::T4, t4), (slot::T5, t5)]), |r| r.drive = asked(age));
            assert!(within(t5 - 1) && !within(t5) && !within(u32::MAX));
        }
    }
}

#[test]
fn without_the_contact_t4_bounds_the_age_of_either_command() {
    for asked in [asked, asked_by_button] {
        for (t4, t5) in [(20, 70), (70, 20)] {
            let within = |age| continuous_holds(t4, t5, |r| r.drive = asked(age));
            assert!(within(0) && within(t4 - 1) && !within(t4) && !within(u32::MAX));
        }
    }
}

#[test]
fn without_the_contact_there_is_no_move() {
    for length in [0, 1, 20, 21] {
        for commanded in [false, true] {
            let drive = Drive::Moving { direction: RAISE, length, commanded };
            assert!(!continuous_holds(20, 20, |r| r.drive = drive));
        }
    }
    // A last direction is no move.
    assert!(continuous_holds(20, 20, |r| r.last_direction = Some(RAISE)));
}

#[test]
fn without_the_contact_long_is_the_one_fault() {
    for (fault, within) in [(Fault::RunAway, false), (Fault::NotStarted, false), (Fault::Long, true), (Fault::Fast, false)] {
        for age in [0, 1, 20] {
            assert_eq!(continuous_holds(20, 20, |r| (r.fault, r.fault_age) = (fault, age)), within);
        }
        assert!(!continuous_holds(20, 20, |r| (r.fault, r.fault_age) = (fault, 21)));
        assert!(!continuous_holds(20, 20, |r| (r.fault, r.drive) = (fault, asked(0))));
    }
    assert!(!continuous_holds(20, 20, |r| r.fault_age = 1));
}

#[test]
fn without_the_contact_the_wait_is_as_with_it() {
    assert!(continuous_holds(20, 20, |r| r.wait = Wait::ToHigh(35_999)));
    assert!(!continuous_holds(20, 20, |r| r.wait = Wait::ToHigh(36_000)));
    assert!(!continuous_holds(20, 20, |r| (r.wait, r.drive) = (Wait::ToHigh(1), asked(0))));
    assert!(continuous_holds(20, 20, |r| (r.wait, r.drive) = (Wait::ToHigh(0), asked(0))));
}

#[test]
fn an_accepted_record_passes_5() {
    for (source, within) in [(0, true), (1, true), (2, true), (3, false), (4, false)] {
        assert_eq!(continuous_holds(20, 20, |r| r.settings[slot::TAP_SOURCE] = source), within);
        assert!(holds(|r| r.settings[slot::TAP_SOURCE] = source));
    }
    assert!(!holds(|r| r.settings[slot::CONTINUOUS] = 2));
}

#[test]
fn fault() {
    assert!(!holds(|r| r.fault_age = 1));
    for fault in [Fault::RunAway, Fault::NotStarted, Fault::Long, Fault::Fast] {
        assert!(holds(|r| (r.fault, r.fault_age) = (fault, 0)));
        assert!(holds(|r| (r.fault, r.fault_age) = (fault, 20)));
        assert!(!holds(|r| (r.fault, r.fault_age) = (fault, 21)));
        assert!(!holds(|r| (r.fault, r.drive) = (fault, asked(0))));
        assert!(!holds(|r| (r.fault, r.drive) = (fault, moving(1))));
    }
}

#[test]
fn remembered_press() {
    for remembered in [Some(RAISE), Some(Direction::Lower)] {
        assert!(holds(|r| r.remembered = remembered));
        assert!(holds(|r| (r.remembered, r.wait) = (remembered, Wait::ToHigh(35_999))));
        assert!(!holds(|r| (r.remembered, r.wait) = (remembered, Wait::ToHigh(36_000))));
        for drive in [asked(0), asked_by_button(99), moving(1), moving(100)] {
            assert!(holds(|r| (r.remembered, r.drive) = (remembered, drive)));
        }
        assert!(continuous_holds(20, 20, |r| (r.remembered, r.drive) = (remembered, asked(19))));
        for fault in [Fault::RunAway, Fault::NotStarted, Fault::Long, Fault::Fast] {
            assert!(!holds(|r| (r.remembered, r.fault) = (remembered, fault)));
        }
        assert!(!continuous_holds(20, 20, |r| (r.remembered, r.fault) = (remembered, Fault::Long)));
    }
}

#[test]
fn no_limit_goes_by_the_buttons_and_the_mode_of_the_previous_tick() {
    let remembered = [None, Some(RAISE), Some(Direction::Lower)];
    for (bits, remembered) in (0..32).flat_map(|bits| remembered.map(|remembered| (bits, remembered))) {
        let on = move |place: u32| (bits >> place) & 1 == 1;
        let set = move |r: &mut Record| {
            (r.raise_button, r.lower_button) = (on(0), on(1));
            (r.remote_raise, r.remote_lower, r.remote) = (on(2), on(3), on(4));
            r.remembered = remembered;
        };
        let set_beside = |drive| {
            move |r: &mut Record| {
                set(r);
                r.drive = drive;
            }
        };
        for drive in [Drive::Rest, asked(0), asked_by_button(99), moving(100)] {
            assert!(holds(set_beside(drive)), "{bits:05b}");
        }
        assert!(!holds(set_beside(moving(101))), "{bits:05b}");
        assert!(continuous_holds(20, 20, set_beside(asked(19))), "{bits:05b}");
        let beside_a_fault = changed_holds(Record { fault: Fault::Fast, ..fresh(&[]) }, set);
        assert_eq!(beside_a_fault, remembered.is_none(), "{bits:05b}");
    }
}

#[test]
fn organs() {
    for i in 0..ORGANS {
        let organ = |marked, count| Organ { marked, count };
        assert!(holds(|r| r.organs[i] = organ(true, 10)));
        assert!(holds(|r| r.organs[i] = organ(true, 0)));
        assert!(!holds(|r| r.organs[i] = organ(true, 11)));
        assert!(!holds(|r| r.organs[i] = organ(false, 1)));
    }
}

#[test]
fn counts() {
    assert!(holds(|r| r.counted_tap = 1));
    assert!(holds(|r| r.counted_tap = 40));
    assert!(!holds(|r| r.counted_tap = 0));
    assert!(!holds(|r| r.counted_tap = 41));
    assert!(holds(|r| r.operations = 999_999));
    assert!(!holds(|r| r.operations = 1_000_000));
}

#[test]
fn refusal_comes_before_rule_1() {
    let mut record = fresh(&[]);
    record.counted_tap = 0;
    let out = with(&[reference::input::bit::OUT]);
    let ticked = tick(&record, &out);
    assert_eq!((ticked.refusal, ticked.next), (4, record));
}
