//! Ticket 6: "Fault, automatic, local drive and out drop it", and what a record
//! may remember.

mod common;

use common::courses::*;
use common::*;
use reference::input::{bit, Input};
use reference::record::{within_limits, Direction, Drive, Fault, Record, Side, Wait};
use reference::sheet::slot;
use reference::tick::{tick, OUTPUTS};

const SIDES: [Direction; 2] = [RAISE, LOWER];

/// Nothing begins after all, and nothing is kept from this tick on.
fn assert_dropped(course: &Course, from: usize) {
    assert_eq!(course.begun(), [], "{}, from tick {from}", course.name);
    let kept = course.kept();
    assert_eq!(kept[from - 1..], vec![None; course.last() + 1 - from], "{}, from tick {from}", course.name);
}

/// Presses before a tick and on it: the cause on that tick drops either.
fn pressed_until(course: &Course, tick: usize) -> Vec<Course> {
    let before = (1..tick).map(|press| course.clone().press(press, LOWER)).collect();
    let on_it = SIDES.map(|side| course.clone().press(tick, side)).to_vec();
    let both = (1..tick.saturating_sub(1)).map(|press| course.clone().press(press, LOWER).press(tick, LOWER)).collect();
    [before, on_it, both].concat()
}

// Automatic.

#[test]
fn automatic_in_the_move_drops_it() {
    for course in courses() {
        for tick in 1..=course.end {
            for pressed in pressed_until(&course, tick) {
                let pressed = pressed.on(tick..=tick, &[bit::AUTOMATIC]);
                assert_dropped(&pressed, tick);
                assert!(pressed.kept()[..tick - 1].iter().all(|kept| *kept != Some(RAISE)));
            }
        }
    }
}

#[test]
fn automatic_on_the_first_tick_at_rest_drops_it() {
    for course in courses() {
        let first = course.first();
        let pressed = course.clone().press(course.end, LOWER).on(first..=first, &[bit::AUTOMATIC]);
        assert_eq!(pressed.kept()[course.end - 1], Some(LOWER));
        assert_dropped(&pressed, first);
        // With a press on that very tick too.
        assert_dropped(&pressed.press(first, RAISE), first);
    }
}

#[test]
fn in_automatic_nothing_is_remembered() {
    for course in courses() {
        for tick in 1..=course.end {
            for side in SIDES {
                // Pressed in automatic, and held on in manual mode.
                let pressed = course.clone().press(tick, side).on(1..=tick, &[bit::AUTOMATIC]);
                assert_dropped(&pressed, 1);
                assert_dropped(&pressed.on(tick..=course.last(), &[button(side)]), 1);
            }
        }
    }
}

#[test]
fn back_in_manual_mode_a_new_press_is_remembered() {
    for course in long_courses() {
        let pressed = course.clone().press(1, LOWER).on(2..=4, &[bit::AUTOMATIC]).press(5, RAISE);
        assert_eq!(pressed.begun(), [(course.first(), RAISE)], "{}", course.name);
        assert_eq!(pressed.kept()[..5], [Some(LOWER), None, None, None, Some(RAISE)]);
    }
}

// Local drive.

#[test]
fn local_drive_in_the_move_drops_it() {
    for course in courses() {
        for tick in 1..=course.end {
            for pressed in pressed_until(&course.clone().cut(tick, &[]), tick) {
                let local = pressed.on(tick..=tick, &[bit::LOCAL_DRIVE]);
                assert_dropped(&local, tick);
                assert_eq!(local.run().1[tick - 1].drive, Drive::Rest);
            }
        }
    }
}

#[test]
fn local_drive_on_the_first_tick_at_rest_drops_it() {
    for course in courses() {
        let first = course.first();
        let pressed = course.clone().press(course.end, LOWER).on(first..=first, &[bit::LOCAL_DRIVE]);
        assert_dropped(&pressed, first);
        assert_dropped(&pressed.press(first, RAISE), first);
    }
}

// Out.

#[test]
fn out_drops_it_wherever_it_comes() {
    for course in courses() {
        for tick in 1..=course.first() {
            let until = if tick <= course.end { course.clone().cut(tick, &[]) } else { course.clone() };
            for pressed in pressed_until(&until, tick) {
                let out = pressed.on(tick..=tick, &[bit::OUT]);
                assert_dropped(&out, tick);
                assert_eq!(out.run().1[tick - 1], Record::fresh(course.record.settings));
            }
        }
    }
}

#[test]
fn so_does_a_sheet_out_of_service() {
    for mut record in [by_button(&[]).record, held_by_button(&[]).record, fresh(&[])] {
        record.settings[slot::IN_SERVICE] = 0;
        record.remembered = Some(RAISE);
        let ticked = tick(&record, &with(&[bit::LOWER_BUTTON]));
        assert_eq!((ticked.refusal, ticked.outputs), (0, [0; OUTPUTS]));
        assert_eq!(ticked.next, Record::fresh(record.settings));
        assert_eq!(ticked.next.remembered, None);
    }
}

// Faults.

/// Courses that end with a fault, and the fault.
fn ending_badly() -> Vec<(Course, Fault)> {
    let closed = with(&[bit::SWITCHING]);
    let t4 = [(slot::T4, 20)];
    vec![
        // Each after one or two ticks that are over.
        (by_button(&[(slot::T5, 20)]).cut(3, &[(16, calm())]), Fault::NotStarted),
        (by_button(&t4).cut(3, &[(21, closed)]), Fault::Long),
        (by_itself(&t4).cut(3, &[(21, closed)]), Fault::Long),
        (own(&t4).cut(0, &[(20, closed)]), Fault::Long),
        (by_button(&[(slot::T6, 13)]), Fault::Fast),
    ]
}

#[test]
fn each_fault_on_which_the_drive_comes_to_rest_drops_it() {
    for (course, fault) in ending_badly() {
        let end = course.end;
        for pressed in pressed_until(&course, end) {
            let (_, records) = pressed.run();
            assert_eq!((records[end - 2].fault, records[end - 1].fault), (Fault::None, fault), "{}", course.name);
            assert_dropped(&pressed, end);
            // Not even a reset brings it back, on that tick or the next.
            for reset in [end, end + 1] {
                assert_dropped(&pressed.clone().on(reset..=reset, &[bit::RESET]), end);
            }
        }
        // It was there as the fault arose.
        assert_eq!(course.press(end - 1, LOWER).kept()[end - 2], Some(LOWER));
    }
}

#[test]
fn long_without_the_contact_drops_it() {
    // A record that no tick gives: an automatic command held beside a press.
    let mut record = fresh_continuous(&[]);
    steps(&mut record, &auto(98_000, &[]), 20 + 29);
    record.remembered = Some(LOWER);
    assert!(within_limits(&record));
    let outputs = step(&mut record, &auto(98_000, &[]));
    assert_eq!((outputs[21], record.fault, record.remembered), (1, Fault::Long, None));
}

#[test]
fn a_press_beside_a_fault_is_not_remembered() {
    let mut record = fresh(&[]);
    step(&mut record, &calm());
    step(&mut record, &with(&[bit::SWITCHING]));
    assert_eq!(record.fault, Fault::RunAway);
    step(&mut record, &with(&[bit::LOWER_BUTTON]));
    assert_eq!((record.drive, record.remembered), (Drive::Rest, None));
    assert_eq!(step(&mut record, &with(&[bit::RESET]))[24], 0);
}

#[test]
fn a_reset_without_a_fault_does_not_drop_it() {
    for course in courses() {
        for tick in 1..=course.first() {
            let reset = course.clone().press(course.end, LOWER).on(tick..=tick, &[bit::RESET]);
            assert_eq!(reset.begun(), [(course.first(), LOWER)], "{}, tick {tick}", course.name);
        }
    }
}

// The limits of a record.

/// Accepted or refused with 4, and then left alone.
fn is_accepted(record: &Record) -> bool {
    let ticked = tick(record, &calm());
    let within = within_limits(record);
    assert_eq!(ticked.refusal, if within { 0 } else { 4 });
    assert!(within || (ticked.outputs, &ticked.next) == ([0; OUTPUTS], record));
    within
}

#[test]
fn an_accepted_record_remembers_no_press_beside_a_fault() {
    let faults = [Fault::RunAway, Fault::NotStarted, Fault::Long, Fault::Fast];
    for (fault, age) in faults.into_iter().flat_map(|fault| [0, 1, 20].map(|age| (fault, age))) {
        let mut record = Record { fault, fault_age: age, ..fresh(&[]) };
        assert!(is_accepted(&record));
        for side in SIDES {
            record.remembered = Some(side);
            assert!(!is_accepted(&record), "{fault:?}");
        }
    }
    let mut record = Record { fault: Fault::Long, ..fresh_continuous(&[]) };
    assert!(is_accepted(&record));
    record.remembered = Some(RAISE);
    assert!(!is_accepted(&record));
    // Refused before rule 1, and before a reset.
    for bit in [bit::OUT, bit::RESET] {
        assert_eq!(tick(&record, &with(&[bit])).refusal, 4);
    }
}

#[test]
fn at_rest_a_press_is_read_as_standing_before_the_first_tick() {
    let waits = [Wait::None, Wait::to(Side::Low, 19), Wait::to(Side::High, 35_999)];
    for (base, wait) in [fresh(&[]), fresh_continuous(&[])].iter().flat_map(|base| waits.map(|wait| (base, wait))) {
        for (side, [raise, lower]) in [(RAISE, [1, 0]), (LOWER, [0, 1])] {
            let record = Record { wait, remembered: Some(side), ..base.clone() };
            assert!(is_accepted(&record));
            let ticked = tick(&record, &calm());
            assert_eq!((ticked.outputs[0], ticked.outputs[1]), (raise, lower));
            assert_eq!(ticked.next.drive, Drive::Asked { direction: side, age: 0, automatic: false });
            assert_eq!((ticked.next.wait, ticked.next.remembered), (Wait::None, None));
            let blocked = tick(&record, &with(&[bit::EXTERNAL_BLOCK])).next;
            assert_eq!((blocked.drive, blocked.remembered), (Drive::Rest, None));
            // In automatic it is dropped, and the wait goes on.
            let without = Record { remembered: None, ..record.clone() };
            let low = auto(98_000, &[]);
            assert_eq!(tick(&record, &low), tick(&without, &low));
        }
    }
}

#[test]
fn a_press_beside_any_command_or_move_is_accepted() {
    for course in courses() {
        for side in SIDES {
            assert!(is_accepted(&Record { remembered: Some(side), ..course.record.clone() }));
        }
    }
}

/// Any of the contacts that count here, alone and together.
fn ticks_of_interest() -> Vec<Input> {
    let bits = [bit::SWITCHING, bit::EXTERNAL_BLOCK, bit::END_UP, bit::RESET, bit::OUT, bit::AUTOMATIC, bit::LOCAL_DRIVE];
    let mut inputs = vec![calm()];
    for bit in [&bits[..], &BOTH].concat() {
        let mut others = inputs.clone();
        others.iter_mut().for_each(|input| input.contacts.0 |= 1 << bit);
        inputs.extend(others);
    }
    inputs
}

#[test]
fn every_record_that_an_accepted_tick_gives_is_accepted() {
    let rests = [fresh(&[]), fresh_continuous(&[])];
    let bad = ending_badly().into_iter().map(|(course, _)| course.run().1[course.end - 2].clone());
    let records = courses().into_iter().map(|course| course.record).chain(rests).chain(bad);
    let either = [None, Some(RAISE), Some(LOWER)];
    for record in records.flat_map(|record| either.map(|remembered| Record { remembered, ..record.clone() })) {
        for input in ticks_of_interest() {
            let ticked = tick(&record, &input);
            assert_eq!(ticked.refusal, 0);
            assert!(is_accepted(&ticked.next), "{record:?}\n{input:?}");
            // A tick that starts at rest leaves nothing.
            assert!(record.drive != Drive::Rest || ticked.next.remembered.is_none());
        }
    }
}
