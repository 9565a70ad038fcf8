//! Ticket 6: the drive starting by itself, the commands that a remembered press
//! begins, and presses in their moves.

mod common;

use common::courses::*;
use common::*;
use reference::input::{bit, Input};
use reference::record::{Direction, Drive, Fault, Record};
use reference::sheet::slot;

/// The move to sliding tap 21, from which the drive goes on by itself.
fn to_a_sliding_tap() -> Course {
    by_button(&[(slot::TAP_SOURCE, 3), (slot::SLIDING, 21)])
}

// The drive starts by itself on the first tick at rest.

#[test]
fn an_own_move_on_that_tick_drops_it() {
    for buttons in [&[][..], &[bit::LOWER_BUTTON], &[bit::RAISE_BUTTON], &BOTH] {
        let course = to_a_sliding_tap().press(2, LOWER);
        let first = course.first();
        let slid = course.on(first..=first + 2, &[bit::SWITCHING]).on(first..=first, buttons);
        let (begun, records) = slid.run();
        assert_eq!(begun, [], "{buttons:?}");
        let own = Drive::Moving { direction: RAISE, length: 1, commanded: false };
        assert_eq!((records[first - 1].drive, records[first - 1].remembered), (own, None), "{buttons:?}");
        // Its end brings nothing back.
        assert_eq!((records[first + 2].drive, records[first + 2].operations), (Drive::Rest, 2));
        assert_eq!(slid.kept()[first - 1..], vec![None; 6]);
    }
}

#[test]
fn on_the_tick_after_the_own_move_s_first_a_press_is_remembered_again() {
    let course = to_a_sliding_tap().press(2, LOWER);
    let first = course.first();
    let slid = course.on(first..=first + 2, &[bit::SWITCHING]).press(first + 1, RAISE);
    assert_eq!(slid.kept()[first..first + 3], [Some(RAISE); 3]);
    assert_eq!(slid.begun(), [(first + 4, RAISE)]);
}

#[test]
fn run_away_on_that_tick_drops_it() {
    for course in [by_button(&[]), by_itself(&[]), own(&[])] {
        let first = course.first();
        for buttons in [&[][..], &[bit::LOWER_BUTTON], &[bit::RAISE_BUTTON]] {
            let away = course.clone().press(2, LOWER).on(first..=first, &[bit::SWITCHING]).on(first..=first, buttons);
            let (begun, records) = away.run();
            assert_eq!((begun, records[first - 1].fault), (vec![], Fault::RunAway), "{}", course.name);
            assert_eq!(away.kept()[first - 1..], vec![None; 6]);
            let reset = away.on(first + 1..=first + 1, &[bit::RESET]);
            assert_eq!((reset.begun(), reset.run().1[first].fault), (vec![], Fault::None), "{}", course.name);
        }
    }
}

#[test]
fn without_the_contact_no_drive_starts_by_itself() {
    for course in [held_by_button(&[]), held_by_itself(&[])] {
        let first = course.first();
        let closed = course.clone().press(course.end, LOWER).on(first..=first, &[bit::SWITCHING]);
        assert_eq!(closed.begun(), [(first, LOWER)], "{}", course.name);
    }
}

#[test]
fn a_tick_later_the_contact_is_the_answer_to_the_command() {
    for course in [by_button(&[]), own(&[])] {
        let first = course.first();
        let started = course.press(2, LOWER).on(first + 1..=first + 1, &[bit::SWITCHING]);
        let (begun, records) = started.run();
        assert_eq!(begun, [(first, LOWER)]);
        assert_eq!(records[first].drive, Drive::Moving { direction: LOWER, length: 1, commanded: true });
    }
}

// The command that a remembered press begins.

/// The record and outputs of each of these ticks.
fn followed(mut record: Record, inputs: &[Input]) -> Vec<(Record, Outputs)> {
    let follow = |input| {
        let outputs = step(&mut record, input);
        (record.clone(), outputs)
    };
    inputs.iter().map(follow).collect()
}

/// One after the other: a remembered press and a real one on the first tick at
/// rest, each with these ticks after it.
fn either(course: &Course, after: &[(usize, Input)]) -> [Vec<(Record, Outputs)>; 2] {
    let after = after.iter().flat_map(|&(times, input)| vec![input; times]);
    let after: Vec<Input> = after.collect();
    [course.end, course.first()].map(|tick| {
        let pressed = course.clone().press(tick, LOWER);
        let inputs = [&pressed.ticks[..course.first()], &after].concat();
        followed(pressed.record, &inputs)[course.first() - 1..].to_vec()
    })
}

#[test]
fn it_goes_on_as_a_real_press_does() {
    let sheet = [(slot::WEAR_COUNT, 1), (slot::T5, 20), (slot::T6, 10), (slot::T7, 3)];
    let closed = with(&[bit::SWITCHING]);
    let courses_after = [
        vec![(5, calm()), (12, closed), (5, calm())],
        vec![(5, calm()), (9, closed), (5, calm())],
        vec![(1, closed), (101, closed)],
        vec![(30, calm())],
    ];
    for course in courses_with(&sheet) {
        for after in &courses_after {
            let [remembered, real] = either(&course, after);
            assert_eq!(remembered[0].1, real[0].1, "{}", course.name);
            assert_eq!(remembered[0].0.drive, Drive::Asked { direction: LOWER, age: 0, automatic: false });
            // The button alone is another one.
            assert_eq!(Record { lower_button: true, ..remembered[0].0.clone() }, real[0].0, "{}", course.name);
            assert_eq!(remembered[1..], real[1..], "{}", course.name);
        }
    }
}

/// The outputs after the first tick at rest, on which the remembered press
/// begins a lower command.
fn after_lowering(course: Course, after: &[(usize, Input)]) -> Vec<Outputs> {
    let [remembered, _] = either(&course, after);
    assert_eq!(remembered[0].1[1], 1);
    remembered[1..].iter().map(|(_, outputs)| *outputs).collect()
}

#[test]
fn its_age_t7_and_operation_by_hand() {
    let closed = with(&[bit::SWITCHING]);
    // 'Not started' on the T5th tick after its first.
    let outputs = after_lowering(by_button(&[(slot::T5, 20)]), &[(20, calm())]);
    assert_eq!(outputs.iter().position(|outputs| outputs[20] == 1), Some(19));
    // Without the contact it is held for T4 ticks.
    let outputs = after_lowering(held_by_button(&[]), &[(30, calm())]);
    assert_eq!(outputs.iter().position(|outputs| outputs[1] == 0), Some(29));
    assert_eq!((outputs[28][25], outputs[29][25]), (1, 2));
    // On for T7 ticks of its move; one more operation as the move ends.
    let outputs = after_lowering(by_button(&[(slot::T7, 3)]), &[(2, calm()), (12, closed), (1, calm())]);
    assert_eq!(outputs.iter().position(|outputs| outputs[1] == 0), Some(2 + 3));
    assert_eq!((outputs[13][25], outputs[14][25], outputs[14][22]), (1, 2, 0));
    // It is commanded, so it can be fast.
    let outputs = after_lowering(by_button(&[]), &[(9, closed), (1, calm())]);
    assert_eq!(outputs[9][22], 1);
}

#[test]
fn it_steps_the_counted_tap_and_becomes_the_last_direction() {
    let after = [(1, calm()), (12, with(&[bit::SWITCHING])), (1, calm())];
    let [remembered, _] = either(&by_button(&[(slot::TAP_SOURCE, 3)]), &after);
    let (first, last) = (&remembered[0].0, &remembered[14].0);
    assert_eq!((first.last_direction, first.counted_tap), (Some(RAISE), 21));
    assert_eq!((last.last_direction, last.counted_tap), (Some(LOWER), 20));
}

// A press in the move that a remembered press began.

/// Which commands begin, and when, if each is answered by a move of 12 ticks.
/// The last tick of the list is `last`; `pressed` says on which ticks.
fn chain(mut record: Record, pressed: &[(usize, Direction)], last: usize) -> Vec<(usize, Direction)> {
    let (mut begun, mut closed) = (vec![], 0);
    for number in 1..=last {
        let rested = record.drive == Drive::Rest;
        let mut bits: Vec<u32> = pressed.iter().filter(|press| press.0 == number).map(|press| button(press.1)).collect();
        if closed > 0 {
            bits.push(bit::SWITCHING);
            closed -= 1;
        }
        let outputs = step(&mut record, &with(&bits));
        if rested && outputs[24] == 1 {
            begun.push((number, if outputs[0] == 1 { RAISE } else { LOWER }));
            closed = 12;
        }
    }
    begun
}

#[test]
fn a_chain_of_presses() {
    let mut record = fresh(&[]);
    step(&mut record, &calm());
    // Begun on 1, closed on 2 to 13, over on 14; so each 14 ticks.
    let pressed = [(1, RAISE), (5, LOWER), (20, RAISE), (28, LOWER), (43, RAISE)];
    let begun = [(1, RAISE), (15, LOWER), (29, LOWER), (43, RAISE)];
    assert_eq!(chain(record, &pressed, 70), begun);
}

#[test]
fn a_chain_of_presses_without_the_contact() {
    let mut record = fresh_continuous(&[]);
    step(&mut record, &calm());
    // Begun on 1, over on 31, the T4th tick after it; so each 31 ticks.
    let pressed = [(1, RAISE), (5, LOWER), (34, LOWER), (63, RAISE), (93, RAISE)];
    let begun = [(1, RAISE), (32, LOWER), (63, RAISE), (94, RAISE)];
    assert_eq!(chain(record, &pressed, 140), begun);
}

#[test]
fn a_button_held_all_along_begins_one_command() {
    for mut record in [fresh(&[]), fresh_continuous(&[])] {
        step(&mut record, &calm());
        let held: Vec<(usize, Direction)> = (1..=100).map(|number| (number, RAISE)).collect();
        assert_eq!(chain(record, &held, 100), [(1, RAISE)]);
    }
}
