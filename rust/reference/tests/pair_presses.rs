//! Ticket 7 with ticket 6: the presses of either pair while the drive runs, and
//! "a change of mode drops a remembered press".

mod common;

use common::courses::*;
use common::modes::*;
use common::*;
use reference::input::bit;
use reference::record::{Direction, Drive, Fault, Record};
use reference::sheet::slot;
use reference::tick::tick;

const SIDES: [Direction; 2] = [RAISE, LOWER];

/// Each mode and direction with each course in that mode.
fn each(courses: Vec<Course>) -> Vec<(Mode, Direction, Course)> {
    let modes = MODES.into_iter().flat_map(|mode| SIDES.map(|side| (mode, side)));
    let in_mode = |(mode, side)| courses.clone().into_iter().map(move |course| (mode, side, course.in_mode(mode)));
    modes.flat_map(in_mode).collect()
}

/// What is kept of one press: from its tick to the tick before `until`.
fn kept_from(course: &Course, tick: usize, until: usize, direction: Direction) -> Vec<Option<Direction>> {
    (1..=course.last()).map(|number| (tick..until).contains(&number).then_some(direction)).collect()
}

/// Nothing begins, and of a press on a tick nothing is kept from `until` on.
fn assert_dropped(course: &Course, tick: usize, until: usize, direction: Direction) {
    assert_eq!(course.begun(), [], "{}, pressed on {tick}, changed on {until}", course.name);
    assert_eq!(course.kept(), kept_from(course, tick, until, direction), "{}, {tick}, {until}", course.name);
}

// The pair of the mode.

#[test]
fn a_press_of_either_pair_is_carried_out_in_its_mode() {
    for (mode, side, course) in each(courses()) {
        for tick in 1..=course.end {
            let pressed = course.clone().press_in(mode, tick, side);
            assert_eq!(pressed.begun(), [(course.first(), side)], "{mode:?}, {}, tick {tick}", course.name);
            assert_eq!(pressed.kept(), kept_from(&course, tick, course.first(), side));
        }
    }
}

#[test]
fn the_other_pair_s_press_is_not_remembered() {
    for (mode, _, course) in each(courses()) {
        for buttons in mode.other().presses() {
            for tick in 1..=course.end {
                let pressed = course.clone().on(tick..=tick, &buttons);
                assert_eq!((pressed.begun(), pressed.kept()), (vec![], vec![None; course.last()]), "{}", course.name);
            }
            let held = course.clone().on(course.end..=course.last(), &buttons);
            assert_eq!((held.begun(), held.kept()), (vec![], vec![None; course.last()]), "{}", course.name);
        }
    }
}

#[test]
fn nor_does_it_change_what_is() {
    for (mode, side, course) in each(long_courses()) {
        let (first, last) = (course.first(), course.last());
        let pressed = course.clone().press_in(mode, 3, side);
        let expected = kept_from(&course, 3, first, side);
        for buttons in mode.other().presses() {
            // Held all along; pressed together with it, later, and at the end.
            for ticks in
                [1..=last, 3..=3, 4..=4, 5..=6, course.end..=course.end, course.end..=first, first..=first, first..=last]
            {
                let other = pressed.clone().on(ticks.clone(), &buttons);
                assert_eq!(other.begun(), [(first, side)], "{mode:?}, {}, {buttons:?} on {ticks:?}", course.name);
                assert_eq!(other.kept(), expected, "{mode:?}, {}, {buttons:?} on {ticks:?}", course.name);
            }
        }
    }
}

#[test]
fn the_mode_s_own_pair_still_replaces_and_wins() {
    for (mode, side, course) in each(long_courses()) {
        let first = course.first();
        let pressed = course.clone().press_in(mode, 2, side);
        let replaced = pressed.clone().press_in(mode, 4, other(side));
        assert_eq!(replaced.begun(), [(first, other(side))], "{mode:?}, {}", course.name);
        let real = pressed.clone().press_in(mode, first, other(side));
        assert_eq!(real.begun(), [(first, other(side))], "{mode:?}, {}", course.name);
        let both = pressed.clone().on(4..=4, &mode.both());
        assert_eq!(both.begun(), [(first, side)], "{mode:?}, {}", course.name);
        let blocked = pressed.clone().on(first..=first, &[bit::EXTERNAL_BLOCK]);
        assert_dropped(&blocked, 2, first, side);
        // A real press that is blocked, whatever the other pair does.
        let way = if side == RAISE { bit::END_DOWN } else { bit::END_UP };
        let alone = real.on(first..=first, &[way, mode.other().button(side)]);
        assert_dropped(&alone, 2, first, side);
    }
}

#[test]
fn a_held_button_of_either_pair_is_no_press() {
    for (mode, side, course) in each(courses()) {
        let mut held = course.clone().on(1..=course.last(), &[mode.button(side)]);
        let record = &mut held.record;
        match (mode, side) {
            (Mode::Local, Direction::Raise) => record.raise_button = true,
            (Mode::Local, Direction::Lower) => record.lower_button = true,
            (Mode::Remote, Direction::Raise) => record.remote_raise = true,
            (Mode::Remote, Direction::Lower) => record.remote_lower = true,
        }
        assert_eq!((held.begun(), held.kept()), (vec![], vec![None; course.last()]), "{}", course.name);
    }
}

// The change of mode.

#[test]
fn a_change_in_the_move_on_its_last_tick_or_on_the_first_at_rest_drops_it() {
    for (mode, side, course) in each(courses()) {
        for (tick, change) in (1..=course.end).flat_map(|tick| (tick + 1..=course.first()).map(move |change| (tick, change))) {
            let pressed = course.clone().press_in(mode, tick, side);
            assert_dropped(&pressed.clone().turned(change), tick, change, side);
            // With the old pair's button held on, and let go before.
            let held = course.clone().on(tick..=course.last(), &[mode.button(side)]);
            assert_dropped(&held.turned(change), tick, change, side);
        }
    }
}

#[test]
fn changed_back_it_does_not_come_back() {
    for (mode, side, course) in each(courses()) {
        let (end, first) = (course.end, course.first());
        for tick in 1..=end {
            let pressed = course.clone().press_in(mode, tick, side);
            for (change, back) in (tick + 1..=first).flat_map(|change| (change..=first).map(move |back| (change, back))) {
                assert_dropped(&pressed.clone().turned_on(change..=back), tick, change, side);
            }
        }
    }
    // Two changes between, twice.
    for (mode, side, course) in each(long_courses()) {
        let twice = course.clone().press_in(mode, 1, side).turned_on(2..=2).turned_on(4..=4);
        assert_dropped(&twice, 1, 2, side);
        let anew = twice.press_in(mode, 5, other(side));
        assert_eq!(anew.begun(), [(course.first(), other(side))], "{mode:?}, {}", course.name);
    }
}

#[test]
fn a_tick_later_the_command_is_there_and_stays() {
    for (mode, side, course) in each(courses()) {
        let (first, last) = (course.first(), course.last());
        let pressed = course.clone().press_in(mode, course.end, side);
        for change in first + 1..=last {
            let turned = pressed.clone().turned(change);
            assert_eq!(turned.begun(), [(first, side)], "{mode:?}, {}", course.name);
            let (_, records) = turned.run();
            assert!(matches!(records[last - 1].drive, Drive::Asked { direction, .. } if direction == side));
        }
    }
}

#[test]
fn a_change_before_the_press_does_not_matter() {
    for (mode, side, course) in each(long_courses()) {
        for tick in 3..=course.end {
            let turned = course.clone().turned(2).press_in(mode.other(), tick, side);
            assert_eq!(turned.begun(), [(course.first(), side)], "to {:?}, {}", mode.other(), course.name);
            let pair_of_before = course.clone().turned(2).press_in(mode, tick, side);
            assert_eq!(pair_of_before.begun(), [], "to {:?}, {}", mode.other(), course.name);
        }
    }
}

// A press on the tick of the change.

#[test]
fn in_the_move_the_new_mode_s_press_is_remembered_and_the_old_one_s_is_not() {
    for (mode, side, course) in each(courses()) {
        let first = course.first();
        for change in 1..=course.end {
            let turned = course.clone().turned(change);
            let new = turned.clone().press_in(mode.other(), change, side);
            assert_eq!(new.begun(), [(first, side)], "to {:?}, {}", mode.other(), course.name);
            assert_eq!(new.kept(), kept_from(&course, change, first, side));
            let old = turned.clone().press_in(mode, change, side);
            assert_eq!((old.begun(), old.kept()), (vec![], vec![None; course.last()]), "{}", course.name);
            // Both together are two pairs, not two buttons.
            let both = old.press_in(mode.other(), change, other(side));
            assert_eq!(both.begun(), [(first, other(side))], "to {:?}, {}", mode.other(), course.name);
            // Changed once more before the end, this one is dropped too.
            if change < course.end {
                assert_dropped(&new.clone().turned(change + 1), change, change + 1, side);
            }
            assert_dropped(&new.turned(first), change, first, side);
        }
    }
}

#[test]
fn it_takes_the_place_of_the_one_dropped() {
    for (mode, side, course) in each(long_courses()) {
        let (first, last) = (course.first(), course.last());
        let pressed = course.clone().press_in(mode, 2, side).turned(4);
        let anew = pressed.clone().press_in(mode.other(), 4, other(side));
        assert_eq!(anew.begun(), [(first, other(side))], "to {:?}, {}", mode.other(), course.name);
        assert_eq!(anew.kept()[1..5], [Some(side), Some(side), Some(other(side)), Some(other(side))]);
        // Two buttons of the new pair, or one held over, take no place.
        assert_dropped(&pressed.clone().on(4..=4, &mode.other().both()), 2, 4, side);
        assert_dropped(&pressed.clone().on(3..=last, &[mode.other().button(side)]), 2, 4, side);
        assert_dropped(&pressed.on(1..=last, &[mode.other().button(other(side))]), 2, 4, side);
    }
}

#[test]
fn on_the_first_tick_at_rest_the_new_mode_s_press_commands() {
    for (mode, side, course) in each(courses()) {
        let (end, first, last) = (course.end, course.first(), course.last());
        let pressed = course.clone().press_in(mode, end, side).turned(first);
        for new in SIDES {
            let real = pressed.clone().press_in(mode.other(), first, new);
            assert_eq!(real.begun(), [(first, new)], "to {:?}, {}", mode.other(), course.name);
        }
        // The old pair's newly pressed, the new pair's held over, both of it.
        assert_dropped(&pressed.clone().press_in(mode, first, other(side)), end, first, side);
        assert_dropped(&pressed.clone().on(end..=last, &[mode.other().button(side)]), end, first, side);
        assert_dropped(&pressed.clone().on(first..=last, &mode.other().both()), end, first, side);
        // A tick later it is a press like any other.
        let later = pressed.press_in(mode.other(), first + 1, side);
        assert_eq!(later.begun(), [(first + 1, side)], "to {:?}, {}", mode.other(), course.name);
    }
}

#[test]
fn a_button_held_at_a_change_in_the_move_is_not_remembered() {
    for (mode, side, course) in each(long_courses()) {
        let last = course.last();
        for change in 2..=course.first() {
            let held = course.clone().on(change - 1..=last, &[mode.other().button(side)]).turned(change);
            assert_eq!((held.begun(), held.kept()), (vec![], vec![None; last]), "to {:?}, {}", mode.other(), course.name);
        }
    }
}

// A record that stands before the first tick at rest.

#[test]
fn at_rest_the_record_s_mode_decides_on_the_next_tick() {
    for base in [fresh(&[]), fresh_continuous(&[])] {
        for (mode, side) in MODES.into_iter().flat_map(|mode| SIDES.map(|side| (mode, side))) {
            let record = Record { remembered: Some(side), remote: mode.is_remote(), ..base.clone() };
            assert_eq!(run(&record, &[mode.calm()]).0, [(1, side)], "{mode:?}");
            assert_eq!(run(&record, &[mode.other().calm(), mode.calm()]).0, [], "{mode:?}");
            let dropped = tick(&record, &mode.other().calm());
            assert_eq!(dropped, tick(&Record { remembered: None, ..record }, &mode.other().calm()));
        }
    }
}

// What drops it besides.

#[test]
fn in_either_mode_automatic_local_drive_and_out_drop_it() {
    for (mode, side, course) in each(courses()) {
        let pressed = course.clone().press_in(mode, course.end, side);
        for (cause, tick) in [bit::AUTOMATIC, bit::LOCAL_DRIVE, bit::OUT].map(|cause| (cause, course.first())) {
            assert_dropped(&pressed.clone().on(tick..=tick, &[cause]), course.end, tick, side);
        }
    }
    for (mode, side, course) in each(long_courses()) {
        // Pressed before the cause's tick, and on it.
        for press in [2, 4] {
            let pressed = course.clone().press_in(mode, press, side);
            assert_dropped(&pressed.clone().on(4..=4, &[bit::AUTOMATIC]), press, 4, side);
            // These two end the move as well.
            for cause in [bit::LOCAL_DRIVE, bit::OUT] {
                let mut ended = pressed.clone().on(4..=4, &[cause]);
                ended.ticks.truncate(4);
                assert_dropped(&ended, press, 4, side);
                assert_eq!(ended.run().1[3].drive, Drive::Rest);
            }
        }
    }
}

#[test]
fn in_either_mode_each_fault_drops_it() {
    let (closed, t4) = (with(&[bit::SWITCHING]), [(slot::T4, 20)]);
    let ending_badly = [
        (by_button(&[(slot::T5, 20)]).cut(3, &[(16, calm())]), Fault::NotStarted),
        (by_button(&t4).cut(3, &[(21, closed)]), Fault::Long),
        (own(&t4).cut(0, &[(20, closed)]), Fault::Long),
        (by_button(&[(slot::T6, 13)]), Fault::Fast),
    ];
    for (course, fault) in ending_badly {
        for (mode, side, course) in each(vec![course]) {
            let end = course.end;
            for press in [1, end - 1, end] {
                let pressed = course.clone().press_in(mode, press, side);
                assert_eq!(pressed.run().1[end - 1].fault, fault);
                assert_dropped(&pressed, press, end, side);
                assert_dropped(&pressed.on(end + 1..=end + 1, &[bit::RESET]), press, end, side);
            }
        }
    }
    for (mode, side, course) in each(vec![by_button(&[]), own(&[])]) {
        let first = course.first();
        let away = course.clone().press_in(mode, 2, side).on(first..=first, &[bit::SWITCHING]);
        assert_eq!(away.run().1[first - 1].fault, Fault::RunAway);
        assert_dropped(&away, 2, first, side);
    }
}
