//! Ticket 6: a press while the drive runs, what is remembered of it and how it
//! is carried out.

mod common;

use common::courses::*;
use common::*;
use reference::input::bit;
use reference::record::{Direction, Drive};
use reference::sheet::slot;

const SIDES: [Direction; 2] = [RAISE, LOWER];

/// What is kept of one press: from its tick to the end, and no longer.
fn kept_from(course: &Course, tick: usize, direction: Direction) -> Vec<Option<Direction>> {
    (1..=course.last()).map(|number| (tick..=course.end).contains(&number).then_some(direction)).collect()
}

#[test]
fn without_a_press_nothing_is_remembered() {
    for course in courses() {
        assert_eq!(course.begun(), [], "{}", course.name);
        assert_eq!(course.kept(), vec![None; course.last()]);
        let (_, records) = course.run();
        let at_rest = |number: usize| records[number - 1].drive == Drive::Rest;
        assert!((1..course.end).all(|number| !at_rest(number)) && at_rest(course.end), "{}", course.name);
    }
}

#[test]
fn a_press_on_any_tick_to_the_end_is_carried_out_on_the_first_at_rest() {
    for course in courses() {
        for (tick, side) in (1..=course.end).flat_map(|tick| SIDES.map(|side| (tick, side))) {
            let pressed = course.clone().press(tick, side);
            assert_eq!(pressed.begun(), [(course.first(), side)], "{}, tick {tick}", course.name);
            assert_eq!(pressed.kept(), kept_from(&course, tick, side), "{}, tick {tick}", course.name);
        }
    }
}

#[test]
fn the_tick_s_number_by_hand() {
    // Pressed 2 ticks after the command's first, 3 + 12 + 1 ticks to the end.
    assert_eq!(by_button(&[]).press(1, LOWER).begun(), [(17, LOWER)]);
    assert_eq!(own(&[]).press(1, LOWER).begun(), [(8, LOWER)]);
    // On the T4th tick after the first it ends: the 29th of these.
    assert_eq!(held_by_button(&[]).press(1, LOWER).begun(), [(30, LOWER)]);
    assert_eq!(held_by_itself(&[]).press(1, LOWER).begun(), [(2, LOWER)]);
}

#[test]
fn the_latest_replaces_the_earlier_one() {
    for course in long_courses() {
        for (earlier, later) in [(RAISE, LOWER), (LOWER, RAISE), (RAISE, RAISE), (LOWER, LOWER)] {
            for tick in [4, course.end] {
                let pressed = course.clone().press(2, earlier).press(tick, later);
                assert_eq!(pressed.begun(), [(course.first(), later)], "{}", course.name);
                assert_eq!(pressed.kept()[1..3], [Some(earlier); 2]);
                assert_eq!(pressed.kept()[tick - 1], Some(later));
            }
        }
        let thrice = course.clone().press(1, LOWER).press(3, RAISE).press(5, LOWER);
        assert_eq!(thrice.begun(), [(course.first(), LOWER)]);
        // Straight from one button to the other.
        let straight = course.clone().press(2, LOWER).press(3, RAISE);
        assert_eq!(straight.begun(), [(course.first(), RAISE)]);
    }
}

#[test]
fn two_buttons_newly_pressed_together_change_nothing() {
    for course in courses() {
        let both = course.clone().on(course.end..=course.end, &BOTH);
        assert_eq!((both.begun(), both.kept()), (vec![], vec![None; course.last()]));
    }
    for course in long_courses() {
        let both = course.clone().on(4..=4, &BOTH);
        assert_eq!(both.begun(), [], "{}", course.name);
        for side in SIDES {
            let pressed = course.clone().press(2, side).on(4..=4, &BOTH);
            assert_eq!(pressed.begun(), [(course.first(), side)], "{}", course.name);
            assert_eq!(pressed.kept(), kept_from(&course, 2, side));
            // Then one of them is let go: the other was there before.
            let let_go = pressed.on(5..=6, &[button(other(side))]);
            assert_eq!(let_go.begun(), [(course.first(), side)], "{}", course.name);
        }
    }
}

#[test]
fn one_button_held_while_the_other_is_newly_pressed_changes_nothing() {
    for course in long_courses() {
        for side in SIDES {
            let (held, new) = (button(side), button(other(side)));
            // The held one was pressed in the move, and is remembered.
            let in_turn = course.clone().on(2..=4, &[held]).on(3..=5, &[new]);
            assert_eq!(in_turn.begun(), [(course.first(), side)], "{}", course.name);
            assert_eq!(in_turn.kept(), kept_from(&course, 2, side));
            // It was held before the move: nothing is remembered.
            let mut before = course.clone().on(1..=4, &[held]).on(3..=5, &[new]);
            (before.record.raise_button, before.record.lower_button) = (side == RAISE, side == LOWER);
            assert_eq!((before.begun(), before.kept()), (vec![], vec![None; course.last()]), "{}", course.name);
        }
    }
}

#[test]
fn a_held_button_is_no_press() {
    for course in courses() {
        for side in SIDES {
            let mut held = course.clone().on(1..=course.last(), &[button(side)]);
            (held.record.raise_button, held.record.lower_button) = (side == RAISE, side == LOWER);
            assert_eq!((held.begun(), held.kept()), (vec![], vec![None; course.last()]), "{}", course.name);
        }
    }
    // Pressed, then held: one press, which a later one replaces for good.
    for course in long_courses() {
        let pressed = course.clone().press(2, LOWER).on(4..=course.end, &[bit::RAISE_BUTTON]);
        assert_eq!(pressed.begun(), [(course.first(), RAISE)]);
        let pressed = course.clone().on(2..=5, &[bit::RAISE_BUTTON]).press(6, LOWER);
        assert_eq!(pressed.kept()[5], Some(LOWER));
    }
}

/// Contacts that block a raise, by mode or by direction.
const RAISE_BLOCKS: [u32; 8] = [
    bit::SUPPLY_OFF,
    bit::OIL_COLD,
    bit::OIL_LOW,
    bit::OIL_HIGH,
    bit::EXTERNAL_OVERCURRENT,
    bit::EXTERNAL_BLOCK,
    bit::END_UP,
    bit::EXTERNAL_RAISE_BLOCK,
];

#[test]
fn blocks_aside_while_it_is_made() {
    for course in courses() {
        for block in RAISE_BLOCKS {
            let blocked = course.clone().press(1, RAISE).on(1..=course.end, &[block]);
            assert_eq!(blocked.begun(), [(course.first(), RAISE)], "{}, bit {block}", course.name);
            let blocked = course.clone().press(course.end, RAISE).on(course.end..=course.end, &[block]);
            assert_eq!(blocked.begun(), [(course.first(), RAISE)], "{}, bit {block}", course.name);
        }
    }
    // A blocked press replaces an earlier one too.
    for course in long_courses() {
        let pressed = course.clone().press(2, LOWER).press(4, RAISE).on(4..=4, &[bit::END_UP]);
        assert_eq!(pressed.begun(), [(course.first(), RAISE)]);
    }
}

#[test]
fn carried_out_whatever_the_buttons_do_unless_there_is_a_real_press() {
    for course in courses() {
        let (first, last) = (course.first(), course.last());
        for side in SIDES {
            let (this, that) = (button(side), button(other(side)));
            let pressed = course.clone().press(course.end, side);
            for held in [
                course.clone().on(course.end..=last, &[this]),
                pressed.clone().on(first..=first, &BOTH),
                pressed.clone().on(first..=last, &BOTH),
                // The same one still held while the other is newly pressed.
                pressed.clone().on(first..=last, &[this]).on(first..=first, &[that]),
            ] {
                assert_eq!(held.begun(), [(first, side)], "{}", course.name);
            }
        }
    }
    for course in long_courses() {
        let (first, last) = (course.first(), course.last());
        for side in SIDES {
            let (this, that) = (button(side), button(other(side)));
            // Both held over, and only the other one.
            let both = course.clone().on(2..=last, &[this]).on(3..=last, &[that]);
            assert_eq!(both.begun(), [(first, side)], "{}", course.name);
            let that_one = course.clone().on(2..=4, &[this]).on(3..=last, &[that]);
            assert_eq!(that_one.begun(), [(first, side)], "{}", course.name);
            // Both newly pressed on that tick.
            let both_new = course.clone().press(2, side).on(first..=first, &BOTH);
            assert_eq!(both_new.begun(), [(first, side)], "{}", course.name);
        }
    }
}

#[test]
fn a_real_press_on_that_tick_wins() {
    for course in courses() {
        let first = course.first();
        for (side, real) in [(RAISE, LOWER), (LOWER, RAISE)] {
            let pressed = course.clone().press(course.end, side).press(first, real);
            assert_eq!(pressed.begun(), [(first, real)], "{}", course.name);
            assert_eq!(pressed.kept()[first - 1..], vec![None; 6]);
        }
    }
    for course in long_courses() {
        let first = course.first();
        for side in SIDES {
            let pressed = course.clone().press(2, side).press(first, side);
            assert_eq!(pressed.begun(), [(first, side)], "{}", course.name);
        }
    }
}

#[test]
fn a_real_press_wins_blocked_or_not() {
    for course in long_courses() {
        let first = course.first();
        let lowered = course.clone().press(2, RAISE).press(first, LOWER);
        // Its own way is blocked: nothing begins, then or later.
        for block in [bit::END_DOWN, bit::EXTERNAL_LOWER_BLOCK, bit::EXTERNAL_BLOCK] {
            let blocked = lowered.clone().on(first..=first, &[block]);
            assert_eq!(blocked.begun(), [], "{}, bit {block}", course.name);
            assert_eq!(blocked.kept()[first - 1..], vec![None; 6]);
        }
        // The remembered one's way is.
        let unblocked = lowered.clone().on(first..=first, &[bit::END_UP]);
        assert_eq!(unblocked.begun(), [(first, LOWER)], "{}", course.name);
        // Both to the same, blocked side.
        let same = course.clone().press(2, RAISE).press(first, RAISE).on(first..=first, &[bit::END_UP]);
        assert_eq!(same.begun(), [], "{}", course.name);
    }
}

#[test]
fn blocked_on_that_tick_it_is_dropped() {
    for course in courses() {
        let first = course.first();
        let pressed = course.clone().press(course.end, RAISE);
        for block in RAISE_BLOCKS {
            for until in [first, first + 1] {
                let blocked = pressed.clone().on(first..=until, &[block]);
                assert_eq!(blocked.begun(), [], "{}, bit {block}", course.name);
                assert_eq!(blocked.kept(), kept_from(&course, course.end, RAISE));
            }
            // A tick later the command is there, and stays.
            let later = pressed.clone().on(first + 1..=first + 3, &[block]);
            assert_eq!(later.begun(), [(first, RAISE)], "{}, bit {block}", course.name);
            // Another press soon after is one like any other.
            let again = pressed.clone().on(first..=first, &[block]).press(first + 2, RAISE);
            assert_eq!(again.begun(), [(first + 2, RAISE)], "{}, bit {block}", course.name);
        }
        let other_way = pressed.on(first..=first, &[bit::END_DOWN, bit::EXTERNAL_LOWER_BLOCK]);
        assert_eq!(other_way.begun(), [(first, RAISE)], "{}", course.name);
    }
}

#[test]
fn organs_that_trip_and_end_taps_block_it_on_that_tick_alone() {
    for course in courses_with(&[(slot::ORGANS_BLOCK_MANUAL, 1), (slot::T9 + 3, 0), (slot::VOLTAGE_ORGANS_PASS, 1)]) {
        let first = course.first();
        let mut tripping = calm();
        tripping.u_ab = good(121_000);
        let pressed = course.clone().press(course.end, RAISE);
        assert_eq!(pressed.clone().put(first, tripping).begun(), [], "{}", course.name);
        assert_eq!(pressed.begun(), [(first, RAISE)]);
    }
    // The counted tap that the move leaves is the end tap on the tick after it.
    for (n_pos, begun) in [(38, vec![(17, RAISE)]), (39, vec![])] {
        let sheet = [(slot::TAP_SOURCE, 3), (slot::BLOCK_AT_END_TAP, 1), (slot::N_POS, n_pos)];
        assert_eq!(by_button(&sheet).press(2, RAISE).begun(), begun);
        assert_eq!(by_button(&sheet).press(2, LOWER).begun(), [(17, LOWER)]);
    }
}
