//! Ticket 7: the panel's pair of buttons and the dispatcher's, each in its mode,
//! and what each remembers of its previous tick.

mod common;

use common::courses::*;
use common::modes::*;
use common::*;
use reference::input::{bit, Input};
use reference::record::{Direction, Drive, Fault, Record};
use reference::sheet::slot;
use reference::tick::tick;

const SIDES: [Direction; 2] = [RAISE, LOWER];

/// Each mode and direction, with both kinds of drive at rest for so many ticks.
fn rests(ticks: usize) -> Vec<(Mode, Direction, Course)> {
    let kinds = [fresh(&[]), fresh_continuous(&[])];
    let modes = MODES.into_iter().flat_map(|mode| SIDES.map(|side| (mode, side)));
    let with_kinds = |(mode, side)| kinds.clone().map(|record| (mode, side, Course::at_rest(record, mode, ticks)));
    modes.flat_map(with_kinds).collect()
}

// Which pair acts.

#[test]
fn the_bits_by_hand() {
    let pressed = [
        (1 << 19, [RAISE].as_slice(), [].as_slice()),
        (1 << 20, &[LOWER], &[]),
        (1 << 22, &[], &[RAISE]),
        (1 << 23, &[], &[LOWER]),
        (1 << 19 | 1 << 22, &[RAISE], &[RAISE]),
        (1 << 19 | 1 << 23, &[RAISE], &[LOWER]),
        (1 << 20 | 1 << 22, &[LOWER], &[RAISE]),
        (1 << 19 | 1 << 20, &[], &[]),
        (1 << 22 | 1 << 23, &[], &[]),
        (1 << 19 | 1 << 20 | 1 << 23, &[], &[LOWER]),
        (1 << 20 | 1 << 22 | 1 << 23, &[LOWER], &[]),
    ];
    for (buttons, local, remote) in pressed {
        for (mode, expected) in [(0, local), (1 << 21, remote)] {
            let mut record = fresh(&[]);
            let mut input = calm();
            input.contacts.0 |= mode;
            step(&mut record, &input);
            input.contacts.0 |= buttons;
            let outputs = step(&mut record, &input);
            let begun: Vec<Direction> =
                SIDES.into_iter().zip(outputs).filter(|&(_, on)| on == 1).map(|(side, _)| side).collect();
            assert_eq!(begun, expected, "mode {mode}, buttons {buttons:b}");
        }
    }
}

#[test]
fn each_pair_commands_in_its_mode() {
    for (mode, side, rest) in rests(6) {
        for tick in [1, 4] {
            let pressed = rest.clone().on(tick..=6, &[mode.button(side)]);
            assert_eq!(pressed.begun(), [(tick, side)], "{mode:?}");
            let (_, records) = pressed.run();
            assert_eq!(records[tick - 1].drive, Drive::Asked { direction: side, age: 0, automatic: false });
        }
    }
}

#[test]
fn the_other_pair_does_not_command() {
    for (mode, _, rest) in rests(8) {
        for buttons in mode.other().presses() {
            assert_eq!(rest.clone().on(3..=3, &buttons).begun(), [], "{mode:?}");
            assert_eq!(rest.clone().on(1..=8, &buttons).begun(), [], "{mode:?}");
            assert_eq!(rest.clone().on(2..=3, &buttons).on(5..=6, &buttons).begun(), [], "{mode:?}");
        }
    }
}

#[test]
fn nor_does_it_stop_a_command_of_the_mode_s_pair() {
    for (mode, side, rest) in rests(8) {
        let pressed = rest.press_in(mode, 5, side);
        for buttons in mode.other().presses() {
            // Held before and after, newly pressed on that tick, let go on it.
            for ticks in [1..=8, 1..=5, 4..=6, 5..=5, 5..=8, 1..=4] {
                let other = pressed.clone().on(ticks.clone(), &buttons);
                assert_eq!(other.begun(), [(5, side)], "{mode:?}, {buttons:?} on {ticks:?}");
            }
        }
        // One held for long, the other newly pressed.
        let [raise, lower] = mode.other().both();
        let either = pressed.clone().on(1..=8, &[raise]).on(5..=5, &[lower]);
        assert_eq!(either.begun(), [(5, side)], "{mode:?}");
    }
}

#[test]
fn both_buttons_of_the_mode_s_pair_command_nothing() {
    for (mode, side, rest) in rests(8) {
        let together = rest.clone().on(5..=7, &mode.both());
        // One held since it was pressed and blocked, the other newly pressed.
        let held = rest.on(1..=7, &[mode.button(side)]).on(1..=1, &[bit::EXTERNAL_BLOCK]);
        let in_turn = held.on(5..=7, &mode.both());
        for two in [together, in_turn] {
            assert_eq!(two.begun(), [], "{mode:?}");
            // One let go: the other was there before.
            assert_eq!(two.clone().on(8..=8, &[mode.button(side)]).begun(), [], "{mode:?}");
            // The other pair's buttons do not turn two into one.
            for buttons in mode.other().presses() {
                assert_eq!(two.clone().on(5..=7, &buttons).begun(), [], "{mode:?}");
                assert_eq!(two.clone().on(1..=8, &buttons).begun(), [], "{mode:?}");
            }
        }
    }
}

#[test]
fn both_modes_are_blocked_alike() {
    for (mode, side, rest) in rests(6) {
        let pressed = rest.press_in(mode, 3, side);
        let way = if side == RAISE { bit::END_UP } else { bit::END_DOWN };
        for block in [bit::EXTERNAL_BLOCK, bit::LOCAL_DRIVE, way] {
            assert_eq!(pressed.clone().on(3..=3, &[block]).begun(), [], "{mode:?}, bit {block}");
        }
        let other_way = if side == RAISE { bit::END_DOWN } else { bit::END_UP };
        assert_eq!(pressed.clone().on(3..=3, &[other_way]).begun(), [(3, side)], "{mode:?}");
        assert_eq!(pressed.on(3..=3, &[bit::AUTOMATIC]).begun(), [], "{mode:?}");
    }
}

// The previous tick.

#[test]
fn a_held_button_does_not_command_when_the_mode_changes_to_it() {
    for (mode, side, rest) in rests(40) {
        let held = mode.other().button(side);
        for (pressed, change) in [(1, 2), (2, 3), (1, 30), (29, 30), (1, 40)] {
            let turned = rest.clone().on(pressed..=40, &[held]).turned(change);
            assert_eq!(turned.begun(), [], "{mode:?}, pressed on {pressed}, changed on {change}");
            // Nor if the mode came and went in between.
            let twice = turned.clone().turned_on(change..=change);
            assert_eq!(twice.begun(), [], "{mode:?}, pressed on {pressed}, changed on {change}");
        }
    }
}

#[test]
fn nor_in_automatic_held_or_pressed() {
    for (mode, side, rest) in rests(40) {
        let held = mode.other().button(side);
        for (pressed, change, manual) in [(1, 10, 10), (1, 10, 20), (1, 20, 10), (9, 10, 10), (10, 10, 11), (15, 10, 16)] {
            let course = rest.clone().on(1..=manual - 1, &[bit::AUTOMATIC]).on(pressed..=40, &[held]).turned(change);
            assert_eq!(course.begun(), [], "{mode:?}, pressed on {pressed}, changed on {change}, manual from {manual}");
        }
    }
}

#[test]
fn a_button_held_through_the_other_mode_is_no_new_press() {
    for (mode, side, rest) in rests(12) {
        // Pressed in its mode, blocked, so that nothing is under way.
        let held = rest.on(2..=12, &[mode.button(side)]).on(2..=2, &[bit::EXTERNAL_BLOCK]);
        for other in [4..=4, 4..=8, 3..=11] {
            assert_eq!(held.clone().turned_on(other.clone()).begun(), [], "{mode:?}, other mode on {other:?}");
        }
    }
}

#[test]
fn let_go_while_the_other_mode_was_on_it_commands_when_pressed_anew() {
    for (mode, side, rest) in rests(20) {
        let button = mode.other().button(side);
        // Held, let go on one tick or more in the other mode, pressed anew.
        for (change, anew) in [(10, 10), (10, 11), (10, 15), (5, 15)] {
            for let_go in [anew - 1, anew - 2, anew - 4] {
                let course = rest.clone().on(1..=let_go - 1, &[button]).on(anew..=20, &[button]).turned(change);
                assert_eq!(course.begun(), [(anew, side)], "{mode:?}, changed on {change}, anew on {anew}");
            }
        }
        // Pressed in its mode, held through the other, let go in it for a tick.
        let own = mode.button(side);
        let away = rest.clone().on(1..=6, &[own]).on(1..=1, &[bit::EXTERNAL_BLOCK]).turned_on(4..=9);
        for anew in 10..=14 {
            let pressed = away.clone().on(anew..=20, &[own]);
            assert_eq!(pressed.begun(), [(anew, side)], "{mode:?}, anew on {anew}");
        }
        // Pressed anew while the other mode is still on: held when it ends.
        assert_eq!(away.clone().on(9..=20, &[own]).begun(), [], "{mode:?}");
    }
}

#[test]
fn a_press_on_the_tick_of_the_change() {
    for (mode, side, rest) in rests(10) {
        let turned = rest.turned(5);
        // Of the new mode's pair it commands, whatever the old one's does.
        let new = turned.clone().on(5..=7, &[mode.other().button(side)]);
        assert_eq!(new.begun(), [(5, side)], "to {:?}", mode.other());
        for buttons in mode.presses() {
            assert_eq!(new.clone().on(5..=7, &buttons).begun(), [(5, side)], "to {:?}", mode.other());
            assert_eq!(turned.clone().on(5..=7, &buttons).begun(), [], "to {:?}", mode.other());
        }
        assert_eq!(turned.clone().on(5..=7, &mode.other().both()).begun(), [], "to {:?}", mode.other());
        // A tick before, each pair still is what the old mode makes of it.
        assert_eq!(turned.clone().on(4..=7, &[mode.other().button(side)]).begun(), []);
        assert_eq!(turned.clone().on(4..=7, &[mode.button(side)]).begun(), [(4, side)]);
        // The new mode's button, with the other of the old pair held till then.
        let held = turned.clone().on(1..=4, &[bit::EXTERNAL_BLOCK]).on(1..=4, &[mode.button(side)]);
        assert_eq!(held.press_in(mode.other(), 5, side).begun(), [(5, side)]);
    }
}

#[test]
fn from_one_button_of_a_pair_straight_to_the_other_over_a_change() {
    for (mode, side, rest) in rests(10) {
        let [this, that] = [side, other(side)].map(|side| mode.other().button(side));
        let course = rest.turned(5).on(1..=4, &[that]).on(5..=10, &[this]);
        assert_eq!(course.begun(), [(5, side)], "to {:?}", mode.other());
        // With the first still held they are two.
        assert_eq!(course.on(5..=6, &[that]).begun(), [], "to {:?}", mode.other());
    }
}

// The fresh record.

#[test]
fn fresh_all_four_buttons_count_as_pressed() {
    for base in [fresh(&[]), fresh_continuous(&[])] {
        for (mode, side) in MODES.into_iter().flat_map(|mode| SIDES.map(|side| (mode, side))) {
            for button in [mode.with(&[mode.button(side)]), mode.with(&ALL_FOUR)] {
                assert_eq!(run(&base, &[button; 20]).0, [], "{mode:?}");
            }
            // Held from the first tick, in the other mode first.
            let elsewhere = [mode.other().with(&[mode.button(side)]); 5];
            let held = [&elsewhere[..], &[mode.with(&[mode.button(side)]); 5]].concat();
            assert_eq!(run(&base, &held).0, [], "{mode:?}");
            // One tick without it, in either mode, and it commands.
            for calm in [mode.calm(), mode.other().calm()] {
                assert_eq!(run(&base, &[calm, mode.with(&[mode.button(side)])]).0, [(2, side)], "{mode:?}");
            }
        }
    }
}

#[test]
fn so_they_do_after_an_out_tick() {
    for (mode, side, rest) in rests(10) {
        let button = mode.button(side);
        for turned in [rest.clone(), rest.clone().turned_on(1..=3)] {
            let out = turned.on(3..=3, &[bit::OUT]);
            assert_eq!(out.run().1[2], Record::fresh(out.record.settings));
            assert_eq!(out.clone().on(4..=10, &[button]).begun(), [], "{mode:?}");
            assert_eq!(out.clone().on(4..=10, &ALL_FOUR).begun(), [], "{mode:?}");
            assert_eq!(out.clone().on(5..=10, &[button]).begun(), [(5, side)], "{mode:?}");
        }
    }
}

#[test]
fn a_sheet_out_of_service_stays_in_local_mode() {
    let mut record = fresh(&[(slot::IN_SERVICE, 0)]);
    step(&mut record, &Mode::Remote.calm());
    assert!(!record.remote && record.remote_raise && record.remote_lower);
}

// What the record holds.

/// Live ticks of every kind, in the order of bits 19 to 23 to be set.
fn live_ticks() -> Vec<(Record, Input)> {
    let faulty = Record { fault: Fault::Fast, ..fresh(&[]) };
    let moving = Record { drive: Drive::Moving { direction: RAISE, length: 3, commanded: true }, ..fresh(&[]) };
    let mut ticks = vec![];
    for record in [fresh(&[]), fresh_continuous(&[]), faulty, moving, by_button(&[]).record, held_by_button(&[]).record] {
        for bits in [&[][..], &[bit::AUTOMATIC], &[bit::LOCAL_DRIVE], &[bit::SWITCHING], &[bit::EXTERNAL_BLOCK, bit::RESET]] {
            ticks.push((record.clone(), with(bits)));
        }
    }
    ticks
}

#[test]
fn every_live_tick_leaves_both_pairs_and_the_mode() {
    for (base, input) in live_ticks() {
        // Bits 19 to 23 before and on the tick.
        for (before, now) in (0..32).flat_map(|before| (0..32_u32).map(move |now| (before, now))) {
            let on = |bits: u32, place: u32| (bits >> place) & 1 == 1;
            let mut record = base.clone();
            (record.raise_button, record.lower_button) = (on(before, 0), on(before, 1));
            (record.remote, record.remote_raise, record.remote_lower) = (on(before, 2), on(before, 3), on(before, 4));
            let mut input = input;
            input.contacts.0 |= now << 19;
            let next = tick(&record, &input).next;
            assert_eq!((next.raise_button, next.lower_button), (on(now, 0), on(now, 1)));
            assert_eq!((next.remote, next.remote_raise, next.remote_lower), (on(now, 2), on(now, 3), on(now, 4)));
        }
    }
}

#[test]
fn bits_from_24_on_change_nothing() {
    for (record, input) in live_ticks() {
        for (mode, bit) in MODES.into_iter().flat_map(|mode| (24..32).map(move |bit| (mode, bit))) {
            for buttons in [vec![], mode.both()[..1].to_vec(), mode.both()[1..].to_vec()] {
                let mut pressed = mode.with(&buttons);
                pressed.contacts.0 |= input.contacts.0;
                // No button was pressed before.
                let (raise_button, lower_button, remote_raise, remote_lower) = (false, false, false, false);
                let before = Record { raise_button, lower_button, remote_raise, remote_lower, ..record.clone() };
                let mut more = pressed;
                more.contacts.0 |= 1 << bit;
                assert_eq!(tick(&before, &more), tick(&before, &pressed), "bit {bit}");
                more.contacts.0 |= 0xFF00_0000;
                assert_eq!(tick(&before, &more), tick(&before, &pressed));
            }
        }
    }
}

#[test]
fn a_change_of_mode_touches_no_command_and_no_wait() {
    for course in courses() {
        let (begun, records) = course.run();
        for tick in 1..=course.last() {
            let (turned_begun, turned) = course.clone().turned(tick).run();
            assert_eq!(turned_begun, begun, "{}, tick {tick}", course.name);
            let back = turned.into_iter().map(|record| Record { remote: false, ..record });
            assert!(back.eq(records.iter().cloned()), "{}, tick {tick}", course.name);
        }
    }
    // A wait in automatic goes on.
    let mut record = fresh(&[]);
    let mut low = auto(98_000, &[]);
    steps(&mut record, &low, 19);
    low.contacts.0 |= 1 << bit::REMOTE;
    assert_eq!(step(&mut record, &low)[0], 1);
}
