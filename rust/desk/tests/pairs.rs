//! The panel's buttons and the dispatcher's: which pair acts, and what the table and the picture tell of it.

mod common;

use common::check_texts;
use common::runs::{told, Run, CONTINUOUS, GONE, IMPULSE, LOWER, RAISE};
use desk::lanes::{self, Lane};
use desk::seen::Seen;

const COLUMNS: &str = "raise,lower,remote,remote_raise,remote_lower";
/// The raise and the lower that act in local mode, and those of remote mode.
const PAIRS: [[&str; 2]; 2] = [["raise", "lower"], ["remote_raise", "remote_lower"]];
const COMMANDS: [&str; 2] = ["RAISE command", "LOWER command"];

fn run(sheet: &str, rows: &[String]) -> Run {
    Run::new(sheet, COLUMNS, &rows.concat())
}

/// From this time on the column is so.
fn turn(seconds: &str, column: &str, on: usize) -> String {
    let place = COLUMNS.split(',').position(|name| name == column).expect("a column");
    format!("{seconds},{}{on}\n", ",".repeat(place))
}

/// A button pressed for 0.3 s.
fn press(second: u32, button: &str) -> String {
    turn(&second.to_string(), button, 1) + &turn(&format!("{second}.3"), button, 0)
}

/// Each mode, the raise and the lower that act in it, and those that do not.
fn modes() -> [(usize, [&'static str; 2], [&'static str; 2]); 2] {
    [0, 1].map(|remote| (remote, PAIRS[remote], PAIRS[1 - remote]))
}

#[test]
fn the_pair_of_its_mode_commands_and_the_other_does_not() {
    for sheet in [IMPULSE, CONTINUOUS] {
        for (remote, acts, idle) in modes() {
            for way in [0, 1] {
                let commands = |button: &str| run(sheet, &[turn("0.5", "remote", remote), press(1, button)]).commands();
                assert_eq!(commands(acts[way]), told(&[(201, COMMANDS[way])]), "{sheet}{}", acts[way]);
                assert_eq!(commands(idle[way]), told(&[]), "{sheet}{}", idle[way]);
            }
        }
    }
}

/// The move of a raise at 1 s ends on tick 901; the tick after starts at rest.
#[test]
fn the_pair_of_its_mode_is_remembered_and_the_other_is_not() {
    for sheet in [IMPULSE, CONTINUOUS] {
        for (remote, acts, idle) in modes() {
            for (way, words) in [RAISE, LOWER].into_iter().enumerate() {
                let pressed = |button: &str| run(sheet, &[turn("0.5", "remote", remote), press(1, acts[0]), press(2, button)]);
                let (heard, unheard) = (pressed(acts[way]), pressed(idle[way]));
                assert_eq!(heard.told(), told(&[(401, words), (902, GONE)]), "{sheet}{}", acts[way]);
                assert_eq!(heard.commands(), told(&[(201, COMMANDS[0]), (902, COMMANDS[way])]), "{sheet}{}", acts[way]);
                assert_eq!(unheard.told(), told(&[]), "{sheet}{}", idle[way]);
                assert_eq!(unheard.commands(), told(&[(201, COMMANDS[0])]), "{sheet}{}", idle[way]);
            }
        }
    }
}

/// Raise at 1 s, lower in its move at 2 s, and the other mode at 3 s.
fn changed(sheet: &str, remote: usize) -> Run {
    let [raise, lower] = PAIRS[remote];
    run(sheet, &[turn("0.5", "remote", remote), press(1, raise), press(2, lower), turn("3", "remote", 1 - remote)])
}

#[test]
fn a_change_of_mode_drops_a_remembered_press_on_its_tick() {
    for sheet in [IMPULSE, CONTINUOUS] {
        for remote in [0, 1] {
            let run = changed(sheet, remote);
            assert_eq!(run.told(), told(&[(401, LOWER), (601, GONE)]), "{sheet}{remote}");
            assert_eq!(run.commands(), told(&[(201, COMMANDS[0])]), "{sheet}{remote}");
        }
    }
}

/// The tick brings and gives out nothing else, and what follows is the end of the move.
#[test]
fn the_table_tells_the_key_and_then_that_the_press_is_gone() {
    for sheet in [IMPULSE, CONTINUOUS] {
        for (remote, key) in [(0, "key: remote mode"), (1, "key: local mode")] {
            let lines =
                format!("\n      3.005        601  in   {key}\n                        unit {GONE}\n      4.505        901  ");
            let table = changed(sheet, remote).table();
            assert!(table.contains(&lines), "{lines}\n{table}");
        }
    }
}

/// Both mode and button at 1 s, and in the move of the other pair at 3 s.
#[test]
fn on_the_tick_of_a_change_the_new_modes_pair_acts() {
    for sheet in [IMPULSE, CONTINUOUS] {
        assert_eq!(run(sheet, &["1,,,1,1\n".into()]).commands(), told(&[(201, COMMANDS[0])]), "{sheet}");
        assert_eq!(run(sheet, &["1,1,,1\n".into()]).commands(), told(&[]), "{sheet}");
        let moved = run(sheet, &[press(1, "raise"), press(2, "raise"), "3,,,1,,1\n".into()]);
        assert_eq!(moved.told(), told(&[(401, RAISE), (601, LOWER), (902, GONE)]), "{sheet}");
        assert_eq!(moved.commands(), told(&[(201, COMMANDS[0]), (902, COMMANDS[1])]), "{sheet}");
    }
}

#[test]
fn a_button_held_as_the_mode_changes_is_no_press() {
    for sheet in [IMPULSE, CONTINUOUS] {
        for (remote, [raise, lower], [other, _]) in modes() {
            let before = turn("0.1", "remote", 1 - remote);
            let held =
                [before.clone(), turn("0.5", raise, 1), turn("1", "remote", remote), turn("2", raise, 0), press(3, raise)];
            assert_eq!(run(sheet, &held).commands(), told(&[(601, COMMANDS[0])]), "{sheet}{raise}");
            let moving = [before, press(1, other), turn("2", lower, 1), turn("3", "remote", remote), turn("4", lower, 0)];
            assert_eq!(run(sheet, &moving).told(), told(&[]), "{sheet}{lower}");
            assert_eq!(run(sheet, &moving).commands(), told(&[(201, COMMANDS[0])]), "{sheet}{lower}");
        }
    }
}

/// Each key and button on and off.
fn all(sheet: &str) -> Run {
    let dispatcher = [turn("1", "remote", 1), press(2, "remote_raise"), press(3, "remote_lower"), turn("4", "remote", 0)];
    run(sheet, &[dispatcher.concat(), press(5, "raise"), press(6, "lower")])
}

#[test]
fn the_table_has_words_for_each_key_and_button() {
    for sheet in [IMPULSE, CONTINUOUS] {
        let mut lines = all(sheet).lines("in   ");
        lines.retain(|(_, words)| ["key: ", "dispatcher's ", "raise ", "lower "].iter().any(|begin| words.starts_with(begin)));
        let wanted = [
            (201, "key: remote mode"),
            (401, "dispatcher's raise pressed"),
            (461, "dispatcher's raise released"),
            (601, "dispatcher's lower pressed"),
            (661, "dispatcher's lower released"),
            (801, "key: local mode"),
            (1001, "raise button pressed"),
            (1061, "raise button released"),
            (1201, "lower button pressed"),
            (1261, "lower button released"),
        ];
        assert_eq!(lines, told(&wanted), "{sheet}");
    }
}

#[test]
fn the_picture_has_a_lane_for_each_that_is_ever_on() {
    for (sheet, continuous) in [(IMPULSE, false), (CONTINUOUS, true)] {
        let all = all(sheet);
        let lanes = lanes::contacts(&Seen::whole(&all.history), continuous);
        let seen: Vec<_> = lanes.iter().map(|Lane { label, on, .. }| (label.as_str(), on.as_slice())).collect();
        let wanted = [
            ("in: breaker", [(1, 2000)].as_slice()),
            ("in: raise", &[(1001, 1061)]),
            ("in: lower", &[(1201, 1261)]),
            ("in: remote", &[(201, 801)]),
            ("in: remote_raise", &[(401, 461)]),
            ("in: remote_lower", &[(601, 661)]),
        ];
        assert_eq!(seen, wanted, "{sheet}");
        assert!(!run(sheet, &[press(1, "raise")]).picture().contains(">in: remote"), "{sheet}");
    }
}

#[test]
fn its_labels_stand_below_each_other_with_the_remembered_press_last() {
    for sheet in [IMPULSE, CONTINUOUS] {
        let run = all(sheet);
        let wanted = ["breaker", "raise", "lower", "remote", "remote_raise", "remote_lower"].map(|name| format!("in: {name}"));
        let labels = run.labels(8);
        assert_eq!(labels[..6], wanted, "{sheet}");
        assert_eq!(labels[6..], ["remembered: raise", "remembered: lower"], "{sheet}");
        check_texts("pairs", &run.picture());
    }
}
