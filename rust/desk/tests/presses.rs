//! A press while the drive runs: what the table and the picture tell of it.

mod common;

use common::check_texts;
use common::runs::{told, Run, CONTINUOUS, GONE, IMPULSE, LOWER, RAISE};
use desk::lanes::{self, Lane, Tip};
use desk::seen::Seen;

/// Raise at 1 s; in its move raise at 2 s and lower at 3 s.
const BOTH: &str = "1,1\n1.3,0\n2,1\n2.3,0\n3,,1\n3.3,,0\n";
/// Raise at 1 s and again at 2 s, and automatic at 3 s.
const AUTOMATIC: &str = "1,1\n1.3,0\n2,1\n2.3,0\n3,,,1\n";
/// Raise at 1 s, and lower at 3 s, blocked at rest.
const BLOCKED: &str = "1,1\n1.3,0\n3,,1\n3.3,,0\n4,,,,1\n";
/// Raise at 1 s, held through its move; then both at once, and lower at rest.
const NONE: &str = "1,1\n5,0\n6,1,1\n6.3,0,0\n7,,1\n7.3,,0\n";

/// A run of these buttons, keys and blocks.
fn run(sheet: &str, rows: &str) -> Run {
    Run::new(sheet, "raise,lower,automatic,ext_lower_block", rows)
}

/// The move ends on tick 901, and the command without a contact too; the tick after starts at rest.
#[test]
fn the_table_tells_each_change_on_its_tick() {
    for sheet in [IMPULSE, CONTINUOUS] {
        assert_eq!(run(sheet, BOTH).told(), told(&[(401, RAISE), (601, LOWER), (902, GONE)]), "{sheet}");
        assert_eq!(run(sheet, AUTOMATIC).told(), told(&[(401, RAISE), (601, GONE)]), "{sheet}");
        assert_eq!(run(sheet, BLOCKED).told(), told(&[(601, LOWER), (902, GONE)]), "{sheet}");
        assert_eq!(run(sheet, NONE).told(), told(&[]), "{sheet}");
    }
}

const REPLACED: &str = "
      3.005        601  in   lower button pressed
                        unit lower press remembered
      3.305        661  in   lower button released
";

const CARRIED_OUT: &str = "
      4.510        902  unit remembered press gone
                        out  LOWER command
                        out  tap 10
                        out  drive busy
";

const CARRIED_OUT_UNSEEN: &str = "
      4.510        902  unit remembered press gone
                        out  LOWER command
                        out  drive asked
";

const DROPPED: &str = "
      3.005        601  in   key: automatic
                        unit remembered press gone
                        out  automatic mode
";

#[test]
fn it_stands_after_the_inputs_and_before_the_outputs() {
    for (sheet, rows, lines) in [
        (IMPULSE, BOTH, REPLACED),
        (IMPULSE, BOTH, CARRIED_OUT),
        (IMPULSE, AUTOMATIC, DROPPED),
        (CONTINUOUS, BOTH, REPLACED),
        (CONTINUOUS, BOTH, CARRIED_OUT_UNSEEN),
        (CONTINUOUS, AUTOMATIC, DROPPED),
    ] {
        let table = run(sheet, rows).table();
        assert!(table.contains(lines), "{lines}\n{table}");
    }
}

/// A dropped press begins nothing: one command, and with the press that is carried out two.
#[test]
fn only_a_press_that_is_carried_out_has_its_command() {
    for sheet in [IMPULSE, CONTINUOUS] {
        for (rows, raised, lowered) in [(BOTH, 1, 1), (AUTOMATIC, 1, 0), (BLOCKED, 1, 0)] {
            let table = run(sheet, rows).table();
            let count = |words: &str| table.matches(words).count();
            assert_eq!((count("RAISE command"), count("LOWER command")), (raised, lowered), "{table}");
        }
    }
}

const UP: &str = "remembered: raise";
const DOWN: &str = "remembered: lower";

#[test]
fn the_picture_has_a_lane_where_a_press_was_remembered() {
    for sheet in [IMPULSE, CONTINUOUS] {
        for (rows, up, down) in [(BOTH, true, true), (AUTOMATIC, true, false), (BLOCKED, false, true), (NONE, false, false)] {
            let text = run(sheet, rows).picture();
            let drawn = |label: &str| text.contains(&format!(">{label}</text>"));
            assert_eq!((drawn(UP), drawn(DOWN)), (up, down), "{sheet}{rows}");
            check_texts("presses", &text);
        }
    }
}

#[test]
fn its_lanes_last_as_long_as_it_does_and_point_its_way() {
    let mark = |tip: Tip| match tip {
        Tip::None => "none",
        Tip::Up => "up",
        Tip::Down => "down",
    };
    for sheet in [IMPULSE, CONTINUOUS] {
        let run = run(sheet, BOTH);
        let lanes = lanes::remembered(&Seen::whole(&run.history));
        let seen: Vec<_> =
            lanes.iter().map(|Lane { label, tip, on, .. }| (label.as_str(), mark(*tip), on.as_slice())).collect();
        assert_eq!(seen, [(UP, "up", [(401, 601)].as_slice()), (DOWN, "down", [(601, 902)].as_slice())], "{sheet}");
    }
}

/// The labels from the first contact's on are those of the contacts and keys, and then these.
#[test]
fn its_lanes_are_below_the_buttons() {
    assert_eq!(run(IMPULSE, BOTH).labels(5), ["in: breaker", "in: raise", "in: lower", UP, DOWN]);
}
