//! Pictures of a part of a run: what lies in it and no more, at the run's own time.

mod common;

use common::check_texts;
use common::quiet::{lane, part, points, pulses, quiet, texts, whole, DAY};
use desk::outputs::{LOWER, OPERATIONS, RAISE, TAP};
use desk::run::History;
use desk::svg::{BLUE, VERMILLION};
use library::Sample;

const HOUR: u32 = 3600 * 200;
const MINUTE: u32 = HOUR / 60;

/// A day with a step of the voltage each hour, and what hangs on it.
fn day() -> History {
    let mut history = quiet(DAY);
    let hours = || (0..24).map(|hour| (hour, (hour * HOUR).max(1)));
    history.readings[0] = hours().map(|(hour, tick)| (tick, Sample { quality: 0, value: 90.0 + hour as f32 })).collect();
    history.outputs[TAP] = hours().map(|(hour, tick)| (tick, hour + 1)).collect();
    history.outputs[OPERATIONS] = hours().map(|(hour, tick)| (tick, 100 + hour)).collect();
    history.outputs[RAISE] = pulses((1..24).map(|hour| hour * HOUR), 10 * MINUTE, 1);
    history.outputs[LOWER] = pulses([5 * HOUR], 2 * HOUR, 1);
    history.contacts = vec![(1, 1), (20 * HOUR, 1 | 1 << 3), (21 * HOUR, 1 | 1 << 17)];
    history
}

#[test]
fn it_shows_what_is_in_it_and_no_more() {
    let text = part(&day(), 6 * HOUR - 30 * MINUTE, 7 * HOUR - 30 * MINUTE);
    check_texts("part", &text);
    let texts = texts(&text);
    for words in ["6", "7", "105", "106", "from 06:00:00", "from 05:30:00 to 06:30:00 of 24:00:00"] {
        assert!(texts.contains(&words), "{words}: {texts:?}");
    }
    for words in ["5", "8", "104", "107", "in: oil_cold", "in: U_supp3", "U_supp3 100 V"] {
        assert!(!texts.contains(&words), "{words}: {texts:?}");
    }
    assert_eq!(points(&text, BLUE), [587.5]);
}

/// The lower command of two hours is on all the time, and began before.
#[test]
fn a_bar_that_began_before_has_neither_mark_nor_time() {
    let text = part(&day(), 6 * HOUR - 30 * MINUTE, 7 * HOUR - 30 * MINUTE);
    let bars = lane(&text, "lower command");
    assert_eq!(bars.len(), 1, "{bars:?}");
    assert!(bars[0].starts_with("<rect x=\"205\"") && bars[0].contains(" width=\"765\""), "{bars:?}");
    assert!(points(&text, VERMILLION).is_empty());
    let begins = part(&day(), 5 * HOUR, 6 * HOUR);
    assert_eq!(points(&begins, VERMILLION), [205.0]);
}

/// The scale and the last number are those of the part; the band is 99 to 101 V.
#[test]
fn its_scale_is_by_what_is_in_it() {
    let heights = |text: &str| -> Vec<String> {
        texts(text).iter().take_while(|words| **words != "voltage, V").map(|words| words.to_string()).collect()
    };
    let text = part(&day(), 10 * HOUR, 11 * HOUR - 1);
    assert!(heights(&text).iter().all(|words| !words.starts_with('9') || words.starts_with("99")), "{:?}", heights(&text));
    assert!(heights(&whole(&day())).contains(&"90".to_string()));
}

#[test]
fn its_axis_has_the_runs_own_time() {
    let text = part(&day(), 58 * MINUTE, 62 * MINUTE);
    let texts = texts(&text);
    for words in ["from 00:58:00 to 01:02:00 of 24:00:00", "00:58:00", "01:00:00", "01:02:00", "time, h:min:s"] {
        assert!(texts.contains(&words), "{words}: {texts:?}");
    }
    let text = part(&quiet(70 * 200), 4000, 8001);
    let texts = common::quiet::texts(&text);
    for words in ["from 20 s to 40.005 s of 70 s", "20", "40", "time, s"] {
        assert!(texts.contains(&words), "{words}: {texts:?}");
    }
    assert_eq!(texts.iter().filter(|words| **words == "0").count(), 1, "the operations alone are 0");
}

/// To the tick where little is shown, and to the second where much is.
#[test]
fn times_are_as_exact_as_the_part_is_short() {
    let mut history = quiet(DAY);
    history.outputs[RAISE] = pulses([HOUR + 2101], 20, 1);
    assert!(texts(&part(&history, HOUR, HOUR + 2 * MINUTE)).contains(&"from 01:00:10.505"));
    assert!(texts(&part(&history, HOUR, 2 * HOUR)).contains(&"from 01:00:10"));
    let mut history = quiet(20 * MINUTE);
    history.outputs[RAISE] = pulses([2 * MINUTE + 2101], 20, 1);
    assert!(texts(&part(&history, MINUTE, 3 * MINUTE)).contains(&"from 2:10.505 min"));
    assert!(texts(&whole(&history)).contains(&"from 2:10 min"));
}

#[test]
fn a_whole_run_says_nothing_of_a_part() {
    assert!(!texts(&whole(&day())).iter().any(|words| words.contains(" of ")));
}

#[test]
fn each_part_can_be_read() {
    let day = day();
    for from in (0..DAY).step_by(DAY as usize / 19) {
        for ticks in [1, 200, 3000, HOUR, 7 * HOUR] {
            check_texts(&format!("{from} {ticks}"), &part(&day, from, (from + ticks).min(DAY)));
        }
    }
}
