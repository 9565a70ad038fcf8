//! Pictures of long runs: hours on the axis, marks at their commands, chatter, and numbers that are close together.

mod common;

use common::quiet::{lane, place, points, pulses, quiet, sheet, texts, whole, DAY};
use common::{check_texts, Dice};
use desk::outputs::{LOWER, OPERATIONS, RAISE, TAP, WORN};
use desk::picture::{picture, View};
use desk::run::History;
use desk::svg::{BLUE, VERMILLION};
use library::{Sample, FIELDS};

/// The marks of the axis and its name: the last texts.
fn axis(history: &History) -> Vec<String> {
    let text = whole(history);
    let texts = texts(&text);
    let last = texts.iter().rposition(|words| *words == "in: breaker").expect("the last lane");
    texts[last + 1..].iter().map(|words| words.to_string()).collect()
}

#[test]
fn time_is_told_in_seconds_minutes_or_hours() {
    let marks = |ticks: u32| axis(&quiet(ticks)).join(" ");
    assert_eq!(marks(70 * 200), "0 10 20 30 40 50 60 70 time, s");
    assert_eq!(marks(1), "0 0.001 0.002 0.003 0.004 0.005 time, s");
    assert_eq!(marks(300 * 200), "0 30 60 90 120 150 180 210 240 270 300 time, s");
    assert_eq!(marks(6 * 60 * 200), "0:00 0:30 1:00 1:30 2:00 2:30 3:00 3:30 4:00 4:30 5:00 5:30 6:00 time, min:s");
    assert_eq!(marks(40 * 60 * 200), "0 5 10 15 20 25 30 35 40 time, min");
    assert_eq!(
        marks(3 * 3600 * 200),
        "00:00 00:15 00:30 00:45 01:00 01:15 01:30 01:45 02:00 02:15 02:30 02:45 03:00 time, h:min"
    );
    assert_eq!(marks(DAY), "00:00 02:00 04:00 06:00 08:00 10:00 12:00 14:00 16:00 18:00 20:00 22:00 24:00 time, h:min");
}

#[test]
fn an_axis_of_any_length_has_some_marks_and_not_too_many() {
    let mut dice = Dice(3);
    for bits in 0..32 {
        let history = quiet((1 << bits) + dice.below(1 << bits));
        let marks = axis(&history);
        assert!((4..=15).contains(&marks.len()), "{}: {marks:?}", history.ticks);
        check_texts(&history.ticks.to_string(), &whole(&history));
    }
}

/// Sixty commands each way, at any times of a day.
#[test]
fn each_mark_is_where_its_command_begins() {
    let (mut history, mut dice) = (quiet(DAY), Dice(9));
    let starts: Vec<u32> = (0..60).map(|n| n * DAY / 60 + 2000 + dice.below(DAY / 90)).collect();
    let later: Vec<u32> = starts.iter().map(|start| start + 40_000).collect();
    history.outputs[RAISE] = pulses(starts.iter().copied(), 400, 1);
    history.outputs[LOWER] = pulses(later.iter().copied(), 30_000, 1);
    let text = whole(&history);
    check_texts("marks", &text);
    for (colour, starts) in [(BLUE, starts), (VERMILLION, later)] {
        let points = points(&text, colour);
        assert_eq!(points.len(), starts.len());
        for (point, start) in points.iter().zip(starts) {
            assert!((point - place(&history, start)).abs() < 0.06, "{point} {start}");
        }
    }
}

#[test]
fn a_long_command_has_its_mark_at_its_start_too() {
    let mut history = quiet(70 * 200);
    history.outputs[RAISE] = pulses([2000], 9000, 1);
    assert_eq!(points(&whole(&history), BLUE), [(place(&history, 2000) * 10.0).round() / 10.0]);
}

/// Twelve commands in as many minutes: one mark, and how many they are.
#[test]
fn commands_too_close_to_be_drawn_apart_are_counted() {
    let mut history = quiet(DAY);
    history.outputs[RAISE] = pulses((0..12).map(|n| DAY / 2 + n * 12_000), 400, 1);
    let text = whole(&history);
    assert_eq!(points(&text, BLUE).len(), 1);
    assert!(texts(&text).contains(&"×12 from 12:00:00"), "{:?}", texts(&text));
    history.outputs[RAISE] = pulses([DAY / 2], 400, 1);
    assert!(texts(&whole(&history)).contains(&"from 12:00:00"));
}

/// Two contacts for an hour: one is on, the other goes on and off.
#[test]
fn a_contact_that_chatters_is_told_from_one_that_is_on() {
    let (on, chatters) = (1 << 3, 1 << 9);
    let hour = 3600 * 200;
    let mut history = quiet(DAY);
    let is_on = |tick: u32| if tick % 400 < 200 { on | chatters | 1 } else { on | 1 };
    let changes = (DAY / 2..DAY / 2 + hour).step_by(200).map(|tick| (tick, is_on(tick)));
    history.contacts = [(1, 1)].into_iter().chain(changes).chain([(DAY / 2 + hour, 1)]).collect();
    let text = whole(&history);
    check_texts("chatter", &text);
    let (solid, striped) = (lane(&text, "in: oil_cold"), lane(&text, "in: ext_block"));
    assert_eq!(solid.len(), 1, "{solid:?}");
    assert!(solid[0].contains("fill=\"#009E73\" stroke="));
    assert!(striped[0].contains("fill=\"#009E73\" fill-opacity=\"0.4\"") && striped.len() > 3, "{striped:?}");
    assert!(striped.iter().any(|line| line.ends_with(">×1800</text>")), "{striped:?}");
    assert!(text.contains("on and off too often to draw apart"));
    history.contacts = pulses([DAY / 2], hour, on);
    assert!(!whole(&history).contains("on and off too often"));
}

/// A short opening of a contact that is on for hours leaves two bars.
#[test]
fn what_is_on_for_long_stays_whole_beside_chatter() {
    let mut history = quiet(DAY);
    history.contacts = pulses([DAY / 4, DAY / 2 + 1], DAY / 4, 1 << 3);
    let text = whole(&history);
    assert_eq!(lane(&text, "in: oil_cold").iter().filter(|line| line.starts_with("<rect")).count(), 2);
    assert!(!text.contains("on and off too often"));
}

#[test]
fn numbers_without_room_are_told_as_a_range() {
    let mut history = quiet(DAY);
    history.outputs[TAP] = (0..12).map(|n| (DAY / 2 + n * DAY / 150, 12 + n)).collect();
    history.outputs[TAP].insert(0, (1, 9));
    let text = whole(&history);
    check_texts("ranges", &text);
    let words: Vec<&str> = lane(&text, "tap").into_iter().filter(|line| line.starts_with("<text")).collect();
    let words: Vec<&str> = words.iter().map(|line| common::between(line, ">", "<")).collect();
    assert_eq!(words, ["9", "12-19", "23"]);
    history.outputs[TAP] = (0..100_000).map(|n| (1 + n * 50, n % 3)).collect();
    let text = whole(&history);
    assert!(texts(&text).contains(&"1-2 or not known"));
    assert!(lane(&text, "tap").len() < 200);
}

#[test]
fn operations_have_a_lane_where_they_are_counted_with_a_mark_at_n_max() {
    let mut history = quiet(DAY);
    history.outputs[OPERATIONS] = vec![(1, 98), (DAY / 4, 99), (DAY / 2, 100)];
    history.outputs[WORN] = vec![(1, 0), (DAY / 2, 1)];
    let text = whole(&history);
    let boxes = lane(&text, "operations");
    assert!(["98", "99", "100"].iter().all(|words| boxes.iter().any(|line| line.ends_with(&format!(">{words}</text>")))));
    assert_eq!(points(&text, VERMILLION), [place(&history, DAY / 2)]);
    assert!(text.contains(" · N_max 50000") && texts(&text).contains(&"from 12:00:00"));
    let without = picture(&history, &sheet(false), View::whole("none", DAY));
    assert!(!without.contains(">operations<") && !without.contains("N_max 5"));
}

/// A reading that is missing has a lane; a number that is out of range leaves the axis as it was.
#[test]
fn missing_readings_have_lanes_and_do_not_stretch_the_axis() {
    let marks = |text: &str| texts(text).into_iter().take_while(|words| *words != "voltage, V").collect::<Vec<_>>().join(" ");
    let mut history = quiet(DAY);
    let before = whole(&history);
    assert!(!before.contains(">missing: "));
    history.readings[0] = [(1, 100.0), (DAY / 2, 900.0), (DAY / 2 + 90_000, 100.0), (DAY / 4 * 3, -5.0), (DAY - 9, 100.0)]
        .map(|(tick, value)| (tick, Sample { quality: 0, value }))
        .to_vec();
    history.missing = vec![(1, 0), (DAY / 2, 1), (DAY / 2 + 90_000, 0), (DAY / 4 * 3, 1), (DAY - 9, 0)];
    let text = whole(&history);
    assert_eq!(marks(&text), marks(&before));
    assert!(lane(&text, "missing: U_AB").iter().any(|line| line.ends_with(">from 12:00:00</text>")));
    check_texts("missing", &text);
}

/// Everything changes on every tick.
#[test]
fn chatter_and_noise_give_a_small_picture() {
    let (mut history, mut dice) = (quiet(400_000), Dice(1));
    let ticks = 1..=400_000;
    let noise = |dice: &mut Dice| Sample { quality: dice.below(3), value: dice.below(9000) as f32 / 50.0 };
    history.readings.iter_mut().for_each(|signal| *signal = ticks.clone().map(|tick| (tick, noise(&mut dice))).collect());
    history.contacts = ticks.clone().map(|tick| (tick, dice.next())).collect();
    history.missing = ticks.clone().map(|tick| (tick, dice.below(1 << 12))).collect();
    for field in 0..FIELDS {
        history.outputs[field] = ticks.clone().map(|tick| (tick, dice.below(if field == TAP { 40 } else { 2 }))).collect();
    }
    let text = whole(&history);
    assert!(text.len() < 1_000_000, "{}", text.len());
    check_texts("noise", &text);
}
