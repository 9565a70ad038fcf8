//! What must hold on every tick, over many chance ones.

mod common;

use common::any::{any_input, any_record};
use reference::dice::Dice;
use reference::input::{bit, Input};
use reference::make_sheet;
use reference::record::{within_limits, Drive, Fault, Record};
use reference::scene::Scene;
use reference::sheet::{is_continuous, slot, Settings};
use reference::tick::{tick, Ticked, OUTPUTS};

/// What holds of every accepted tick.
fn assert_sound(before: &Record, ticked: &Ticked) {
    let outputs = &ticked.outputs;
    let next = &ticked.next;
    assert_eq!(ticked.refusal, 0);
    assert!(within_limits(next), "{before:?}\n{next:?}");
    assert_eq!(next.settings, before.settings);
    assert!(outputs[0] + outputs[1] <= 1, "raise and lower together");
    assert!(outputs[17] + outputs[18] <= 1, "low and high together");
    assert!(outputs[19..=22].iter().sum::<u32>() <= 1, "two faults");
    assert!(outputs[4] + outputs[5] <= 1, "wrong code and range error");
    assert!(outputs[0] + outputs[1] <= outputs[24], "a command at rest");
    let flags = (0..OUTPUTS).filter(|field| ![3, 25].contains(field));
    assert!(flags.into_iter().all(|field| outputs[field] <= 1));
    assert_sound_memory(before, ticked);
    if is_continuous(&before.settings) {
        assert_sound_without_contact(before, ticked);
    }
}

/// What holds of the remembered press: none beside a fault or in automatic, none
/// after a tick that started at rest, so none beside a command that just began.
fn assert_sound_memory(before: &Record, ticked: &Ticked) {
    let next = &ticked.next;
    let free = before.drive == Drive::Rest || next.fault != Fault::None || ticked.outputs[27] == 1;
    assert!(!free || next.remembered.is_none(), "{before:?}\n{next:?}");
    let began = before.drive == Drive::Rest && next.drive != Drive::Rest;
    assert!(!began || next.remembered.is_none(), "{before:?}\n{next:?}");
}

/// What holds besides of a drive without the contact.
fn assert_sound_without_contact(before: &Record, ticked: &Ticked) {
    let outputs = &ticked.outputs;
    let next = &ticked.next;
    assert_eq!([outputs[19], outputs[20], outputs[22]], [0; 3], "a fault other than 'long'");
    assert_eq!(outputs[0] + outputs[1], outputs[24], "at work without a command");
    assert!(next.last_direction.is_none() || next.last_direction == before.last_direction);
    assert!(matches!(next.drive, Drive::Rest | Drive::Asked { .. }));
    if let (Drive::Asked { direction, age, automatic }, Drive::Asked { .. }) = (before.drive, next.drive) {
        assert_eq!(next.drive, Drive::Asked { direction, age: age + 1, automatic }, "another command");
    }
    if next.fault == Fault::Long && before.fault == Fault::None {
        let last = before.settings[slot::T4] - 1;
        assert!(matches!(before.drive, Drive::Asked { age, automatic: true, .. } if age == last), "'long' too early");
        assert_eq!(outputs[13..=16], [1; 4]);
    }
}

/// A tick that differs in bit 1 alone.
fn contact_turned(input: &Input) -> Input {
    let mut other = *input;
    other.contacts.0 ^= 1 << bit::SWITCHING;
    other
}

/// A tick with the panel's and the dispatcher's buttons and the modes exchanged.
fn pairs_exchanged(input: &Input) -> Input {
    let (panel, dispatcher) = (input.contacts.0 >> 19 & 3, input.contacts.0 >> 22 & 3);
    let others = (input.contacts.0 ^ 1 << 21) & !(0b11011 << 19);
    let mut exchanged = *input;
    exchanged.contacts.0 = others | panel << 22 | dispatcher << 19;
    exchanged
}

/// The same of a record.
fn record_exchanged(record: &Record) -> Record {
    Record {
        raise_button: record.remote_raise,
        lower_button: record.remote_lower,
        remote_raise: record.raise_button,
        remote_lower: record.lower_button,
        remote: !record.remote,
        ..record.clone()
    }
}

/// A tick on which the buttons that do not act are turned over.
fn other_pair_turned(input: &Input) -> Input {
    let mut other = *input;
    other.contacts.0 ^= if input.contacts.on(bit::REMOTE) { 3 << 19 } else { 3 << 22 };
    other
}

/// The two pairs differ in nothing but their mode, and of the other mode's pair
/// nothing but the memory of its own buttons goes by.
fn assert_pairs_apart(record: &Record, input: &Input, ticked: &Ticked) {
    let exchanged = tick(&record_exchanged(record), &pairs_exchanged(input));
    assert_eq!((exchanged.outputs, &record_exchanged(&exchanged.next)), (ticked.outputs, &ticked.next));
    let turned = tick(record, &other_pair_turned(input));
    assert_eq!(turned.outputs, ticked.outputs);
    let next = match input.contacts.on(bit::REMOTE) {
        true => {
            Record { raise_button: !ticked.next.raise_button, lower_button: !ticked.next.lower_button, ..ticked.next.clone() }
        }
        false => {
            Record { remote_raise: !ticked.next.remote_raise, remote_lower: !ticked.next.remote_lower, ..ticked.next.clone() }
        }
    };
    assert_eq!(turned.next, next);
}

#[test]
fn scenes_stay_sound() {
    for seed in 0..100 {
        let mut scene = Scene::new(seed);
        for _ in 0..1_000 {
            let before = scene.record.clone();
            let (_, ticked) = scene.next_tick();
            assert_sound(&before, &ticked);
        }
    }
}

#[test]
fn without_the_contact_bit_1_is_ignored() {
    let mut ticks = 0;
    for seed in 0..100 {
        let mut scene = Scene::new(seed);
        if !is_continuous(&scene.record.settings) {
            continue;
        }
        for _ in 0..1_000 {
            let before = scene.record.clone();
            let (input, ticked) = scene.next_tick();
            assert_eq!(ticked, tick(&before, &contact_turned(&input)));
            ticks += 1;
        }
    }
    assert!(ticks > 30_000, "{ticks}");
}

#[test]
fn with_the_contact_nothing_goes_by_the_command_s_mode() {
    let mut asked = 0;
    for seed in 0..100 {
        let mut scene = Scene::new(seed);
        for _ in 0..1_000 {
            let mut other = scene.record.clone();
            let (input, ticked) = scene.next_tick();
            if is_continuous(&other.settings) {
                break;
            }
            if let Drive::Asked { automatic, .. } = &mut other.drive {
                *automatic = !*automatic;
                asked += 1;
                assert_eq!(tick(&other, &input).outputs, ticked.outputs);
            }
        }
    }
    assert!(asked > 1_000, "{asked}");
}

#[test]
fn scenes_show_everything() {
    let mut shown = [0_u32; OUTPUTS];
    for seed in 0..60 {
        let mut scene = Scene::new(seed);
        for _ in 0..1_500 {
            let (_, ticked) = scene.next_tick();
            for (count, output) in shown.iter_mut().zip(ticked.outputs) {
                *count += u32::from(output > 0);
            }
        }
    }
    for (field, count) in shown.iter().enumerate() {
        assert!(*count > 50, "output {field} was on {count} times only");
    }
}

#[test]
fn chance_sheets_are_taken() {
    for seed in 0..2_000 {
        let list = make_sheet::sheet(&mut Dice::new(seed));
        assert_eq!(Record::start(&list), Ok(Record::fresh(list)));
    }
}

#[test]
fn chance_sheets_are_of_both_kinds_of_drive() {
    let sheets: Vec<Settings> = (0..2_000).map(|seed| make_sheet::sheet(&mut Dice::new(seed))).collect();
    let (without, with): (Vec<&Settings>, Vec<&Settings>) = sheets.iter().partition(|sheet| is_continuous(sheet));
    assert!(without.len() > 900 && with.len() > 900, "{} without the contact", without.len());
    let sources = |sheets: &[&Settings]| [0, 1, 2, 3, 4].map(|source| sheets.iter().any(|s| s[slot::TAP_SOURCE] == source));
    assert_eq!(sources(&with), [true; 5]);
    assert_eq!(sources(&without), [true, true, true, false, false]);
    let short = without.iter().filter(|sheet| sheet[slot::T4] <= 25).count();
    assert!(short > without.len() / 2, "{short} with a short T4");
}

#[test]
fn any_record_within_limits_stays_so() {
    let mut dice = Dice::new(1);
    for _ in 0..30_000 {
        let mut record = any_record(&mut dice);
        for _ in 0..3 {
            let input = any_input(&mut dice);
            let ticked = tick(&record, &input);
            assert_sound(&record, &ticked);
            if record.settings[slot::IN_SERVICE] == 1 {
                assert_pairs_apart(&record, &input, &ticked);
            }
            if is_continuous(&record.settings) {
                assert_eq!(ticked, tick(&record, &contact_turned(&input)));
            }
            record = ticked.next;
        }
    }
}
