//! The table: what changed on which tick, for people, as CSV or as JSON.

use std::collections::HashSet;

use crate::cells;
use crate::inputs::{is_on, CONTACTS, OUT, READINGS};
use crate::json;
use crate::missing;
use crate::names::{rated_amps, MODULE, TAP_SOURCE};
use crate::outputs;
use crate::press;
use crate::run::{History, Signal, Window};
use crate::sheet::is_continuous;
use crate::summary::summary;
use crate::value::TICK_MS;

/// What a table holds.
#[derive(Clone, Copy, Debug, PartialEq)]
pub struct Wanted {
    pub form: Form,
    pub only: Only,
    /// Whether readings are told on each change; of a recording only those that are missing.
    pub readings: bool,
    pub window: Window,
}

#[derive(Clone, Copy, Debug, PartialEq)]
pub enum Form {
    Text,
    Csv,
    Json,
}

/// What is told: what ticks bring, what the unit gives out and remembers, or both.
#[derive(Clone, Copy, Debug, PartialEq)]
pub enum Only {
    All,
    Inputs,
    Outputs,
}

/// The words for them on a command line.
pub const FORMS: [(&str, Form); 3] = [("text", Form::Text), ("csv", Form::Csv), ("json", Form::Json)];
pub const SIDES: [(&str, Only); 3] = [("all", Only::All), ("inputs", Only::Inputs), ("outputs", Only::Outputs)];

/// A change: its tick, whether it comes in, goes out or stays in the unit, what it is a change of, to which value, and its words.
pub struct Change {
    pub tick: u32,
    pub side: &'static str,
    pub name: &'static str,
    pub value: String,
    pub words: String,
}

/// The table of a run on the sheet `list`.
pub fn table(history: &History, list: &[u32], wanted: Wanted) -> String {
    let mut changes: Vec<Change> = Vec::new();
    if wanted.only != Only::Outputs {
        changes.extend(input_changes(history, list, wanted.readings));
    }
    if wanted.only != Only::Inputs {
        press_changes(history, &mut changes);
        output_changes(history, is_continuous(list), &mut changes);
    }
    changes.sort_by_key(|change| change.tick);
    let changes = seen_in(changes, wanted.window);
    match wanted.form {
        Form::Text => text(history, &changes) + "\n" + &summary(history, list).text(),
        Form::Csv => csv(&changes),
        Form::Json => json::document(&changes, &summary(history, list)),
    }
}

/// The changes in a window, and before them the last one of each name, where it still stands as the window begins.
fn seen_in(mut changes: Vec<Change>, window: Window) -> Vec<Change> {
    let begins = changes.partition_point(|change| change.tick < window.from);
    let mut known = HashSet::new();
    let is_last = |change: &Change| known.insert((change.side, change.name)) && !IDLE.contains(&change.value.as_str());
    let mut seen: Vec<Change> = changes.drain(..begins).rev().filter(is_last).collect();
    seen.reverse();
    seen.extend(changes.into_iter().filter(|change| change.tick <= window.to));
    seen
}

/// The values of what does not stand.
const IDLE: [&str; 2] = ["0", "none"];

/// For people: time and tick stand at the first change of a tick.
fn text(history: &History, changes: &[Change]) -> String {
    let mut text = format!("{:>11}  {:>9}  {:<4} change\n", "seconds", "tick", "");
    let mut before = 0;
    for Change { tick, side, words, .. } in changes {
        let (time, number) = match *tick == before {
            true => (String::new(), String::new()),
            false => (seconds(*tick), tick.to_string()),
        };
        text.push_str(&format!("{time:>11}  {number:>9}  {side:<4} {words}\n"));
        before = *tick;
    }
    text + &format!("{:>11}  {:>9}  end\n", seconds(history.ticks), history.ticks)
}

/// For other programs: a row for each change.
fn csv(changes: &[Change]) -> String {
    let mut text = String::from("seconds,tick,side,name,value,change\n");
    for Change { tick, side, name, value, words } in changes {
        text.push_str(&format!("{},{tick},{side},{name},{value},\"{words}\"\n", seconds(*tick)));
    }
    text
}

/// Seconds with three decimals.
pub fn seconds(tick: u32) -> String {
    let ms = u64::from(tick) * TICK_MS;
    format!("{}.{:03}", ms / 1000, ms % 1000)
}

/// Readings, each change or only where they are missing, and contacts.
fn input_changes(history: &History, list: &[u32], readings: bool) -> Vec<Change> {
    let mut changes = Vec::new();
    let rated = rated_amps(list[MODULE]);
    match readings {
        true => reading_changes(history, rated, &mut changes),
        false => missing_changes(history, rated, &mut changes),
    }
    contact_changes(&history.contacts, &mut changes);
    tap_changes(history, list, &mut changes);
    changes
}

/// The sources of the tap that a tick brings, by their numbers.
const FROM_BCD: u32 = 1;
const FROM_SENSOR: u32 = 2;

/// What the sheet's source of the tap brings.
fn tap_changes(history: &History, list: &[u32], changes: &mut Vec<Change>) {
    let (name, signal, text): (_, _, fn(u8) -> String) = match list[TAP_SOURCE] {
        FROM_BCD => ("BCD", &history.bcd, cells::bcd_text),
        FROM_SENSOR => ("sensor", &history.sensor, |number| number.to_string()),
        _ => return,
    };
    for (tick, number) in signal.iter().filter(|(tick, number)| *tick > 1 || *number != 0) {
        let value = text(*number);
        changes.push(Change { tick: *tick, side: "in", name, words: format!("{name} {value}"), value });
    }
}

fn reading_changes(history: &History, rated: u32, changes: &mut Vec<Change>) {
    for (at, (signal, reading)) in history.readings.iter().zip(&READINGS).enumerate() {
        for (tick, sample) in signal {
            let idle = *tick == 1 && sample.quality == 0 && sample.value == 0.0;
            if !idle {
                let value = cells::reading_text(*sample);
                let why = missing::why(at, *sample, rated).filter(|why| *why != missing::Why::Invalid);
                let note = why.map_or(String::new(), |why| format!(", missing: {}", missing::words(why, at, rated)));
                let words = format!("{} {}{note}", reading.name, cells::with_unit(&value, reading.unit));
                changes.push(Change { tick: *tick, side: "in", name: reading.name, value, words });
            }
        }
    }
}

/// Where a reading begins to be missing, with the reason, and where it counts again.
fn missing_changes(history: &History, rated: u32, changes: &mut Vec<Change>) {
    for (tick, at, is_missing) in flips(&history.missing, READINGS.len()) {
        let (sample, name) = (history.reading(at, tick), READINGS[at].name);
        let words = match missing::why(at, sample, rated).filter(|_| is_missing) {
            Some(why) => format!("{name} missing: {}", missing::words(why, at, rated)),
            None => format!("{name} counts again"),
        };
        changes.push(Change { tick, side: "in", name, value: cells::reading_text(sample), words });
    }
}

fn contact_changes(signal: &Signal<u32>, changes: &mut Vec<Change>) {
    for (tick, bit, on) in flips(signal, CONTACTS.len()) {
        let contact = &CONTACTS[bit];
        let words = if on { contact.on } else { contact.off }.to_string();
        changes.push(Change { tick, side: "in", name: contact.name, value: u32::from(on).to_string(), words });
    }
}

/// The bits that change, each with its tick and whether it is on then; none is on before the first tick.
fn flips(signal: &Signal<u32>, bits: usize) -> Vec<(u32, usize, bool)> {
    let mut flips = Vec::new();
    let mut before = 0;
    for (tick, now) in signal {
        let changed = (0..bits).filter(|bit| is_on(before ^ now, *bit as u32));
        flips.extend(changed.map(|bit| (*tick, bit, is_on(*now, bit as u32))));
        before = *now;
    }
    flips
}

/// No press is remembered before the first tick, so that none on it is no change.
fn press_changes(history: &History, changes: &mut Vec<Change>) {
    for (tick, now) in &history.remembered {
        if *tick > 1 || now.is_some() {
            let (value, words) = (press::value(*now).to_string(), press::words(*now).to_string());
            changes.push(Change { tick: *tick, side: "unit", name: "remembered press", value, words });
        }
    }
}

fn output_changes(history: &History, continuous: bool, changes: &mut Vec<Change>) {
    for (field, signal) in history.outputs.iter().enumerate() {
        for (tick, now) in signal {
            if *tick > 1 || *now != 0 {
                let name = outputs::short(field, continuous);
                let words = match *now == 0 && history.contact(OUT, *tick) {
                    true => format!("{name}: off, the unit is out"),
                    false => outputs::words(field, *now, continuous),
                };
                changes.push(Change { tick: *tick, side: "out", name, value: now.to_string(), words });
            }
        }
    }
}
