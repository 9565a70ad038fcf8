//! What a sheet looks at and a scenario does not give, so that it is 0 throughout.

use crate::columns::{self, Column};
use crate::inputs::{reading_at, Pair, PAIRS, READINGS, U_AB, U_AB_PAIR};
use crate::names::{at, COMPENSATION_CURRENT, TABLE, TAP_SOURCE};
use crate::scenario::Scenario;
use crate::sheet::{needed_currents, needed_pairs};
use crate::value;

/// What watches which reading.
const WATCHES: [(&str, &str); 8] = [
    ("XB3", "I_bus"),
    ("XB7", "I_high"),
    ("XB8", "I_bus"),
    ("XB9", "I_bus"),
    ("XB10", "U_AB"),
    ("XB11", "U_AB"),
    ("XB12", "3U0"),
    ("XB13", "U2"),
];

/// A remark for each; of a unit that is out of service, that alone.
pub fn remarks(scenario: &Scenario, list: &[u32]) -> Vec<String> {
    if list[at("XB1")] == 0 {
        return vec!["the sheet has XB1 = off: the unit is out of service, and all its outputs stay off".to_string()];
    }
    let readings = readings(list).into_iter().filter(|(_, reading)| !scenario.columns.contains(&Column::Reading(*reading)));
    let readings = readings.map(|(setting, reading)| absent(&setting, READINGS[reading].name));
    let pairs = needed_pairs(list).iter().filter(|pair| !columns::gives_pair(&scenario.columns, **pair));
    let pairs = pairs.map(|pair| without_pair(*pair, list));
    without_voltage(scenario).into_iter().chain(readings).chain(pairs).chain(without_tap(scenario, list)).collect()
}

fn absent(setting: &str, name: &str) -> String {
    format!("{setting} looks at {name}, which no column gives, so that it is 0: add {name}")
}

/// The readings that a sheet looks at beside U_AB, each once, with a setting that does.
fn readings(list: &[u32]) -> Vec<(String, usize)> {
    let watched = WATCHES.iter().filter(|(watch, _)| list[at(watch)] == 1);
    let watched = watched.map(|(watch, reading)| (format!("{watch} = on"), reading_at(reading)));
    let mut readings: Vec<(String, usize)> = Vec::new();
    for (setting, reading) in watched.chain(of_compensation(list)) {
        if reading != U_AB && !readings.iter().any(|(_, known)| *known == reading) {
            readings.push((setting, reading));
        }
    }
    readings
}

/// The currents of a compensation by U_comp.
fn of_compensation(list: &[u32]) -> impl Iterator<Item = (String, usize)> {
    let current = value::text(&TABLE[COMPENSATION_CURRENT], list[COMPENSATION_CURRENT]);
    needed_currents(list).iter().map(move |reading| (format!("XB4 = U_comp with XB5 = {current}"), *reading))
}

fn without_voltage(scenario: &Scenario) -> Option<String> {
    let given = scenario.columns.contains(&Column::Reading(U_AB)) || columns::gives_pair(&scenario.columns, U_AB_PAIR);
    (!given).then(|| "no column gives U_AB, so that it is 0 V: add U_AB".to_string())
}

fn without_pair(pair: usize, list: &[u32]) -> String {
    let Pair { name, phasor, parts: [re, im] } = &PAIRS[pair];
    let (re, im) = (READINGS[*re].name, READINGS[*im].name);
    let current = value::text(&TABLE[COMPENSATION_CURRENT], list[COMPENSATION_CURRENT]);
    format!(
        "XB4 = RX with XB5 = {current} goes by {name} as a pair, which no column gives, so that it is 0: \
         add {phasor}, or {re} and {im}"
    )
}

/// A tap that is read and that neither a column nor a drive gives.
fn without_tap(scenario: &Scenario, list: &[u32]) -> Option<String> {
    let source = value::text(&TABLE[TAP_SOURCE], list[TAP_SOURCE]);
    let column = columns::find(&source).filter(|column| !scenario.has_drive() && !scenario.columns.contains(column))?;
    Some(absent(&format!("XB6 = {source}"), columns::name(column)))
}
