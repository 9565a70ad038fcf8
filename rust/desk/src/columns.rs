//! The columns of a scenario, by the names in its first row.

use library::{Brought, Sample};

use crate::cells;
use crate::drive::{Nature, TEMPERS};
use crate::inputs::{with, CONTACTS, PAIRS, READINGS, SWITCHING};
use crate::shown;

#[derive(Clone, Copy, Debug, PartialEq, Eq)]
pub enum Column {
    Reading(usize),
    /// Both parts of a pair.
    Phasor(usize),
    Contact(u32),
    Bcd,
    Sensor,
    Drive(Setting),
}

/// What a column of the simulated drive sets.
#[derive(Clone, Copy, Debug, PartialEq, Eq)]
pub enum Setting {
    Temper,
    Start,
    Run,
    Tap,
    Lowest,
    Highest,
    Step,
    Sliding,
}

const DRIVE: [(&str, Setting); 8] = [
    ("drive", Setting::Temper),
    ("drive_start", Setting::Start),
    ("drive_run", Setting::Run),
    ("drive_tap", Setting::Tap),
    ("drive_lowest", Setting::Lowest),
    ("drive_highest", Setting::Highest),
    ("drive_step", Setting::Step),
    ("drive_sliding", Setting::Sliding),
];

/// What stands at a row.
#[derive(Clone, Debug, Default, PartialEq)]
pub struct Standing {
    pub brought: Brought,
    pub nature: Nature,
}

pub fn find(name: &str) -> Option<Column> {
    let reading = READINGS.iter().position(|reading| reading.name == name).map(Column::Reading);
    let phasor = || PAIRS.iter().position(|pair| pair.phasor == name).map(Column::Phasor);
    let contact = || CONTACTS.iter().position(|contact| contact.name == name).map(|bit| Column::Contact(bit as u32));
    let drive = || DRIVE.iter().find(|(known, _)| *known == name).map(|(_, setting)| Column::Drive(*setting));
    let tap = || match name {
        "BCD" => Some(Column::Bcd),
        "sensor" => Some(Column::Sensor),
        _ => None,
    };
    reading.or_else(phasor).or_else(contact).or_else(tap).or_else(drive)
}

pub fn name(column: Column) -> &'static str {
    match column {
        Column::Reading(at) => READINGS[at].name,
        Column::Phasor(at) => PAIRS[at].phasor,
        Column::Contact(bit) => CONTACTS[bit as usize].name,
        Column::Bcd => "BCD",
        Column::Sensor => "sensor",
        Column::Drive(setting) => DRIVE.iter().find(|(_, known)| *known == setting).map_or("", |(name, _)| name),
    }
}

/// The columns of a first row, after its time.
pub fn header(cells: &[&str]) -> Result<Vec<Column>, String> {
    let mut columns = Vec::new();
    for cell in cells {
        let column = find(cell).ok_or_else(|| unknown(cell))?;
        if columns.contains(&column) {
            return Err(format!("the column `{}` is there twice", shown::text(cell)));
        }
        columns.push(column);
    }
    check_pairs(&columns)?;
    check_drive(&columns)?;
    Ok(columns)
}

fn unknown(name: &str) -> String {
    let readings = (0..READINGS.len()).map(Column::Reading).chain((0..PAIRS.len()).map(Column::Phasor));
    let known = readings.chain((0..CONTACTS.len() as u32).map(Column::Contact));
    let near = known.map(self::name).find(|known| known.eq_ignore_ascii_case(name)).map(|near| format!("; {near} is one"));
    let hint = near.or_else(|| of_bit(name)).unwrap_or_default();
    format!("no column is called `{}`{hint}", shown::text(name))
}

/// `bit21` was the column of bit 21 until that had a name.
fn of_bit(name: &str) -> Option<String> {
    let bit: usize = name.strip_prefix("bit")?.parse().ok()?;
    CONTACTS.get(bit).map(|contact| format!("; bit {bit} is the column `{}`", contact.name))
}

/// Whether a column has a part of a pair, or both.
pub fn gives_pair(columns: &[Column], pair: usize) -> bool {
    columns.contains(&Column::Phasor(pair)) || part_of(columns, pair).is_some()
}

/// The first column of one part.
fn part_of(columns: &[Column], pair: usize) -> Option<Column> {
    PAIRS[pair].parts.map(Column::Reading).into_iter().find(|part| columns.contains(part))
}

/// A pair comes by its parts or by its phasor.
fn check_pairs(columns: &[Column]) -> Result<(), String> {
    for (at, pair) in PAIRS.iter().enumerate().filter(|(at, _)| columns.contains(&Column::Phasor(*at))) {
        if let Some(part) = part_of(columns, at) {
            let (part, phasor) = (name(part), pair.phasor);
            return Err(format!("`{part}` and `{phasor}` are both there: give {} by its parts or by its phasor", pair.name));
        }
    }
    Ok(())
}

pub fn has_drive(columns: &[Column]) -> bool {
    columns.contains(&Column::Drive(Setting::Temper))
}

fn check_drive(columns: &[Column]) -> Result<(), String> {
    let setting = columns.iter().find(|column| matches!(column, Column::Drive(_)));
    match (setting, has_drive(columns)) {
        (Some(column), false) => Err(format!("the column `{}` needs a column `drive`", name(*column))),
        (_, true) if columns.contains(&Column::Contact(SWITCHING)) => {
            Err("`switching` and `drive` are both there: the simulated drive gives the switching contact".to_string())
        }
        _ => Ok(()),
    }
}

/// What a column is that may stand in the first row only.
pub fn of_start(column: Column) -> Option<&'static str> {
    match column {
        Column::Drive(Setting::Tap) => Some("the tap at the start"),
        Column::Drive(Setting::Lowest) => Some("the drive's lowest tap"),
        Column::Drive(Setting::Highest) => Some("the drive's highest tap"),
        _ => None,
    }
}

/// Puts a cell in its place.
pub fn put(standing: &mut Standing, column: Column, text: &str) -> Result<(), String> {
    let brought = &mut standing.brought;
    match column {
        Column::Reading(at) => brought.readings[at] = cells::reading(text)?,
        Column::Phasor(at) => put_pair(brought, at, cells::phasor(text)?),
        Column::Contact(bit) => brought.contacts = with(brought.contacts, bit, cells::contact(text)?),
        Column::Bcd => brought.bcd = cells::bcd(text)?,
        Column::Sensor => brought.sensor = cells::sensor(text)?,
        Column::Drive(setting) => put_drive(&mut standing.nature, setting, text)?,
    }
    Ok(())
}

/// The samples of a pair.
pub fn pair(brought: &Brought, at: usize) -> [Sample; 2] {
    PAIRS[at].parts.map(|part| brought.readings[part])
}

pub fn put_pair(brought: &mut Brought, at: usize, samples: [Sample; 2]) {
    for (part, sample) in PAIRS[at].parts.into_iter().zip(samples) {
        brought.readings[part] = sample;
    }
}

fn put_drive(nature: &mut Nature, setting: Setting, text: &str) -> Result<(), String> {
    match setting {
        Setting::Temper => {
            let known = TEMPERS.iter().find(|(word, _)| *word == text);
            let words: Vec<&str> = TEMPERS.iter().map(|(word, _)| *word).collect();
            nature.temper = known.ok_or_else(|| format!("`{}` is no drive: {}", shown::text(text), words.join(", ")))?.1;
        }
        Setting::Start => nature.start = cells::seconds(text)?,
        Setting::Run => nature.run = cells::seconds(text)?,
        Setting::Tap => nature.tap = Some(cells::tap(text)?),
        Setting::Lowest => nature.lowest = Some(cells::tap(text)?),
        Setting::Highest => nature.highest = Some(cells::tap(text)?),
        Setting::Step => nature.step = cells::volts(text)?,
        Setting::Sliding => nature.sliding = cells::taps(text)?,
    }
    Ok(())
}
