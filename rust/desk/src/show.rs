//! A recording as a scenario: a row where something changes.

use library::{Brought, Sample};

use crate::cells;
use crate::columns::{self, Column};
use crate::file::Errors;
use crate::inputs::{is_on, CONTACTS, PAIRS, SCALARS};
use crate::recording;

/// The readings, and pairs, contacts and taps where they are ever other than 0.
pub fn used(ticks: impl Iterator<Item = Result<Brought, Errors>>) -> Result<Vec<Column>, Errors> {
    let (mut contacts, mut bcd, mut sensor, mut pairs) = (0, 0, 0, [false; PAIRS.len()]);
    for tick in ticks {
        let tick = tick?;
        contacts |= tick.contacts;
        bcd |= tick.bcd;
        sensor |= tick.sensor;
        pairs.iter_mut().enumerate().for_each(|(at, used)| *used |= columns::pair(&tick, at) != [Sample::default(); 2]);
    }
    let parts = (0..PAIRS.len()).filter(|at| pairs[*at]).flat_map(|at| PAIRS[at].parts);
    let mut columns: Vec<Column> = (0..SCALARS).chain(parts).map(Column::Reading).collect();
    columns.extend((0..CONTACTS.len() as u32).filter(|bit| is_on(contacts, *bit)).map(Column::Contact));
    columns.extend((bcd != 0).then_some(Column::Bcd));
    columns.extend((sensor != 0).then_some(Column::Sensor));
    Ok(columns)
}

/// The whole scenario, line by line, until `put` says that nobody reads it any more.
pub fn rows(
    columns: &[Column],
    ticks: impl Iterator<Item = Result<Brought, Errors>>,
    mut put: impl FnMut(&str) -> Result<bool, Errors>,
) -> Result<(), Errors> {
    let names = columns.iter().map(|column| format!(",{}", columns::name(*column)));
    let mut read = put(&format!("seconds{}\n", names.collect::<String>()))?;
    let mut before: Option<Brought> = None;
    let mut count = 0;
    for tick in ticks {
        let tick = tick?;
        if before.is_none_or(|before| recording::bytes(&before) != recording::bytes(&tick)) {
            read = put(&row(columns, count, before.as_ref(), &tick))?;
        }
        if !read {
            return Ok(());
        }
        before = Some(tick);
        count += 1;
    }
    put(&format!("{},end\n", cells::seconds_text(count))).map(drop)
}

/// A row with the cells that changed.
fn row(columns: &[Column], after: u32, before: Option<&Brought>, tick: &Brought) -> String {
    let mut text = cells::seconds_text(after);
    for column in columns {
        let now = cell(*column, tick);
        let same = before.is_some_and(|before| cell(*column, before) == now);
        text.push(',');
        text.push_str(if same { "" } else { &now });
    }
    text.push('\n');
    text
}

fn cell(column: Column, tick: &Brought) -> String {
    match column {
        Column::Reading(at) => cells::reading_text(tick.readings[at]),
        Column::Contact(bit) => u32::from(is_on(tick.contacts, bit)).to_string(),
        Column::Bcd => cells::bcd_text(tick.bcd),
        Column::Sensor => tick.sensor.to_string(),
        Column::Phasor(_) | Column::Drive(_) => String::new(),
    }
}
