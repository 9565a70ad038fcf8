//! Scenarios: rows of a CSV file, each standing until the next one.

use crate::cells;
use crate::columns::{self, Column, Standing};
use crate::ends;
use crate::file::{Errors, File, MOST_ERRORS};
use crate::shown;

/// A row: what stands from the tick after `after` on.
#[derive(Clone, Debug, PartialEq)]
pub struct Row {
    pub after: u32,
    pub standing: Standing,
}

#[derive(Clone, Debug, PartialEq)]
pub struct Scenario {
    pub columns: Vec<Column>,
    pub rows: Vec<Row>,
    pub ticks: u32,
}

/// The unit of the first column.
#[derive(Clone, Copy)]
enum Time {
    Seconds,
    Ticks,
}

/// A scenario as far as it is read.
struct Reader {
    time: Time,
    scenario: Scenario,
    /// The time of the row before, good or bad.
    last: Option<u32>,
    ended: bool,
}

pub fn read(file: &File) -> Result<Scenario, Errors> {
    let mut lines = file.lines()?.filter(|(_, text)| !is_idle(text));
    let (line, text) = lines.next().ok_or_else(|| vec![file.says("no row is in it: its first row names the columns")])?;
    let mut reader = Reader::start(text).map_err(|words| vec![file.says_at(line, &words)])?;
    let (mut errors, mut bad) = (Errors::new(), 0);
    for (line, text) in lines {
        if let Err(words) = reader.take(text) {
            bad += 1;
            errors.extend((bad <= MOST_ERRORS).then(|| file.says_at(line, &words)));
        }
    }
    errors.extend(file.and_more(bad.saturating_sub(MOST_ERRORS)));
    match (errors.is_empty(), reader.ended) {
        (true, true) => Ok(reader.scenario),
        (true, false) => Err(vec![file.says("the last row must be its end: a time and the word `end`")]),
        _ => Err(errors),
    }
}

/// An empty line or a comment; a row of commas is empty too.
fn is_idle(text: &str) -> bool {
    text.trim_start().starts_with('#') || text.chars().all(|c| c == ',' || c.is_whitespace())
}

fn split(text: &str) -> Vec<&str> {
    text.split(',').map(|cell| unquoted(cell.trim())).collect()
}

/// A cell without the quotes around it.
fn unquoted(cell: &str) -> &str {
    cell.strip_prefix('"').and_then(|cell| cell.strip_suffix('"')).unwrap_or(cell).trim()
}

impl Reader {
    fn start(text: &str) -> Result<Reader, String> {
        let cells = split(text);
        let time = match cells[0] {
            "seconds" => Time::Seconds,
            "ticks" => Time::Ticks,
            other => return Err(format!("the first column must be `seconds` or `ticks`, and not `{}`", shown::text(other))),
        };
        let columns = columns::header(&cells[1..])?;
        Ok(Reader { time, scenario: Scenario { columns, rows: Vec::new(), ticks: 0 }, last: None, ended: false })
    }

    fn take(&mut self, text: &str) -> Result<(), String> {
        if self.ended {
            return Err("a row after the end".to_string());
        }
        let cells = split(text);
        let after = self.time(cells[0])?;
        let before = self.last.replace(after);
        self.in_order(cells[0], before, after)?;
        if cells.get(1) == Some(&"end") {
            return self.end(before, after, &cells[2..]);
        }
        let columns = &self.scenario.columns;
        if cells.len() > columns.len() + 1 {
            return Err(format!("{} cells, and the first row has {}", cells.len(), columns.len() + 1));
        }
        let row = self.row(after, &cells[1..])?;
        self.scenario.rows.push(row);
        Ok(())
    }

    /// The time of a row, in ticks.
    fn time(&self, text: &str) -> Result<u32, String> {
        match self.time {
            Time::Seconds => cells::seconds(text),
            Time::Ticks => cells::ticks(text),
        }
    }

    fn in_order(&self, text: &str, before: Option<u32>, after: u32) -> Result<(), String> {
        match before {
            None if after != 0 => Err("the first row must be at time 0".to_string()),
            Some(before) if after <= before => Err(format!("the time `{}` is not after the row before", shown::text(text))),
            _ => Ok(()),
        }
    }

    fn row(&self, after: u32, cells: &[&str]) -> Result<Row, String> {
        let before = self.scenario.rows.last();
        let mut standing = before.map(|row| row.standing.clone()).unwrap_or_default();
        for (column, cell) in self.scenario.columns.iter().zip(cells) {
            if cell.is_empty() {
                continue;
            }
            if let Some(what) = columns::of_start(*column).filter(|_| before.is_some()) {
                return Err(format!("`{}` is {what}, and may stand in the first row only", columns::name(*column)));
            }
            columns::put(&mut standing, *column, cell).map_err(|words| format!("{}: {words}", columns::name(*column)))?;
        }
        ends::in_order(&standing.nature)?;
        Ok(Row { after, standing })
    }

    fn end(&mut self, before: Option<u32>, after: u32, rest: &[&str]) -> Result<(), String> {
        if before.is_none() {
            return Err("the end comes before any row".to_string());
        }
        if rest.iter().any(|cell| !cell.is_empty()) {
            return Err("nothing may follow the word `end`".to_string());
        }
        self.scenario.ticks = after;
        self.ended = true;
        Ok(())
    }
}

impl Scenario {
    pub fn has_drive(&self) -> bool {
        columns::has_drive(&self.columns)
    }
}
