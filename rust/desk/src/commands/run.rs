//! `avr run`.

use super::source::{self, reaches};
use super::{check_drive, read_once, remarks, started, Failure, Said};
use crate::file::{Errors, File, SCENARIO_MOST, SHEET_MOST, STANDARD};
use crate::picture::{self, View};
use crate::play::{Player, Source};
use crate::progress::Progress;
use crate::recording::Recording;
use crate::run::{self, History, Window};
use crate::scenario;
use crate::sheet::{self, Sheet};
use crate::summary::summary;
use crate::table::{self, Form, Wanted, FORMS, SIDES};
use crate::target::{targets, Target};
use crate::words::Words;

pub fn run(words: &Words) -> Result<Said, Failure> {
    let (sheet_name, (name, is_recording)) = (words.needed("sheet"), source::name(words));
    let wanted = wanted(words, !is_recording)?;
    let [table, svg] = outputs(words, &[sheet_name, name])?;
    let sheet = sheet::read(&File::read(sheet_name, SHEET_MOST)?)?;
    let mut said = Said::default();
    let history = match is_recording {
        true => replayed(&sheet, name, wanted.window)?,
        false => played(&sheet, name, wanted.window, &mut said.notes)?,
    };
    let title = source::title(words, name);
    tell(&mut said, &history, &sheet, wanted, table);
    if let Some(target) = svg {
        let view = View::of(title, wanted.window, history.ticks);
        said.put("picture", target, picture::picture(&history, &sheet.list, view).into_bytes());
    }
    Ok(said)
}

/// What the table holds. In a table of a recording readings change on every tick, and are left out.
fn wanted(words: &Words, readings: bool) -> Result<Wanted, Failure> {
    let form = words.choice("format", &FORMS).map_err(Failure::Usage)?;
    let only = words.choice("only", &SIDES).map_err(Failure::Usage)?;
    Ok(Wanted { form, only, readings, window: source::window(words, Window::WHOLE)? })
}

/// Where the table and the picture go, looked at before the run.
fn outputs(words: &Words, inputs: &[&str]) -> Result<[Option<Target>; 2], Failure> {
    let (table, svg) = (words.option("table").unwrap_or(STANDARD), words.option("svg"));
    read_once(inputs)?;
    if table == STANDARD && svg == Some(STANDARD) {
        let words = "table and picture would both be on standard output: give --table FILE or --svg FILE";
        return Err(Failure::Usage(words.to_string()));
    }
    source::needs_picture(words, &["title"])?;
    let paths: Vec<&str> = [table].into_iter().chain(svg).collect();
    let mut targets = targets(&paths, inputs)?.into_iter();
    Ok([targets.next(), targets.next()])
}

/// The table, and the summary beside it unless standard output has that already.
fn tell(said: &mut Said, history: &History, sheet: &Sheet, wanted: Wanted, target: Option<Target>) {
    let Some(target) = target else { return };
    let untold = !target.is_standard() || wanted.form == Form::Csv;
    said.put("table", target, table::table(history, &sheet.list, wanted).into_bytes());
    if untold {
        said.notes.push(summary(history, &sheet.list).text().trim_end().to_string());
    }
}

fn played(sheet: &Sheet, name: &str, window: Window, notes: &mut Vec<String>) -> Result<History, Errors> {
    let file = File::read(name, SCENARIO_MOST)?;
    let scenario = scenario::read(&file)?;
    check_drive(&file, &scenario, sheet)?;
    notes.extend(remarks(&file, &scenario, sheet));
    looked_at(sheet, Source::Scenario(Player::with_drive(&scenario, &sheet.list)), window)
}

fn replayed(sheet: &Sheet, name: &str, window: Window) -> Result<History, Errors> {
    looked_at(sheet, Source::Recording(&mut Recording::open(name)?), window)
}

/// Runs a source, if it is long enough for the window.
fn looked_at(sheet: &Sheet, source: Source, window: Window) -> Result<History, Errors> {
    source.ticks().map_or(Ok(()), |ticks| reaches(ticks, window))?;
    let history = run::run(started(sheet)?, source, window, &mut Progress::usual(), |_| Ok(()))?;
    reaches(history.ticks, window)?;
    Ok(history)
}
