//! `avr ahead`.

use std::iter::repeat_n;

use library::{Brought, LONGEST_HORIZON};

use super::source::{self, reaches};
use super::{check_drive, read_once, remarks, started, Failure, Said};
use crate::ahead::{self, Asked, Found};
use crate::cells::{self, seconds_text};
use crate::file::{self, Errors, File, SCENARIO_MOST, SHEET_MOST};
use crate::inputs::{is_on, with, AUTOMATIC};
use crate::picture::{self, View};
use crate::play::{Player, Source};
use crate::progress::Progress;
use crate::recording::Recording;
use crate::run::{Course, Window};
use crate::scenario;
use crate::sheet::{self, Sheet};
use crate::target::{targets, Target};
use crate::words::Words;

/// The options of the picture.
const PICTURES: [&str; 3] = ["title", "from", "to"];

/// A picture goes on as far as its look.
const WHOLE: Window = Window { to: u32::MAX, ..Window::WHOLE };

pub fn ahead(words: &Words) -> Result<Said, Failure> {
    let (sheet_name, (name, is_recording)) = (words.needed("sheet"), source::name(words));
    let (at, horizon, window) = (at(words)?, horizon(words)?, source::window(words, WHOLE)?);
    let svg = output(words, &[sheet_name, name])?;
    let sheet = sheet::read(&File::read(sheet_name, SHEET_MOST)?)?;
    let mut said = Said::default();
    let (mut course, brought) = match is_recording {
        true => replayed(&sheet, name, at, window)?,
        false => played(&sheet, name, at, window, &mut said.notes)?,
    };
    let asked = Asked { list: &sheet.list, at, brought, switched: false, horizon };
    let asked = if words.flag("automatic") { switched(asked) } else { asked };
    let found = ahead::look(&course.unit, &asked)?;
    tell(&mut said, asked.answer(&found), svg.as_ref());
    if let Some(target) = svg {
        let drawn = drawn(&mut course, &asked, &found, window, source::title(words, name))?;
        said.put("picture", target, drawn.into_bytes());
    }
    Ok(said)
}

/// The tick of --at.
fn at(words: &Words) -> Result<u32, Failure> {
    match source::time(words, "at")? {
        None | Some(0) => Err(Failure::Usage("--at is before the first tick, at 0.005 s".to_string())),
        Some(at) => Ok(at),
    }
}

/// The ticks of --horizon; the longest where it is not given.
fn horizon(words: &Words) -> Result<u32, Failure> {
    let Some(text) = words.option("horizon") else { return Ok(LONGEST_HORIZON) };
    let wrong = match cells::time(text) {
        Ok(horizon @ 1..=LONGEST_HORIZON) => return Ok(horizon),
        Ok(0) => "--horizon looks at no tick".to_string(),
        Ok(horizon) => format!("--horizon {} is beyond the longest look ahead", seconds_text(horizon)),
        Err(words) => format!("--horizon: {words}"),
    };
    let longest = seconds_text(LONGEST_HORIZON);
    Err(Failure::Usage(format!(
        "{wrong}: give 0.005 to {longest} s, 1 to {LONGEST_HORIZON} ticks, or leave it out for {longest} s"
    )))
}

/// Where the picture goes, looked at before the run.
fn output(words: &Words, inputs: &[&str]) -> Result<Option<Target>, Failure> {
    read_once(inputs)?;
    source::needs_picture(words, &PICTURES)?;
    let paths: Vec<&str> = words.option("svg").into_iter().collect();
    Ok(targets(&paths, inputs)?.pop())
}

/// With automatic on, if it is off.
fn switched(asked: Asked) -> Asked {
    let mut brought = asked.brought;
    brought.contacts = with(brought.contacts, AUTOMATIC, true);
    Asked { brought, switched: !is_on(asked.brought.contacts, AUTOMATIC), ..asked }
}

/// The answer stands on standard output, unless the picture goes there.
fn tell(said: &mut Said, answer: String, svg: Option<&Target>) {
    match svg.is_some_and(Target::is_standard) {
        true => said.notes.push(answer.trim_end().to_string()),
        false => said.out = answer.into_bytes(),
    }
}

fn played(sheet: &Sheet, name: &str, at: u32, window: Window, notes: &mut Vec<String>) -> Result<(Course, Brought), Errors> {
    let file = File::read(name, SCENARIO_MOST)?;
    let mut scenario = scenario::read(&file)?;
    check_drive(&file, &scenario, sheet)?;
    lasts(&file.name, scenario.ticks, at)?;
    notes.extend(remarks(&file, &scenario, sheet));
    scenario.ticks = at;
    run_up(sheet, Source::Scenario(Player::with_drive(&scenario, &sheet.list)), window)
}

/// A recording whose length is not known beforehand is read as far as it goes.
fn replayed(sheet: &Sheet, name: &str, at: u32, window: Window) -> Result<(Course, Brought), Errors> {
    let recording = Recording::open(name)?;
    let shown = file::input_name(name);
    recording.ticks.map_or(Ok(()), |ticks| lasts(&shown, ticks, at))?;
    let ran = run_up(sheet, Source::Recording(&mut recording.take(at as usize)), window)?;
    lasts(&shown, ran.0.history.ticks, at)?;
    Ok(ran)
}

/// Whether a scenario of so many ticks lasts until the tick of --at.
fn lasts(name: &str, ticks: u32, at: u32) -> Result<(), Errors> {
    let (asked, end) = (seconds_text(at), seconds_text(ticks));
    match at <= ticks {
        true => Ok(()),
        false => Err(vec![format!("{name}: --at {asked} is after its end, {end} s: give a time from 0.005 to {end}")]),
    }
}

/// The unit after all ticks of a source, and what the last one brought.
fn run_up(sheet: &Sheet, source: Source, window: Window) -> Result<(Course, Brought), Errors> {
    let mut course = Course::new(started(sheet)?);
    let mut last = Brought::default();
    course.go_on(source, window, &mut Progress::usual(), |brought| {
        last = *brought;
        Ok(())
    })?;
    Ok((course, last))
}

/// The picture of the run and of the look after it, whose ticks are the library's, too, and must have the command of the answer.
fn drawn(course: &mut Course, asked: &Asked, found: &Found, window: Window, title: &str) -> Result<String, Errors> {
    let ticks = ahead::shown_after(asked, found, window.from);
    reaches(asked.at + ticks, window)?;
    let mut repeated = repeat_n(Ok(asked.brought), ticks as usize);
    course.go_on(Source::Recording(&mut repeated), window, &mut Progress::usual(), |_| Ok(()))?;
    ahead::agrees(&course.history, asked, found)?;
    let view = View::of(title, window, course.history.ticks);
    Ok(picture::marked(&course.history, asked.list, view, &ahead::marks(asked, found)))
}
