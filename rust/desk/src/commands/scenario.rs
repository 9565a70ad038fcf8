//! `avr scenario`. What it writes may be of a whole day, and is written as it is made.

use std::fs;
use std::io::{Cursor, Read};

use library::FIELDS;

use super::{check_drive, read_once, remarks, started, Failure, Said};
use crate::cells::LONGEST;
use crate::file::{self, Errors, File, SCENARIO_MOST, SHEET_MOST, STANDARD};
use crate::play::{Player, Source};
use crate::progress::Progress;
use crate::recording::{self, Recording};
use crate::run::{self, Window};
use crate::scenario::{self, Scenario};
use crate::sheet::{self, Sheet};
use crate::show;
use crate::shown;
use crate::stream::Stream;
use crate::target::{targets, Target};
use crate::words::Words;

pub fn write_recording(words: &Words) -> Result<Said, Failure> {
    let name = words.plain[0].as_str();
    let inputs: Vec<&str> = [name].into_iter().chain(words.option("sheet")).collect();
    read_once(&inputs)?;
    let target = targets(&[words.needed("output")], &inputs)?.remove(0);
    let sheet = words.option("sheet").map(|name| sheet::read(&File::read(name, SHEET_MOST)?)).transpose()?;
    let file = File::read(name, SCENARIO_MOST)?;
    let scenario = scenario::read(&file)?;
    let mut said = Said::default();
    match &sheet {
        Some(sheet) => {
            check_drive(&file, &scenario, sheet)?;
            said.notes = remarks(&file, &scenario, sheet);
            record(sheet, &scenario, &target)?;
        }
        None if scenario.has_drive() => {
            return Err(vec![file.says("its simulated drive answers a unit: give the unit's sheet with --sheet")].into())
        }
        None => record_unanswered(&scenario, &target)?,
    }
    let ticks = shown::counted(scenario.ticks as usize, "tick");
    said.notes.push(format!("avr: the RECORDING of {ticks} is in {}", target.name));
    Ok(said)
}

/// The recording of a scenario that answers a unit.
fn record(sheet: &Sheet, scenario: &Scenario, target: &Target) -> Result<(), Errors> {
    let unit = started(sheet)?;
    let source = Source::Scenario(Player::with_drive(scenario, &sheet.list));
    let mut stream = Stream::open_marked(target)?;
    run::run(unit, source, Window::WHOLE, &mut Progress::usual(), |brought| stream.put(&recording::bytes(brought)))?;
    stream.end()
}

/// The recording of a scenario without a drive, which needs no unit.
fn record_unanswered(scenario: &Scenario, target: &Target) -> Result<(), Errors> {
    let mut source = Source::Scenario(Player::new(scenario));
    let mut stream = Stream::open_marked(target)?;
    let mut tick = 1;
    while let Some(brought) = source.bring(tick, &[0; FIELDS])? {
        stream.put(&recording::bytes(&brought))?;
        tick += 1;
    }
    stream.end()
}

/// A recording is read twice: for its columns, and for its rows. One that cannot be, as standard input, is kept for that.
pub fn show_recording(words: &Words) -> Result<Said, Failure> {
    let path = words.plain[0].as_str();
    let target = targets(&[STANDARD], &[path])?.remove(0);
    let kept = if is_read_once(path) { Some(all_of(path)?) } else { None };
    let open = || match &kept {
        Some(bytes) => Ok(Recording::of(file::input_name(path), Box::new(Cursor::new(bytes)))),
        None => Recording::open(path),
    };
    let columns = show::used(open()?)?;
    let mut stream = Stream::open(&target)?;
    show::rows(&columns, open()?, |line| {
        stream.put(line.as_bytes())?;
        Ok(!stream.gone)
    })?;
    stream.end()?;
    Ok(Said::default())
}

/// Standard input, a pipe.
fn is_read_once(path: &str) -> bool {
    path == STANDARD || fs::metadata(path).is_ok_and(|data| !data.is_file() && !data.is_dir())
}

/// What is in an input, a little more than the longest recording at most.
fn all_of(path: &str) -> Result<Vec<u8>, Errors> {
    let most = (u64::from(LONGEST) + 1) * recording::BYTES as u64;
    let mut bytes = Vec::new();
    let read = file::open(path).and_then(|input| input.take(most).read_to_end(&mut bytes));
    match read {
        Ok(_) => Ok(bytes),
        Err(error) => Err(vec![format!("{}: {}", file::input_name(path), file::why(&error))]),
    }
}
