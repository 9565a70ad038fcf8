//! `avr sheet`.

use super::{read_once, Failure, Said};
use crate::advice::{advice, Advice};
use crate::diff;
use crate::file::{Errors, File, SHEET_MOST, STANDARD};
use crate::names::TABLE;
use crate::sheet::{self, Sheet};
use crate::target::{targets, Target};
use crate::template;
use crate::value;
use crate::words::Words;

/// The word on a sheet stands on standard output, unless the SHEET goes there.
pub fn check(words: &Words) -> Result<Said, Failure> {
    let name = &words.plain[0];
    let outputs: Vec<&str> = words.option("output").into_iter().collect();
    let target = targets(&outputs, &[name])?.pop();
    let file = File::read(name, SHEET_MOST)?;
    let sheet = sheet::read(&file)?;
    let judged = format!("{}\n{}", file.says(&format!("taken; {}", sheet.told())), advised(&file, &sheet));
    let mut said = Said::default();
    match target.as_ref().is_some_and(Target::is_standard) {
        true => said.notes.push(judged.trim_end().to_string()),
        false => said.out = judged.into_bytes(),
    }
    if let Some(target) = target {
        said.put("SHEET", target, sheet::to_bytes(&sheet.list));
    }
    Ok(said)
}

/// A line for each piece of advice: where, the setting, and the words on it.
fn advised(file: &File, sheet: &Sheet) -> String {
    let told = |Advice { slot, words }| {
        let (name, value) = (TABLE[slot].name, value::text(&TABLE[slot], sheet.list[slot]));
        let left_out = if sheet.is_left_out(slot) { ", by default," } else { "" };
        sheet.says(file, slot, &format!("advice: {name} = {value}{left_out} {words}\n"))
    };
    advice(&sheet.list).into_iter().map(told).collect()
}

pub fn show(words: &Words) -> Result<Said, Failure> {
    let sheet = sheet::read_binary(&File::read(&words.plain[0], SHEET_MOST)?)?;
    Ok(Said::out(sheet::to_text(&sheet.list)))
}

pub fn template(words: &Words) -> Result<Said, Failure> {
    let module = words.choice("module", &template::MODULES).map_err(Failure::Usage)?;
    let target = targets(&[words.option("output").unwrap_or(STANDARD)], &[])?.remove(0);
    let mut said = Said::default();
    said.put("template", target, template::template(module).into_bytes());
    Ok(said)
}

/// What is wrong with either sheet is told.
pub fn diff(words: &Words) -> Result<Said, Failure> {
    let names: Vec<&str> = words.plain.iter().map(String::as_str).collect();
    read_once(&names)?;
    let read = |name: &str| -> Result<Sheet, Errors> { sheet::read(&File::read(name, SHEET_MOST)?) };
    match (read(names[0]), read(names[1])) {
        (Ok(one), Ok(other)) => Ok(Said::out(diff::diff(&one.list, &other.list))),
        (one, other) => Err(Failure::Files([one.err(), other.err()].into_iter().flatten().flatten().collect())),
    }
}
