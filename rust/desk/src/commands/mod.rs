//! What each subcommand does. All is made before anything is written, but for what is too long for that.

pub mod ahead;
pub mod run;
pub mod scenario;
pub mod sheet;
mod source;

use crate::ends;
use crate::file::{Errors, File, STANDARD};
use crate::remarks;
use crate::scenario::Scenario;
use crate::sheet::{explain, Sheet};
use crate::target::Target;
use crate::unit::{self, Unit};

/// What a command gives: to standard output, to files, and then notes on standard error.
#[derive(Default)]
pub struct Said {
    pub out: Vec<u8>,
    pub files: Vec<(Target, Vec<u8>)>,
    pub notes: Vec<String>,
}

impl Said {
    pub fn out(text: String) -> Said {
        Said { out: text.into_bytes(), ..Said::default() }
    }

    /// What goes to a target, and a note where it is a file.
    fn put(&mut self, what: &str, target: Target, bytes: Vec<u8>) {
        match target.is_standard() {
            true => self.out = bytes,
            false => {
                self.notes.push(format!("avr: the {what} is in {}", target.name));
                self.files.push((target, bytes));
            }
        }
    }
}

/// Why a command was not done.
pub enum Failure {
    /// Its command line is wrong.
    Usage(String),
    /// A file is, or a sheet is refused.
    Files(Errors),
}

impl From<Errors> for Failure {
    fn from(errors: Errors) -> Failure {
        Failure::Files(errors)
    }
}

/// Standard input can be read once.
fn read_once(inputs: &[&str]) -> Result<(), Failure> {
    match inputs.iter().filter(|path| **path == STANDARD).count() {
        0 | 1 => Ok(()),
        _ => Err(Failure::Usage("standard input is asked for twice: give one of them as a file".to_string())),
    }
}

/// Remarks on what the unit needs and no column gives.
fn remarks(file: &File, scenario: &Scenario, sheet: &Sheet) -> Vec<String> {
    remarks::remarks(scenario, &sheet.list).iter().map(|words| format!("avr: {}", file.says(words))).collect()
}

/// Whether the scenario's drive goes with the sheet.
fn check_drive(file: &File, scenario: &Scenario, sheet: &Sheet) -> Result<(), Errors> {
    ends::check(&scenario.rows[0].standing.nature, &sheet.list).map_err(|words| vec![file.says(&words)])
}

fn started(sheet: &Sheet) -> Result<Unit, Errors> {
    unit::start(&sheet.list).map_err(|refusal| vec![explain(&sheet.list, refusal)])
}
