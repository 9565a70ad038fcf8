//! The command line.

#![forbid(unsafe_code)]

use std::env;
use std::io::{self, BufWriter, Write};
use std::path::Path;
use std::process::ExitCode;

use reference::recording::{READING_BYTES, SHEET_BYTES, TICK_BYTES};
use reference::{make, replay, values};

const USAGE: &str = "usage: reference values
       reference layout
       reference replay SHEET RECORDING
       reference make SEED TICKS SHEET RECORDING";

/// Exit status for a file that cannot be used.
const BAD_FILE: u8 = 1;

/// Exit status for a command line that cannot be understood.
const BAD_USAGE: u8 = 2;

fn main() -> ExitCode {
    let words: Result<Vec<String>, _> = env::args_os().skip(1).map(|w| w.into_string()).collect();
    match words {
        Ok(words) => run(&words.iter().map(String::as_str).collect::<Vec<_>>()),
        Err(_) => misused("arguments must be plain text"),
    }
}

fn run(words: &[&str]) -> ExitCode {
    match *words {
        ["values"] => done(print_values()),
        ["layout"] => done(print_layout()),
        ["replay", sheet, recording] => done(replay::replay(Path::new(sheet), Path::new(recording), io::stdout().lock())),
        ["make", seed, ticks, sheet, recording] => match (seed.parse(), ticks.parse()) {
            (Ok(seed), Ok(ticks)) => done(make::make(seed, ticks, Path::new(sheet), Path::new(recording))),
            _ => misused("SEED and TICKS must be whole numbers"),
        },
        _ => misused("no such subcommand with so many arguments"),
    }
}

fn print_values() -> Result<(), String> {
    let mut out = BufWriter::new(io::stdout().lock());
    values::print(&mut out).and_then(|()| out.flush()).map_err(|error| format!("standard output: {error}"))
}

/// The sizes of the files, as lines that a shell can take in.
fn print_layout() -> Result<(), String> {
    writeln!(io::stdout(), "SHEET_BYTES={SHEET_BYTES}\nREADING_BYTES={READING_BYTES}\nTICK_BYTES={TICK_BYTES}")
        .map_err(|error| format!("standard output: {error}"))
}

fn done(result: Result<(), String>) -> ExitCode {
    match result {
        Ok(()) => ExitCode::SUCCESS,
        Err(line) => {
            eprintln!("reference: {line}");
            ExitCode::from(BAD_FILE)
        }
    }
}

fn misused(line: &str) -> ExitCode {
    eprintln!("reference: {line}\n{USAGE}");
    ExitCode::from(BAD_USAGE)
}
