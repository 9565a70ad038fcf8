//! The command line.

use std::ffi::OsString;
use std::io::{self, ErrorKind, Write};
use std::process::ExitCode;

use crate::commands::{self, Failure, Said};
use crate::file::{why, Errors};
use crate::help;
use crate::shown;
use crate::standard;
use crate::target;
use crate::words::{self, Takes, Words};

/// Exit statuses.
const BAD_FILE: u8 = 1;
const BAD_USAGE: u8 = 2;

const NO_OUTPUT: &str = "standard output is closed, or cannot be written";

/// A subcommand: its words, its help, what it takes after its words, and what it does.
struct Command {
    path: &'static [&'static str],
    help: &'static str,
    takes: Takes,
    act: fn(&Words) -> Result<Said, Failure>,
}

const COMMANDS: [Command; 8] = [
    Command {
        path: &["sheet", "check"],
        help: help::SHEET_CHECK,
        takes: Takes { plain: 1, options: &["output"], ..Takes::NOTHING },
        act: commands::sheet::check,
    },
    Command {
        path: &["sheet", "show"],
        help: help::SHEET_SHOW,
        takes: Takes { plain: 1, ..Takes::NOTHING },
        act: commands::sheet::show,
    },
    Command {
        path: &["sheet", "template"],
        help: help::SHEET_TEMPLATE,
        takes: Takes { options: &["output", "module"], ..Takes::NOTHING },
        act: commands::sheet::template,
    },
    Command {
        path: &["sheet", "diff"],
        help: help::SHEET_DIFF,
        takes: Takes { plain: 2, ..Takes::NOTHING },
        act: commands::sheet::diff,
    },
    Command {
        path: &["scenario", "write"],
        help: help::SCENARIO_WRITE,
        takes: Takes { plain: 1, options: &["output", "sheet"], needed: &[&["output"]], ..Takes::NOTHING },
        act: commands::scenario::write_recording,
    },
    Command {
        path: &["scenario", "show"],
        help: help::SCENARIO_SHOW,
        takes: Takes { plain: 1, ..Takes::NOTHING },
        act: commands::scenario::show_recording,
    },
    Command {
        path: &["run"],
        help: help::RUN,
        takes: Takes {
            options: &["sheet", "scenario", "recording", "table", "format", "only", "svg", "title", "from", "to"],
            needed: &[&["sheet"], &["scenario", "recording"]],
            ..Takes::NOTHING
        },
        act: commands::run::run,
    },
    Command {
        path: &["ahead"],
        help: help::AHEAD,
        takes: Takes {
            options: &["sheet", "scenario", "recording", "at", "horizon", "svg", "title", "from", "to"],
            needed: &[&["sheet"], &["scenario", "recording"], &["at"]],
            flags: &["automatic"],
            ..Takes::NOTHING
        },
        act: commands::ahead::ahead,
    },
];

pub fn main(words: impl Iterator<Item = OsString>) -> ExitCode {
    let words: Result<Vec<String>, OsString> = words.map(OsString::into_string).collect();
    match words {
        Ok(words) => dispatch(&words),
        Err(word) => misuse(&format!("`{}` is no text", shown::text(&word.to_string_lossy()))),
    }
}

fn dispatch(words: &[String]) -> ExitCode {
    let command = COMMANDS.iter().find(|command| starts(words, command.path));
    match command {
        Some(command) => perform(command, &words[command.path.len()..]),
        None => general(words),
    }
}

fn starts(words: &[String], path: &[&str]) -> bool {
    words.len() >= path.len() && words.iter().zip(path).all(|(word, part)| word == part)
}

/// Help without a whole subcommand.
fn general(words: &[String]) -> ExitCode {
    let words: Vec<&str> = words.iter().map(String::as_str).collect();
    match words[..] {
        ["--help" | "-h" | "help"] => print(help::ALL.as_bytes()),
        ["--help" | "-h" | "help", ..] => dispatch(&asked_for_help(&words[1..])),
        ["--version" | "-V"] => print(concat!("avr ", env!("CARGO_PKG_VERSION"), "\n").as_bytes()),
        ["sheet", "--help" | "-h"] => print(help::SHEET.as_bytes()),
        ["scenario", "--help" | "-h"] => print(help::SCENARIO.as_bytes()),
        [] => misuse("a subcommand is missing"),
        [group @ ("sheet" | "scenario")] => misuse(&format!("{}?", subcommands(group))),
        [group @ ("sheet" | "scenario"), word, ..] => {
            misuse(&format!("no subcommand is called `{group} {}`: {}?", shown::text(word), subcommands(group)))
        }
        [word, ..] => misuse(&format!("no subcommand is called `{}`", shown::text(word))),
    }
}

/// `help run` is `run --help`.
fn asked_for_help(words: &[&str]) -> Vec<String> {
    words.iter().copied().chain(["--help"]).map(str::to_string).collect()
}

/// The subcommands of a group, `scenario write, or scenario show`.
fn subcommands(group: &str) -> String {
    let of_group = COMMANDS.iter().filter(|command| command.path[0] == group);
    let mut names: Vec<String> = of_group.map(|command| command.path.join(" ")).collect();
    let last = names.pop().unwrap_or_default();
    format!("{}, or {last}", names.join(", "))
}

fn perform(command: &Command, words: &[String]) -> ExitCode {
    let words = match words::parse(&command.takes, words) {
        Ok(words) if words.help => return print(command.help.as_bytes()),
        Ok(words) => words,
        Err(wrong) => return misuse_of(command, &wrong),
    };
    let said = match standard::output_is_closed() {
        true => Err(Failure::Files(vec![NO_OUTPUT.to_string()])),
        false => (command.act)(&words),
    };
    match said {
        Ok(said) => give(said),
        Err(Failure::Usage(wrong)) => misuse_of(command, &wrong),
        Err(Failure::Files(errors)) => fail(&errors),
    }
}

/// Standard output first: what cannot be printed leaves no file behind.
fn give(said: Said) -> ExitCode {
    let status = print(&said.out);
    if status != ExitCode::SUCCESS {
        return status;
    }
    if let Err(errors) = target::write(&said.files) {
        return fail(&errors);
    }
    said.notes.iter().for_each(|note| tell(note));
    status
}

fn fail(errors: &Errors) -> ExitCode {
    errors.iter().for_each(|error| tell(&format!("avr: {error}")));
    ExitCode::from(BAD_FILE)
}

/// A line on standard error, if somebody hears it.
fn tell(line: &str) {
    drop(writeln!(io::stderr(), "{line}"));
}

fn misuse(words: &str) -> ExitCode {
    tell(&format!("avr: {words}\ntry `avr --help`"));
    ExitCode::from(BAD_USAGE)
}

fn misuse_of(command: &Command, words: &str) -> ExitCode {
    tell(&format!("avr: {words}\ntry `avr {} --help`", command.path.join(" ")));
    ExitCode::from(BAD_USAGE)
}

/// Prints on standard output. A reader that has gone away is no error.
fn print(bytes: &[u8]) -> ExitCode {
    let mut out = io::stdout().lock();
    match out.write_all(bytes).and_then(|()| out.flush()) {
        _ if standard::output_is_closed() => fail(&vec![NO_OUTPUT.to_string()]),
        Ok(()) => ExitCode::SUCCESS,
        Err(error) if error.kind() == ErrorKind::BrokenPipe => ExitCode::SUCCESS,
        Err(error) => fail(&vec![format!("{}: {}", standard::OUTPUT, why(&error))]),
    }
}
