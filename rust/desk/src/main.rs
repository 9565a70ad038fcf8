//! `avr`, the desk tool.

#![forbid(unsafe_code)]

use std::process::ExitCode;

fn main() -> ExitCode {
    desk::cli::main(std::env::args_os().skip(1))
}
