//! Files that are read, no further than they may go, and what is wrong where.

use std::fs;
use std::io::{self, Read};

use crate::shown;
use crate::standard;

/// What is wrong, a line each.
pub type Errors = Vec<String>;

/// Standard input or output in place of a file.
pub const STANDARD: &str = "-";

/// The most MiB of a sheet and of a scenario.
pub const SHEET_MOST: u64 = 1;
pub const SCENARIO_MOST: u64 = 256;

/// What is said of a text in UTF-16.
pub const UTF16: &str = "this is text in UTF-16; save it as UTF-8";

/// The most errors of a file that are told one by one.
pub const MOST_ERRORS: usize = 20;

/// A file that was read, under the name that a message has for it.
pub struct File {
    pub name: String,
    pub bytes: Vec<u8>,
}

impl File {
    /// Reads a file whole, or standard input, if it has at most so many MiB.
    pub fn read(path: &str, most: u64) -> Result<File, Errors> {
        let limit = most << 20;
        let mut file = File { name: input_name(path), bytes: Vec::new() };
        let read = open(path).and_then(|input| input.take(limit + 1).read_to_end(&mut file.bytes));
        match read {
            Err(error) => Err(vec![file.says(&why(&error))]),
            Ok(_) if file.bytes.len() as u64 > limit => {
                Err(vec![file.says(&format!("is longer than {most} MiB, the most that is read of such a file"))])
            }
            Ok(_) => Ok(file),
        }
    }

    /// `file: words`.
    pub fn says(&self, words: &str) -> String {
        format!("{}: {words}", self.name)
    }

    /// `file:line: words`.
    pub fn says_at(&self, line: usize, words: &str) -> String {
        format!("{}:{line}: {words}", self.name)
    }

    /// Whether it begins as a text in UTF-16 does, of either order of bytes.
    pub fn is_utf16(&self) -> bool {
        self.bytes.starts_with(&[0xff, 0xfe]) || self.bytes.starts_with(&[0xfe, 0xff])
    }

    /// The first errors, and how many more there are.
    pub fn first_of(&self, mut errors: Errors) -> Errors {
        let more = errors.len().saturating_sub(MOST_ERRORS);
        errors.truncate(MOST_ERRORS);
        errors.extend(self.and_more(more));
        errors
    }

    pub fn and_more(&self, errors: usize) -> Option<String> {
        (errors > 0).then(|| self.says(&format!("and {errors} more")))
    }

    /// The lines of a text, numbered from 1.
    pub fn lines(&self) -> Result<impl Iterator<Item = (usize, &str)>, Errors> {
        match std::str::from_utf8(&self.bytes) {
            Ok(text) => Ok(text.trim_start_matches('\u{feff}').lines().enumerate().map(|(at, line)| (at + 1, line))),
            Err(_) if self.is_utf16() => Err(vec![self.says(UTF16)]),
            Err(error) => {
                let before = &self.bytes[..error.valid_up_to()];
                let line = 1 + before.iter().filter(|&&b| b == b'\n').count();
                Err(vec![self.says_at(line, "this is no text (not UTF-8)")])
            }
        }
    }
}

/// A file or standard input, to be read from its beginning.
pub fn open(path: &str) -> io::Result<Box<dyn Read>> {
    match path {
        STANDARD if standard::input_is_closed() => Err(io::Error::other("is closed, or cannot be read")),
        STANDARD => Ok(Box::new(io::stdin().lock())),
        _ => Ok(Box::new(fs::File::open(path)?)),
    }
}

/// What a message calls a file that is read.
pub fn input_name(path: &str) -> String {
    match path {
        STANDARD => standard::INPUT.to_string(),
        _ => shown::name(path),
    }
}

/// The system's words, without its number.
pub fn why(error: &io::Error) -> String {
    let words = error.to_string();
    words.split(" (os error").next().unwrap_or(&words).to_string()
}
