//! A target that is written while it is made, since it may be of a whole day.

use std::io::{self, BufWriter, ErrorKind, Write};

use crate::file::{why, Errors};
use crate::target::Target;

/// The first byte of a RECORDING that was not finished: no quality has this number.
pub const UNFINISHED: u8 = 255;

pub struct Stream<'a> {
    target: &'a Target,
    output: BufWriter<Box<dyn Write>>,
    mark: Mark,
    /// Whether the file had something in it, which is gone now.
    was_there: bool,
    /// Whether the reader of standard output has gone away, which is no error.
    pub gone: bool,
}

/// Whether the first byte says that the file is not finished, in place of the true one.
enum Mark {
    None,
    Wanted,
    Set(u8),
}

impl Stream<'_> {
    pub fn open(target: &Target) -> Result<Stream<'_>, Errors> {
        let was_there = target.is_there();
        let output = target.open().map_err(|error| vec![target.says(&why(&error))])?;
        Ok(Stream { target, output: BufWriter::with_capacity(1 << 16, output), mark: Mark::None, was_there, gone: false })
    }

    /// Likewise, marked until its end where it is a file on a disk, so that one that was broken off is told.
    pub fn open_marked(target: &Target) -> Result<Stream<'_>, Errors> {
        let mark = if target.is_plain() { Mark::Wanted } else { Mark::None };
        Ok(Stream { mark, ..Stream::open(target)? })
    }

    pub fn put(&mut self, bytes: &[u8]) -> Result<(), Errors> {
        let done = match (&self.mark, bytes) {
            (Mark::Wanted, [first, rest @ ..]) => {
                self.mark = Mark::Set(*first);
                self.output.write_all(&[UNFINISHED]).and_then(|()| self.output.write_all(rest))
            }
            _ => self.output.write_all(bytes),
        };
        self.judge(done)
    }

    pub fn end(mut self) -> Result<(), Errors> {
        let done = self.output.flush().and_then(|()| match self.mark {
            Mark::Set(first) => self.target.write_first(first),
            _ => Ok(()),
        });
        self.judge(done)
    }

    fn judge(&mut self, done: io::Result<()>) -> Result<(), Errors> {
        match done {
            Ok(()) => Ok(()),
            Err(error) if error.kind() == ErrorKind::BrokenPipe && self.target.is_standard() => {
                self.gone = true;
                Ok(())
            }
            Err(error) => {
                self.target.give_up(self.was_there);
                let lost = if self.was_there && !self.target.is_standard() { "; what was in it is gone" } else { "" };
                Err(vec![self.target.says(&(why(&error) + lost))])
            }
        }
    }
}
