//! A line on a terminal for runs of more than a second.

use std::io::{self, IsTerminal, Write};
use std::time::{Duration, Instant};

/// Ticks between two looks at the clock.
const LOOK: u32 = 1 << 14;

pub struct Progress {
    patience: Duration,
    next: Instant,
    shown: bool,
    /// Where the line is shown; nowhere without a terminal.
    on: Option<Box<dyn Write>>,
}

impl Progress {
    pub fn new(patience: Duration, on: Option<Box<dyn Write>>) -> Progress {
        Progress { patience, next: Instant::now() + patience, shown: false, on }
    }

    /// After a second, on standard error if that is a terminal.
    pub fn usual() -> Progress {
        let on = io::stderr().is_terminal().then(|| Box::new(io::stderr()) as Box<dyn Write>);
        Progress::new(Duration::from_secs(1), on)
    }

    pub fn tick(&mut self, tick: u32, of: Option<u32>) {
        if tick.is_multiple_of(LOOK) && self.on.is_some() && Instant::now() >= self.next {
            self.next = Instant::now() + self.patience / 2;
            self.shown = true;
            self.show(&format!("\r{}", line(tick, of)));
        }
    }

    /// Takes the line away, if there is one.
    pub fn end(&mut self) {
        if self.shown {
            self.show(&format!("\r{:60}\r", ""));
        }
    }

    /// A terminal that is gone is no trouble.
    fn show(&mut self, words: &str) {
        if let Some(on) = &mut self.on {
            drop(on.write_all(words.as_bytes()).and_then(|()| on.flush()));
        }
    }
}

/// The line; without a part of the whole where that is not known.
pub fn line(tick: u32, of: Option<u32>) -> String {
    match of {
        Some(of) => format!("avr: {:3} %, tick {tick} of {of}", u64::from(tick) * 100 / u64::from(of.max(1))),
        None => format!("avr: tick {tick}"),
    }
}
