//! The part of a run that a picture shows.

use library::{Sample, FIELDS, READINGS};

use crate::drive::Way;
use crate::run::History;

/// A signal's changes; the first one may be before the part.
pub type Changes<'a, T> = &'a [(u32, T)];

/// What happened from a tick on, up to another.
pub struct Seen<'a> {
    pub from: u32,
    pub to: u32,
    pub readings: [Changes<'a, Sample>; READINGS],
    pub missing: Changes<'a, u32>,
    pub contacts: Changes<'a, u32>,
    pub remembered: Changes<'a, Option<Way>>,
    pub outputs: [Changes<'a, u32>; FIELDS],
}

impl<'a> Seen<'a> {
    pub fn new(history: &'a History, from: u32, to: u32) -> Seen<'a> {
        Seen {
            from,
            to,
            readings: std::array::from_fn(|at| cut(&history.readings[at], from, to)),
            missing: cut(&history.missing, from, to),
            contacts: cut(&history.contacts, from, to),
            remembered: cut(&history.remembered, from, to),
            outputs: std::array::from_fn(|at| cut(&history.outputs[at], from, to)),
        }
    }

    pub fn whole(history: &'a History) -> Seen<'a> {
        Seen::new(history, 0, history.ticks)
    }
}

/// The changes after `from` and up to `to`, and before them the one that stands at `from`.
fn cut<T>(signal: &[(u32, T)], from: u32, to: u32) -> Changes<'_, T> {
    let first = signal.partition_point(|(tick, _)| *tick <= from).saturating_sub(1);
    let end = signal.partition_point(|(tick, _)| *tick <= to);
    &signal[first..end]
}

/// The stretches in which a signal is `on`, each from a tick and up to another; the last one is cut at `to`.
pub fn spans<T>(signal: Changes<T>, to: u32, on: impl Fn(&T) -> bool) -> Vec<(u32, u32)> {
    let mut spans: Vec<(u32, u32)> = Vec::new();
    for (at, (from, value)) in signal.iter().enumerate() {
        let to = signal.get(at + 1).map_or(to, |(next, _)| *next);
        match spans.last_mut() {
            _ if !on(value) => (),
            Some(last) if last.1 == *from => last.1 = to,
            _ => spans.push((*from, to)),
        }
    }
    spans
}
