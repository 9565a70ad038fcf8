//! Scales: from ticks and readings to pixels, and round numbers for axes.

use crate::clock::{ms, Clock};

/// Time from left to right, between two ticks, and how it is told.
#[derive(Clone, Copy)]
pub struct TimeScale {
    pub left: f64,
    pub width: f64,
    pub from: u32,
    pub to: u32,
    pub clock: Clock,
}

impl TimeScale {
    /// Where the change of a tick is drawn: at the tick's end, and at time 0 for the first one. What was before is at the left.
    pub fn at(&self, tick: u32) -> f64 {
        let shown = if tick <= 1 { 0 } else { tick };
        self.at_ms(ms(shown.clamp(self.from, self.to)))
    }

    fn at_ms(&self, time: u64) -> f64 {
        self.left + (time - ms(self.from)) as f64 * self.room()
    }

    /// The pixels of a millisecond.
    fn room(&self) -> f64 {
        self.width / ms(self.to - self.from).max(1) as f64
    }

    pub fn right(&self) -> f64 {
        self.left + self.width
    }

    /// The step of the axis, in milliseconds.
    pub fn step(&self) -> u64 {
        self.clock.step(ms(self.from), ms(self.to), self.room())
    }

    /// Round times, where they are and what they are called.
    pub fn marks(&self) -> Vec<(f64, String)> {
        let step = self.step();
        let times = (ms(self.from).div_ceil(step)..=ms(self.to) / step).map(|n| n * step);
        times.map(|time| (self.at_ms(time), self.clock.mark(time, step))).collect()
    }
}

/// Readings from bottom to top.
#[derive(Clone, Copy)]
pub struct ValueScale {
    pub top: f64,
    pub height: f64,
    pub low: f64,
    pub high: f64,
}

impl ValueScale {
    /// A scale with some room around the values.
    pub fn around(low: f64, high: f64, top: f64, height: f64) -> ValueScale {
        let room = ((high - low) * 0.08).max(0.2);
        ValueScale { top, height, low: low - room, high: high + room }
    }

    pub fn at(&self, value: f64) -> f64 {
        let part = (value - self.low) / (self.high - self.low);
        self.top + self.height * (1.0 - part.clamp(0.0, 1.0))
    }

    pub fn holds(&self, value: f64) -> bool {
        (self.low..=self.high).contains(&value)
    }

    /// Round values, about `count` of them.
    pub fn marks(&self, count: f64) -> Vec<f64> {
        marks(self.low, self.high, round_step((self.high - self.low) / count))
    }

    /// Round parts of a turn, at most about `count` of them.
    pub fn degree_marks(&self, count: f64) -> Vec<f64> {
        const STEPS: [f64; 6] = [1.0, 5.0, 10.0, 30.0, 45.0, 90.0];
        let least = (self.high - self.low) / count;
        marks(self.low, self.high, STEPS.into_iter().find(|step| *step >= least).unwrap_or(180.0))
    }
}

/// 1, 2 or 5 times a power of ten, at least `least`.
fn round_step(least: f64) -> f64 {
    let ten = 10f64.powf(least.max(1e-9).log10().floor());
    [1.0, 2.0, 5.0, 10.0].into_iter().map(|n| n * ten).find(|step| *step >= least * 0.999).unwrap_or(ten * 10.0)
}

fn marks(low: f64, high: f64, step: f64) -> Vec<f64> {
    let first = (low / step).ceil() as i64;
    let last = (high / step + 1e-9).floor() as i64;
    (first..=last).map(|n| n as f64 * step).collect()
}

/// A mark's number, without idle decimals.
pub fn mark_text(value: f64) -> String {
    let text = format!("{:.3}", value + 0.0);
    let text = text.trim_end_matches('0').trim_end_matches('.');
    if text == "-0" {
        "0".to_string()
    } else {
        text.to_string()
    }
}
