//! How a picture tells time: in seconds, minutes or hours, by how long its run is.

use crate::decimal;
use crate::text::text_width;
use crate::value::TICK_MS;

const MINUTE: u64 = 60_000;
const HOUR: u64 = 60 * MINUTE;

/// Runs up to this are told in seconds, and what is shown of a run up to this is told to the millisecond.
const SHORT: u64 = 5 * MINUTE;
/// Runs from this on are told in hours.
const LONG: u64 = 2 * HOUR;

/// The steps that a clock reader likes, in milliseconds.
#[rustfmt::skip]
const STEPS: [u64; 34] = [
    1, 2, 5, 10, 20, 50, 100, 200, 500, 1000, 2000, 5000, 10_000, 15_000, 20_000, 30_000,
    MINUTE, 2 * MINUTE, 5 * MINUTE, 10 * MINUTE, 15 * MINUTE, 20 * MINUTE, 30 * MINUTE,
    HOUR, 2 * HOUR, 3 * HOUR, 4 * HOUR, 6 * HOUR, 12 * HOUR, 24 * HOUR, 48 * HOUR, 120 * HOUR, 240 * HOUR, 480 * HOUR,
];

/// The most steps of an axis: two hours each for a day.
const MOST_STEPS: u64 = 12;

#[derive(Clone, Copy)]
enum Unit {
    Seconds,
    Minutes,
    Hours,
}

/// How time is told.
#[derive(Clone, Copy)]
pub struct Clock {
    unit: Unit,
    exact: bool,
}

/// The end of a tick, in milliseconds.
pub fn ms(tick: u32) -> u64 {
    u64::from(tick) * TICK_MS
}

impl Clock {
    /// For a run of so many ticks, of which so many are shown.
    pub fn new(run: u32, shown: u32) -> Clock {
        let unit = match ms(run) {
            ..=SHORT => Unit::Seconds,
            LONG.. => Unit::Hours,
            _ => Unit::Minutes,
        };
        Clock { unit, exact: ms(shown) <= SHORT }
    }

    /// The end of a tick, with its unit: `12.5 s`, `12:30 min`, `13:45:10`. Where much is shown, whole seconds.
    pub fn time(self, tick: u32) -> String {
        let ms = if self.exact { ms(tick) } else { ms(tick) / 1000 * 1000 };
        match self.unit {
            Unit::Seconds => format!("{} s", decimal::text(ms)),
            Unit::Minutes => format!("{}:{} min", ms / MINUTE, seconds(ms)),
            Unit::Hours => format!("{}:{}", hours(ms), seconds(ms)),
        }
    }

    /// A mark of the axis, in steps of so many milliseconds.
    pub fn mark(self, ms: u64, step: u64) -> String {
        let whole = step.is_multiple_of(MINUTE);
        match self.unit {
            Unit::Seconds => decimal::text(ms),
            Unit::Minutes if whole => (ms / MINUTE).to_string(),
            Unit::Minutes => format!("{}:{}", ms / MINUTE, seconds(ms)),
            Unit::Hours if whole => hours(ms),
            Unit::Hours => format!("{}:{}", hours(ms), seconds(ms)),
        }
    }

    /// The name of the axis.
    pub fn axis(self, step: u64) -> &'static str {
        match (self.unit, step.is_multiple_of(MINUTE)) {
            (Unit::Seconds, _) => "time, s",
            (Unit::Minutes, true) => "time, min",
            (Unit::Minutes, false) => "time, min:s",
            (Unit::Hours, true) => "time, h:min",
            (Unit::Hours, false) => "time, h:min:s",
        }
    }

    /// The step of an axis between two times, with `room` pixels for each millisecond: its marks do not lie on each other.
    pub fn step(self, from: u64, to: u64, room: f64) -> u64 {
        let fits = |step: &u64| {
            let has_room = |n: u64| text_width(&self.mark(n * step, *step), MARK_SIZE) + 8.0 <= room * *step as f64;
            (to - from) / step <= MOST_STEPS && (from / step..=to / step).all(has_room)
        };
        STEPS.into_iter().find(fits).unwrap_or(STEPS[STEPS.len() - 1])
    }
}

/// The size of the marks' texts.
pub const MARK_SIZE: f64 = 11.5;

/// The seconds of a minute: `05`, `12.5`.
fn seconds(ms: u64) -> String {
    let text = decimal::text(ms % MINUTE);
    if ms % MINUTE < 10_000 {
        format!("0{text}")
    } else {
        text
    }
}

/// `06:30`.
fn hours(ms: u64) -> String {
    format!("{:02}:{:02}", ms / HOUR, ms / MINUTE % 60)
}
