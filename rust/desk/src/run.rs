//! Runs the unit over its ticks and keeps what changed.

use library::{Brought, Sample, FIELDS, READINGS};

use crate::cells::LONGEST;
use crate::drive::Way;
use crate::file::Errors;
use crate::inputs::is_on;
use crate::missing::Missing;
use crate::play::Source;
use crate::progress::Progress;
use crate::thin::Thin;
use crate::unit::Unit;

/// A signal: its value from a tick on, at each change. The first entry is tick 1.
pub type Signal<T> = Vec<(u32, T)>;

/// The ticks that somebody looks at: from one to another, both included.
#[derive(Clone, Copy, Debug, PartialEq)]
pub struct Window {
    pub from: u32,
    pub to: u32,
}

impl Window {
    pub const WHOLE: Window = Window { from: 0, to: LONGEST };

    pub fn holds(self, tick: u32) -> bool {
        self.from <= tick && tick <= self.to
    }
}

/// What happened.
#[derive(Default)]
pub struct History {
    pub ticks: u32,
    /// The readings; of a recording, where they change on every tick, what a picture of the window shows.
    pub readings: [Signal<Sample>; READINGS],
    /// The readings that are missing to the unit, a bit each, and why, all ticks counted.
    pub missing: Signal<u32>,
    pub reasons: Missing,
    pub contacts: Signal<u32>,
    pub bcd: Signal<u8>,
    pub sensor: Signal<u8>,
    pub remembered: Signal<Option<Way>>,
    pub outputs: [Signal<u32>; FIELDS],
}

/// Runs all ticks of a source and looks at all of them.
pub fn history(unit: Unit, source: Source) -> Result<History, Errors> {
    run(unit, source, Window::WHOLE, &mut Progress::usual(), |_| Ok(()))
}

/// Runs all ticks of a source; `each` sees what every tick brings.
pub fn run(
    unit: Unit,
    source: Source,
    window: Window,
    progress: &mut Progress,
    each: impl FnMut(&Brought) -> Result<(), Errors>,
) -> Result<History, Errors> {
    let mut course = Course::new(unit);
    course.go_on(source, window, progress, each)?;
    Ok(course.history)
}

/// A unit that runs, and what happened so far.
pub struct Course {
    pub unit: Unit,
    pub history: History,
}

impl Course {
    pub fn new(unit: Unit) -> Course {
        Course { unit, history: History::default() }
    }

    /// Runs all ticks of a source after those that it has run.
    pub fn go_on(
        &mut self,
        mut source: Source,
        window: Window,
        progress: &mut Progress,
        mut each: impl FnMut(&Brought) -> Result<(), Errors>,
    ) -> Result<(), Errors> {
        let Course { unit, history } = self;
        let of = source.ticks().map(|ticks| history.ticks + ticks);
        let mut thins = (!source.is_scenario()).then(|| [Thin::default(); READINGS]);
        let mut outputs = [0; FIELDS];
        while let Some(brought) = source.bring(history.ticks + 1, &outputs)? {
            history.ticks += 1;
            each(&brought)?;
            let refused = |number| vec![format!("tick {} is refused (refusal {number})", history.ticks)];
            outputs = unit.tick(&brought).map_err(refused)?;
            history.note(&brought, unit, &outputs);
            thins.iter_mut().for_each(|thins| history.thin(thins, unit.rated, window));
            progress.tick(history.ticks, of);
        }
        progress.end();
        Ok(())
    }
}

impl History {
    fn note(&mut self, brought: &Brought, unit: &Unit, outputs: &[u32; FIELDS]) {
        let tick = self.ticks;
        for (signal, sample) in self.readings.iter_mut().zip(brought.readings) {
            keep_sample(signal, tick, sample);
        }
        keep(&mut self.missing, tick, self.reasons.count(&brought.readings, unit.rated));
        keep(&mut self.contacts, tick, brought.contacts);
        keep(&mut self.bcd, tick, brought.bcd);
        keep(&mut self.sensor, tick, brought.sensor);
        keep(&mut self.remembered, tick, unit.remembered());
        for (signal, output) in self.outputs.iter_mut().zip(outputs) {
            keep(signal, tick, *output);
        }
    }

    fn thin(&mut self, thins: &mut [Thin; READINGS], rated: u32, window: Window) {
        for (at, (thin, signal)) in thins.iter_mut().zip(&mut self.readings).enumerate() {
            thin.watch(at, signal, rated, window);
        }
    }

    /// What a reading was on a tick.
    pub fn reading(&self, at: usize, tick: u32) -> Sample {
        standing(&self.readings[at], tick).unwrap_or_default()
    }

    /// An output of a tick; each is 0 before the first.
    pub fn output(&self, field: usize, tick: u32) -> u32 {
        standing(&self.outputs[field], tick).unwrap_or_default()
    }

    /// Whether a contact was on on a tick; none was before the first.
    pub fn contact(&self, bit: u32, tick: u32) -> bool {
        standing(&self.contacts, tick).is_some_and(|contacts| is_on(contacts, bit))
    }
}

/// The value of a signal on a tick.
fn standing<T: Copy>(signal: &Signal<T>, tick: u32) -> Option<T> {
    let after = signal.partition_point(|(from, _)| *from <= tick);
    after.checked_sub(1).map(|at| signal[at].1)
}

/// Notes a signal's value on a tick, if it is another than before.
pub fn keep<T: PartialEq>(signal: &mut Signal<T>, tick: u32, value: T) {
    if signal.last().is_none_or(|(_, last)| *last != value) {
        signal.push((tick, value));
    }
}

/// Likewise of a reading, by its bits: a float that is no number is the same again.
fn keep_sample(signal: &mut Signal<Sample>, tick: u32, sample: Sample) {
    let bits = |sample: &Sample| (sample.quality, sample.value.to_bits());
    if signal.last().is_none_or(|(_, last)| bits(last) != bits(&sample)) {
        signal.push((tick, sample));
    }
}
