//! Keeps the readings of a long recording small: what a picture cannot show apart is kept by its first, lowest, highest and last.

use library::Sample;

use crate::cells::LONGEST;
use crate::missing::{self, Why};
use crate::run::{Signal, Window};

/// The entries of a signal from which it is thinned.
const MANY: usize = 1 << 17;

/// How one signal is thinned.
#[derive(Clone, Copy)]
pub struct Thin {
    /// Ticks that become one stretch.
    width: u32,
    /// Entries at which the signal is thinned again.
    next: usize,
}

impl Default for Thin {
    fn default() -> Thin {
        Thin { width: 8, next: MANY }
    }
}

impl Thin {
    /// Looks at the signal of a reading after each tick: of what is outside the window it keeps what stands at its beginning.
    pub fn watch(&mut self, reading: usize, signal: &mut Signal<Sample>, rated: u32, window: Window) {
        let last = signal.len() - 1;
        if last > 0 && signal[last].0 > window.to {
            signal.truncate(last);
        } else if last > 0 && signal[last].0 <= window.from {
            signal.drain(..last);
        } else if signal.len() >= self.next {
            self.thin(reading, signal, rated);
        }
    }

    /// Thins a signal to half of what is many, in wider stretches where these do not do.
    fn thin(&mut self, reading: usize, signal: &mut Signal<Sample>, rated: u32) {
        *signal = thinned(reading, signal, rated, self.width);
        while signal.len() > MANY / 2 && self.width < LONGEST {
            self.width *= 2;
            *signal = thinned(reading, signal, rated, self.width);
        }
        self.next = MANY.max(2 * signal.len());
    }
}

/// What is alike as far as the eye goes: the stretch, the quality, and why a reading is missing.
fn kind(reading: usize, (tick, sample): &(u32, Sample), rated: u32, width: u32) -> (u32, u32, Option<Why>) {
    (tick / width, sample.quality, missing::why(reading, *sample, rated))
}

fn thinned(reading: usize, signal: &Signal<Sample>, rated: u32, width: u32) -> Signal<Sample> {
    let alike = |a: &(u32, Sample), b: &(u32, Sample)| kind(reading, a, rated, width) == kind(reading, b, rated, width);
    signal.chunk_by(alike).flat_map(outline).collect()
}

/// The first, lowest, highest and last of a stretch, in their order.
fn outline(stretch: &[(u32, Sample)]) -> Vec<(u32, Sample)> {
    let by_value = |a: &&(u32, Sample), b: &&(u32, Sample)| a.1.value.total_cmp(&b.1.value);
    let ends = [stretch.first(), stretch.iter().min_by(by_value), stretch.iter().max_by(by_value), stretch.last()];
    let mut outline: Vec<(u32, Sample)> = ends.into_iter().flatten().copied().collect();
    outline.sort_by_key(|(tick, _)| *tick);
    outline.dedup_by_key(|(tick, _)| *tick);
    outline
}
