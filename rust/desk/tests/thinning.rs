//! The readings of a long recording: few of them are kept, and a picture of these is the picture of all.

mod common;

use common::{defaults, Dice};
use desk::inputs::{reading_at, U_AB};
use desk::play::Source;
use desk::progress::Progress;
use desk::run::{self, History, Window};
use desk::unit::start;
use library::{Brought, Sample};

const TICKS: u32 = 1_500_000;
/// A stretch that is wider than any that is thinned to one.
const STRETCH: u32 = 1 << 10;

/// A voltage that swings slowly, with noise.
fn volts(dice: &mut Dice, tick: u32) -> f32 {
    let swing = (f64::from(tick) / f64::from(TICKS) * 20.0).sin() * 3.0;
    (100.0 + swing + f64::from(dice.below(1000)) / 2000.0) as f32
}

/// A recording with that voltage, which is held for a while and missing on a few ticks.
fn ticks() -> impl Iterator<Item = Brought> {
    let mut dice = Dice(11);
    (1..=TICKS).map(move |tick| {
        let value = volts(&mut dice, tick);
        let quality = u32::from((400_000..600_000).contains(&tick));
        let mut brought = Brought { contacts: 1, ..Brought::default() };
        brought.readings[U_AB] = Sample { quality, value: if tick % 100_003 == 0 { -1.0 } else { value } };
        brought.readings[reading_at("I_bus")] = Sample { quality: 0, value: 0.5 };
        brought
    })
}

fn history(window: Window) -> History {
    let unit = start(&defaults(0)).expect("taken");
    let source = &mut ticks().map(Ok);
    run::run(unit, Source::Recording(source), window, &mut Progress::usual(), |_| Ok(())).expect("a run")
}

/// The lowest and the highest number of each stretch, of those that count.
fn extents(samples: impl Iterator<Item = (u32, f32)>) -> Vec<(f32, f32)> {
    let mut extents = vec![(f32::MAX, f32::MIN); (TICKS / STRETCH + 1) as usize];
    for (tick, value) in samples.filter(|(_, value)| *value >= 0.0) {
        let (low, high) = &mut extents[(tick / STRETCH) as usize];
        (*low, *high) = (low.min(value), high.max(value));
    }
    extents
}

#[test]
fn few_readings_are_kept_and_none_that_stands_out_is_lost() {
    let history = history(Window::WHOLE);
    let kept = &history.readings[U_AB];
    assert!(kept.len() < 140_000, "{}", kept.len());
    let all = extents(ticks().zip(1..).map(|(tick, at)| (at, tick.readings[U_AB].value)));
    assert_eq!(extents(kept.iter().map(|(tick, sample)| (*tick, sample.value))), all);
    let missing = (1..=TICKS).filter(|tick| tick % 100_003 == 0);
    assert!(missing.clone().all(|tick| history.reading(U_AB, tick).value == -1.0));
    assert_eq!(history.missing.len(), 1 + 2 * missing.count());
    let held: Vec<u32> = kept.iter().filter(|(_, sample)| sample.quality == 1).map(|(tick, _)| *tick).collect();
    assert_eq!((held.first(), held.last()), (Some(&400_000), Some(&599_999)));
    assert_eq!(history.readings[reading_at("I_bus")].len(), 1);
}

/// A window into a long recording has each of its own readings, and what stood as it began.
#[test]
fn a_window_keeps_each_of_its_readings() {
    let window = Window { from: 700_000, to: 720_000 };
    let kept = &history(window).readings[U_AB];
    let wanted: Vec<(u32, f32)> = ticks().zip(1..).map(|(tick, at)| (at, tick.readings[U_AB].value)).collect();
    let wanted = &wanted[window.from as usize - 1..window.to as usize];
    assert_eq!(kept.iter().map(|(tick, sample)| (*tick, sample.value)).collect::<Vec<_>>(), changes(wanted));
}

/// Without what is the same again.
fn changes(samples: &[(u32, f32)]) -> Vec<(u32, f32)> {
    let mut changes: Vec<(u32, f32)> = Vec::new();
    for sample in samples {
        if changes.last().is_none_or(|last| last.1 != sample.1) {
            changes.push(*sample);
        }
    }
    changes
}
