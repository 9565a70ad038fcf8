//! What is drawn in which panel, and how: readings, the magnitudes of pairs, and the angles of currents.

use std::borrow::Cow;

use library::{Sample, INVALID};

use crate::inputs::{PAIRS, READINGS, SCALARS, U_AB, U_AB_PAIR};
use crate::missing::{most, why};
use crate::panel::{Series, DEGREES};
use crate::phasor;
use crate::run::{keep, Signal};
use crate::seen::Seen;
use crate::svg::{BLACK, BLUE, GREEN, ORANGE, SKY, VERMILLION};

/// A panel: the name of its axis, its unit, the readings whose limits it shows, and what is drawn.
pub struct Panel<'a> {
    pub axis: &'static str,
    pub unit: &'static str,
    pub readings: Vec<usize>,
    pub series: Vec<Series<'a>>,
}

/// How each reading is drawn: its colour and its dashes.
const READING_PENS: [(&str, &str); SCALARS] =
    [(BLACK, ""), (BLUE, ""), (VERMILLION, "7 3"), (BLUE, ""), (VERMILLION, "7 3"), (GREEN, "2 3")];

/// How each pair is drawn, so that it is seen where it lies on its reading: U_AB's over it, a current's under it.
const PAIR_PENS: [(&str, &str); PAIRS.len()] = [(ORANGE, "7 3"), (ORANGE, ""), (SKY, "")];

/// What is brought, to a unit with a module of so many rated amperes.
#[derive(Clone, Copy)]
pub struct Brought<'a> {
    pub seen: &'a Seen<'a>,
    pub rated: u32,
}

impl<'a> Brought<'a> {
    /// The panel of the voltage that is held. Where U_AB comes as a pair alone, the reading is not drawn.
    pub fn voltage(self) -> Panel<'a> {
        let pair = self.pair_is_used(U_AB_PAIR).then(|| self.magnitude(U_AB_PAIR));
        let scalar = (pair.is_none() || self.is_used(U_AB)).then(|| self.reading(U_AB));
        Panel { axis: "voltage, V", unit: "V", readings: vec![U_AB], series: scalar.into_iter().chain(pair).collect() }
    }

    /// The panels below it: other voltages, currents, and the angles of these, where there are any.
    pub fn others(self) -> Vec<Panel<'a>> {
        let panels = [self.quantities("V", "3U0 and U2, V"), self.quantities("A", "current, A"), self.angles()];
        panels.into_iter().filter(|panel| !panel.series.is_empty()).collect()
    }

    /// All of one unit, but for U_AB: pairs first, so that the readings lie over them.
    fn quantities(self, unit: &'static str, axis: &'static str) -> Panel<'a> {
        let pairs = self.currents().filter(|at| READINGS[PAIRS[*at].parts[0]].unit == unit);
        let readings: Vec<usize> =
            (0..SCALARS).filter(|at| *at != U_AB && READINGS[*at].unit == unit && self.is_used(*at)).collect();
        let series = pairs.map(|at| self.magnitude(at)).chain(readings.iter().map(|at| self.reading(*at))).collect();
        Panel { axis, unit, readings, series }
    }

    /// How far each current that comes as a pair is ahead of U_AB.
    fn angles(self) -> Panel<'a> {
        let series = match self.pair_is_used(U_AB_PAIR) {
            true => self.currents().map(|at| self.angle(at)).collect(),
            false => Vec::new(),
        };
        Panel { axis: "ahead of U_AB, °", unit: DEGREES, readings: Vec::new(), series }
    }

    /// The pairs that are brought, but for U_AB's.
    fn currents(self) -> impl Iterator<Item = usize> + 'a {
        (0..PAIRS.len()).filter(move |at| *at != U_AB_PAIR && self.pair_is_used(*at))
    }

    fn is_used(self, reading: usize) -> bool {
        self.seen.readings[reading].iter().any(|(_, sample)| sample.value != 0.0)
    }

    fn pair_is_used(self, pair: usize) -> bool {
        PAIRS[pair].parts.into_iter().any(|part| self.is_used(part))
    }

    fn reading(self, at: usize) -> Series<'a> {
        let (colour, dashes) = READING_PENS[at];
        let signal = Cow::Borrowed(self.seen.readings[at]);
        let bounds = 0.0..=f64::from(most(at, self.rated));
        Series { label: READINGS[at].name.to_string(), colour, dashes, bounds, signal }
    }

    fn magnitude(self, at: usize) -> Series<'a> {
        let (colour, dashes) = PAIR_PENS[at];
        let signal = Cow::Owned(self.joined(PAIRS[at].parts, phasor::magnitude));
        Series { label: format!("|{}|", PAIRS[at].name), colour, dashes, bounds: 0.0..=f64::MAX, signal }
    }

    fn angle(self, at: usize) -> Series<'a> {
        let (colour, dashes) = PAIR_PENS[at];
        let ([re, im], [of_re, of_im]) = (PAIRS[at].parts, PAIRS[U_AB_PAIR].parts);
        let ahead = |[re, im, of_re, of_im]: [Sample; 4]| phasor::ahead([re, im], [of_re, of_im]);
        let signal = Cow::Owned(self.joined([re, im, of_re, of_im], ahead));
        Series { label: PAIRS[at].name.to_string(), colour, dashes, bounds: -180.0..=180.0, signal }
    }

    /// What readings come to together, at each change of one of them. One that is missing is Invalid.
    fn joined<const N: usize>(self, readings: [usize; N], of: impl Fn([Sample; N]) -> Sample) -> Signal<Sample> {
        let signals = readings.map(|reading| self.seen.readings[reading]);
        let mut joined = Signal::new();
        let (mut places, mut next) = ([0; N], signals.iter().filter_map(|signal| Some(signal.first()?.0)).max());
        while let Some(tick) = next {
            let samples = std::array::from_fn(|at| self.counted(readings[at], signals[at][places[at]].1));
            keep(&mut joined, tick, of(samples));
            next = (0..N).filter_map(|at| Some(signals[at].get(places[at] + 1)?.0)).min();
            for (place, signal) in places.iter_mut().zip(signals) {
                *place += usize::from(signal.get(*place + 1).is_some_and(|(tick, _)| Some(*tick) == next));
            }
        }
        joined
    }

    fn counted(self, reading: usize, sample: Sample) -> Sample {
        match why(reading, sample, self.rated) {
            Some(_) => Sample { quality: INVALID, ..sample },
            None => sample,
        }
    }
}
