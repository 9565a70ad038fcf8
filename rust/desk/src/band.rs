//! The band that a picture shows behind the voltage.

use crate::bars::bars;
use crate::inputs::{is_on, U_SUPP2};
use crate::panel::Label;
use crate::scale::{mark_text, TimeScale, ValueScale};
use crate::seen::{spans, Changes};
use crate::sheet;
use crate::svg::{Area, Pen, Svg, BLUE, SKY};

/// How many voltages to hold a sheet has.
const BANDS: usize = 4;

/// A band, and the stretches for which it stands.
pub struct Band {
    pub which: usize,
    pub middle: f64,
    pub half: f64,
    pub on: Vec<(u32, u32)>,
}

impl Band {
    fn middle_label(&self, scale: ValueScale) -> Label {
        let words = format!("U_supp{} {} V", self.which + 1, mark_text(self.middle));
        Label { words, colour: BLUE, y: scale.at(self.middle) }
    }

    fn edge_label(&self, scale: ValueScale, volts: f64) -> Label {
        Label { words: format!("band {} V", mark_text(volts)), colour: SKY, y: scale.at(volts) }
    }
}

/// The edges of the band that stands at the end, and each U_supp.
pub fn labels(bands: &[Band], scale: ValueScale) -> Vec<Label> {
    let last = bands.iter().max_by_key(|band| band.on.last());
    let edges = last
        .into_iter()
        .flat_map(|last| [last.middle + last.half, last.middle - last.half].map(|volts| last.edge_label(scale, volts)));
    edges.chain(bands.iter().map(|band| band.middle_label(scale))).collect()
}

/// The bands by the keys of U_supp. They are drawn only; what is low and high is the unit's word.
pub fn bands(contacts: Changes<u32>, to: u32, list: &[u32]) -> Vec<Band> {
    let band = |which| {
        let (middle, half) = sheet::band(list, which);
        Band { which, middle, half, on: spans(contacts, to, |now| key(*now) == which) }
    };
    (0..BANDS).map(band).filter(|band| !band.on.is_empty()).collect()
}

/// Draws the bands behind the voltage; where they change too fast for that, pale and without their middle.
pub fn draw(svg: &mut Svg, time: TimeScale, scale: ValueScale, bands: &[Band]) {
    for (band, bar) in bands.iter().flat_map(|band| bars(time, &band.on).into_iter().map(move |bar| (band, bar))) {
        let (y, bottom) = (scale.at(band.middle + band.half), scale.at(band.middle - band.half));
        let (x, to) = (bar.x, bar.to.min(time.right()));
        svg.area(Area { x, y, width: to - x, height: bottom - y }, SKY, if bar.is_striped() { 0.15 } else { 0.3 });
        if !bar.is_striped() {
            let y = scale.at(band.middle);
            svg.line((x, y), (to, y), Pen { colour: BLUE, width: 1.2, dashes: "8 4" });
        }
    }
}

/// Which U_supp the keys choose, from 0: the highest key that is on.
fn key(contacts: u32) -> usize {
    (0..3).rev().find(|key| is_on(contacts, U_SUPP2 + key)).map_or(0, |key| key as usize + 1)
}
