//! Panels: readings over time, with an axis on the left and names on the right.

use std::borrow::Cow;
use std::ops::RangeInclusive;

use library::{Sample, GOOD, INVALID};

use crate::scale::{mark_text, TimeScale, ValueScale};
use crate::svg::{short, Anchor, Area, Pen, Style, Svg, FAINT, GREY, INK};
use crate::text::Room;

/// What is drawn: a reading, or what comes of some. A number out of its bounds is left out, as it is missing to the unit.
pub struct Series<'a> {
    pub label: String,
    pub colour: &'static str,
    pub dashes: &'static str,
    pub bounds: RangeInclusive<f64>,
    pub signal: Cow<'a, [(u32, Sample)]>,
}

impl Series<'_> {
    /// The number of a sample that is neither Invalid nor out of bounds.
    pub fn number(&self, sample: &Sample) -> Option<f64> {
        let value = f64::from(sample.value);
        (sample.quality != INVALID && self.bounds.contains(&value)).then_some(value)
    }

    /// The numbers, in their order.
    pub fn numbers(&self) -> impl DoubleEndedIterator<Item = f64> + '_ {
        self.signal.iter().filter_map(|(_, sample)| self.number(sample))
    }
}

/// The unit of an angle.
pub const DEGREES: &str = "°";

/// The least distance of two names on the right.
pub const LABEL_ROW: f64 = 15.0;

/// The least and the greatest number of some series, of those that a unit could read.
pub fn extent(series: &[Series]) -> Option<(f64, f64)> {
    series.iter().flat_map(Series::numbers).fold(None, |extent, value| match extent {
        None => Some((value, value)),
        Some((low, high)) => Some((value.min(low), value.max(high))),
    })
}

/// The frame and the axis, with marks for its unit.
pub fn axis(svg: &mut Svg, time: TimeScale, scale: ValueScale, name: &str, unit: &str) {
    let count = scale.height / 26.0;
    let marks = if unit == DEGREES { scale.degree_marks(count) } else { scale.marks(count) };
    let area = Area { x: time.left, y: scale.top, width: time.width, height: scale.height };
    for mark in marks {
        let y = scale.at(mark);
        svg.line((time.left, y), (time.right(), y), Pen { colour: FAINT, width: 0.7, dashes: "" });
        let style = Style { size: 11.0, colour: INK, anchor: Anchor::End };
        svg.text((time.left - 6.0, y + 4.0), &mark_text(mark), style);
    }
    svg.frame(area, "none", Pen { colour: GREY, width: 0.8, dashes: "" });
    let style = Style { size: 12.0, colour: INK, anchor: Anchor::End };
    svg.text((time.left - 46.0, scale.top + scale.height / 2.0 + 4.0), name, style);
}

/// The steps of a series: whole where Good, dashed where Held, a gap where there is no number.
pub fn draw(svg: &mut Svg, time: TimeScale, scale: ValueScale, series: &Series) {
    let pen = Pen { colour: series.colour, width: 1.8, dashes: series.dashes };
    let good = steps(time, scale, series, |sample| sample.quality == GOOD);
    let held = steps(time, scale, series, |sample| sample.quality != GOOD);
    if !good.is_empty() {
        svg.path(&good, pen);
    }
    if !held.is_empty() {
        svg.path(&held, Pen { dashes: "2 3", ..pen });
    }
}

/// The path of the samples that are wanted. Many changes in one pixel become one upright stroke.
fn steps(time: TimeScale, scale: ValueScale, series: &Series, wanted: impl Fn(&Sample) -> bool) -> String {
    let mut path = Path::default();
    for (at, (from, sample)) in series.signal.iter().enumerate() {
        let to = series.signal.get(at + 1).map_or(time.to, |(next, _)| *next);
        match series.number(sample).filter(|_| wanted(sample)) {
            Some(value) => path.step(time.at(*from), time.at(to), scale.at(value)),
            None => path.gap(),
        }
    }
    path.end()
}

/// A path of steps, a pixel column at a time.
#[derive(Default)]
struct Path {
    text: String,
    column: Option<Column>,
}

/// What lies in one pixel column: from where to where it goes on, the heights it touches, and whether a gap comes after it.
struct Column {
    x: f64,
    to: f64,
    low: f64,
    high: f64,
    last: f64,
    ends: bool,
}

impl Path {
    fn step(&mut self, x: f64, to: f64, y: f64) {
        match &mut self.column {
            Some(column) if x - column.x < 1.0 => {
                column.to = to;
                column.low = column.low.min(y);
                column.high = column.high.max(y);
                column.last = y;
                column.ends = false;
            }
            column => {
                let begins = column.as_ref().is_none_or(|column| column.ends);
                self.flush();
                self.text.push_str(&format!("{}{} {}", if begins { "M" } else { "L" }, short(x), short(y)));
                self.column = Some(Column { x, to, low: y, high: y, last: y, ends: false });
            }
        }
    }

    /// Nothing is drawn before the next step, if that is in another column.
    fn gap(&mut self) {
        if let Some(column) = &mut self.column {
            column.ends = true;
        }
    }

    fn flush(&mut self) {
        if let Some(Column { to, low, high, last, .. }) = self.column.take() {
            if low < high {
                self.text.push_str(&format!("V{}V{}V{}", short(low), short(high), short(last)));
            }
            self.text.push_str(&format!("H{}", short(to)));
        }
    }

    fn end(mut self) -> String {
        self.flush();
        self.text
    }
}

/// A name on the right of a panel, at its height.
pub struct Label {
    pub words: String,
    pub colour: &'static str,
    pub y: f64,
}

/// The names on the right, moved apart and cut to this width, with a stroke to their heights.
pub fn labels(svg: &mut Svg, x: f64, width: f64, scale: ValueScale, mut labels: Vec<Label>) {
    let room = Room { width: width - 20.0, size: 11.0 };
    labels.sort_by(|a, b| a.y.total_cmp(&b.y));
    let mut places: Vec<f64> = Vec::new();
    for label in &labels {
        let least = places.last().map_or(scale.top, |last| last + LABEL_ROW);
        places.push(label.y.max(least));
    }
    lift_into(&mut places, scale.top + scale.height);
    for (label, place) in labels.iter().zip(places) {
        svg.line((x + 1.0, label.y), (x + 12.0, place), Pen { colour: label.colour, width: 1.2, dashes: "" });
        let style = Style { size: room.size, colour: INK, anchor: Anchor::Start };
        svg.text((x + 15.0, place + 4.0), &room.cut(&label.words), style);
    }
}

/// Moves the lowest places up, so that none is below `bottom`.
fn lift_into(places: &mut [f64], bottom: f64) {
    let mut most = bottom;
    for place in places.iter_mut().rev() {
        *place = place.min(most);
        most = *place - LABEL_ROW;
    }
}
