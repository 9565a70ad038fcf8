//! Numbers in boxes: the tap, and the operations that are counted.

use crate::bars::{self, BAR, LANE};
use crate::scale::TimeScale;
use crate::seen::Changes;
use crate::svg::{short, Anchor, Area, Pen, Style, Svg, GREY, INK, PALE, WHITE};
use crate::text::text_width;

/// A lane of numbers.
pub struct Numbers<'a> {
    pub label: &'static str,
    pub changes: Changes<'a, u32>,
    /// Whether 0 says that the number is not known.
    pub zero_is_none: bool,
}

/// The size of a number.
const SIZE: f64 = 11.0;
/// The least distance of two changes that are drawn in one box.
const APART: f64 = 2.0;

/// A box in pixels: one number, or some that have no room of their own, and where they change.
struct Numbered {
    x: f64,
    to: f64,
    range: Range,
    /// The width of its words; without end where no words could fit.
    needs: f64,
    changes: Vec<f64>,
}

/// The least and the greatest number that is known, and whether one is not known.
#[derive(Clone, Copy, PartialEq)]
struct Range {
    known: Option<(u32, u32)>,
    unknown: bool,
}

impl Range {
    fn of(number: Option<u32>) -> Range {
        Range { known: number.map(|number| (number, number)), unknown: number.is_none() }
    }

    fn and(self, other: Range) -> Range {
        let known = match (self.known, other.known) {
            (Some((low, high)), Some((least, most))) => Some((low.min(least), high.max(most))),
            (known, other) => known.or(other),
        };
        Range { known, unknown: self.unknown || other.unknown }
    }

    /// `9`, `9-12`, `9-12 or not known`.
    fn words(self) -> String {
        let words = match self.known {
            None => return "not known".to_string(),
            Some((low, high)) if low == high => low.to_string(),
            Some((low, high)) => format!("{low}-{high}"),
        };
        if self.unknown {
            words + " or not known"
        } else {
            words
        }
    }
}

impl Numbered {
    fn new((x, to): (f64, f64), range: Range) -> Numbered {
        let needs = if to - x < SIZE { f64::INFINITY } else { text_width(&range.words(), SIZE) };
        Numbered { x, to, range, needs, changes: Vec::new() }
    }

    fn holds_its_words(&self) -> bool {
        self.needs + 4.0 <= self.to - self.x
    }

    fn join(&mut self, next: Numbered) {
        let range = self.range.and(next.range);
        if range != self.range || self.needs.is_infinite() {
            self.needs = text_width(&range.words(), SIZE);
        }
        (self.range, self.to) = (range, next.to);
        if self.changes.last().is_none_or(|last| next.x - last >= APART) {
            self.changes.push(next.x);
        }
    }
}

/// The boxes of a lane. Those too narrow for their number are joined, until there is room for the range of these.
fn boxes(time: TimeScale, numbers: &Numbers) -> Vec<Numbered> {
    let mut boxes: Vec<Numbered> = Vec::new();
    for (at, (from, number)) in numbers.changes.iter().enumerate() {
        let to = numbers.changes.get(at + 1).map_or(time.to, |(next, _)| *next);
        let number = Some(*number).filter(|number| *number > 0 || !numbers.zero_is_none);
        let next = Numbered::new((time.at(*from), time.at(to)), Range::of(number));
        match boxes.last_mut() {
            Some(last) if !last.holds_its_words() && !next.holds_its_words() => last.join(next),
            _ => boxes.push(next),
        }
    }
    boxes
}

/// Draws a lane of numbers from this height on, and says how high it is.
pub fn draw(svg: &mut Svg, time: TimeScale, numbers: &Numbers, top: f64) -> f64 {
    let y = top + LANE / 2.0;
    bars::name(svg, time, y, numbers.label);
    for (at, numbered) in boxes(time, numbers).iter().enumerate() {
        let fill = if at % 2 == 0 { WHITE } else { PALE };
        draw_box(svg, numbered, fill, y);
    }
    LANE
}

fn draw_box(svg: &mut Svg, numbered: &Numbered, fill: &str, y: f64) {
    let Numbered { x, to, changes, .. } = numbered;
    let area = Area { x: *x, y: y - BAR / 2.0 - 1.5, width: (to - x).max(1.0), height: BAR + 3.0 };
    let pen = Pen { colour: GREY, width: 0.8, dashes: "" };
    svg.frame(area, fill, pen);
    let bottom = area.y + area.height;
    let ticks: String = changes.iter().map(|x| format!("M{} {}V{}", short(*x), short(bottom - 3.0), short(bottom))).collect();
    if !ticks.is_empty() {
        svg.path(&ticks, pen);
    }
    if numbered.holds_its_words() {
        let style = Style { size: SIZE, colour: INK, anchor: Anchor::Middle };
        svg.text(((x + to) / 2.0, y + 4.0), &numbered.range.words(), style);
    }
}
