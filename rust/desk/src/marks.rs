//! Upright lines across a picture with words over them.

use crate::scale::TimeScale;
use crate::svg::{Anchor, Area, Pen, Style, Svg, INK, PALE, WHITE};
use crate::text::{text_width, Room};

/// The height of the words of one mark, and the room below the last ones.
pub const ROW: f64 = 16.0;
pub const BELOW: f64 = 4.0;
/// The size of the words, and their distance from the line and from the picture's sides.
const SIZE: f64 = 11.5;
const APART: f64 = 5.0;
const SIDE: f64 = 20.0;

/// A line at a tick, its words, its look, and whether what comes after it is shaded.
pub struct Mark {
    pub tick: u32,
    pub words: String,
    pub colour: &'static str,
    pub dashes: &'static str,
    pub shades: bool,
}

impl Mark {
    pub fn is_seen(&self, time: TimeScale) -> bool {
        (time.from..=time.to).contains(&self.tick)
    }

    /// The words beside the line in a row that begins at this height: after it where there is room, else before it.
    pub fn words(&self, svg: &mut Svg, time: TimeScale, width: f64, top: f64) {
        let x = time.at(self.tick);
        let after = Room { width: width - SIDE - x - APART, size: SIZE };
        let before = Room { width: x - APART - SIDE, size: SIZE };
        let goes_after = after.holds(&self.words) || (!before.holds(&self.words) && after.width > before.width);
        let words = if goes_after { after } else { before }.cut(&self.words);
        let wide = text_width(&words, SIZE);
        let left = if goes_after { x + APART } else { x - APART - wide };
        svg.area(Area { x: left - 2.0, y: top, width: wide + 4.0, height: ROW - 2.0 }, WHITE, 1.0);
        svg.text((left, top + ROW - 5.0), &words, Style { size: SIZE, colour: INK, anchor: Anchor::Start });
    }

    pub fn line(&self, svg: &mut Svg, time: TimeScale, (top, bottom): (f64, f64)) {
        let x = time.at(self.tick);
        svg.line((x, top), (x, bottom), Pen { colour: self.colour, width: 1.6, dashes: self.dashes });
    }

    /// The shade of what comes after it, also where the line itself is before the view.
    pub fn shade(&self, svg: &mut Svg, time: TimeScale, (top, bottom): (f64, f64)) {
        if self.shades && self.tick < time.to {
            let x = time.at(self.tick);
            svg.area(Area { x, y: top, width: time.right() - x, height: bottom - top }, PALE, 0.6);
        }
    }
}
