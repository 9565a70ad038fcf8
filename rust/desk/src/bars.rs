//! The bars of a lane, with marks at their starts and times beside them.

use crate::lanes::{Lane, Tip};
use crate::scale::TimeScale;
use crate::svg::{short, Anchor, Area, Pen, Style, Svg, FAINT, INK, WHITE};
use crate::text::{text_width, Room};

/// The height of a lane, and of a bar in it.
pub const LANE: f64 = 22.0;
pub const BAR: f64 = 13.0;
/// What a lane with marks is higher.
const MARKS: f64 = 6.0;
/// The width of a bar that would be too narrow to see.
const LEAST: f64 = 2.0;
/// Bars narrower than this are drawn as one where less than `APART` is between them.
const NARROW: f64 = 3.0;
const APART: f64 = 1.0;
/// The size of the texts beside bars.
const SIZE: f64 = 10.5;

/// A bar in pixels and the tick on which it begins: one stretch, or some that are too close to be drawn apart.
#[derive(Clone, Copy)]
pub struct Bar {
    pub x: f64,
    pub to: f64,
    pub tick: u32,
    pub count: usize,
}

impl Bar {
    fn new(time: TimeScale, (from, to): (u32, u32)) -> Bar {
        let x = time.at(from);
        Bar { x, to: time.at(to).max(x + LEAST), tick: from, count: 1 }
    }

    pub fn is_striped(&self) -> bool {
        self.count > 1
    }

    fn is_narrow(&self) -> bool {
        self.is_striped() || self.to - self.x < NARROW
    }
}

/// The bars of a lane.
pub fn bars(time: TimeScale, on: &[(u32, u32)]) -> Vec<Bar> {
    let mut bars: Vec<Bar> = Vec::new();
    for span in on {
        let bar = Bar::new(time, *span);
        match bars.last_mut() {
            Some(last) if last.is_narrow() && bar.is_narrow() && bar.x < last.to + APART => {
                last.to = bar.to;
                last.count += 1;
            }
            _ => bars.push(bar),
        }
    }
    bars
}

/// The name of a lane on the left, and its line, at this height.
pub fn name(svg: &mut Svg, time: TimeScale, y: f64, label: &str) {
    svg.line((time.left, y), (time.right(), y), Pen { colour: FAINT, width: 1.0, dashes: "" });
    let room = Room { width: time.left - 15.0, size: 12.0 };
    let style = Style { size: room.size, colour: INK, anchor: Anchor::End };
    svg.text((time.left - 10.0, y + 4.0), &room.cut(label), style);
}

/// A lane as it is drawn: the height of its bars' middle.
struct Row<'a> {
    svg: &'a mut Svg,
    time: TimeScale,
    lane: &'a Lane,
    y: f64,
}

/// Draws a lane from this height on: how high it is, and whether a bar is striped.
pub fn draw(svg: &mut Svg, time: TimeScale, lane: &Lane, top: f64) -> (f64, bool) {
    let height = if lane.tip == Tip::None { LANE } else { LANE + MARKS };
    let mut row = Row { svg, time, lane, y: top + height - LANE / 2.0 };
    name(row.svg, time, row.y, &lane.label);
    let bars = bars(time, &lane.on);
    let mut taken = time.left;
    for (at, bar) in bars.iter().enumerate() {
        row.bar(bar);
        row.mark(bar);
        let next = bars.get(at + 1).map_or(time.right(), |next| next.x);
        taken = row.words(bar, taken, next).max(bar.to);
    }
    (height, bars.iter().any(Bar::is_striped))
}

impl Row<'_> {
    /// At the right edge a bar that begins there is drawn before it.
    fn bar(&mut self, bar: &Bar) {
        let x = bar.x.min(self.time.right() - LEAST);
        let area = Area { x, y: self.y - BAR / 2.0, width: bar.to.min(self.time.right()) - x, height: BAR };
        let pen = Pen { colour: INK, width: 0.5, dashes: "" };
        match bar.is_striped() {
            true => stripes(self.svg, area, self.lane.colour),
            false => self.svg.frame(area, self.lane.colour, pen),
        }
    }

    /// The mark of a bar stands over its start; one that began before the picture has none.
    fn mark(&mut self, bar: &Bar) {
        let foot = self.y - BAR / 2.0 - 1.0;
        match self.lane.tip {
            _ if self.is_cut(bar) => (),
            Tip::None => (),
            Tip::Up => triangle(self.svg, bar.x, (foot, foot - 7.0), self.lane.colour),
            Tip::Down => triangle(self.svg, bar.x, (foot - 7.0, foot), self.lane.colour),
        }
    }

    fn is_cut(&self, bar: &Bar) -> bool {
        bar.tick < self.time.from
    }

    /// How often a striped bar is on, and the time of a bar: after it, before it or on its stripes, where there is room between
    /// what is taken and the next bar. Says where the words end.
    fn words(&mut self, bar: &Bar, taken: f64, next: f64) -> f64 {
        let after = Room { width: next - bar.to - 8.0, size: SIZE };
        let before = Room { width: bar.x - taken - 16.0, size: SIZE };
        let inside = Room { width: if bar.is_striped() { bar.to - bar.x - 16.0 } else { 0.0 }, size: SIZE };
        let choices = self.choices(bar);
        let fitting = |room: Room| choices.iter().find(|words| room.holds(words)).map(|words| (words, text_width(words, SIZE)));
        let (x, (words, width)) = match (fitting(after), fitting(before), fitting(inside)) {
            (Some(fit), ..) => (bar.to + 4.0, fit),
            (None, Some(fit), _) => (bar.x - 4.0 - fit.1, fit),
            (None, None, Some(fit)) => ((bar.x + bar.to - fit.1) / 2.0, fit),
            _ => return bar.to,
        };
        self.write(x, words, width);
        x + width
    }

    /// What can be said of a bar, the longest first.
    fn choices(&self, bar: &Bar) -> Vec<String> {
        let time = self.time.clock.time(bar.tick);
        let count = format!("×{}", bar.count);
        match (bar.is_striped(), self.lane.timed && !self.is_cut(bar)) {
            (true, true) => vec![format!("{count} from {time}"), count],
            (true, false) => vec![count],
            (false, true) => vec![format!("from {time}"), time],
            (false, false) => Vec::new(),
        }
    }

    /// Words on white, so that no line runs through them; a bar's frame stays whole around them.
    fn write(&mut self, x: f64, words: &str, width: f64) {
        let area = Area { x: x - 2.0, y: self.y - 5.5, width: width + 4.0, height: 11.0 };
        self.svg.area(area, WHITE, 1.0);
        self.svg.text((x, self.y + 4.0), words, Style { size: SIZE, colour: INK, anchor: Anchor::Start });
    }
}

/// A pale bar with stripes, which stands for more than one.
pub fn stripes(svg: &mut Svg, area: Area, colour: &str) {
    svg.area(area, colour, 0.4);
    svg.frame(area, "none", Pen { colour: INK, width: 0.5, dashes: "" });
    let y = area.y + area.height / 2.0;
    svg.line((area.x + 1.0, y), (area.x + area.width, y), Pen { colour: INK, width: area.height, dashes: "0.6 2.4" });
}

/// A triangle over a place, from its base to its point.
pub fn triangle(svg: &mut Svg, x: f64, (base, point): (f64, f64), colour: &str) {
    let path = format!("M{} {}H{}L{} {}Z", short(x - 4.0), short(base), short(x + 4.0), short(x), short(point));
    svg.shape(&path, colour);
}
