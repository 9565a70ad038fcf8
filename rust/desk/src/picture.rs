//! The picture: panels of readings, lanes of what is on, the tap, and a time axis.

use crate::band;
use crate::bars::{self, stripes, triangle, LANE};
use crate::boxes;
use crate::clock::{Clock, MARK_SIZE};
use crate::head::Head;
use crate::lanes::{self, Group};
use crate::limits;
use crate::marks::{self, Mark};
use crate::names::{rated_amps, COMPENSATION, MODULE, TABLE};
use crate::panel::{self, Label, Series, LABEL_ROW};
use crate::run::{History, Window};
use crate::scale::{mark_text, TimeScale, ValueScale};
use crate::seen::Seen;
use crate::series::{Brought, Panel};
use crate::sheet::is_continuous;
use crate::svg::*;

const WIDTH: f64 = 1120.0;
const LEFT: f64 = 205.0;
const RIGHT: f64 = 150.0;
const VOLTAGE_HEIGHT: f64 = 190.0;
const SMALL_HEIGHT: f64 = 84.0;
const GAP: f64 = 14.0;
/// The height of the axis, and of the line that explains stripes.
const AXIS: f64 = 50.0;

/// What is drawn, how far down it has come, and whether it has stripes.
struct Picture<'a> {
    svg: Svg,
    seen: &'a Seen<'a>,
    list: &'a [u32],
    time: TimeScale,
    y: f64,
    is_striped: bool,
}

/// What a picture shows: its title, and the ticks between which it looks.
#[derive(Clone, Copy)]
pub struct View<'a> {
    pub title: &'a str,
    pub from: u32,
    pub to: u32,
}

impl<'a> View<'a> {
    /// All of a run of so many ticks.
    pub fn whole(title: &'a str, ticks: u32) -> View<'a> {
        View { title, from: 0, to: ticks }
    }

    /// What a window shows of a run of so many ticks, one of them at least.
    pub fn of(title: &'a str, window: Window, ticks: u32) -> View<'a> {
        View { title, from: window.from, to: window.to.max(window.from + 1).min(ticks) }
    }
}

/// The SVG of a run on the sheet `list`.
pub fn picture(history: &History, list: &[u32], view: View) -> String {
    marked(history, list, view, &[])
}

/// The same with marks, where they lie in the view.
pub fn marked(history: &History, list: &[u32], view: View, marks: &[Mark]) -> String {
    let View { title, from, to } = view;
    let seen = &Seen::new(history, from, to);
    let clock = Clock::new(history.ticks, to - from);
    let time = TimeScale { left: LEFT, width: WIDTH - LEFT - RIGHT, from, to, clock };
    let mut svg = Svg::new();
    let top = Head { title, list, ticks: history.ticks, width: WIDTH }.draw(&mut svg, time);
    let mut picture = Picture { svg, seen, list, time, y: top, is_striped: false };
    picture.words(marks);
    let panels = picture.y;
    picture.panels(Brought { seen, rated: rated_amps(list[MODULE]) });
    picture.lanes();
    picture.lines(marks, top, panels);
    picture.svg.document(WIDTH, picture.y, title, description(list))
}

fn description(list: &[u32]) -> &'static str {
    match is_continuous(list) {
        true => "Voltage against its band, commands, the tap, blocks, trips and faults over time.",
        false => "Voltage against its band, commands, the switching contact, the tap, blocks, trips and faults over time.",
    }
}

/// The height of a panel below the voltage, with room for its names.
fn small_height(panel: &Panel, list: &[u32]) -> f64 {
    let names = panel.series.len() + limits::watched(&panel.readings, list).count();
    SMALL_HEIGHT.max((names - 1) as f64 * LABEL_ROW)
}

impl Picture<'_> {
    fn panels(&mut self, brought: Brought) {
        self.voltage(brought.voltage());
        for panel in brought.others() {
            let (low, high) = panel::extent(&panel.series).unwrap_or((0.0, 1.0));
            let scale = ValueScale::around(low.min(0.0), high.max(0.0), self.y, small_height(&panel, self.list));
            self.panel(&panel, scale, Vec::new());
        }
    }

    /// The voltage in its bands.
    fn voltage(&mut self, mut panel: Panel) {
        if self.list[COMPENSATION] != 0 {
            panel.series.iter_mut().for_each(|series| series.label.push_str(", measured"));
        }
        let bands = band::bands(self.seen.contacts, self.time.to, self.list);
        let edges = bands.iter().flat_map(|band| [band.middle - band.half, band.middle + band.half]);
        let (low, high) = edges
            .fold(panel::extent(&panel.series).unwrap_or((100.0, 100.0)), |(low, high), edge| (edge.min(low), edge.max(high)));
        let scale = ValueScale::around(low, high, self.y, VOLTAGE_HEIGHT);
        band::draw(&mut self.svg, self.time, scale, &bands);
        self.panel(&panel, scale, band::labels(&bands, scale));
    }

    /// The axis of a panel, its limits, and what is drawn in it; labels for these and for what is there already.
    fn panel(&mut self, panel: &Panel, scale: ValueScale, mut labels: Vec<Label>) {
        panel::axis(&mut self.svg, self.time, scale, panel.axis, panel.unit);
        labels.extend(self.draw_limits(panel, scale));
        for series in &panel.series {
            panel::draw(&mut self.svg, self.time, scale, series);
            labels.extend(label_of(series, scale));
        }
        panel::labels(&mut self.svg, self.time.right(), RIGHT, scale, labels);
        self.y += scale.height + GAP;
    }

    /// The limits of the readings in a panel, where they are watched and the scale reaches them.
    fn draw_limits(&mut self, panel: &Panel, scale: ValueScale) -> Vec<Label> {
        let watched = limits::watched(&panel.readings, self.list);
        let limits: Vec<(&str, f64)> = watched.map(|limit| (TABLE[limit.slot].name, self.thousandths(limit.slot))).collect();
        let mut labels = Vec::new();
        for (name, value) in limits.into_iter().filter(|(_, value)| scale.holds(*value)) {
            let y = scale.at(value);
            let pen = Pen { colour: PURPLE, width: 1.5, dashes: "3 3" };
            self.svg.line((self.time.left, y), (self.time.right(), y), pen);
            labels.push(Label { words: format!("{name} {} {}", mark_text(value), panel.unit), colour: PURPLE, y });
        }
        labels
    }

    fn thousandths(&self, slot: usize) -> f64 {
        f64::from(self.list[slot]) / 1000.0
    }

    fn lanes(&mut self) {
        let (seen, continuous) = (self.seen, is_continuous(self.list));
        self.group(&lanes::moving(seen, continuous));
        self.numbers();
        self.group(&lanes::blocks(seen));
        self.group(&lanes::alarms(seen, continuous));
        self.group(&lanes::notes(seen));
        let contacts = lanes::contacts(seen, continuous);
        self.group(&contacts.into_iter().chain(lanes::remembered(seen)).collect());
    }

    /// Lanes that belong together, if there are any.
    fn group(&mut self, group: &Group) {
        for lane in group {
            let (height, is_striped) = bars::draw(&mut self.svg, self.time, lane, self.y);
            self.y += height;
            self.is_striped |= is_striped;
        }
        self.y += if group.is_empty() { 0.0 } else { GAP };
    }

    /// The tap and the operations, with a mark where these reach N_max.
    fn numbers(&mut self) {
        for numbers in lanes::numbers(self.seen, self.list) {
            self.y += boxes::draw(&mut self.svg, self.time, &numbers, self.y);
        }
        if let Some(tick) = lanes::worn(self.seen) {
            triangle(&mut self.svg, self.time.at(tick), (self.y - LANE - 4.0, self.y - LANE + 3.0), VERMILLION);
        }
        self.y += GAP;
    }

    /// The marks whose lines lie in the view.
    fn seen<'m>(&self, marks: &'m [Mark]) -> Vec<&'m Mark> {
        marks.iter().filter(|mark| mark.is_seen(self.time)).collect()
    }

    /// The words of marks, a row each.
    fn words(&mut self, marks: &[Mark]) {
        for mark in self.seen(marks) {
            mark.words(&mut self.svg, self.time, WIDTH, self.y);
            self.y += marks::ROW;
        }
        self.y += if marks.is_empty() { 0.0 } else { marks::BELOW };
    }

    /// The axis; below all else the shades of marks from the panels' top on, and their lines from their words on.
    fn lines(&mut self, marks: &[Mark], words: f64, panels: f64) {
        let (mut shades, mut lines, bottom) = (Svg::new(), Svg::new(), self.y);
        marks.iter().for_each(|mark| mark.shade(&mut shades, self.time, (panels, bottom)));
        for (at, mark) in self.seen(marks).into_iter().enumerate() {
            mark.line(&mut lines, self.time, (words + at as f64 * marks::ROW, bottom));
        }
        self.svg.over(lines);
        self.axis(panels);
        self.svg.over(shades);
    }

    /// The axis, and below all else a line for each of its marks, from the panels' top on.
    fn axis(&mut self, top: f64) {
        let (mut grid, y) = (Svg::new(), self.y);
        let pen = Pen { colour: INK, width: 1.0, dashes: "" };
        self.svg.line((self.time.left, y), (self.time.right(), y), pen);
        let style = Style { size: MARK_SIZE, colour: INK, anchor: Anchor::Middle };
        for (x, words) in self.time.marks() {
            grid.line((x, top), (x, y), Pen { colour: FAINT, width: 0.7, dashes: "" });
            self.svg.line((x, y), (x, y + 5.0), pen);
            self.svg.text((x, y + 18.0), &words, style);
        }
        let name = self.time.clock.axis(self.time.step());
        self.svg.text((self.time.left + self.time.width / 2.0, y + 38.0), name, style);
        if self.is_striped {
            self.explain_stripes(y + 38.0);
        }
        self.svg.over(grid);
        self.y += AXIS;
    }

    fn explain_stripes(&mut self, y: f64) {
        stripes(&mut self.svg, Area { x: 20.0, y: y - 10.0, width: 24.0, height: 11.0 }, GREY);
        let style = Style { size: 10.5, colour: GREY, anchor: Anchor::Start };
        self.svg.text((50.0, y), "on and off too often to draw apart, × how many times", style);
    }
}

/// The name of a series, at its last number.
fn label_of(series: &Series, scale: ValueScale) -> Option<Label> {
    series.numbers().next_back().map(|value| Label { words: series.label.clone(), colour: series.colour, y: scale.at(value) })
}
