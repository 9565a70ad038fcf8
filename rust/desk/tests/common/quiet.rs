//! Long runs in which little happens, made without running them, and what stands in their pictures.

use desk::picture::{picture, View};
use desk::run::{History, Signal};
use library::Sample;

use super::{between, defaults};

pub const DAY: u32 = 86_400 * 200;

/// A run in which nothing changes: 100 V, the breaker closed, tap 9.
pub fn quiet(ticks: u32) -> History {
    let mut history = History { ticks, ..History::default() };
    history.readings.iter_mut().for_each(|signal| signal.push((1, Sample { quality: 0, value: 0.0 })));
    history.readings[0][0].1.value = 100.0;
    history.outputs.iter_mut().for_each(|signal| signal.push((1, 0)));
    history.outputs[desk::outputs::TAP] = vec![(1, 9)];
    (history.missing, history.contacts, history.remembered) = (vec![(1, 0)], vec![(1, 1)], vec![(1, None)]);
    history
}

/// On from each of these ticks, for so long.
pub fn pulses(starts: impl IntoIterator<Item = u32>, ticks: u32, on: u32) -> Signal<u32> {
    let changes = starts.into_iter().flat_map(|from| [(from, on), (from + ticks, 0)]);
    std::iter::once((1, 0)).chain(changes).collect()
}

/// A sheet that counts operations, or not.
pub fn sheet(counts: bool) -> Vec<u32> {
    let mut list = defaults(0);
    list[desk::names::WEAR] = u32::from(counts);
    list
}

/// The picture of a run between two ticks.
pub fn part(history: &History, from: u32, to: u32) -> String {
    picture(history, &sheet(true), View { title: "quiet", from, to })
}

pub fn whole(history: &History) -> String {
    part(history, 0, history.ticks)
}

/// Where a tick of a whole run is drawn.
pub fn place(history: &History, tick: u32) -> f64 {
    205.0 + 765.0 * f64::from(tick) / f64::from(history.ticks)
}

/// The texts of a picture, in their order.
pub fn texts(picture: &str) -> Vec<&str> {
    picture.lines().filter(|line| line.starts_with("<text")).map(|line| between(line, ">", "<")).collect()
}

/// The points of the triangles of a colour.
pub fn points(picture: &str, colour: &str) -> Vec<f64> {
    let fill = format!("Z\" fill=\"{colour}\"");
    let paths = picture.lines().filter(|line| line.starts_with("<path") && line.contains(&fill));
    paths.map(|line| between(line, "L", " ").parse().expect("a number")).collect()
}

/// The lines of a lane: from its name up to the next one's line.
pub fn lane<'a>(picture: &'a str, label: &str) -> Vec<&'a str> {
    let name = format!(" text-anchor=\"end\">{label}</text>");
    let lines = picture.lines().skip_while(|line| !line.ends_with(&name)).skip(1);
    lines.take_while(|line| !line.contains(" stroke=\"#D8D8D8\" stroke-width=\"1\"")).collect()
}
