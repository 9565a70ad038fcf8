//! The head of a picture: its title, the part of the run that it shows, and the settings that it hangs on.

use crate::names::{self, BREAKER_RATING, COMPENSATION, CT_RATING, TABLE, WEAR};
use crate::scale::TimeScale;
use crate::sheet::{is_continuous, ALONG_RX, BY_U_COMP};
use crate::svg::{Anchor, Style, Svg, GREY, INK};
use crate::text::{plain, Room};
use crate::value;

/// Where its lines begin.
const LEFT: f64 = 20.0;
/// The most lines of a title.
const MOST_LINES: usize = 3;

/// What a head says, and the width of its picture.
pub struct Head<'a> {
    pub title: &'a str,
    pub list: &'a [u32],
    /// The ticks of the whole run.
    pub ticks: u32,
    pub width: f64,
}

impl Head<'_> {
    /// Draws it, and says how far down it comes.
    pub fn draw(&self, svg: &mut Svg, time: TimeScale) -> f64 {
        let title = plain(self.title);
        let y = self.lines(svg, &title.split_whitespace().collect::<Vec<_>>(), " ", (18.0, INK), 8.0);
        let part = self.part(time);
        let y = self.lines(svg, &part.iter().map(String::as_str).collect::<Vec<_>>(), "", (12.5, INK), y + 4.0);
        let settings = self.settings();
        self.lines(svg, &settings.iter().map(String::as_str).collect::<Vec<_>>(), " · ", (11.5, GREY), y + 4.0) + 18.0
    }

    /// Lines below this height, and how far down they come.
    fn lines(&self, svg: &mut Svg, pieces: &[&str], joint: &str, (size, colour): (f64, &str), top: f64) -> f64 {
        let room = Room { width: self.width - 2.0 * LEFT, size };
        let mut y = top;
        for line in room.wrap(pieces, joint, MOST_LINES) {
            y += (size * 1.25).round();
            svg.text((LEFT, y), &line, Style { size, colour, anchor: Anchor::Start });
        }
        y
    }

    /// Which part of its run a picture shows, where that is not all of it.
    fn part(&self, time: TimeScale) -> Option<String> {
        let [from, to, ticks] = [time.from, time.to, self.ticks].map(|tick| time.clock.time(tick));
        (time.to - time.from < self.ticks).then(|| format!("from {from} to {to} of {ticks}"))
    }

    /// The settings; ratings that are equal change nothing.
    fn settings(&self) -> Vec<String> {
        let list = self.list;
        let compensation: &[&str] = match list[COMPENSATION] {
            BY_U_COMP if list[CT_RATING] == list[BREAKER_RATING] => &["U_comp"],
            BY_U_COMP => &["U_comp", "Inom_ct1", "Inom_bus1"],
            ALONG_RX => &["R_set", "X_set"],
            _ => &[],
        };
        let usual: &[&str] = match is_continuous(list) {
            true => &["XB2", "U_supp1", "dU_set", "T1", "T3", "T4", "T8"],
            false => &["U_supp1", "dU_set", "T1", "T2", "T3", "T4", "T5", "T6", "T7", "T8"],
        };
        let counted: &[&str] = if list[WEAR] == 1 { &["N_max"] } else { &[] };
        usual.iter().chain(counted).chain(compensation).map(|name| self.setting(name)).collect()
    }

    fn setting(&self, name: &str) -> String {
        let slot = names::find(name).expect("a name of the table");
        format!("{name} {}", value::text(&TABLE[slot], self.list[slot]))
    }
}
