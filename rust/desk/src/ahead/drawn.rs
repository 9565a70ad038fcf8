//! A look ahead in a picture: how far it is drawn, its marks, and whether the ticks that are drawn agree with the answer.

use super::{name, time, Asked, Begin, Found};
use crate::drive::Way;
use crate::file::Errors;
use crate::marks::Mark;
use crate::names::at;
use crate::outputs::{BUSY, LOWER, RAISE};
use crate::run::History;
use crate::sheet::is_continuous;
use crate::svg::{BLUE, GREY, INK, VERMILLION};

/// The part of a picture for which a command is shown after it began.
const PART: u32 = 20;

/// The ticks of a look in a picture that begins at `from`: up to the horizon, or up to the command and a part of it. What the unit
/// does later, as nothing answers the command, is not shown.
pub fn shown_after(asked: &Asked, found: &Found, from: u32) -> u32 {
    let Found::Begins(Begin { tick, .. }) = found else { return asked.horizon };
    let unanswered = asked.list[if is_continuous(asked.list) { at("T4") } else { at("T5") }];
    let shown = (asked.at + tick).saturating_sub(from);
    tick + (shown / PART).min(unanswered / 2).max(1)
}

/// Where the look begins, and where its command does or the horizon ends.
pub fn marks(asked: &Asked, found: &Found) -> [Mark; 2] {
    let switched = if asked.switched { ", automatic switched on" } else { "" };
    let words = format!("from here on the readings repeat{switched}");
    let begins = Mark { tick: asked.at, words, colour: GREY, dashes: "6 3", shades: true };
    let ends = match found {
        Found::Begins(Begin { tick, way, .. }) => {
            let words = format!("{}, after {}", name(*way), time(*tick));
            let colour = if *way == Way::Raise { BLUE } else { VERMILLION };
            Mark { tick: asked.at + tick, words, colour, dashes: "", shades: false }
        }
        Found::Nothing(reasons) => {
            let why = reasons.first().map_or(String::new(), |reason| format!(": {reason}"));
            let words = format!("no command within {}{why}", time(asked.horizon));
            Mark { tick: asked.at + asked.horizon, words, colour: INK, dashes: "", shades: false }
        }
    };
    [begins, ends]
}

/// Whether the ticks of a history after the tick `at` have the command of the answer, and no other before it.
pub fn agrees(history: &History, asked: &Asked, found: &Found) -> Result<(), Errors> {
    let answer = match found {
        Found::Begins(Begin { tick, way, .. }) => Some((*tick, *way)),
        Found::Nothing(_) => None,
    };
    match begun(history, asked.at) {
        begun if begun == answer => Ok(()),
        begun => {
            let [begun, answer] = [begun, answer].map(told);
            Err(vec![format!("the ticks that are drawn have {begun}, and the look ahead {answer}: please report this")])
        }
    }
}

fn told(command: Option<(u32, Way)>) -> String {
    command.map_or("no command".to_string(), |(tick, way)| format!("a {} on tick {tick}", name(way)))
}

/// The first command after a tick: one that comes on a tick before which the drive was not busy. Its tick is counted from there.
pub fn begun(history: &History, after: u32) -> Option<(u32, Way)> {
    let begins = [(RAISE, Way::Raise), (LOWER, Way::Lower)].into_iter().filter_map(|(field, way)| {
        let on = |(tick, value): &&(u32, u32)| *tick > after && *value == 1 && history.output(BUSY, tick - 1) == 0;
        history.outputs[field].iter().find(on).map(|(tick, _)| (tick - after, way))
    });
    begins.min_by_key(|(tick, _)| *tick)
}
