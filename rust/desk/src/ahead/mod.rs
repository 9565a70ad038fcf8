//! A look ahead: when the first command would begin if what the unit reads now stayed as it is. The answer is the library's; this
//! asks for it and puts it in words.

mod causes;
mod drawn;
mod reasons;

use library::{Brought, FIELDS};

use crate::cells::seconds_text;
use crate::drive::Way;
use crate::file::Errors;
use crate::inputs::{is_on, AUTOMATIC};
use crate::outputs;
use crate::sheet::said;
use crate::unit::{Outlook, Unit};

pub use causes::Seen;
pub use drawn::{agrees, marks, shown_after};
pub use reasons::name;

/// What is asked: from the tick `at` on, what that tick brought repeats.
#[derive(Clone, Copy)]
pub struct Asked<'a> {
    pub list: &'a [u32],
    pub at: u32,
    pub brought: Brought,
    /// Whether automatic, off on that tick, is switched on for the look.
    pub switched: bool,
    pub horizon: u32,
}

/// What a look finds.
#[derive(Clone, Debug, PartialEq)]
pub enum Found {
    Begins(Begin),
    /// No command, and what keeps it from beginning.
    Nothing(Vec<String>),
}

/// The first command: its tick, counted from 1 after `at`, its way, and what it comes by.
#[derive(Clone, Copy, Debug, PartialEq)]
pub struct Begin {
    pub tick: u32,
    pub way: Way,
    pub by: By,
}

/// What a command comes by.
#[derive(Clone, Copy, Debug, PartialEq)]
pub enum By {
    /// Automatic, by the delay of this slot; for so many ticks its timer had run before the look.
    Delay { slot: Option<usize>, elapsed: u32 },
    /// A press that was remembered until the drive was at rest.
    Press,
    /// Another press.
    Manual,
}

/// Looks ahead from the unit as it is after the tick `at`.
pub fn look(unit: &Unit, asked: &Asked) -> Result<Found, Errors> {
    let look = ahead(unit, asked, asked.horizon)?;
    match look.begins {
        Some((tick, way)) => Ok(Found::Begins(Begin { tick, way, by: by(unit, asked, tick, way, &look.outputs)? })),
        None => Ok(Found::Nothing(reasons(unit, asked, &look)?)),
    }
}

/// The library's answer.
fn ahead(unit: &Unit, asked: &Asked, horizon: u32) -> Result<Outlook, Errors> {
    let refused = |number| vec![format!("the look ahead from tick {} is refused (refusal {number})", asked.at)];
    unit.ahead(&asked.brought, horizon).map_err(refused)
}

/// The unit as it is before a tick of the look, up to which no command begins.
fn before(unit: &Unit, asked: &Asked, tick: u32) -> Result<Unit, Errors> {
    match tick {
        1 => Ok(*unit),
        _ => Ok(ahead(unit, asked, tick - 1)?.unit),
    }
}

fn by(unit: &Unit, asked: &Asked, tick: u32, way: Way, outputs: &[u32; FIELDS]) -> Result<By, Errors> {
    if outputs[outputs::AUTOMATIC] == 0 {
        return Ok(if unit.remembered() == Some(way) { By::Press } else { By::Manual });
    }
    let slot = before(unit, asked, tick)?.delay(&asked.brought, way);
    let elapsed = unit.timer().filter(|(of, _)| *of == way).map_or(0, |(_, ticks)| ticks);
    Ok(By::Delay { slot, elapsed })
}

fn reasons(unit: &Unit, asked: &Asked, look: &Outlook) -> Result<Vec<String>, Errors> {
    let delay = match look.unit.timer() {
        Some((way, _)) => before(unit, asked, asked.horizon)?.delay(&asked.brought, way),
        None => None,
    };
    let seen = Seen { list: asked.list, brought: &asked.brought, outputs: &look.outputs };
    Ok(reasons::reasons(&reasons::End { seen, first: unit, last: &look.unit, horizon: asked.horizon, delay }))
}

/// `120 s`.
fn time(ticks: u32) -> String {
    format!("{} s", seconds_text(ticks))
}

impl Asked<'_> {
    /// The answer in words: what is assumed, and when a command begins or why none does.
    pub fn answer(&self, found: &Found) -> String {
        let mode = match (self.switched, is_on(self.brought.contacts, AUTOMATIC)) {
            (true, _) => "automatic switched on, readings and other contacts unchanged",
            (false, true) => "automatic mode, readings and contacts unchanged",
            (false, false) => "manual mode, readings and contacts unchanged",
        };
        let head = format!("look ahead from {}, tick {}: {mode}\n", time(self.at), self.at);
        head + &match found {
            Found::Begins(begin) => self.command(begin) + "\n",
            Found::Nothing(reasons) => self.nothing(reasons),
        }
    }

    fn command(&self, begin: &Begin) -> String {
        let Begin { tick, way, by } = *begin;
        let (later, then) = (time(tick), time(self.at + tick));
        format!("a {} begins on tick {tick} of the look, {later} later, at {then}: {}", name(way), self.by(by))
    }

    fn by(&self, by: By) -> String {
        match by {
            By::Delay { slot, elapsed } => {
                let delay = slot.map_or(String::new(), |slot| format!(", after {}", said(self.list, slot)));
                let before = if elapsed > 0 { format!(", of which {} had elapsed", time(elapsed)) } else { String::new() };
                format!("automatic{delay}{before}")
            }
            By::Press => "manual, the remembered press".to_string(),
            By::Manual => "manual".to_string(),
        }
    }

    fn nothing(&self, reasons: &[String]) -> String {
        let head = format!("no command begins within {}, up to {}:\n", time(self.horizon), time(self.at + self.horizon));
        reasons.iter().fold(head, |text, reason| text + "  " + reason + "\n")
    }
}
