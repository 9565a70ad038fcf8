//! Why no command begins in a look ahead: what the outputs, the record and the contacts show at its end, in words, the decisive
//! reason first.

use library::LONGEST_HORIZON;

use super::causes::Seen;
use crate::cells::seconds_text;
use crate::drive::Way;
use crate::inputs::{bit, is_on, CONTACTS, OUT, REMOTE, RESET, SWITCHING};
use crate::names::at;
use crate::outputs::{self, AUTOMATIC, AUTOMATIC_BLOCKED, FAULTS, HIGH, LOW};
use crate::sheet::{is, is_continuous, said};
use crate::unit::{Doing, Unit};

/// The end of a look in which no command began.
pub struct End<'a> {
    pub seen: Seen<'a>,
    /// The unit as the look began, and at its end.
    pub first: &'a Unit,
    pub last: &'a Unit,
    pub horizon: u32,
    /// The slot of the delay that was in force on the last tick, where a timer runs.
    pub delay: Option<usize>,
}

/// All that keeps a command from beginning.
pub fn reasons(end: &End) -> Vec<String> {
    let out = end.out();
    if !out.is_empty() {
        return out;
    }
    let mode = match end.is(AUTOMATIC) {
        true => end.in_automatic(),
        false => end.in_manual(),
    };
    end.fault().into_iter().chain(end.busy()).chain(mode).collect()
}

impl End<'_> {
    fn is(&self, field: usize) -> bool {
        self.seen.outputs[field] == 1
    }

    fn contact(&self, bit: u32) -> bool {
        is_on(self.seen.brought.contacts, bit)
    }

    /// Out of service by the sheet, or out by the key.
    fn out(&self) -> Vec<String> {
        let service =
            is(self.seen.list, at("XB1"), "off").then(|| "the sheet has XB1 = off: the unit is out of service".to_string());
        let key = self.contact(OUT).then(|| "the key out is on: the regulator is switched out".to_string());
        service.into_iter().chain(key).collect()
    }

    /// A fault that comes in the look is a command or a move that does not come to its end.
    fn fault(&self) -> Option<String> {
        let field = FAULTS.into_iter().find(|field| self.is(*field))?;
        let name = outputs::short(field, is_continuous(self.seen.list));
        let stays = match self.contact(SWITCHING) {
            _ if is_continuous(self.seen.list) => "the voltage stays out of band",
            true => "the switching contact stays closed",
            false => "the switching contact stays open",
        };
        let comes = match (self.contact(RESET), self.first.has_fault()) {
            (true, _) => "comes in spite of reset".to_string(),
            (false, true) => "is latched until reset".to_string(),
            (false, false) => format!("comes within the horizon, as {stays}, and is latched until reset"),
        };
        Some(format!("the fault '{name}' {comes}: everything is blocked"))
    }

    /// A command that was on as the look began, or a move; a press that waits for its end.
    fn busy(&self) -> Vec<String> {
        let contact = match self.contact(SWITCHING) {
            _ if is_continuous(self.seen.list) => "",
            true => ", and the switching contact is closed",
            false => ", and the switching contact is open",
        };
        let busy = match self.last.drive() {
            Doing::Rests => return Vec::new(),
            Doing::Asked { way, automatic: true } => format!("an automatic {} command is already on{contact}", name(way)),
            Doing::Asked { way, automatic: false } => format!("a manual {} command is already on{contact}", name(way)),
            Doing::Moves { way, own: false } => format!("a commanded {} move is under way{contact}", name(way)),
            Doing::Moves { way, own: true } => {
                format!("the drive moves on by itself from a sliding tap, {}{contact}", name(way))
            }
        };
        let press = self.last.remembered().map(|way| format!("a {} press is remembered until the drive is at rest", name(way)));
        [busy].into_iter().chain(press).collect()
    }

    fn in_automatic(&self) -> Vec<String> {
        let side = [(LOW, Way::Raise), (HIGH, Way::Lower)].into_iter().find(|(field, _)| self.is(*field));
        let way = side.map(|(_, way)| way);
        let blocked = self.everything().into_iter().chain(list("automatic is blocked", self.seen.automatic()));
        let direction = way.and_then(|way| self.direction(way));
        blocked.chain(direction).chain(self.in_band(way)).chain(way.and_then(|way| self.timer(way))).collect()
    }

    fn in_manual(&self) -> Vec<String> {
        let dropped = self.first.remembered().filter(|_| self.last.remembered().is_none());
        let dropped = dropped.map(|way| format!("the remembered {} press is dropped", name(way)));
        let idle = format!("manual mode, and {}; --automatic looks ahead in automatic mode", self.no_press());
        let blocked = self.everything().into_iter().chain(list("manual is blocked", self.seen.manual()));
        let directions = [Way::Raise, Way::Lower].into_iter().filter_map(|way| self.direction(way));
        dropped.into_iter().chain([idle]).chain(blocked).chain(directions).collect()
    }

    fn everything(&self) -> Option<String> {
        list("everything is blocked", self.seen.common())
    }

    fn direction(&self, way: Way) -> Option<String> {
        list(&format!("{} is blocked", name(way)), self.seen.way(way))
    }

    /// Neither low nor high, and U not missing.
    fn in_band(&self, way: Option<Way>) -> Option<String> {
        (way.is_none() && self.seen.missing_voltage().is_none()).then(|| "the voltage is in band".to_string())
    }

    /// The timer of the command that the voltage asks for: how long it has run, or that it has not begun.
    fn timer(&self, way: Way) -> Option<String> {
        let name = name(way);
        let Some((_, ticks)) = self.last.timer() else {
            return self
                .is_free(way)
                .then(|| format!("the timer of a {name} has not begun, as the drive came to rest on the last tick"));
        };
        let delay = self.delay.map_or(String::new(), |slot| format!(" of {}", said(self.seen.list, slot)));
        let then = match self.horizon < LONGEST_HORIZON {
            true => format!("give a longer --horizon, up to {} s", seconds_text(LONGEST_HORIZON)),
            false => "look ahead from a later time".to_string(),
        };
        let elapsed = seconds_text(ticks);
        Some(format!("the timer of a {name} has run for {elapsed} s{delay}, and the horizon ends before the delay: {then}"))
    }

    /// The drive at rest, and nothing blocks the way.
    fn is_free(&self, way: Way) -> bool {
        let blocked = match way {
            Way::Raise => outputs::RAISE_BLOCKED,
            Way::Lower => outputs::LOWER_BLOCKED,
        };
        self.last.drive() == Doing::Rests && !self.is(AUTOMATIC_BLOCKED) && !self.is(blocked)
    }

    /// Why no button acts: neither of the pair in use is down, or what is down was so before.
    fn no_press(&self) -> String {
        let (pair, whose) = match self.contact(REMOTE) {
            true => ([bit("remote_raise"), bit("remote_lower")], "dispatcher's"),
            false => ([bit("raise"), bit("lower")], "panel's"),
        };
        let held: Vec<&str> =
            pair.into_iter().filter(|bit| self.contact(*bit)).map(|bit| CONTACTS[bit as usize].name).collect();
        match held[..] {
            [] => format!("neither of the {whose} buttons is pressed"),
            [one] => format!("{one} is held, which is no new press"),
            _ => format!("{} are held, which is no new press", held.join(" and ")),
        }
    }
}

/// What is blocked and by what, if by anything.
fn list(head: &str, causes: Vec<String>) -> Option<String> {
    (!causes.is_empty()).then(|| format!("{head}: {}", causes.join("; ")))
}

/// The word for a way.
pub fn name(way: Way) -> &'static str {
    match way {
        Way::Raise => outputs::SHORT[outputs::RAISE],
        Way::Lower => outputs::SHORT[outputs::LOWER],
    }
}
