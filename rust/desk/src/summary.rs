//! What a whole run comes to: commands, operations, time out of band, blocks, trips, faults, and readings that were missing.

use library::ORGANS;

use crate::cells::seconds_text;
use crate::inputs::{OUT, READINGS};
use crate::missing::{self, Why};
use crate::names::{rated_amps, MODULE, WEAR};
use crate::outputs::{
    short, BLOCKS, FAULTS, HIGH, LOW, LOWER, OPERATIONS, RAISE, RANGE_ERROR, SUPPLY_TRIP, TRIPS, WORN, WRONG_CODE,
};
use crate::run::{History, Signal};
use crate::sheet::is_continuous;
use crate::shown::counted;

/// What was on: its name, how often it began and for how many ticks it was on.
#[derive(Clone, Debug, PartialEq)]
pub struct Spell {
    pub name: String,
    /// Why a reading was missing.
    pub why: Option<String>,
    pub times: usize,
    pub ticks: u32,
}

/// A run summed up. Of blocks, trips, faults and missing readings those that came.
pub struct Summary {
    pub ticks: u32,
    pub raises: usize,
    pub lowers: usize,
    /// How many there were and the count as it ends, where the sheet counts them, and whether that reached N_max.
    pub operations: Option<(usize, u32)>,
    pub worn: bool,
    pub low: Spell,
    pub high: Spell,
    /// A heading, and what came under it.
    pub groups: [(&'static str, Vec<Spell>); GROUPS],
}

/// Blocks, trips, faults, errors of the tap, and readings that are missing.
const GROUPS: usize = 5;

pub fn summary(history: &History, list: &[u32]) -> Summary {
    let continuous = is_continuous(list);
    let of = |field: usize| spell(history, field, continuous);
    let came = |fields: &mut dyn Iterator<Item = usize>| fields.map(of).filter(|spell| spell.times > 0).collect();
    Summary {
        ticks: history.ticks,
        raises: of(RAISE).times,
        lowers: of(LOWER).times,
        operations: (list[WEAR] == 1).then(|| operations(history)),
        worn: of(WORN).times > 0,
        low: of(LOW),
        high: of(HIGH),
        groups: [
            ("blocks", came(&mut BLOCKS.into_iter())),
            ("trips", came(&mut (TRIPS..TRIPS + ORGANS))),
            ("faults", came(&mut FAULTS.chain([SUPPLY_TRIP]))),
            ("tap_errors", came(&mut [WRONG_CODE, RANGE_ERROR].into_iter())),
            ("missing_readings", missing_readings(history, rated_amps(list[MODULE]))),
        ],
    }
}

fn spell(history: &History, field: usize, continuous: bool) -> Spell {
    let (times, ticks) = on(&history.outputs[field], history.ticks);
    Spell { name: short(field, continuous).to_string(), why: None, times, ticks }
}

/// The operations of a run, and the count at its end. As a unit comes back from out, its count becomes N_start, which is none.
fn operations(history: &History) -> (usize, u32) {
    let signal = &history.outputs[OPERATIONS];
    let counts = |pair: &&[(u32, u32)]| pair[1].1 == pair[0].1 + 1 && !history.contact(OUT, pair[1].0 - 1);
    (signal.windows(2).filter(counts).count(), signal.last().map_or(0, |(_, count)| *count))
}

/// How often a signal became other than 0, and for how many ticks it was.
fn on(signal: &Signal<u32>, ticks: u32) -> (usize, u32) {
    let (mut times, mut sum) = (0, 0);
    for (at, (from, value)) in signal.iter().enumerate().filter(|(_, (_, value))| *value != 0) {
        let to = signal.get(at + 1).map_or(ticks + 1, |(next, _)| *next);
        let begins = at == 0 || signal[at - 1].1 == 0;
        times += usize::from(begins && *value != 0);
        sum += to - from;
    }
    (times, sum)
}

/// Each reading that was missing, once for each reason.
fn missing_readings(history: &History, rated: u32) -> Vec<Spell> {
    let spell = |(at, why, ticks): (usize, Why, u32)| {
        let why = Some(missing::words(why, at, rated));
        Spell { name: READINGS[at].name.to_string(), why, times: 0, ticks }
    };
    history.reasons.came().map(spell).collect()
}

impl Summary {
    /// For people: a line each.
    pub fn text(&self) -> String {
        let mut text = format!("summary of {}, {}\n", time(self.ticks), counted(self.ticks as usize, "tick"));
        let mut line = |name: &str, words: &str| text.push_str(&format!("  {name:<18}{words}\n"));
        line("commands", &format!("{}, {}", counted(self.raises, "raise"), counted(self.lowers, "lower")));
        line("operations", &self.operations_words());
        let (low, high) = (self.low.ticks, self.high.ticks);
        line("out of band", &format!("{}: low {}, high {}", time(low + high), time(low), time(high)));
        for (heading, spells) in &self.groups {
            let words: Vec<String> = spells.iter().map(Spell::words).collect();
            line(&heading.replace('_', " "), words.first().map_or("none", String::as_str));
            words.iter().skip(1).for_each(|words| line("", words));
        }
        text
    }

    fn operations_words(&self) -> String {
        let worn = if self.worn { ", and N_max was reached" } else { "" };
        match self.operations {
            Some((done, count)) => format!("{done}; the count is {count}{worn}"),
            None => "not counted, XB18 = off".to_string(),
        }
    }
}

impl Spell {
    /// `automatic blocked: 2 times, 3.5 s`; what is missing is told by its time alone.
    fn words(&self) -> String {
        let times = match self.times {
            0 => String::new(),
            times => format!("{}, ", counted(times, "time")),
        };
        let why = self.why.as_ref().map_or(String::new(), |why| format!(", {why}"));
        format!("{}{why}: {times}{}", self.name, time(self.ticks))
    }
}

fn time(ticks: u32) -> String {
    format!("{} s", seconds_text(ticks))
}
