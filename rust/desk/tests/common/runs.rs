//! Runs, ten seconds of buttons with a drive that answers above all: what the table and the picture tell of them.

use desk::picture::{picture, View};
use desk::play::{Player, Source};
use desk::run::{self, History};
use desk::table::table;
use desk::unit::start;
use desk::{scenario, sheet};

use super::{file, WHOLE_TABLE};

/// A drive with a contact: a move lasts 3.5 s from its command on.
pub const IMPULSE: &str = "XB1 = on\nXB6 = counted\nT7 = 0.5 s\nN_pos = 9\nN_R = 17\n";
/// A drive without one: a manual command lasts 3.5 s.
pub const CONTINUOUS: &str = "XB1 = on\nXB2 = continuous\nXB6 = sensor\nT4 = 3.5 s\n";

pub const RAISE: &str = "raise press remembered";
pub const LOWER: &str = "lower press remembered";
pub const GONE: &str = "remembered press gone";

pub struct Run {
    pub list: Vec<u32>,
    pub history: History,
}

impl Run {
    /// These columns, off at first, and their rows.
    pub fn new(sheet: &str, columns: &str, rows: &str) -> Run {
        let off = "0,".repeat(columns.split(',').count());
        Run::of(sheet, &format!("seconds,{columns},U_AB,breaker,drive,drive_tap\n0,{off}100,1,ok,9\n{rows}10,end\n"))
    }

    /// Any scenario.
    pub fn of(sheet: &str, scenario: &str) -> Run {
        let list = sheet::read(&file(sheet)).expect("a sheet").list;
        let scenario = scenario::read(&file(scenario)).expect("a scenario");
        let source = Source::Scenario(Player::with_drive(&scenario, &list));
        let unit = start(&list).expect("taken");
        let history = run::history(unit, source).expect("a run");
        Run { list, history }
    }

    pub fn table(&self) -> String {
        table(&self.history, &self.list, WHOLE_TABLE)
    }

    pub fn picture(&self) -> String {
        self.part(0, self.history.ticks)
    }

    /// The picture between two ticks.
    pub fn part(&self, from: u32, to: u32) -> String {
        picture(&self.history, &self.list, View { title: "buttons", from, to })
    }

    /// The labels of the picture from the first contact's on, as many as these.
    pub fn labels(&self, count: usize) -> Vec<String> {
        let text = self.picture();
        let labels = text.lines().filter_map(|line| line.strip_suffix("</text>")?.rsplit('>').next());
        labels.skip_while(|label| *label != "in: breaker").take(count).map(str::to_string).collect()
    }

    /// The ticks of the table's lines that begin so, with what they go on with.
    pub fn lines(&self, side: &str) -> Vec<(u32, String)> {
        let (mut tick, mut lines) = (0, Vec::new());
        for line in self.table().lines().skip(1).take_while(|line| !line.is_empty()) {
            tick = line[11..22].trim().parse().unwrap_or(tick);
            if let Some(words) = line[24..].strip_prefix(side) {
                lines.push((tick, words.to_string()));
            }
        }
        lines
    }

    /// The ticks of the remembered press, with the words that the table has for it.
    pub fn told(&self) -> Vec<(u32, String)> {
        self.lines("unit ")
    }

    /// The ticks on which a command begins.
    pub fn commands(&self) -> Vec<(u32, String)> {
        self.lines("out  ").into_iter().filter(|(_, words)| words.ends_with(" command")).collect()
    }
}

pub fn told(changes: &[(u32, &str)]) -> Vec<(u32, String)> {
    changes.iter().map(|(tick, words)| (*tick, words.to_string())).collect()
}
