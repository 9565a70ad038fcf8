//! A table as JSON, for other programs.

use crate::summary::{Spell, Summary};
use crate::table::{seconds, Change};

const NULL: &str = "null";

/// The changes of a run, and what it comes to.
pub fn document(changes: &[Change], summary: &Summary) -> String {
    let changes: Vec<String> = changes.iter().map(change).collect();
    format!("{{\n\"changes\": [\n{}\n],\n\"summary\": {}\n}}\n", changes.join(",\n"), of(summary))
}

fn change(Change { tick, side, name, value, words }: &Change) -> String {
    let (name, value, words) = (string(name), number_or_string(value), string(words));
    let seconds = seconds(*tick);
    format!(
        r#"{{"seconds": {seconds}, "tick": {tick}, "side": "{side}", "name": {name}, "value": {value}, "change": {words}}}"#
    )
}

fn of(summary: &Summary) -> String {
    let mut fields = vec![
        field("ticks", summary.ticks.to_string()),
        field("seconds", seconds(summary.ticks)),
        field("raises", summary.raises.to_string()),
        field("lowers", summary.lowers.to_string()),
        field("operations", summary.operations.map_or(NULL.to_string(), |(done, _)| done.to_string())),
        field("count", summary.operations.map_or(NULL.to_string(), |(_, count)| count.to_string())),
        field("worn", summary.worn.to_string()),
        field("low_seconds", seconds(summary.low.ticks)),
        field("high_seconds", seconds(summary.high.ticks)),
    ];
    fields.extend(summary.groups.iter().map(|(heading, spells)| field(heading, list(spells))));
    format!("{{{}}}", fields.join(", "))
}

fn field(name: &str, value: String) -> String {
    format!("{}: {value}", string(name))
}

fn list(spells: &[Spell]) -> String {
    let one = |Spell { name, why, times, ticks }: &Spell| {
        let count = match why {
            Some(why) => field("why", string(why)),
            None => field("times", times.to_string()),
        };
        format!(r#"{{"name": {}, {count}, "seconds": {}}}"#, string(name), seconds(*ticks))
    };
    format!("[{}]", spells.iter().map(one).collect::<Vec<_>>().join(", "))
}

/// A number as one, and a text in quotes. What Rust reads as a number without end or as none is text.
fn number_or_string(text: &str) -> String {
    match text.parse::<f64>() {
        Ok(number) if number.is_finite() => text.to_string(),
        _ => string(text),
    }
}

/// A text in quotes.
fn string(text: &str) -> String {
    let plain = |letter: char| match letter {
        '"' | '\\' => format!("\\{letter}"),
        _ if letter.is_control() => format!("\\u{:04x}", letter as u32),
        _ => letter.to_string(),
    };
    format!("\"{}\"", text.chars().map(plain).collect::<String>())
}
