//! The settings in which two sheets differ.

use crate::names::TABLE;
use crate::rows;
use crate::shown::counted;
use crate::value;

/// A line for each setting, with its value in the one and in the other, and how many there are.
pub fn diff(one: &[u32], other: &[u32]) -> String {
    let differing = TABLE.iter().enumerate().filter(|(at, _)| one[*at] != other[*at]);
    let row = |(at, slot)| {
        let [before, after] = [one, other].map(|list| value::text(slot, list[at]));
        [slot.name.to_string(), before, format!("-> {after}"), slot.meaning.to_string()]
    };
    let table: Vec<[String; 4]> = differing.map(row).collect();
    let count = match table.len() {
        0 => "no setting differs".to_string(),
        1 => "1 setting differs".to_string(),
        more => format!("{} differ", counted(more, "setting")),
    };
    format!("{}{count}\n", rows::aligned(&table))
}
