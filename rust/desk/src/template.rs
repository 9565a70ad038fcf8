//! A sheet to begin with: every setting with its default, what it takes and what it means.

use crate::names::{rated_amps, Kind, Slot, MODULE, TABLE};
use crate::rows;
use crate::value;

/// The modules by their rated current, as a command line names them.
pub const MODULES: [(&str, u32); 6] = [("1", 0), ("5", 1), ("1 A", 0), ("5 A", 1), ("1A", 0), ("5A", 1)];

/// The sheet of defaults for a module, as text.
pub fn template(module: u32) -> String {
    let head = ["# name", "= default", "# what it takes", "what it means"].map(str::to_string);
    let settings = TABLE.iter().enumerate().map(|(at, slot)| {
        let number = if at == MODULE { module } else { slot.default_for(module) };
        let value = format!("= {}", value::text(slot, number));
        [slot.name.to_string(), value, format!("# {}", takes(slot, module)), slot.meaning.to_string()]
    });
    let table: Vec<[String; 4]> = std::iter::once(head).chain(settings).collect();
    intro(module) + &rows::aligned(&table)
}

/// How to use it.
fn intro(module: u32) -> String {
    let (amps, other) = (rated_amps(module), rated_amps(1 - module));
    format!(
        "# A setting sheet of defaults for a {amps} A module; for the other one: `avr sheet template --module {other}`.\n\
         # Keep I_nom and the lines that you change; one left out has its default.\n\
         # XB1 = on puts the unit in service. `avr sheet check FILE` says whether the unit takes the sheet.\n\n"
    )
}

/// What a slot takes, with that module.
fn takes(slot: &Slot, module: u32) -> String {
    match slot.kind {
        Kind::Words(words) => words.join(", "),
        _ => format!("{} in steps of {}", value::span(slot, module), value::step(slot)),
    }
}
