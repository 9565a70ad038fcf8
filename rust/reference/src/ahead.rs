//! Ticket 8: "When would it move?", a look ahead on a copy of the record.

use crate::input::Input;
use crate::record::{within_limits, Direction, Drive, Record};
use crate::tick::{tick, Ticked, OUTPUTS};

/// The longest horizon that is taken, in ticks.
pub const LONGEST_HORIZON: u32 = 36_000;

/// The answer to a look ahead.
#[derive(Clone, Debug, PartialEq, Eq)]
pub struct Outlook {
    /// 0; 4 for a record outside its limits, 6 for a horizon that is not taken.
    pub refusal: u32,
    /// On which tick, counting from 1, the first command begins; 0 if none does
    /// within the horizon.
    pub tick: u32,
    /// Which way it goes.
    pub way: Option<Direction>,
    /// The outputs of that tick; without a command, of the horizon's last.
    pub outputs: [u32; OUTPUTS],
    /// The record after the same tick.
    pub next: Record,
}

/// "Given the record, one tick and a horizon, on which tick, counting from 1,
/// would the first command begin if that tick repeated, which way, and what
/// outputs and record stand there."
pub fn ahead(record: &Record, input: &Input, horizon: u32) -> Outlook {
    if !within_limits(record) {
        return refused(4, record);
    }
    if horizon == 0 || horizon > LONGEST_HORIZON {
        return refused(6, record); // "tested after 4"
    }
    look(record, input, horizon)
}

/// "... returns tick 0, no way, outputs 0 and the record as given; so does 4
/// here."
fn refused(refusal: u32, record: &Record) -> Outlook {
    Outlook { refusal, tick: 0, way: None, outputs: [0; OUTPUTS], next: record.clone() }
}

/// "The answer equals running the ticks on a copy": tick after tick to the first
/// one that begins a command, or to the horizon.
fn look(record: &Record, input: &Input, horizon: u32) -> Outlook {
    let mut at_rest = holds_no_command_and_no_move(record);
    let mut ticked = tick(record, input);
    let mut number = 1;
    while begins(at_rest, &ticked).is_none() && number < horizon {
        at_rest = ticked.outputs[24] == 0;
        ticked = tick(&ticked.next, input);
        number += 1;
    }
    let way = begins(at_rest, &ticked);
    let tick = if way.is_some() { number } else { 0 };
    Outlook { refusal: 0, tick, way, outputs: ticked.outputs, next: ticked.next }
}

/// At rest as the first tick starts: "the record handed in holds no asked command
/// and no move". On later ones "the tick before gave output 24 as 0".
fn holds_no_command_and_no_move(record: &Record) -> bool {
    match record.drive {
        Drive::Rest => true,
        Drive::Asked { .. } | Drive::Moving { .. } => false,
    }
}

/// "An accepted tick that starts at rest begins a raise if its output 0 is 1, a
/// lower if its output 1 is 1."
fn begins(at_rest: bool, ticked: &Ticked) -> Option<Direction> {
    let accepted = ticked.refusal == 0;
    match (accepted && at_rest, ticked.outputs[0], ticked.outputs[1]) {
        (true, 1, _) => Some(Direction::Raise),
        (true, _, 1) => Some(Direction::Lower),
        _ => None,
    }
}
