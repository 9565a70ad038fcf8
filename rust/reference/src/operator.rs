//! A simulated operator, at the panel or the dispatcher, who presses while the
//! drive runs, and what comes in between: what drops or blocks a remembered press.

use crate::dice::Dice;
use crate::input::bit;
use crate::record::{Drive, Record};
use crate::sheet::{is_continuous, slot};
use crate::stretch::{LOWER, RAISE};

/// How a tick stands to a command or move.
#[derive(Clone, Copy, Debug, PartialEq, Eq)]
pub enum Phase {
    Rest,
    Unfinished,
    /// Unfinished as the tick starts, and over with it if nothing comes between.
    Ending,
    FirstAtRest,
}

impl Phase {
    /// The phase of a tick with the contact so, after one that started with a
    /// command or move unfinished or not.
    pub fn of(record: &Record, closed: bool, unfinished_before: bool) -> Phase {
        match record.drive {
            Drive::Rest if unfinished_before => Phase::FirstAtRest,
            Drive::Rest => Phase::Rest,
            _ if ends(record, closed) => Phase::Ending,
            _ => Phase::Unfinished,
        }
    }
}

/// Whether a command or move ends on this tick, well or with a fault.
fn ends(record: &Record, closed: bool) -> bool {
    let settings = &record.settings;
    match record.drive {
        Drive::Rest => false,
        Drive::Asked { age, .. } if is_continuous(settings) => age + 1 >= settings[slot::T4],
        Drive::Asked { age, .. } => !closed && age + 1 >= settings[slot::T5],
        Drive::Moving { length, .. } => !closed || length >= settings[slot::T4],
    }
}

/// The operator's hands.
#[derive(Default)]
pub struct Operator {
    buttons: u32,
    /// Ticks for which the buttons stay so.
    left: u32,
}

impl Operator {
    /// The buttons on a tick. They change more often about the end of a move, and
    /// as the mode turns between local and remote.
    pub fn press(&mut self, dice: &mut Dice, phase: Phase, turned: bool) -> u32 {
        let changes = match phase {
            _ if turned => 2,
            Phase::Rest => 4,
            Phase::Unfinished => 6,
            Phase::Ending | Phase::FirstAtRest => 2,
        };
        if dice.one_in(changes) {
            self.buttons = dice.pick(&[RAISE, LOWER, RAISE | LOWER, self.buttons ^ RAISE, self.buttons ^ LOWER]);
            self.left = dice.pick(&[1, 1, 2, 5, 30]);
        }
        if self.left == 0 {
            self.buttons = 0;
        }
        self.left = self.left.saturating_sub(1);
        self.buttons
    }
}

/// What drops or blocks a remembered press, and a reset, which does neither.
const BETWEEN: [u32; 10] = [
    bit::AUTOMATIC,
    bit::LOCAL_DRIVE,
    bit::OUT,
    bit::EXTERNAL_BLOCK,
    bit::OIL_COLD,
    bit::END_UP,
    bit::END_DOWN,
    bit::EXTERNAL_RAISE_BLOCK,
    bit::EXTERNAL_LOWER_BLOCK,
    bit::RESET,
];

/// The contacts that something turns over on a tick: seldom in the move, often
/// about its end. On the first tick at rest the drive also starts by itself.
pub fn in_between(dice: &mut Dice, phase: Phase) -> u32 {
    let often = match phase {
        Phase::Rest => 0,
        Phase::Unfinished => 100,
        Phase::Ending => 5,
        Phase::FirstAtRest => 2,
    };
    if !dice.one_in(often) {
        return 0;
    }
    match phase == Phase::FirstAtRest && dice.one_in(4) {
        true => 1 << bit::SWITCHING,
        false => 1 << dice.pick(&BETWEEN),
    }
}

/// Whether the mode turns from local to remote or back on a tick: on one in
/// `often` of a command or move, seldom at rest, and mostly about the end.
pub fn remote_turns(dice: &mut Dice, phase: Phase, often: u32) -> bool {
    let often = match phase {
        Phase::Rest => 2 * often,
        Phase::Unfinished => often,
        Phase::Ending => often / 20,
        Phase::FirstAtRest => often / 30,
    };
    dice.one_in(often)
}
