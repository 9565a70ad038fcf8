//! A simulated drive with a switching contact that answers commands, well or
//! badly.

use crate::dice::Dice;
use crate::record::Direction;
use crate::sheet::{slot, Settings};
use crate::tap::is_sliding;

/// How the drive behaves; after the colon, how one without the contact does.
#[derive(Clone, Copy, Debug, PartialEq, Eq)]
pub enum Temper {
    /// Starts within T5 and turns for T6 to T4 ticks: comes to a tap every few
    /// ticks.
    Proper,
    /// Never starts: sticks.
    Dead,
    /// Starts about T5 ticks after the command: comes to its first tap about T4
    /// ticks after it.
    Late,
    /// Turns for about T4 ticks: comes to a tap or two in T4 ticks.
    Slow,
    /// Turns for about T6 ticks: comes to a tap on every tick.
    Quick,
    /// Also closes the contact on its own: also comes to a tap on its own.
    Wild,
}

/// Tempers to choose from, the good one more often.
pub const TEMPERS: [Temper; 9] = [
    Temper::Proper,
    Temper::Proper,
    Temper::Proper,
    Temper::Dead,
    Temper::Late,
    Temper::Slow,
    Temper::Slow,
    Temper::Quick,
    Temper::Wild,
];

#[derive(Clone, Copy)]
enum State {
    Quiet,
    Starting { wait: u32, hold: u32 },
    Turning { hold: u32 },
}

/// The drive, its contact and the true tap.
pub struct Plant {
    pub tap: u32,
    state: State,
    direction: Direction,
    commanded_before: bool,
}

impl Plant {
    pub fn new(tap: u32) -> Plant {
        Plant { tap, state: State::Quiet, direction: Direction::Raise, commanded_before: false }
    }

    /// The contact on the tick after `command` was shown.
    pub fn contact(&mut self, dice: &mut Dice, settings: &Settings, temper: Temper, command: Option<Direction>) -> bool {
        let asked = command.filter(|_| !self.commanded_before);
        self.commanded_before = command.is_some();
        if let State::Quiet = self.state {
            self.state = self.stir(dice, settings, temper, asked);
        }
        self.turn(dice, settings)
    }

    /// Whether a quiet drive starts.
    fn stir(&mut self, dice: &mut Dice, settings: &Settings, temper: Temper, asked: Option<Direction>) -> State {
        let hold = hold(dice, settings, temper);
        match asked {
            Some(_) if temper == Temper::Dead => State::Quiet,
            Some(direction) => {
                self.direction = direction;
                let wait = start(dice, settings, temper) - 1;
                State::Starting { wait, hold }
            }
            None if temper == Temper::Wild && dice.one_in(150) => State::Turning { hold },
            None => State::Quiet,
        }
    }

    /// One tick of the mechanism; says whether the contact is closed.
    fn turn(&mut self, dice: &mut Dice, settings: &Settings) -> bool {
        match self.state {
            State::Quiet => false,
            State::Starting { wait: 0, hold } | State::Turning { hold } if hold > 0 => {
                self.state = State::Turning { hold: hold - 1 };
                true
            }
            State::Starting { wait, hold } => {
                let wait = wait.saturating_sub(1);
                self.state = State::Starting { wait, hold };
                false
            }
            State::Turning { .. } => {
                self.arrive(dice, settings);
                false
            }
        }
    }

    /// One tap this way, seldom past an end.
    pub fn next_tap(&mut self, dice: &mut Dice, settings: &Settings, direction: Direction) {
        let past = u32::from(dice.one_in(8));
        self.tap = match direction {
            Direction::Raise => (self.tap + 1).min(settings[slot::N_R] + past),
            Direction::Lower => self.tap.saturating_sub(1).max(settings[slot::N_L] - past),
        };
    }

    /// The new tap; from a sliding one the drive soon goes on by itself.
    fn arrive(&mut self, dice: &mut Dice, settings: &Settings) {
        self.next_tap(dice, settings, self.direction);
        let slides = is_sliding(settings, self.tap) && !dice.one_in(4);
        self.state = match slides || dice.one_in(40) {
            true => State::Starting { wait: dice.between(0, 6), hold: hold(dice, settings, Temper::Proper) },
            false => State::Quiet,
        };
    }
}

/// Ticks from the command's first to the contact's first.
fn start(dice: &mut Dice, settings: &Settings, temper: Temper) -> u32 {
    let t5 = settings[slot::T5];
    match temper {
        Temper::Late => dice.between(t5 - 1, t5 + 2),
        _ => dice.between(1, t5.min(15)),
    }
}

/// Ticks the contact stays closed.
fn hold(dice: &mut Dice, settings: &Settings, temper: Temper) -> u32 {
    let (t4, t6) = (settings[slot::T4], settings[slot::T6]);
    let shortest = t6.max(1);
    match temper {
        Temper::Slow => t4 - 1 + dice.pick(&[0, 1, 2, 30]),
        Temper::Quick => dice.between(t6.saturating_sub(2).max(1), t6 + 1),
        Temper::Wild => dice.between(1, t4.min(50) + 2),
        _ => dice.between(shortest, t4.clamp(shortest, shortest + 30)),
    }
}
