//! A simulated drive without a switching contact: it turns while its command is
//! on, well or badly, and takes the voltage with it.

use crate::dice::Dice;
use crate::plant::{Plant, Temper};
use crate::record::Direction;
use crate::sheet::{slot, Settings};

/// Tempers to choose from; one that sticks or comes late leads to 'long', or just
/// not.
pub const MOTOR_TEMPERS: [Temper; 9] = [
    Temper::Proper,
    Temper::Proper,
    Temper::Dead,
    Temper::Dead,
    Temper::Late,
    Temper::Late,
    Temper::Slow,
    Temper::Quick,
    Temper::Wild,
];

/// The motor and what it has done to the voltage.
#[derive(Default)]
pub struct Motor {
    /// Ticks after the first of the command that is on; 0 if none is.
    pub ticks: u32,
    /// mV by which its taps have raised the voltage of this stretch.
    pub lift: i64,
    /// The tick of the command on which the next tap is reached.
    due: u32,
    /// From there, one more tap each so many ticks.
    pace: u32,
    /// mV from tap to tap.
    step: i64,
}

impl Motor {
    /// The tick after `command` was shown.
    pub fn run(&mut self, dice: &mut Dice, settings: &Settings, temper: Temper, command: Option<Direction>, plant: &mut Plant) {
        match command {
            Some(direction) => self.turn(dice, settings, temper, direction, plant),
            None => self.stand(dice, settings, temper, plant),
        }
    }

    /// One more tick of the command.
    fn turn(&mut self, dice: &mut Dice, settings: &Settings, temper: Temper, direction: Direction, plant: &mut Plant) {
        self.ticks += 1;
        if self.ticks == 1 {
            self.start(dice, settings[slot::T4], temper);
        }
        if self.ticks == self.due {
            self.due += self.pace;
            self.reach(dice, settings, direction, plant);
        }
    }

    /// When the taps of this command come, and what each of them does. A drive
    /// that sticks comes to no tap.
    fn start(&mut self, dice: &mut Dice, t4: u32, temper: Temper) {
        self.step = match temper {
            Temper::Late => dice.pick(&[1_500, 3_000, 6_000]),
            _ => dice.pick(&[100, 500, 1_500, 3_000, 6_000]),
        };
        (self.due, self.pace) = match temper {
            Temper::Dead => (0, 1),
            Temper::Late => (t4 - dice.pick(&[1, 0, 0]), 1),
            Temper::Slow => (dice.between(t4 / 2, t4), t4 / 2),
            Temper::Quick => (1, 1),
            Temper::Proper | Temper::Wild => (dice.between(1, 10), dice.between(1, 10)),
        };
    }

    /// No command: the load now and then takes the voltage back to where it
    /// was, and a wild drive now and then turns by itself.
    fn stand(&mut self, dice: &mut Dice, settings: &Settings, temper: Temper, plant: &mut Plant) {
        self.ticks = 0;
        if dice.one_in(20) {
            self.lift = 0;
        }
        if temper == Temper::Wild && dice.one_in(150) {
            let direction = dice.pick(&[Direction::Raise, Direction::Lower]);
            self.reach(dice, settings, direction, plant);
        }
    }

    /// The next tap this way, and its voltage; at an end the tap stays, and only
    /// the voltage goes on.
    fn reach(&mut self, dice: &mut Dice, settings: &Settings, direction: Direction, plant: &mut Plant) {
        plant.next_tap(dice, settings, direction);
        self.lift += match direction {
            Direction::Raise => self.step,
            Direction::Lower => -self.step,
        };
    }
}
