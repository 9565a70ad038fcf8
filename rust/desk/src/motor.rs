//! The simulated drive without a switching contact: it moves while its command is on, tap after tap, and only the tap and the
//! voltage tell of it.

use crate::drive::{Nature, Seen, Supply, Temper, Way};
use crate::ends::Ends;

/// A motion towards the next tap.
#[derive(Clone, Copy, Debug, PartialEq)]
struct Turn {
    way: Way,
    /// Ticks from standstill until the motor turns.
    start: u32,
    /// Ticks so far.
    ticks: u32,
    /// Needs no command as far as the next tap.
    alone: bool,
}

/// The drive. A tap that is not done when its command goes off is given up.
pub struct Motor {
    pub tap: u8,
    pub supply: Supply,
    ends: Ends,
    turn: Option<Turn>,
    temper: Option<Temper>,
}

impl Motor {
    pub fn new(tap: u8, ends: Ends) -> Motor {
        Motor { tap, ends, supply: Supply::default(), turn: None, temper: None }
    }

    /// One tick.
    pub fn tick(&mut self, nature: &Nature, seen: Seen) {
        self.supply.tick(seen);
        let alone = nature.temper.alone(self.temper.replace(nature.temper));
        let free = |way: &Way| self.ends.free(self.tap, *way);
        let turning = self.turn.filter(|turn| goes_on(nature, *turn, seen.command));
        self.turn = match self.supply.off {
            true => None,
            false => turning.or_else(|| stir(nature, seen.command.filter(free), alone.filter(free))),
        };
        if let Some(turn) = self.turn {
            self.advance(nature, turn);
        }
    }

    /// A tick of a motion. At the tap the next one begins, from a sliding one also without a command; at the end none does.
    fn advance(&mut self, nature: &Nature, turn: Turn) {
        let ticks = turn.ticks.saturating_add(1);
        if ticks < turn.start.saturating_add(nature.run.max(1)) {
            self.turn = Some(Turn { ticks, ..turn });
            return;
        }
        self.tap = self.ends.next(self.tap, turn.way).unwrap_or(self.tap);
        let alone = nature.sliding.contains(&self.tap);
        let next = Turn { way: turn.way, start: 0, ticks: 0, alone };
        self.turn = self.ends.free(self.tap, turn.way).then_some(next);
    }
}

/// Whether a motion lasts.
fn goes_on(nature: &Nature, turn: Turn, command: Option<Way>) -> bool {
    turn.alone || nature.temper == Temper::RunsOn || command == Some(turn.way)
}

/// What a drive at rest begins, by a command or by itself, either way being free. A command that is on is heard, however old.
fn stir(nature: &Nature, command: Option<Way>, alone: Option<Way>) -> Option<Turn> {
    let heard = command.filter(|_| nature.temper != Temper::DoesNotStart);
    let by_command = heard.map(|way| Turn { way, start: nature.start.max(1), ticks: 0, alone: false });
    let by_itself = alone.map(|way| Turn { way, start: 1, ticks: 0, alone: true });
    by_itself.or(by_command)
}
