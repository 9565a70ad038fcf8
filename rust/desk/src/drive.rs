//! The simulated drive of the tap changer, which answers the unit's commands, well or badly. This one has a switching contact;
//! `motor.rs` has the one without.

use crate::ends::Ends;

/// Where a move goes.
#[derive(Clone, Copy, Debug, PartialEq, Eq)]
pub enum Way {
    Raise,
    Lower,
}

/// What the drive does.
#[derive(Clone, Copy, Debug, PartialEq, Eq)]
pub enum Temper {
    /// Answers commands.
    Ok,
    /// Hears no command.
    DoesNotStart,
    /// A move does not end; without a switching contact, not with its command.
    RunsOn,
    /// Starts one move without a command where the word first stands; answers commands.
    SelfRaise,
    SelfLower,
}

impl Temper {
    /// The way of a move without a command, on the tick on which its word first stands.
    pub fn alone(self, before: Option<Temper>) -> Option<Way> {
        match self {
            Temper::SelfRaise if before != Some(self) => Some(Way::Raise),
            Temper::SelfLower if before != Some(self) => Some(Way::Lower),
            _ => None,
        }
    }
}

/// The words of a scenario's column `drive`.
pub const TEMPERS: [(&str, Temper); 5] = [
    ("ok", Temper::Ok),
    ("does-not-start", Temper::DoesNotStart),
    ("runs-on", Temper::RunsOn),
    ("self-raise", Temper::SelfRaise),
    ("self-lower", Temper::SelfLower),
];

/// The drive as a row of the scenario sets it; times in ticks, the step of a tap in V. Taps that are none are the sheet's.
#[derive(Clone, Debug, PartialEq)]
pub struct Nature {
    pub temper: Temper,
    pub start: u32,
    pub run: u32,
    pub tap: Option<u8>,
    pub lowest: Option<u8>,
    pub highest: Option<u8>,
    pub step: f64,
    pub sliding: Vec<u8>,
}

impl Default for Nature {
    /// Half a second to start, three seconds a move, 1.5 V a tap.
    fn default() -> Nature {
        let (temper, sliding) = (Temper::Ok, Vec::new());
        Nature { temper, start: 100, run: 600, tap: None, lowest: None, highest: None, step: 1.5, sliding }
    }
}

#[derive(Clone, Copy, Debug, PartialEq)]
enum State {
    Quiet,
    /// `alone`: goes on without a command.
    Starting {
        way: Way,
        left: u32,
        alone: bool,
    },
    Moving {
        way: Way,
        closed: u32,
    },
}

/// What the drive sees before a tick: the unit's outputs of the tick before, and the reset of this one.
#[derive(Clone, Copy, Debug, Default)]
pub struct Seen {
    pub command: Option<Way>,
    pub trip: bool,
    pub reset: bool,
    /// The scenario's own contact of the drive's supply.
    pub supply_off: bool,
}

/// The drive's supply: off while the scenario says so, and a moment after the unit's supply trip until the scenario's reset.
#[derive(Default)]
pub struct Supply {
    pub off: bool,
    /// Ticks since the supply trip came.
    tripped: Option<u32>,
}

/// Ticks from the supply trip until the supply is off: 0.1 s.
const BREAKER: u32 = 20;

impl Supply {
    pub fn tick(&mut self, seen: Seen) {
        self.tripped = match self.tripped {
            _ if seen.reset => None,
            Some(ticks) => Some(ticks.saturating_add(1)),
            None => seen.trip.then_some(1),
        };
        self.off = seen.supply_off || self.tripped.is_some_and(|ticks| ticks >= BREAKER);
    }
}

/// The drive.
pub struct Drive {
    pub tap: u8,
    pub supply: Supply,
    ends: Ends,
    state: State,
    commanded: bool,
    temper: Option<Temper>,
}

impl Drive {
    pub fn new(tap: u8, ends: Ends) -> Drive {
        Drive { tap, ends, supply: Supply::default(), state: State::Quiet, commanded: false, temper: None }
    }

    /// One tick: whether the switching contact is closed.
    pub fn tick(&mut self, nature: &Nature, seen: Seen) -> bool {
        self.supply.tick(seen);
        let fresh = seen.command.filter(|_| !self.commanded);
        self.commanded = seen.command.is_some();
        let alone = nature.temper.alone(self.temper.replace(nature.temper));
        if self.supply.off {
            self.state = State::Quiet;
            return false;
        }
        if self.state == State::Quiet {
            let free = |way: &Way| self.ends.free(self.tap, *way);
            self.state = stir(nature, fresh.filter(free), alone.filter(free));
        }
        self.step(nature, seen.command)
    }

    fn step(&mut self, nature: &Nature, command: Option<Way>) -> bool {
        match self.state {
            State::Starting { way, left: 0, .. } => {
                self.state = State::Moving { way, closed: 1 };
                true
            }
            State::Starting { way, left, alone } => {
                self.state = match alone || command == Some(way) {
                    true => State::Starting { way, left: left - 1, alone },
                    false => State::Quiet,
                };
                false
            }
            State::Moving { way, closed } => self.go_on(nature, way, closed),
            State::Quiet => false,
        }
    }

    fn go_on(&mut self, nature: &Nature, way: Way, closed: u32) -> bool {
        if closed < nature.run || nature.temper == Temper::RunsOn {
            self.state = State::Moving { way, closed: closed.saturating_add(1) };
            return true;
        }
        self.arrive(nature, way);
        false
    }

    /// The next tap; from a sliding one that is no end the drive soon goes on by itself.
    fn arrive(&mut self, nature: &Nature, way: Way) {
        self.tap = self.ends.next(self.tap, way).unwrap_or(self.tap);
        self.state = match nature.sliding.contains(&self.tap) && self.ends.free(self.tap, way) {
            true => State::Starting { way, left: nature.start.max(1) - 1, alone: true },
            false => State::Quiet,
        };
    }
}

/// What a quiet drive begins, by a command or by itself, either way being free.
fn stir(nature: &Nature, fresh: Option<Way>, alone: Option<Way>) -> State {
    let left = nature.start.max(1) - 1;
    match (fresh, alone) {
        (_, Some(way)) => State::Starting { way, left: 0, alone: true },
        (Some(way), None) if nature.temper != Temper::DoesNotStart => State::Starting { way, left, alone: false },
        _ => State::Quiet,
    }
}
