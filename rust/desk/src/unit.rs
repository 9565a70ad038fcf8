//! The unit: the proved library's start, tick and look ahead, with what a person is told of a refusal.

use library::{Brought, DriveImage, Image, Outputs, WaitImage, FIELDS};

use crate::drive::Way;
use crate::names::{at, rated_amps, MODULE, TABLE};

/// Why a sheet is refused: the refusal's number and its slot.
#[derive(Clone, Copy, Debug, PartialEq, Eq)]
pub struct Refusal {
    pub number: u32,
    pub slot: u32,
}

/// A list of another length.
pub const LENGTH: u32 = 1;
/// A slot out of its range.
pub const RANGE: u32 = 2;
/// N_R not above N_L, or N_pos outside them.
pub const TAP_ORDER: u32 = 3;
/// A counted tap with continuous regulation.
pub const COUNTED: u32 = 5;

/// The delays of automatic commands.
const DELAYS: [usize; 3] = [at("T1"), at("T2"), at("T3")];

/// A regulator that runs. Of its image the tool reads the remembered press, the fault, the timer and what the drive
/// does.
#[derive(Clone, Copy, Debug, PartialEq)]
pub struct Unit {
    image: Image,
    /// The rated amperes of its module.
    pub rated: u32,
}

/// What the drive does, as far as the unit knows.
#[derive(Clone, Copy, Debug, PartialEq, Eq)]
pub enum Doing {
    Rests,
    /// A command is on, and no contact has closed.
    Asked {
        way: Way,
        automatic: bool,
    },
    /// The contact is closed; `own`: without a command, from a sliding tap.
    Moves {
        way: Way,
        own: bool,
    },
}

/// A look ahead: the tick, counted from 1, on which the first command begins and its way, if one does; the outputs of that tick or
/// of the last one, and the unit after it.
#[derive(Clone, Copy, Debug, PartialEq)]
pub struct Outlook {
    pub begins: Option<(u32, Way)>,
    pub outputs: [u32; FIELDS],
    pub unit: Unit,
}

/// Starts a regulator from a sheet of any length.
pub fn start(list: &[u32]) -> Result<Unit, Refusal> {
    let started = library::start(list);
    match started.number {
        0 => Ok(Unit { image: started.image, rated: rated_amps(list[MODULE]) }),
        number => Err(Refusal { number, slot: started.slot }),
    }
}

impl Unit {
    /// One tick, 5 ms: its outputs, or the refusal's number.
    pub fn tick(&mut self, brought: &Brought) -> Result<[u32; FIELDS], u32> {
        let mut outputs = Outputs { fields: [0; FIELDS] };
        match library::tick(&mut self.image, brought, &mut outputs) {
            0 => Ok(outputs.fields),
            number => Err(number),
        }
    }

    /// When the first command would begin if each of up to `horizon` ticks brought the same, or the refusal's number. The unit
    /// stays as it is.
    pub fn ahead(&self, brought: &Brought, horizon: u32) -> Result<Outlook, u32> {
        let look = library::ahead(self.image, *brought, horizon);
        let unit = Unit { image: look.next, ..*self };
        match look.refusal {
            0 => Ok(Outlook { begins: way(look.way).map(|way| (look.tick, way)), outputs: look.outputs.fields, unit }),
            number => Err(number),
        }
    }

    /// The press that it remembers until the drive is at rest.
    pub fn remembered(&self) -> Option<Way> {
        way(self.image.remembered)
    }

    /// Whether a fault is latched.
    pub fn has_fault(&self) -> bool {
        self.image.fault != 0
    }

    /// The ticks for which the timer of an automatic command has run, and the command's way.
    pub fn timer(&self) -> Option<(Way, u32)> {
        way(self.image.wait.side).map(|way| (way, self.image.wait.ticks))
    }

    pub fn drive(&self) -> Doing {
        let DriveImage { kind, direction, .. } = self.image.drive;
        let way = if direction == 0 { Way::Raise } else { Way::Lower };
        match kind {
            0 => Doing::Rests,
            1 | 4 => Doing::Asked { way, automatic: kind == 1 },
            _ => Doing::Moves { way, own: kind == 3 },
        }
    }

    /// The slot of the delay that is in force on the next tick, where that tick finds the drive at rest and an automatic command
    /// of this way free. The library is asked: on a copy of the record whose timer lacks one tick of the shortest delay, which
    /// one of the three has and the others do not.
    pub fn delay(&self, brought: &Brought, way: Way) -> Option<usize> {
        DELAYS.into_iter().find(|delay| {
            let mut copy = *self;
            let shortest = TABLE[*delay].low;
            DELAYS.into_iter().for_each(|other| copy.image.settings[other] = TABLE[other].high);
            copy.image.settings[*delay] = shortest;
            copy.image.wait = WaitImage { side: number(way), ticks: shortest - 1 };
            copy.ahead(brought, 1).is_ok_and(|look| look.begins == Some((1, way)))
        })
    }
}

/// The way of its number in the image; a side's number is that of the way that answers it.
fn way(number: u32) -> Option<Way> {
    match number {
        1 => Some(Way::Raise),
        2 => Some(Way::Lower),
        _ => None,
    }
}

fn number(way: Way) -> u32 {
    match way {
        Way::Raise => 1,
        Way::Lower => 2,
    }
}
