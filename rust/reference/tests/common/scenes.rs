//! For tickets 6 and 7 in the simulated substation: what is seen of one of its ticks.

use reference::input::{bit, Input};
use reference::record::{Drive, Record};
use reference::tick::{Ticked, OUTPUTS};

/// How often each situation must arise, with either kind of drive.
pub const ENOUGH: u32 = 10;

/// One simulated tick.
pub struct Seen<'a> {
    pub before: &'a Record,
    pub input: &'a Input,
    pub ticked: &'a Ticked,
}

impl Seen<'_> {
    pub fn on(&self, bit: u32) -> bool {
        self.input.contacts.on(bit)
    }

    /// The mode of the pairs changes.
    pub fn changes(&self) -> bool {
        self.on(bit::REMOTE) != self.before.remote
    }

    pub fn unfinished(&self) -> bool {
        self.before.drive != Drive::Rest
    }

    pub fn out(&self) -> bool {
        self.ticked.outputs == [0; OUTPUTS] && self.on(bit::OUT)
    }
}
