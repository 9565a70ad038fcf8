//! For ticket 7: the two modes, the pair of buttons of each, and ticks in them.

use super::*;
use reference::record::Direction;

#[derive(Clone, Copy, Debug, PartialEq, Eq)]
pub enum Mode {
    Local,
    Remote,
}

pub const MODES: [Mode; 2] = [Mode::Local, Mode::Remote];

impl Mode {
    pub fn other(self) -> Mode {
        match self {
            Mode::Local => Mode::Remote,
            Mode::Remote => Mode::Local,
        }
    }

    pub fn is_remote(self) -> bool {
        self == Mode::Remote
    }

    /// A button of this mode's pair.
    pub fn button(self, direction: Direction) -> u32 {
        match (self, direction) {
            (Mode::Local, Direction::Raise) => bit::RAISE_BUTTON,
            (Mode::Local, Direction::Lower) => bit::LOWER_BUTTON,
            (Mode::Remote, Direction::Raise) => bit::REMOTE_RAISE,
            (Mode::Remote, Direction::Lower) => bit::REMOTE_LOWER,
        }
    }

    /// Both of them.
    pub fn both(self) -> [u32; 2] {
        [self.button(Direction::Raise), self.button(Direction::Lower)]
    }

    /// Either of them, and both.
    pub fn presses(self) -> [Vec<u32>; 3] {
        let [raise, lower] = self.both();
        [vec![raise], vec![lower], vec![raise, lower]]
    }

    /// Calm in this mode, with these contacts besides.
    pub fn with(self, bits: &[u32]) -> Input {
        let mut input = with(bits);
        input.contacts.0 |= u32::from(self.is_remote()) << bit::REMOTE;
        input
    }

    pub fn calm(self) -> Input {
        self.with(&[])
    }
}

/// All four buttons.
pub const ALL_FOUR: [u32; 4] = [bit::RAISE_BUTTON, bit::LOWER_BUTTON, bit::REMOTE_RAISE, bit::REMOTE_LOWER];
