//! Ticket 7: the panel's pair of buttons and the dispatcher's, which of them acts,
//! and rule 9's press.

use crate::input::{bit, Contacts};
use crate::record::{Direction, Record};

/// A pair of buttons on one tick, each pressed or not.
#[derive(Clone, Copy, Debug, PartialEq, Eq)]
struct ButtonPair {
    raise: bool,
    lower: bool,
}

impl ButtonPair {
    /// Rule 9's press: exactly one button pressed, and that one not on the
    /// previous tick.
    fn press_after(self, before: ButtonPair) -> Option<Direction> {
        match (self.raise, self.lower) {
            (true, false) if !before.raise => Some(Direction::Raise),
            (false, true) if !before.lower => Some(Direction::Lower),
            _ => None,
        }
    }
}

/// "One press, as rule 9 judges it, blocks aside", of the pair of the tick's mode.
/// "Each pair remembers its own previous tick", so it is held against itself,
/// whatever the mode was then.
pub fn press(record: &Record, contacts: Contacts) -> Option<Direction> {
    let [before, now] = pair_of_its_mode(record, contacts);
    now.press_after(before)
}

/// "Bit 21 chooses remote mode", and with it the dispatcher's pair; "bits 19 and
/// 20 act only in local mode". The pair as it was and as it is.
fn pair_of_its_mode(record: &Record, contacts: Contacts) -> [ButtonPair; 2] {
    let now = |raise, lower| ButtonPair { raise: contacts.on(raise), lower: contacts.on(lower) };
    match contacts.on(bit::REMOTE) {
        false => {
            let before = ButtonPair { raise: record.raise_button, lower: record.lower_button };
            [before, now(bit::RAISE_BUTTON, bit::LOWER_BUTTON)]
        }
        true => {
            let before = ButtonPair { raise: record.remote_raise, lower: record.remote_lower };
            [before, now(bit::REMOTE_RAISE, bit::REMOTE_LOWER)]
        }
    }
}

/// Whether the mode, local or remote, is another one than on the previous tick.
pub fn mode_changes(record: &Record, contacts: Contacts) -> bool {
    contacts.on(bit::REMOTE) != record.remote
}
