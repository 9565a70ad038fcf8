//! For tickets 6 and 7: commands and moves in each state that counts as unfinished,
//! tick by tick until they end, and some ticks at rest after that.

use std::ops::RangeInclusive;

use super::modes::Mode;
use super::*;
use reference::record::{Direction, Drive, Fault};

pub const RAISE: Direction = Direction::Raise;
pub const LOWER: Direction = Direction::Lower;

/// The T4 of the drives without the contact.
const T4: usize = 30;

/// Ticks at rest after the end.
const AFTER: usize = 6;

/// A regulator with a command or move unfinished and no button pressed, and
/// ticks in manual mode, numbered from 1.
#[derive(Clone)]
pub struct Course {
    pub name: &'static str,
    pub record: Record,
    pub ticks: Vec<Input>,
    /// The number of the tick on which the command or move ends.
    pub end: usize,
}

impl Course {
    fn new(name: &'static str, record: Record, until_end: &[(usize, Input)]) -> Course {
        assert!(record.drive != Drive::Rest && record.fault == Fault::None);
        let ticks: Vec<Input> = until_end.iter().flat_map(|&(times, input)| vec![input; times]).collect();
        let end = ticks.len();
        Course { name, record, ticks: [ticks, vec![calm(); AFTER]].concat(), end }
    }

    /// A regulator at rest after a tick in this mode without buttons, for so many
    /// ticks more.
    pub fn at_rest(mut record: Record, mode: Mode, ticks: usize) -> Course {
        step(&mut record, &mode.calm());
        assert!(record.drive == Drive::Rest && record.fault == Fault::None);
        Course { name: "at rest", record, ticks: vec![mode.calm(); ticks], end: 0 }
    }

    /// The course in this mode, from the tick before on.
    pub fn in_mode(mut self, mode: Mode) -> Course {
        self.record.remote = mode.is_remote();
        match mode {
            Mode::Local => self,
            Mode::Remote => self.turned(1),
        }
    }

    /// The course with the other mode, local or remote, from a tick on.
    pub fn turned(self, tick: usize) -> Course {
        let last = self.last();
        self.turned_on(tick..=last)
    }

    /// The course with the other mode on some ticks.
    pub fn turned_on(mut self, ticks: RangeInclusive<usize>) -> Course {
        for number in ticks {
            self.ticks[number - 1].contacts.0 ^= 1 << bit::REMOTE;
        }
        self
    }

    /// The number of the first tick that starts with the drive at rest.
    pub fn first(&self) -> usize {
        self.end + 1
    }

    /// The number of the last tick.
    pub fn last(&self) -> usize {
        self.ticks.len()
    }

    /// The course with these contacts set on some ticks.
    pub fn on(mut self, ticks: RangeInclusive<usize>, bits: &[u32]) -> Course {
        for number in ticks {
            self.ticks[number - 1].contacts.0 |= with(bits).contacts.0;
        }
        self
    }

    /// The course with one button pressed on one tick.
    pub fn press(self, tick: usize, direction: Direction) -> Course {
        self.on(tick..=tick, &[button(direction)])
    }

    /// The course with one button of this mode's pair pressed on one tick.
    pub fn press_in(self, mode: Mode, tick: usize, direction: Direction) -> Course {
        self.on(tick..=tick, &[mode.button(direction)])
    }

    /// The course with another tick in one place.
    pub fn put(mut self, tick: usize, input: Input) -> Course {
        self.ticks[tick - 1] = input;
        self
    }

    /// The course cut off after a tick; from there, so many of each of these
    /// ticks to another end.
    pub fn cut(self, tick: usize, until_end: &[(usize, Input)]) -> Course {
        let kept = self.ticks[..tick].iter().map(|&input| (1, input));
        let ticks: Vec<(usize, Input)> = kept.chain(until_end.iter().copied()).collect();
        Course::new(self.name, self.record, &ticks)
    }

    /// Which commands begin, and on which ticks.
    pub fn begun(&self) -> Vec<(usize, Direction)> {
        self.run().0
    }

    /// The press that stands in the record after each tick.
    pub fn kept(&self) -> Vec<Option<Direction>> {
        self.run().1.iter().map(|record| record.remembered).collect()
    }

    /// The commands that begin, and the record after each tick.
    pub fn run(&self) -> (Vec<(usize, Direction)>, Vec<Record>) {
        run(&self.record, &self.ticks)
    }
}

/// The commands that begin on these ticks, and the record after each.
pub fn run(record: &Record, ticks: &[Input]) -> (Vec<(usize, Direction)>, Vec<Record>) {
    let (mut begun, mut records) = (vec![], vec![]);
    let mut record = record.clone();
    for (i, input) in ticks.iter().enumerate() {
        let rested = record.drive == Drive::Rest;
        let outputs = step(&mut record, input);
        match (rested, outputs[0], outputs[1]) {
            (true, 1, 0) => begun.push((i + 1, RAISE)),
            (true, 0, 1) => begun.push((i + 1, LOWER)),
            _ => {}
        }
        records.push(record.clone());
    }
    (begun, records)
}

/// The bit of a direction's button.
pub fn button(direction: Direction) -> u32 {
    match direction {
        Direction::Raise => bit::RAISE_BUTTON,
        Direction::Lower => bit::LOWER_BUTTON,
    }
}

pub fn other(direction: Direction) -> Direction {
    match direction {
        Direction::Raise => LOWER,
        Direction::Lower => RAISE,
    }
}

pub const BOTH: [u32; 2] = [bit::RAISE_BUTTON, bit::LOWER_BUTTON];

/// Asked for 3 ticks more, 12 ticks closed, and the end.
fn to_the_move_s_end() -> [(usize, Input); 3] {
    [(3, calm()), (12, with(&[bit::SWITCHING])), (1, calm())]
}

/// A manual command that is asked, then its move.
pub fn by_button(changes: &[(usize, u32)]) -> Course {
    let mut record = fresh(changes);
    press_raise(&mut record);
    step(&mut record, &calm());
    Course::new("asked by a button", record, &to_the_move_s_end())
}

/// An automatic command that is asked, then its move, both in manual mode.
pub fn by_itself(changes: &[(usize, u32)]) -> Course {
    let mut record = fresh(changes);
    steps(&mut record, &auto(98_000, &[]), 20);
    Course::new("asked in automatic", record, &to_the_move_s_end())
}

/// An own move, from sliding tap 21 to 22, of which one tick is over.
pub fn own(changes: &[(usize, u32)]) -> Course {
    let mut record = fresh(&[&[(slot::TAP_SOURCE, 3), (slot::SLIDING, 21)], changes].concat());
    whole_move(&mut record, true, 12);
    step(&mut record, &with(&[bit::SWITCHING]));
    Course::new("own move", record, &[(6, with(&[bit::SWITCHING])), (1, calm())])
}

/// A manual command that is held without the contact.
pub fn held_by_button(changes: &[(usize, u32)]) -> Course {
    let mut record = fresh_continuous(changes);
    press_raise(&mut record);
    step(&mut record, &calm());
    Course::new("held by a button", record, &[(T4 - 1, calm())])
}

/// An automatic command that is held, and ends as the mode becomes manual.
pub fn held_by_itself(changes: &[(usize, u32)]) -> Course {
    let mut record = fresh_continuous(changes);
    steps(&mut record, &auto(98_000, &[]), 25);
    let mut manual = calm();
    manual.u_ab = good(98_000);
    Course::new("held in automatic", record, &[(1, manual)])
}

/// All of them, with these slots changed.
pub fn courses_with(changes: &[(usize, u32)]) -> Vec<Course> {
    [by_button, by_itself, own, held_by_button, held_by_itself].map(|course| course(changes)).to_vec()
}

pub fn courses() -> Vec<Course> {
    courses_with(&[])
}

/// Those that last for some ticks.
pub fn long_courses() -> Vec<Course> {
    courses().into_iter().filter(|course| course.end > 5).collect()
}
