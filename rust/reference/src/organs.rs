//! Rule 5: the measuring organs.

use crate::input::Input;
use crate::reading::{amp_limit, Reading, VOLT_LIMIT};
use crate::record::{Organ, Record, ORGANS};
use crate::sheet::{module_k, slot, Settings};

/// Which side of its set value an organ watches.
#[derive(Clone, Copy, Debug, PartialEq, Eq)]
pub enum Watch {
    Over,
    Under,
}

/// What one organ measures and against which slot.
struct Kind {
    watch: Watch,
    reading: fn(&Input) -> Reading,
    is_current: bool,
    set: usize,
}

const fn current(watch: Watch, reading: fn(&Input) -> Reading, set: usize) -> Kind {
    Kind { watch, reading, is_current: true, set }
}

const fn voltage(watch: Watch, reading: fn(&Input) -> Reading, set: usize) -> Kind {
    Kind { watch, reading, is_current: false, set }
}

/// The organs of slots 6 to 12, with delays T9 to T15 in the same order.
const KINDS: [Kind; ORGANS] = [
    current(Watch::Over, |input| input.i_high, slot::I_SET1),
    current(Watch::Over, |input| input.i_bus, slot::I_SET2),
    current(Watch::Under, |input| input.i_bus, slot::I_SET3),
    voltage(Watch::Over, |input| input.u_ab, slot::U_SET1),
    voltage(Watch::Under, |input| input.u_ab, slot::U_SET2),
    voltage(Watch::Over, |input| input.u_zero, slot::U_SET3),
    voltage(Watch::Over, |input| input.u_negative, slot::U_SET4),
];

/// All organs after this tick, and which of them trip on it.
pub fn step(record: &Record, input: &Input, section: bool) -> ([Organ; ORGANS], [bool; ORGANS]) {
    let settings = &record.settings;
    let mut organs = record.organs;
    let mut trips = [false; ORGANS];
    for (i, kind) in KINDS.iter().enumerate() {
        let live = section && settings[slot::ORGANS_ON + i] == 1;
        let value = measured(kind, settings, input).filter(|_| live);
        let delay = settings[slot::T9 + i];
        let marked = mark(kind.watch, settings[kind.set], value, organs[i].marked);
        (organs[i], trips[i]) = count(organs[i], marked, delay);
    }
    (organs, trips)
}

/// The organ's value in whole mV or mA; Held counts here.
fn measured(kind: &Kind, settings: &Settings, input: &Input) -> Option<u32> {
    let limit = match kind.is_current {
        true => amp_limit(module_k(settings)),
        false => VOLT_LIMIT,
    };
    (kind.reading)(input).good_or_held(limit)
}

/// The mark on this tick: set beyond the set value, cleared 5 % back from it,
/// kept between; cleared without a value.
pub fn mark(watch: Watch, set: u32, value: Option<u32>, before: bool) -> bool {
    let Some(value) = value else {
        return false;
    };
    let (value, set) = (u64::from(value), u64::from(set));
    let (beyond, back) = match watch {
        Watch::Over => (value > set, 20 * value < 19 * set),
        Watch::Under => (value < set, 20 * value > 21 * set),
    };
    beyond || (before && !back)
}

/// The organ after a tick with this mark, and whether it trips: marked, with
/// at least `delay` marked ticks directly before.
pub fn count(before: Organ, marked: bool, delay: u32) -> (Organ, bool) {
    if !marked {
        return (Organ::default(), false);
    }
    let count = delay.min(before.count + 1);
    (Organ { marked, count }, before.count >= delay)
}
