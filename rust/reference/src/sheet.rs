//! The setting sheet: its numbers and the one list of ranges they must meet.

use crate::tap::source;

/// How many numbers a sheet has.
pub const SLOTS: usize = 68;

/// How many of them are sliding taps.
pub const SLIDING_TAPS: usize = 10;

/// The numbers of a sheet.
pub type Settings = [u32; SLOTS];

/// Slots by name; a group is named by its first slot.
pub mod slot {
    pub const IN_SERVICE: usize = 0;
    pub const MODULE: usize = 1;
    pub const SECTION_NEEDS_CURRENT: usize = 2;
    pub const COMPENSATION: usize = 3;
    pub const COMPENSATION_CURRENT: usize = 4;
    pub const TAP_SOURCE: usize = 5;
    /// First of seven.
    pub const ORGANS_ON: usize = 6;
    pub const CURRENT_ORGANS_PASS: usize = 13;
    pub const VOLTAGE_ORGANS_PASS: usize = 14;
    pub const BLOCK_AT_END_TAP: usize = 15;
    pub const LASTING_SUPPLY_TRIP: usize = 16;
    pub const WEAR_COUNT: usize = 17;
    pub const ORGANS_BLOCK_MANUAL: usize = 18;
    /// First of four.
    pub const U_SUPP: usize = 19;
    pub const DU: usize = 23;
    pub const U_COMP: usize = 24;
    pub const I_SET1: usize = 25;
    pub const I_SET2: usize = 26;
    pub const I_SET3: usize = 27;
    pub const U_SET1: usize = 28;
    pub const U_SET2: usize = 29;
    pub const U_SET3: usize = 30;
    pub const U_SET4: usize = 31;
    pub const U_SET5: usize = 32;
    pub const T1: usize = 33;
    pub const T2: usize = 34;
    pub const T3: usize = 35;
    pub const T4: usize = 36;
    pub const T5: usize = 37;
    pub const T6: usize = 38;
    pub const T7: usize = 39;
    pub const T8: usize = 40;
    /// First of seven, T9 to T15: the organs' delays.
    pub const T9: usize = 41;
    pub const N_POS: usize = 48;
    pub const N_R: usize = 49;
    pub const N_L: usize = 50;
    pub const N_START: usize = 51;
    pub const N_MAX: usize = 52;
    /// First of the sliding taps.
    pub const SLIDING: usize = 53;
    /// Continuous regulation, of a drive without a switching contact.
    pub const CONTINUOUS: usize = 63;
    /// R and X of the line, in mΩ.
    pub const R: usize = 64;
    pub const X: usize = 65;
    /// The primary rating of the current transformer and of the breaker, in A.
    pub const TRANSFORMER_RATING: usize = 66;
    pub const BREAKER_RATING: usize = 67;
}

/// A slot takes low + a whole multiple of step, up to high.
#[derive(Clone, Copy, Debug)]
pub struct Range {
    pub low: u32,
    pub high: u32,
    pub step: u32,
    pub scale: Scale,
}

/// What a row's low and high have to do with the module's k.
#[derive(Clone, Copy, Debug, PartialEq, Eq)]
pub enum Scale {
    /// Nothing.
    Fixed,
    /// They are to be multiplied by it.
    TimesK,
    /// They are to be divided by it.
    DividedByK,
}

const fn range(low: u32, high: u32, step: u32) -> Range {
    Range { low, high, step, scale: Scale::Fixed }
}

const fn current(low: u32, high: u32) -> Range {
    Range { low, high, step: 1, scale: Scale::TimesK }
}

/// 0–400,000 with 1 A, 0–80,000 with 5 A.
const IMPEDANCE: Range = Range { low: 0, high: 400_000, step: 1, scale: Scale::DividedByK };

const FLAG: Range = range(0, 1, 1);
const SUPPORT: Range = range(80_000, 140_000, 100);
const LONG_DELAY: Range = range(20, 36_000, 1);
const DELAY: Range = range(0, 36_000, 1);
const TAP: Range = range(1, 40, 1);
const TAP_OR_EMPTY: Range = range(0, 40, 1);
/// In A on the primary side, so the same with both modules.
const PRIMARY_RATING: Range = range(1, 20_000, 1);

/// The range of every slot.
#[rustfmt::skip]
pub const RANGES: [Range; SLOTS] = [
    // 0-5: service, module, section, compensation, its current, tap source
    FLAG, FLAG, FLAG, range(0, 2, 1), range(0, 3, 1), range(0, 4, 1),
    // 6-12: organs on
    FLAG, FLAG, FLAG, FLAG, FLAG, FLAG, FLAG,
    // 13-18: blocking by organs, end tap, supply trip, wear, manual
    FLAG, FLAG, FLAG, FLAG, FLAG, FLAG,
    // 19-22: U_supp 1-4
    SUPPORT, SUPPORT, SUPPORT, SUPPORT,
    // 23, 24: dU, U_comp
    range(1_000, 40_000, 100), range(1_000, 40_000, 100),
    // 25-27: I_set1-3
    current(100, 40_000), current(100, 40_000), current(50, 5_000),
    // 28-32: U_set1-5
    range(5_000, 200_000, 100), range(5_000, 100_000, 100),
    range(2_000, 100_000, 100), range(2_000, 60_000, 100),
    range(5_000, 200_000, 100),
    // 33-37: T1-T5
    LONG_DELAY, LONG_DELAY, LONG_DELAY, LONG_DELAY, LONG_DELAY,
    // 38-40: T6, T7, T8
    DELAY, DELAY, range(20, 2_000, 1),
    // 41-47: T9-T15
    DELAY, DELAY, DELAY, DELAY, DELAY, DELAY, DELAY,
    // 48-50: N_pos, N_R, N_L
    TAP, TAP, TAP,
    // 51, 52: N_start, N_max
    range(0, 499_999, 1), range(1, 500_000, 1),
    // 53-62: sliding taps
    TAP_OR_EMPTY, TAP_OR_EMPTY, TAP_OR_EMPTY, TAP_OR_EMPTY, TAP_OR_EMPTY,
    TAP_OR_EMPTY, TAP_OR_EMPTY, TAP_OR_EMPTY, TAP_OR_EMPTY, TAP_OR_EMPTY,
    // 63: continuous regulation
    FLAG,
    // 64, 65: R, X
    IMPEDANCE, IMPEDANCE,
    // 66, 67: ratings of the current transformer and the breaker
    PRIMARY_RATING, PRIMARY_RATING,
];

impl Range {
    /// The lowest and highest number taken with a module of `k` A.
    pub fn ends(&self, k: u32) -> (u32, u32) {
        let scaled = |end| match self.scale {
            Scale::Fixed => end,
            Scale::TimesK => end * k,
            Scale::DividedByK => end / k,
        };
        (scaled(self.low), scaled(self.high))
    }

    /// Whether `number` is taken with a module of `k` A.
    pub fn takes(&self, number: u32, k: u32) -> bool {
        let (low, high) = self.ends(k);
        number >= low && number <= high && (number - low).is_multiple_of(self.step)
    }
}

/// Why a sheet was not taken: number 1, 2, 3 or 5, and the slot.
#[derive(Clone, Copy, Debug, PartialEq, Eq)]
pub struct Refusal {
    pub number: u32,
    pub slot: u32,
}

fn refusal(number: u32, slot: usize) -> Refusal {
    Refusal { number, slot: slot as u32 }
}

/// The module's k: 1 for the 1 A module, 5 for the 5 A one.
pub fn module_k(settings: &Settings) -> u32 {
    match settings[slot::MODULE] {
        1 => 5,
        _ => 1,
    }
}

/// Whether the drive has no switching contact and is regulated continuously.
pub fn is_continuous(settings: &Settings) -> bool {
    settings[slot::CONTINUOUS] == 1
}

/// Takes a list, or refuses it.
pub fn check(list: &[u32]) -> Result<Settings, Refusal> {
    let settings: Settings = list.try_into().map_err(|_| refusal(1, 0))?;
    check_settings(&settings)?;
    Ok(settings)
}

/// Refusals 2, 3 and 5, in this order.
pub fn check_settings(settings: &Settings) -> Result<(), Refusal> {
    check_ranges(settings)?;
    check_taps(settings)?;
    check_continuous(settings)
}

/// Refusal 2: the lowest slot out of its range.
pub fn check_ranges(settings: &Settings) -> Result<(), Refusal> {
    let k = module_k(settings);
    for (slot, range) in RANGES.iter().enumerate() {
        if !range.takes(settings[slot], k) {
            return Err(refusal(2, slot));
        }
    }
    Ok(())
}

/// Refusal 3: N_R not above N_L; else N_pos outside N_L to N_R.
pub fn check_taps(settings: &Settings) -> Result<(), Refusal> {
    let (lowest, highest) = (settings[slot::N_L], settings[slot::N_R]);
    if highest <= lowest {
        return Err(refusal(3, slot::N_R));
    }
    if !(lowest..=highest).contains(&settings[slot::N_POS]) {
        return Err(refusal(3, slot::N_POS));
    }
    Ok(())
}

/// Refusal 5: "when slot 63 is 1 and slot 5 is 3 or 4". Without the contact
/// there are no moves to count taps by.
pub fn check_continuous(settings: &Settings) -> Result<(), Refusal> {
    let counted = [source::COUNTED, source::COUNTED_REVERSED].contains(&settings[slot::TAP_SOURCE]);
    match is_continuous(settings) && counted {
        true => Err(refusal(5, slot::CONTINUOUS)),
        false => Ok(()),
    }
}
