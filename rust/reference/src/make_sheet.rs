//! Chance setting sheets that pass the check.

use crate::dice::Dice;
use crate::sheet::{is_continuous, module_k, slot, Range, Scale, Settings, RANGES, SLOTS};
use crate::tap::source;

/// A sheet: ordinary, at corners of its ranges, or with long delays.
pub fn sheet(dice: &mut Dice) -> Settings {
    let mut settings = ordinary(dice);
    match dice.between(0, 9) {
        0..=4 => {}
        5..=7 => push_to_corners(dice, &mut settings),
        _ => lengthen_delays(dice, &mut settings),
    }
    if !dice.one_in(40) {
        settings[slot::IN_SERVICE] = 1;
    }
    order_taps(&mut settings);
    count_no_taps_without_contact(dice, &mut settings);
    settings
}

/// Short delays and a usual substation, so that much happens soon.
fn ordinary(dice: &mut Dice) -> Settings {
    let mut settings = [0; SLOTS];
    switches(dice, &mut settings);
    voltages(dice, &mut settings);
    currents(dice, &mut settings);
    impedance(dice, &mut settings);
    ratings(dice, &mut settings);
    delays(dice, &mut settings);
    taps(dice, &mut settings);
    settings
}

fn switches(dice: &mut Dice, settings: &mut Settings) {
    settings[slot::MODULE] = dice.between(0, 1);
    settings[slot::SECTION_NEEDS_CURRENT] = u32::from(dice.one_in(3));
    settings[slot::COMPENSATION] = dice.between(0, 2);
    settings[slot::COMPENSATION_CURRENT] = dice.between(0, 3);
    settings[slot::TAP_SOURCE] = dice.between(0, 4);
    settings[slot::CONTINUOUS] = dice.between(0, 1);
    for organ in &mut settings[slot::ORGANS_ON..slot::CURRENT_ORGANS_PASS] {
        *organ = u32::from(!dice.one_in(4));
    }
    for switch in &mut settings[slot::CURRENT_ORGANS_PASS..slot::U_SUPP] {
        *switch = dice.between(0, 1);
    }
    settings[slot::CURRENT_ORGANS_PASS] = u32::from(!dice.one_in(3));
    settings[slot::VOLTAGE_ORGANS_PASS] = u32::from(!dice.one_in(3));
    settings[slot::WEAR_COUNT] = u32::from(!dice.one_in(4));
}

/// A whole number of hundreds.
fn hundreds(dice: &mut Dice, low: u32, high: u32) -> u32 {
    100 * dice.between(low / 100, high / 100)
}

fn voltages(dice: &mut Dice, settings: &mut Settings) {
    for i in 0..4 {
        settings[slot::U_SUPP + i] = hundreds(dice, 95_000, 105_000);
    }
    settings[slot::DU] = hundreds(dice, 1_000, 6_000);
    settings[slot::U_COMP] = hundreds(dice, 1_000, 8_000);
    settings[slot::U_SET1] = hundreds(dice, 112_000, 125_000);
    settings[slot::U_SET2] = hundreds(dice, 80_000, 92_000);
    settings[slot::U_SET3] = hundreds(dice, 2_000, 20_000);
    settings[slot::U_SET4] = hundreds(dice, 2_000, 10_000);
    settings[slot::U_SET5] = hundreds(dice, 103_000, 115_000);
}

fn currents(dice: &mut Dice, settings: &mut Settings) {
    let k = module_k(settings);
    settings[slot::I_SET1] = dice.between(500 * k, 3_000 * k);
    settings[slot::I_SET2] = dice.between(500 * k, 3_000 * k);
    settings[slot::I_SET3] = dice.between(50 * k, 400 * k);
}

/// R and X: mostly of a few ohms, now and then one of them alone, neither, or
/// anything up to the highest taken.
fn impedance(dice: &mut Dice, settings: &mut Settings) {
    let k = module_k(settings);
    for i in [slot::R, slot::X] {
        let (_, high) = RANGES[i].ends(k);
        let most = dice.pick(&[0, 100, 2_000, 8_000, 8_000, 30_000, high]);
        settings[i] = match dice.one_in(8) {
            true => most,
            false => dice.between(0, most),
        };
    }
}

/// Usual ratings, and usual pairs of a current transformer's and a breaker's.
const USUAL_RATINGS: [u32; 6] = [630, 1_000, 1_250, 1_600, 2_000, 3_150];
const USUAL_PAIRS: [(u32, u32); 8] =
    [(2_000, 1_250), (600, 1_250), (1_500, 1_250), (1_250, 2_000), (1_000, 630), (300, 630), (3_000, 2_500), (4_000, 3_150)];

/// The ratings: often equal, a usual pair or neighbours, now and then of any
/// kind, so that U_AB can mostly make up for the drop.
fn ratings(dice: &mut Dice, settings: &mut Settings) {
    let usual = dice.pick(&USUAL_RATINGS);
    let (transformer, breaker) = match dice.between(0, 19) {
        0..=4 => (usual, usual),
        5..=10 => dice.pick(&USUAL_PAIRS),
        11..=15 => dice.pick(&[(usual - 1, usual), (usual, usual - 1)]),
        _ => (any_rating(dice), any_rating(dice)),
    };
    settings[slot::TRANSFORMER_RATING] = transformer;
    settings[slot::BREAKER_RATING] = breaker;
}

/// An end of the range, a usual rating, or anything.
fn any_rating(dice: &mut Dice) -> u32 {
    let Range { low, high, .. } = RANGES[slot::TRANSFORMER_RATING];
    match dice.between(0, 3) {
        0 => low,
        1 => high,
        2 => dice.pick(&USUAL_RATINGS),
        _ => dice.between(low, high),
    }
}

fn delays(dice: &mut Dice, settings: &mut Settings) {
    for t in [slot::T1, slot::T2, slot::T3, slot::T5, slot::T8] {
        let longest = dice.pick(&[24, 30, 60]);
        settings[t] = dice.between(20, longest);
    }
    // Held commands often last to their end.
    let longest = if is_continuous(settings) { dice.pick(&[20, 22, 30, 60]) } else { 60 };
    settings[slot::T4] = dice.between(20, longest);
    settings[slot::T6] = dice.between(0, 25);
    settings[slot::T7] = dice.between(0, 25);
    for delay in &mut settings[slot::T9..slot::N_POS] {
        *delay = dice.between(0, 30);
    }
}

fn taps(dice: &mut Dice, settings: &mut Settings) {
    let lowest = dice.between(1, 35);
    let highest = match dice.one_in(2) {
        true => dice.between(lowest + 1, lowest + 4),
        false => dice.between(lowest + 1, 40),
    };
    settings[slot::N_L] = lowest;
    settings[slot::N_R] = highest;
    settings[slot::N_POS] = dice.between(lowest, highest);
    let start = dice.between(0, 499_990);
    settings[slot::N_START] = start;
    settings[slot::N_MAX] = dice.between(start.max(1), start + 10);
    let slides = dice.between(0, 6) as usize;
    for sliding in &mut settings[slot::SLIDING..slot::SLIDING + slides] {
        *sliding = dice.between(lowest, highest);
    }
}

/// Slots that are left as they are: two on which much depends, and the ratings,
/// which at their ends would leave most ticks without a U near the band.
const NOT_PUSHED: [usize; 4] = [slot::MODULE, slot::CONTINUOUS, slot::TRANSFORMER_RATING, slot::BREAKER_RATING];

/// Moves some slots to the ends of their ranges, or anywhere within.
fn push_to_corners(dice: &mut Dice, settings: &mut Settings) {
    let often = dice.pick(&[2, 4, 10]);
    for (i, range) in RANGES.iter().enumerate() {
        if NOT_PUSHED.contains(&i) || range.scale != Scale::Fixed || !dice.one_in(often) {
            continue;
        }
        let steps = (range.high - range.low) / range.step;
        let is_delay = (slot::T1..slot::N_POS).contains(&i);
        settings[i] = match dice.between(0, 5) {
            0..=2 => range.low,
            3 if !is_delay => range.high,
            4 if !is_delay => range.low + range.step * dice.between(0, steps),
            _ => range.low + range.step * dice.between(0, steps.min(5)),
        };
    }
    corner_scaled(dice, settings);
}

/// The rows whose ends depend on the module.
fn corner_scaled(dice: &mut Dice, settings: &mut Settings) {
    let k = module_k(settings);
    for (i, range) in RANGES.iter().enumerate() {
        if range.scale != Scale::Fixed && dice.one_in(4) {
            let (low, high) = range.ends(k);
            settings[i] = dice.pick(&[low, low + 1, high - 1, high]);
        }
    }
}

/// Makes some delays long, up to the highest taken.
fn lengthen_delays(dice: &mut Dice, settings: &mut Settings) {
    let often = dice.pick(&[2, 5]);
    for i in slot::T1..slot::N_POS {
        if dice.one_in(often) {
            let high = RANGES[i].high;
            let longest = dice.pick(&[200, 500, high]).min(high);
            settings[i] = match dice.one_in(5) {
                true => longest,
                false => dice.between(RANGES[i].low, longest),
            };
        }
    }
}

/// Puts N_L, N_pos and N_R in their order.
fn order_taps(settings: &mut Settings) {
    let lowest = settings[slot::N_L].min(39);
    let highest = settings[slot::N_R].max(lowest + 1);
    settings[slot::N_L] = lowest;
    settings[slot::N_R] = highest;
    settings[slot::N_POS] = settings[slot::N_POS].clamp(lowest, highest);
}

/// Another tap source where refusal 5 would come.
fn count_no_taps_without_contact(dice: &mut Dice, settings: &mut Settings) {
    if is_continuous(settings) && settings[slot::TAP_SOURCE] >= source::COUNTED {
        settings[slot::TAP_SOURCE] = dice.between(source::NOTHING, source::SENSOR);
    }
}
