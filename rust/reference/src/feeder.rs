//! Simulated phasors: the currents of a long feeder, and U_AB in front of it.

use crate::dice::Dice;
use crate::line::{root, voltage_drop};
use crate::phasor::Phasor;
use crate::reading::{amp_limit, VOLT_LIMIT};
use crate::sheet::{module_k, slot, Settings};
use crate::voltage::compensated;

/// The largest part of U_AB, in mV.
const MOST_MILLIVOLTS: u32 = 1_000 * VOLT_LIMIT;

/// Whether U goes by the pairs.
pub fn goes_by_pairs(settings: &Settings) -> bool {
    settings[slot::COMPENSATION] == compensated::ALONG_LINE
}

/// The bus's and the coupler's current, in mA and at any angle. Where U goes by
/// them they mostly drop no more than some volts; else they are chance.
pub fn currents(dice: &mut Dice, settings: &Settings) -> [Phasor; 2] {
    let top = 1_000 * amp_limit(module_k(settings));
    let most = match goes_by_pairs(settings) && !dice.one_in(10) {
        true => current_of_drop(dice.pick(&[1_000, 5_000, 5_000, 20_000, 60_000]), settings).min(top),
        false => top,
    };
    [(); 2].map(|()| match dice.one_in(12) {
        true => Phasor { re: 0, im: 0 },
        false => any_phasor(dice, most),
    })
}

/// About the current, in mA, that drops so many mV.
fn current_of_drop(millivolts: u64, settings: &Settings) -> u32 {
    let impedance = u64::from(settings[slot::R] + settings[slot::X]).max(1);
    (millivolts * 1_000_000 / (1_732 * impedance)).min(u64::from(u32::MAX)) as u32
}

/// A phasor with parts up to `most`, in any quadrant or on an axis.
pub fn any_phasor(dice: &mut Dice, most: u32) -> Phasor {
    let [re, im] = [(); 2].map(|()| {
        let size = match dice.between(0, 11) {
            0 => 0,
            1 => most,
            _ => dice.between(0, most),
        };
        signed(dice, size)
    });
    Phasor { re, im }
}

/// Either sign.
fn signed(dice: &mut Dice, size: u32) -> i32 {
    let size = size as i32;
    dice.pick(&[size, -size])
}

/// A chance U_AB, in mV, for sheets that do not go by it.
pub fn any_u_ab(dice: &mut Dice) -> Phasor {
    any_phasor(dice, MOST_MILLIVOLTS)
}

/// A U_AB, in mV, of which `u` mV remain after the drop; where its parts would
/// pass their ends, what is nearest to it.
pub fn u_ab(dice: &mut Dice, settings: &Settings, u: u32, current: Phasor) -> Phasor {
    let (drop_re, drop_im) = voltage_drop(settings[slot::R], settings[slot::X], current);
    let ends = i128::from(MOST_MILLIVOLTS);
    let (mut re, mut im) = (0, 0);
    for _ in 0..8 {
        let remains = phasor_of_length(dice, u);
        (re, im) = (drop_re + i128::from(remains.re), drop_im + i128::from(remains.im));
        if re.abs().max(im.abs()) <= ends {
            break;
        }
    }
    let within = |part: i128| part.clamp(-ends, ends) as i32;
    Phasor { re: within(re), im: within(im) }
}

/// A phasor at any angle whose length, cut off to a whole number, is `u`: the
/// shortest or the longest with this one part, or one between.
pub fn phasor_of_length(dice: &mut Dice, u: u32) -> Phasor {
    let one = match dice.between(0, 9) {
        0 => 0,
        1 => u,
        2 => u.min(1),
        _ => dice.between(0, u),
    };
    let (length, square) = (u128::from(u), u128::from(one) * u128::from(one));
    let short_of = root((length * length - square).saturating_sub(1)) as u32;
    let shortest = if one == u { 0 } else { short_of + 1 };
    let longest = root((length + 1) * (length + 1) - 1 - square) as u32;
    let between = dice.between(shortest, longest);
    let other = dice.pick(&[shortest, shortest, longest, between]);
    let (one, other) = (signed(dice, one), signed(dice, other));
    match dice.one_in(2) {
        true => Phasor { re: one, im: other },
        false => Phasor { re: other, im: one },
    }
}

/// The length of a phasor, cut off to a whole number.
pub fn length(phasor: Phasor) -> u32 {
    let (re, im) = (u128::from(phasor.re.unsigned_abs()), u128::from(phasor.im.unsigned_abs()));
    root(re * re + im * im) as u32
}
