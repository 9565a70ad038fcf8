//! Rule 6 along the line's impedance, as ticket 3 asks: what remains of U_AB
//! after the drop as a vector.

use crate::phasor::Phasor;

/// The root of 3 in millionths, the ticket's factor.
const ROOT_OF_3: i128 = 1_732_051;

/// Divides millionths of µV to mV.
const PER_MILLIVOLT: i128 = 1_000_000_000;

/// The drop's real and imaginary part, in mV: "R × I_re − X × I_im and
/// R × I_im + X × I_re, times 1,732,051, divided once by 1,000,000,000, toward
/// zero". R and X are in mΩ, the current in mA.
pub fn voltage_drop(r: u32, x: u32, current: Phasor) -> (i128, i128) {
    let (r, x) = (i128::from(r), i128::from(x));
    let (re, im) = (i128::from(current.re), i128::from(current.im));
    let millivolts = |microvolts: i128| microvolts * ROOT_OF_3 / PER_MILLIVOLT;
    (millivolts(r * re - x * im), millivolts(r * im + x * re))
}

/// U, in mV: the root of "the sum of the squares of what remains" of U_AB.
pub fn remaining(r: u32, x: u32, u_ab: Phasor, current: Phasor) -> i64 {
    let (drop_re, drop_im) = voltage_drop(r, x, current);
    let re = i128::from(u_ab.re) - drop_re;
    let im = i128::from(u_ab.im) - drop_im;
    // A drop's part is below 2^55 whatever R, X and the current are, so the sum
    // is below 2^112.
    let u = root((re * re + im * im).unsigned_abs());
    i64::try_from(u).expect("below 2^56")
}

/// "... the largest whole number whose square is not above" `n`.
pub fn root(n: u128) -> u128 {
    n.isqrt()
}
