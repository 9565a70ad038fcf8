//! Ticket 3's parts: readings by magnitude, with the sign kept.

mod common;

use common::*;
use reference::phasor::{Pair, Phasor};
use reference::reading::{amp_limit, signed_thousandths, thousandths, Reading};
use reference::recording::{tick_from_bytes, tick_to_bytes, BadQuality, TICK_BYTES};

fn volts(bits: u32) -> Option<i32> {
    signed_thousandths(f32::from_bits(bits), 200)
}

const SIGN: u32 = 0x8000_0000;

#[test]
fn bench_values_with_a_sign() {
    assert_eq!(volts(0xC2C8_3333), Some(-100_100));
    assert_eq!(volts(0x42C8_3333), Some(100_100));
    assert_eq!(volts(0xC348_0000), Some(-200_000));
    assert_eq!(volts(0xC348_0001), None);
    assert_eq!(volts(0x4348_0001), None);
}

#[test]
fn minus_0_is_0() {
    assert_eq!(volts(SIGN), Some(0));
    assert_eq!(signed_thousandths(-0.0, 40), Some(0));
    assert_eq!(Reading::Good(-0.0).good_part(200), Some(0));
    // So is what is less than half a thousandth below 0.
    for bits in [0x0000_0001, 0x007F_FFFF, 0x3A03_126E] {
        assert_eq!(volts(SIGN | bits), Some(0));
    }
    assert_eq!(volts(SIGN | 0x3A03_126F), Some(-1));
}

#[test]
fn a_half_goes_away_from_0() {
    for (x, away) in [(0.0625_f32, 63), (0.1875, 188), (39.9375, 39_938), (100.0625, 100_063), (199.9375, 199_938)] {
        assert_eq!(signed_thousandths(x, 200), Some(away));
        assert_eq!(signed_thousandths(-x, 200), Some(-away));
        assert_eq!(signed_thousandths(x.next_down(), 200), Some(away - 1));
        assert_eq!(signed_thousandths((-x).next_up(), 200), Some(1 - away));
        assert_eq!(signed_thousandths((-x).next_down(), 200), Some(-away));
    }
}

#[test]
fn the_range_test_comes_first_on_either_side() {
    // The next float past an end is nearest to the end, and missing.
    for (limit, end) in [(200, 200.0_f32), (40, 40.0)] {
        let thousand = 1_000 * limit as i32;
        assert_eq!(signed_thousandths(end, limit), Some(thousand));
        assert_eq!(signed_thousandths(-end, limit), Some(-thousand));
        assert_eq!(signed_thousandths(end.next_up(), limit), None);
        assert_eq!(signed_thousandths((-end).next_down(), limit), None);
        assert_eq!(signed_thousandths((-end).next_up(), limit), Some(-thousand));
    }
    for x in [f32::NAN, -f32::NAN, f32::INFINITY, f32::NEG_INFINITY, f32::MAX, f32::MIN] {
        assert_eq!(signed_thousandths(x, 200), None);
    }
}

#[test]
fn currents_of_both_modules() {
    let amps = |x, k| signed_thousandths(x, amp_limit(k));
    assert_eq!((amps(-40.0, 1), amps(-40.0, 5)), (Some(-40_000), Some(-40_000)));
    assert_eq!((amps(-40.001, 1), amps(-40.001, 5)), (None, Some(-40_001)));
    assert_eq!((amps(-200.0, 1), amps(-200.0, 5)), (None, Some(-200_000)));
    assert_eq!(amps((-200.0_f32).next_down(), 5), None);
}

#[test]
fn parts_are_nearest_to_the_exact_product() {
    let mut bits: u32 = 1;
    for _ in 0..50_000 {
        bits = bits.wrapping_mul(1_664_525).wrapping_add(1_013_904_223);
        let magnitude = bits % 0x4348_0001;
        let x = f32::from_bits(magnitude);
        // Exact in f64, whose `round` takes a half away from zero.
        let nearest = (f64::from(x) * 1_000.0).round() as i32;
        assert_eq!(volts(magnitude), Some(nearest));
        assert_eq!(volts(SIGN | magnitude), Some(-nearest));
        assert_eq!(thousandths(x, 200), Some(nearest as u32));
    }
}

#[test]
fn a_pair_needs_both_parts_good() {
    let good = Reading::Good(-3.0);
    assert_eq!(Pair { re: good, im: Reading::Good(4.0) }.good(200), Some(Phasor { re: -3_000, im: 4_000 }));
    for bad in [Reading::Held(4.0), Reading::Invalid, Reading::Good(f32::NAN), Reading::Good(-201.0), Reading::Good(201.0)] {
        assert_eq!(Pair { re: good, im: bad }.good(200), None);
        assert_eq!(Pair { re: bad, im: good }.good(200), None);
    }
}

#[test]
fn pairs_follow_the_six_readings_in_a_recording() {
    let mut input = calm();
    input.u_ab_pair = pair(1_000, 2_000);
    input.i_bus_pair = pair(3_000, 4_000);
    input.i_coupler_pair = Pair { re: Reading::Held(-0.0), im: Reading::Good(-6.0) };
    let bytes = tick_to_bytes(&input);
    assert_eq!((TICK_BYTES, bytes.len()), (66, 66));
    for (at, quality, float) in [(30, 0, 1.0_f32), (35, 0, 2.0), (40, 0, 3.0), (45, 0, 4.0), (50, 1, -0.0), (55, 0, -6.0)] {
        assert_eq!(bytes[at], quality);
        assert_eq!(bytes[at + 1..at + 5], float.to_le_bytes());
    }
    assert_eq!(bytes[60..66], [1, 0, 0, 0, 0x20, 20]);
    assert_eq!(tick_from_bytes(&bytes), Ok(input));
    let mut bad = bytes;
    bad[55] = 3;
    assert_eq!(tick_from_bytes(&bad), Err(BadQuality { at: 55, byte: 3 }));
}
