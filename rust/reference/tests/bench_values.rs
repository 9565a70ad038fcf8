//! The paper's bench values, with readings counted as ticket 1 says, and its
//! five wrong and inviting ones.

mod common;

use common::*;
use reference::input::bit;
use reference::organs::{count, mark, Watch};
use reference::reading::thousandths;
use reference::record::{Drive, Fault, Organ, Side};
use reference::sheet::slot;
use reference::voltage::{compensation, side_of, Ratings};

fn volts(bits: u32) -> Option<u32> {
    thousandths(f32::from_bits(bits), 200)
}

#[test]
fn readings() {
    assert_eq!(volts(0x42C8_3333), Some(100_100));
    assert_eq!(volts(0x4348_0000), Some(200_000));
    assert_eq!(volts(0x4348_0001), None);
    assert_eq!(volts(0x8000_0000), Some(0));
    assert_eq!(volts(0x0000_0001), Some(0));
    assert_eq!(volts(0x7FC0_0000), None);
}

#[test]
fn the_range_test_comes_first() {
    // 199.9996 V and 200.00002 V are both nearest to 200,000 mV.
    assert_eq!(199.9996_f32.to_bits(), 0x4347_FFE6);
    assert_eq!(volts(0x4347_FFE6), Some(200_000));
    assert_eq!((f64::from(f32::from_bits(0x4348_0001)) * 1_000.0).round(), 200_000.0);
    assert_eq!(volts(0x4348_0001), None);
}

#[test]
fn half_a_thousandth() {
    let [short, reached] = [0x3A03_126E, 0x3A03_126F].map(|bits| f64::from(f32::from_bits(bits)) * 1_000.0);
    assert!(short < 0.5 && 0.5 <= reached);
    assert_eq!(volts(0x3A03_126E), Some(0));
    assert_eq!(volts(0x3A03_126F), Some(1));
}

#[test]
fn band() {
    assert_eq!(side_of(99_000, 100_000, 2_000), Some(Side::Low));
    assert_eq!(side_of(99_001, 100_000, 2_000), None);
    assert_eq!(side_of(100_999, 100_000, 2_000), None);
    assert_eq!(side_of(101_000, 100_000, 2_000), Some(Side::High));
}

#[test]
fn band_in_a_tick() {
    let expected = [(99_000, (1, 0)), (99_001, (0, 0)), (100_999, (0, 0)), (101_000, (0, 1))];
    for (millivolts, sides) in expected {
        let outputs = step(&mut fresh(&[]), &auto(millivolts, &[]));
        assert_eq!((outputs[17], outputs[18]), sides, "{millivolts} mV");
    }
}

/// 01's case.
const EQUAL: Ratings = Ratings { transformer: 1_250, breaker: 1_250 };

#[test]
fn compensation_rounds_toward_zero() {
    assert_eq!(compensation(5_100, -3, 5, EQUAL), -3);
    assert_eq!(compensation(5_100, 3, 5, EQUAL), 3);
}

#[test]
fn compensation_of_minus_3_raises_u_by_3() {
    let five_amps = [
        (slot::MODULE, 1),
        (slot::COMPENSATION, 1),
        (slot::COMPENSATION_CURRENT, 2),
        (slot::U_COMP, 5_100),
        (slot::I_SET1, 5_000),
        (slot::I_SET2, 5_000),
        (slot::I_SET3, 500),
        (slot::TRANSFORMER_RATING, 1_250),
        (slot::BREAKER_RATING, 1_250),
    ];
    let mut input = auto(98_997, &[]);
    input.i_bus = good(600);
    input.i_coupler = good(603);
    // 98,997 + 3 is the low edge; + 4 would be in the band.
    assert_eq!(step(&mut fresh(&five_amps), &input)[17], 1);
    input.u_ab = good(98_998);
    assert_eq!(step(&mut fresh(&five_amps), &input)[17], 0);
}

#[test]
fn bcd_lines() {
    let mut record = fresh(&[(slot::TAP_SOURCE, 1)]);
    let mut input = calm();
    input.bcd = 0x24;
    assert_eq!(step(&mut record, &input)[3..=5], [24, 0, 0]);
    input.bcd = 0x1A;
    assert_eq!(step(&mut record, &input)[3..=5], [0, 1, 0]);
}

#[test]
fn over_organ_lets_go_below_95_percent() {
    assert!(mark(Watch::Over, 120_000, Some(114_000), true));
    assert!(!mark(Watch::Over, 120_000, Some(113_999), true));
}

/// The number of the first tick on which an organ of this delay trips.
fn trips_on(delay: u32) -> u32 {
    let mut organ = Organ::default();
    for number in 1.. {
        let (next, trip) = count(organ, true, delay);
        if trip {
            return number;
        }
        organ = next;
    }
    unreachable!()
}

#[test]
fn organ_delay() {
    assert_eq!(trips_on(10), 11);
    assert_eq!(trips_on(0), 1);
}

#[test]
fn organ_delay_in_ticks() {
    for (delay, expected) in [(10, 11), (0, 1)] {
        let mut record = fresh(&[(slot::T9 + 3, delay)]);
        let mut input = calm();
        input.u_ab = good(120_001);
        let trip = (1..=20).find(|_| step(&mut record, &input)[9] == 1);
        assert_eq!(trip, Some(expected));
    }
}

#[test]
fn first_raise_on_tick_20() {
    let mut record = fresh(&[(slot::T1, 20)]);
    let raise = (1..=30).find(|_| step(&mut record, &auto(99_000, &[]))[0] == 1);
    assert_eq!(raise, Some(20));
}

#[test]
fn move_shorter_than_t6_is_fast() {
    for (ticks, fast) in [(99, 1), (100, 0)] {
        let mut record = fresh(&[(slot::T6, 100)]);
        assert_eq!(whole_move(&mut record, true, ticks)[22], fast);
    }
}

#[test]
fn button_held_from_the_first_tick() {
    let mut record = fresh(&[]);
    for _ in 0..100 {
        let outputs = step(&mut record, &with(&[bit::RAISE_BUTTON]));
        assert_eq!((outputs[0], outputs[24]), (0, 0));
    }
}

#[test]
fn t7_of_0_drops_the_command_as_the_contact_closes() {
    let mut record = fresh(&[(slot::T7, 0)]);
    assert_eq!(press_raise(&mut record)[0], 1);
    assert_eq!(step(&mut record, &calm())[0], 1);
    let closed = step(&mut record, &with(&[bit::SWITCHING]));
    assert_eq!((closed[0], closed[24]), (0, 1));
}

// Wrong and inviting.

/// Multiplied by 1,000 in floats and then rounded.
fn product_in_floats(bits: u32) -> u32 {
    (f32::from_bits(bits) * 1_000.0).round() as u32
}

#[test]
fn not_multiplied_in_floats() {
    let (bench, wrong) = (0x42C8_3333, 0x42C8_3168);
    // 100,096.4966 mV; the product in floats is 100,096.5.
    assert_eq!(product_in_floats(wrong), 100_097);
    assert_eq!(volts(wrong), Some(100_096));
    // At the bench value, and wherever nearer to it, the product is right.
    let near = bench - wrong - 1;
    for bits in bench - near..=bench + near {
        assert_eq!(Some(product_in_floats(bits)), volts(bits), "{bits:#x}");
    }
}

#[test]
fn tap_0_is_not_an_empty_sliding_slot() {
    let mut record = fresh(&[(slot::TAP_SOURCE, 0)]);
    whole_move(&mut record, true, 20);
    assert!(record.last_direction.is_some());
    assert_eq!(record.settings[slot::SLIDING], 0);
    let outputs = step(&mut record, &with(&[bit::SWITCHING]));
    assert_eq!((outputs[19], outputs[24]), (1, 0));
}

#[test]
fn band_edge_is_outside() {
    for edge in [99_000, 101_000] {
        let outputs = step(&mut fresh(&[]), &auto(edge, &[]));
        assert_eq!(outputs[17] + outputs[18], 1);
    }
}

#[test]
fn minus_3_06_is_not_minus_4() {
    assert_ne!(compensation(5_100, -3, 5, EQUAL), -4);
}

#[test]
fn no_run_away_after_long_while_still_closed() {
    let mut record = fresh(&[(slot::T4, 20)]);
    press_raise(&mut record);
    let closed = with(&[bit::SWITCHING]);
    assert_eq!(steps(&mut record, &closed, 20)[19..=22], [0, 0, 0, 0]);
    for _ in 0..50 {
        assert_eq!(step(&mut record, &closed)[19..=22], [0, 0, 1, 0]);
        assert_eq!((record.fault, record.drive), (Fault::Long, Drive::Rest));
    }
}
