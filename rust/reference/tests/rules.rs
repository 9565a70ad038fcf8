//! Scenarios for rules 1 to 6 and 8, and for the readings.

mod common;

use common::*;
use reference::input::{bit, Input};
use reference::reading::{amp_limit, thousandths, Reading};
use reference::record::{Drive, Fault, Record, CURRENT_ORGANS, ORGANS};
use reference::sheet::slot;
use reference::tick::OUTPUTS;
use reference::values::{base_5a, BASE};

// Readings.

/// 1,000 x to the nearest whole number, a half going up. f64 is exact here: the
/// float's 24 bits and the 10 of 1,000 fit into its 53, and its `round` takes a
/// half away from zero.
fn nearest_by_f64(x: f32) -> u32 {
    (f64::from(x) * 1_000.0).round() as u32
}

/// The float nearest to so many thousandths, whole or not.
fn float_near(thousandths: f64) -> f32 {
    (thousandths / 1_000.0) as f32
}

#[test]
fn thousandths_are_nearest_to_the_exact_product() {
    let mut bits: u32 = 1;
    for _ in 0..50_000 {
        bits = bits.wrapping_mul(1_664_525).wrapping_add(1_013_904_223);
        let x = f32::from_bits(bits % 0x4348_0001);
        assert_eq!(thousandths(x, 200), Some(nearest_by_f64(x)));
    }
}

#[test]
fn thousandths_about_every_half() {
    for number in 0..200_000 {
        let x = float_near(f64::from(number) + 0.5);
        for x in [x.next_down(), x, x.next_up()] {
            assert_eq!(thousandths(x, 200), Some(nearest_by_f64(x)), "{x}");
        }
    }
}

#[test]
fn a_half_goes_up() {
    // Floats hold these halves exactly; the whole part below is even or odd.
    let halves = [
        (0.0625, 63),
        (0.1875, 188),
        (0.3125, 313),
        (39.8125, 39_813),
        (39.9375, 39_938),
        (100.0625, 100_063),
        (100.1875, 100_188),
        (199.8125, 199_813),
        (199.9375, 199_938),
    ];
    for (x, up) in halves {
        assert_eq!(f64::from(x) * 1_000.0, f64::from(up) - 0.5);
        assert_eq!(thousandths(x, 200), Some(up));
        assert_eq!(thousandths(x.next_down(), 200), Some(up - 1));
        assert_eq!(thousandths(x.next_up(), 200), Some(up));
    }
}

#[test]
fn currents_of_both_modules() {
    let amps = |bits, k| thousandths(f32::from_bits(bits), amp_limit(k));
    for k in [1, 5] {
        assert_eq!(amps(0x421F_FF97, k), Some(40_000)); // 39.9996 A
        assert_eq!(amps(0x421F_C000, k), Some(39_938)); // 39.9375 A
        assert_eq!(amps(0x421F_BFFF, k), Some(39_937));
        assert_eq!(amps(0x4220_0000, k), Some(40_000));
    }
    // Just above 40 A: missing with 1 A, although 40,000 mA is nearest.
    assert_eq!(amps(0x4220_0001, 1), None);
    assert_eq!(amps(0x4220_0001, 5), Some(40_000));
    // 199.9375 A, 199.9996 A, 200 A and just above.
    assert_eq!(amps(0x4347_F000, 5), Some(199_938));
    assert_eq!(amps(0x4347_FFE6, 5), Some(200_000));
    assert_eq!(amps(0x4348_0000, 5), Some(200_000));
    assert_eq!(amps(0x4348_0001, 5), None);
}

#[test]
fn missing_numbers() {
    // The last two are nearest to 0.
    for x in [f32::NAN, f32::INFINITY, f32::NEG_INFINITY, -1.0, -0.0004, -1e-45] {
        assert_eq!(thousandths(x, 200), None);
    }
    assert_eq!(thousandths(40.0, 40), Some(40_000));
    assert_eq!(thousandths(f32::from_bits(0x4220_0001), 40), None);
    assert_eq!(thousandths(-0.0, 40), Some(0));
}

#[test]
fn held_feeds_the_organs_only() {
    assert_eq!(Reading::Held(1.0).good_or_held(200), Some(1_000));
    assert_eq!(Reading::Held(1.0).good(200), None);
    let mut record = fresh(&[(slot::T9 + 3, 0)]);
    let mut input = auto(0, &[]);
    input.u_ab = held(150_000);
    let outputs = step(&mut record, &input);
    assert_eq!((outputs[9], outputs[13]), (1, 1)); // the organ trips
    assert_eq!((outputs[17], outputs[18]), (0, 0)); // but U is missing
}

// Rule 1.

#[test]
fn out_makes_the_record_fresh() {
    let mut record = fresh(&[(slot::TAP_SOURCE, 3)]);
    whole_move(&mut record, true, 20);
    press_raise(&mut record);
    assert_ne!(record, Record::fresh(record.settings));
    let outputs = step(&mut record, &with(&[bit::OUT, bit::SWITCHING]));
    assert_eq!(outputs, [0; OUTPUTS]);
    assert_eq!(record, Record::fresh(record.settings));
}

#[test]
fn not_in_service_is_always_fresh() {
    let mut record = fresh(&[(slot::IN_SERVICE, 0)]);
    for _ in 0..30 {
        assert_eq!(step(&mut record, &auto(90_000, &[])), [0; OUTPUTS]);
        assert_eq!(record, Record::fresh(record.settings));
    }
}

#[test]
fn a_button_held_while_out_gives_no_command() {
    let mut record = fresh(&[]);
    step(&mut record, &calm());
    step(&mut record, &with(&[bit::OUT]));
    let outputs = step(&mut record, &with(&[bit::LOWER_BUTTON]));
    assert_eq!((outputs[1], outputs[24]), (0, 0));
}

// Rule 2.

#[test]
fn reset_clears_the_fault() {
    let mut record = fresh(&[]);
    assert_eq!(step(&mut record, &with(&[bit::SWITCHING]))[19], 1);
    assert_eq!(step(&mut record, &calm())[19], 1);
    let outputs = step(&mut record, &with(&[bit::RESET]));
    assert_eq!((outputs[19], outputs[23], outputs[14]), (0, 0, 0));
    assert_eq!((record.fault, record.fault_age), (Fault::None, 0));
}

#[test]
fn a_fault_that_comes_again_on_the_reset_tick_is_new() {
    let mut record = fresh(&[(slot::T8, 20)]);
    let closed = with(&[bit::SWITCHING]);
    assert_eq!(steps(&mut record, &closed, 20)[23], 1);
    assert_eq!(step(&mut record, &closed)[23], 0);
    let again = step(&mut record, &with(&[bit::SWITCHING, bit::RESET]));
    assert_eq!((again[19], again[23], record.fault_age), (1, 1, 1));
    assert_eq!(steps(&mut record, &closed, 19)[23], 1);
    assert_eq!(step(&mut record, &closed)[23], 0);
}

// Rule 3.

#[test]
fn section_by_breaker() {
    let mut input = calm();
    assert_eq!(step(&mut fresh(&[]), &input)[2], 1);
    input.contacts.0 = 1 << bit::AUTOMATIC;
    let outputs = step(&mut fresh(&[]), &input);
    assert_eq!((outputs[2], outputs[13], outputs[14]), (0, 1, 0));
}

#[test]
fn section_by_load_current() {
    let needs = [(slot::SECTION_NEEDS_CURRENT, 1)];
    let cases = [
        (good(100), 0),
        (good(101), 1),
        (held(101), 0),
        (good(50_000), 0), // above 40 A: missing
        (Reading::Invalid, 0),
    ];
    for (i_bus, section) in cases {
        let mut input = calm();
        input.i_bus = i_bus;
        assert_eq!(step(&mut fresh(&needs), &input)[2], section, "{i_bus:?}");
    }
}

#[test]
fn load_current_to_the_nearest() {
    let cases = [
        (BASE, 100, float_near(100.4), 0),
        (BASE, 100, float_near(100.6), 1),
        (BASE, 62, 0.0625_f32.next_down(), 0),
        (BASE, 62, 0.0625, 1),
        (base_5a(), 500, float_near(500.4), 0),
        (base_5a(), 500, float_near(500.6), 1),
        (base_5a(), 312, 0.3125_f32.next_down(), 0),
        (base_5a(), 312, 0.3125, 1),
    ];
    for (mut sheet, set, amps, section) in cases {
        sheet[slot::SECTION_NEEDS_CURRENT] = 1;
        sheet[slot::I_SET3] = set;
        let mut input = calm();
        input.i_bus = Reading::Good(amps);
        let outputs = step(&mut Record::start(&sheet).unwrap(), &input);
        assert_eq!(outputs[2], section, "{amps} A over {set} mA");
    }
}

// Rule 4.

#[test]
fn tap_from_the_sensor() {
    let narrow = [(slot::TAP_SOURCE, 2), (slot::N_L, 18), (slot::N_R, 22)];
    let cases = [(17, [0, 0, 1]), (18, [18, 0, 0]), (22, [22, 0, 0]), (23, [0, 0, 1]), (0, [0, 0, 1]), (255, [0, 0, 1])];
    for (sensor, expected) in cases {
        let mut input = calm();
        input.bcd = 0x1F; // not read
        input.sensor = sensor;
        assert_eq!(step(&mut fresh(&narrow), &input)[3..=5], expected);
    }
}

#[test]
fn no_tap_source_or_a_counted_tap_reads_no_lines() {
    let mut input = calm();
    (input.bcd, input.sensor) = (0x7F, 200);
    for (source, tap) in [(0, 0), (3, 20), (4, 20)] {
        let mut record = fresh(&[(slot::TAP_SOURCE, source)]);
        assert_eq!(step(&mut record, &input)[3..=5], [tap, 0, 0]);
    }
}

// Rule 5.

/// Outputs of a fresh regulator without delays after one tick.
fn trips_at_once(change: impl Fn(&mut Input)) -> [u32; ORGANS] {
    let no_delay: Vec<_> = (0..ORGANS).map(|i| (slot::T9 + i, 0)).collect();
    let mut input = calm();
    change(&mut input);
    let outputs = step(&mut fresh(&no_delay), &input);
    outputs[6..=12].try_into().unwrap()
}

#[test]
fn each_organ_watches_its_own_reading() {
    assert_eq!(trips_at_once(|_| {}), [0; ORGANS]);
    assert_eq!(trips_at_once(|i| i.i_high = good(1_001)), [1, 0, 0, 0, 0, 0, 0]);
    assert_eq!(trips_at_once(|i| i.i_bus = good(1_001)), [0, 1, 0, 0, 0, 0, 0]);
    assert_eq!(trips_at_once(|i| i.i_bus = good(99)), [0, 0, 1, 0, 0, 0, 0]);
    assert_eq!(trips_at_once(|i| i.u_ab = good(120_001)), [0, 0, 0, 1, 0, 0, 0]);
    assert_eq!(trips_at_once(|i| i.u_ab = good(89_999)), [0, 0, 0, 0, 1, 0, 0]);
    assert_eq!(trips_at_once(|i| i.u_zero = good(10_001)), [0, 0, 0, 0, 0, 1, 0]);
    assert_eq!(trips_at_once(|i| i.u_negative = good(5_001)), [0, 0, 0, 0, 0, 0, 1]);
}

#[test]
fn at_the_set_value_no_organ_trips() {
    let at_set = trips_at_once(|i| {
        (i.i_high, i.i_bus) = (good(1_000), good(1_000));
        (i.u_zero, i.u_negative) = (good(10_000), good(5_000));
        i.u_ab = good(120_000);
    });
    assert_eq!(at_set, [0; ORGANS]);
    assert_eq!(trips_at_once(|i| i.i_bus = good(100)), [0; ORGANS]);
    assert_eq!(trips_at_once(|i| i.u_ab = good(90_000)), [0; ORGANS]);
}

/// Each organ's set value and its reading.
type Watched = (usize, fn(&mut Input) -> &mut Reading);

const WATCHED: [Watched; ORGANS] = [
    (slot::I_SET1, |input| &mut input.i_high),
    (slot::I_SET2, |input| &mut input.i_bus),
    (slot::I_SET3, |input| &mut input.i_bus),
    (slot::U_SET1, |input| &mut input.u_ab),
    (slot::U_SET2, |input| &mut input.u_ab),
    (slot::U_SET3, |input| &mut input.u_zero),
    (slot::U_SET4, |input| &mut input.u_negative),
];

const UNDER_ORGANS: [usize; 2] = [2, 4];

#[test]
fn readings_feed_the_organs_to_the_nearest() {
    for (organ, (set, reading)) in WATCHED.into_iter().enumerate() {
        let beyond = if UNDER_ORGANS.contains(&organ) { -1.0 } else { 1.0 };
        for (by, trip) in [(0.4, 0), (0.6, 1)] {
            let x = float_near(f64::from(BASE[set]) + beyond * by);
            for quality in [Reading::Held as fn(f32) -> Reading, Reading::Good] {
                let trips = trips_at_once(|input| *reading(input) = quality(x));
                assert_eq!(trips[organ], trip, "organ {organ}, {:?}", quality(x));
            }
        }
    }
}

#[test]
fn a_half_above_the_set_value_trips() {
    for (amps, trip) in [(0.1875_f32.next_down(), 0), (0.1875, 1)] {
        let mut record = fresh(&[(slot::I_SET1, 187), (slot::T9, 0)]);
        let mut input = calm();
        input.i_high = Reading::Held(amps);
        assert_eq!(step(&mut record, &input)[6], trip);
    }
}

#[test]
fn organs_let_go_by_the_nearest() {
    // Over 120,000: kept at 114,000. Under 90,000: kept at 94,500.
    for (organ, first, then, trip) in
        [(3, 120_001, 113_999.6, 1), (3, 120_001, 113_999.4, 0), (4, 89_999, 94_500.4, 1), (4, 89_999, 94_500.6, 0)]
    {
        let mut record = fresh(&[(slot::T9 + organ, 0)]);
        let mut input = auto(first, &[]);
        assert_eq!(step(&mut record, &input)[6 + organ], 1);
        input.u_ab = Reading::Held(float_near(then));
        assert_eq!(step(&mut record, &input)[6 + organ], trip, "{then} mV");
    }
}

#[test]
fn under_organ_lets_go_above_105_percent() {
    for (millivolts, trip) in [(94_500, 1), (94_501, 0)] {
        let mut record = fresh(&[(slot::T9 + 4, 0)]);
        assert_eq!(step(&mut record, &auto(89_999, &[]))[10], 1);
        assert_eq!(step(&mut record, &auto(millivolts, &[]))[10], trip);
    }
}

#[test]
fn an_organ_without_section_or_value_is_cleared() {
    let over = auto(130_000, &[]);
    let mut no_section = over;
    no_section.contacts.0 &= !(1 << bit::BREAKER_CLOSED);
    let mut missing = over;
    missing.u_ab = Reading::Good(f32::NAN);
    for gap in [no_section, missing] {
        let mut record = fresh(&[]);
        assert_eq!(steps(&mut record, &over, 11)[9], 1);
        assert_eq!(step(&mut record, &gap)[9], 0);
        assert!(!record.organs[3].marked);
        assert_eq!(steps(&mut record, &over, 10)[9], 0);
        assert_eq!(step(&mut record, &over)[9], 1);
    }
    let mut record = fresh(&[(slot::ORGANS_ON + 3, 0)]);
    assert_eq!(steps(&mut record, &over, 50)[9], 0);
}

// Rule 6.

#[test]
fn the_highest_support_bit_counts() {
    let supports =
        [(slot::U_SUPP, 90_000), (slot::U_SUPP + 1, 100_000), (slot::U_SUPP + 2, 110_000), (slot::U_SUPP + 3, 120_000)];
    let expected = [90_000, 100_000, 110_000, 110_000, 120_000, 120_000, 120_000, 120_000];
    for (bits, support) in (0..8).zip(expected) {
        for (millivolts, low) in [(support - 1_000, 1), (support - 999, 0)] {
            let mut input = auto(millivolts, &[]);
            input.contacts.0 |= bits << bit::U_SUPP2;
            assert_eq!(step(&mut fresh(&supports), &input)[17], low);
        }
    }
}

#[test]
fn band_edges_by_the_nearest() {
    // 100,100 mV is the low edge with the first U_supp, the high with the second.
    let (support_above, support_below) = (101_100, 99_100);
    for (support, volts, sides) in [
        (support_above, 100.1, [1, 0]),
        (support_above, 100.1004, [1, 0]),
        (support_above, 100.1006, [0, 0]),
        (support_below, 100.1, [0, 1]),
        (support_below, 100.0996, [0, 1]),
        (support_below, 100.0994, [0, 0]),
    ] {
        let mut input = auto(0, &[]);
        input.u_ab = Reading::Good(volts);
        let outputs = step(&mut fresh(&[(slot::U_SUPP, support)]), &input);
        assert_eq!(outputs[17..=18], sides, "{volts} V");
    }
}

/// By U_comp and this current of slot 4, with equal ratings.
fn by_u_comp(current: u32) -> [(usize, u32); 4] {
    [
        (slot::COMPENSATION, 1),
        (slot::COMPENSATION_CURRENT, current),
        (slot::TRANSFORMER_RATING, 2_000),
        (slot::BREAKER_RATING, 2_000),
    ]
}

#[test]
fn compensation_by_the_nearest_current() {
    // U_comp 5,000 mV at 1 A: 400 mA take 2,000 mV, which brings U to the low edge.
    let sheet = by_u_comp(0);
    for (amps, low) in [(0.3994, 0), (0.3996, 1), (0.4004, 1)] {
        let mut input = auto(101_000, &[]);
        input.i_bus = Reading::Good(amps);
        assert_eq!(step(&mut fresh(&sheet), &input)[17], low, "{amps} A");
    }
}

/// Whether U is missing: with the section there and no organ tripped, only
/// that blocks automatic.
fn u_missing(current: u32, change: impl Fn(&mut Input)) -> bool {
    let sheet = by_u_comp(current);
    let mut input = auto(100_000, &[]);
    change(&mut input);
    let outputs = step(&mut fresh(&sheet), &input);
    outputs[13] == 1
}

#[test]
fn only_the_needed_currents_must_be_good() {
    for (current, needs_bus, needs_coupler) in [(0, true, false), (1, false, true), (2, true, true), (3, true, true)] {
        for bad in [held(500), Reading::Invalid, Reading::Good(-1.0)] {
            assert_eq!(u_missing(current, |i| i.i_bus = bad), needs_bus);
            assert_eq!(u_missing(current, |i| i.i_coupler = bad), needs_coupler);
            assert!(u_missing(current, |i| i.u_ab = bad));
        }
        assert!(!u_missing(current, |_| {}));
    }
}

#[test]
fn compensation_by_each_current() {
    // U_comp 5,000 mV at 1 A; bus 400 mA, coupler 100 mA.
    for (current, less) in [(0, 2_000), (1, 500), (2, 1_500), (3, 2_500)] {
        let sheet = by_u_comp(current);
        for (millivolts, low) in [(99_000 + less, 1), (99_001 + less, 0)] {
            let mut input = auto(millivolts, &[]);
            (input.i_bus, input.i_coupler) = (good(400), good(100));
            assert_eq!(step(&mut fresh(&sheet), &input)[17], low);
        }
    }
}

#[test]
fn u_may_fall_below_0() {
    let sheet = [(slot::COMPENSATION, 1), (slot::U_COMP, 40_000)];
    let mut input = auto(100, &[]);
    input.i_bus = good(40_000);
    assert_eq!(step(&mut fresh(&sheet), &input)[17..=18], [1, 0]);
}

// Rule 8.

/// Outputs 13 to 16 of a fresh regulator after one tick.
fn blocked(changes: &[(usize, u32)], input: &Input) -> [u32; 4] {
    let outputs = step(&mut fresh(changes), input);
    outputs[13..=16].try_into().unwrap()
}

#[test]
fn contacts_that_block() {
    for common in [2, 3, 4, 5, 8, 9, 15] {
        assert_eq!(blocked(&[], &with(&[common])), [1, 1, 1, 1]);
    }
    for raise in [6, 10] {
        assert_eq!(blocked(&[], &with(&[raise])), [0, 0, 1, 0]);
    }
    for lower in [7, 11] {
        assert_eq!(blocked(&[], &with(&[lower])), [0, 0, 0, 1]);
    }
    for other in (14..=31).filter(|&bit| bit != 15).chain([12]) {
        assert_eq!(blocked(&[], &with(&[other])), [0, 0, 0, 0]);
    }
}

#[test]
fn a_fault_blocks_on_its_own_tick() {
    assert_eq!(blocked(&[], &with(&[bit::SWITCHING])), [1, 1, 1, 1]);
}

/// Something that makes organ `i` trip.
fn disturbance(i: usize) -> Input {
    let mut input = calm();
    match i {
        0 => input.i_high = good(2_000),
        1 => input.i_bus = good(2_000),
        2 => input.i_bus = good(10),
        3 => input.u_ab = good(130_000),
        4 => input.u_ab = good(80_000),
        5 => input.u_zero = good(20_000),
        _ => input.u_negative = good(20_000),
    }
    input
}

#[test]
fn each_organ_blocks_by_its_own_slot() {
    for i in 0..ORGANS {
        let now = (slot::T9 + i, 0);
        let (own, other) = if i < CURRENT_ORGANS { (13, 14) } else { (14, 13) };
        let input = disturbance(i);
        assert_eq!(blocked(&[now, (other, 1)], &input), [1, 0, 0, 0]);
        assert_eq!(blocked(&[now, (own, 1)], &input), [0, 0, 0, 0]);
        assert_eq!(blocked(&[now, (own, 1), (18, 1)], &input), [0, 1, 0, 0]);
    }
}

#[test]
fn end_taps_block() {
    let mut input = calm();
    for (tap, source, ends, expected) in [
        (40, 2, 1, [0, 0, 1, 0]),
        (1, 2, 1, [0, 0, 0, 1]),
        (40, 2, 0, [0, 0, 0, 0]),
        (41, 2, 1, [1, 0, 0, 0]), // tap 0
        (41, 2, 0, [0, 0, 0, 0]),
        (40, 0, 1, [0, 0, 0, 0]), // no source
    ] {
        input.sensor = tap;
        let sheet = [(slot::TAP_SOURCE, source), (slot::BLOCK_AT_END_TAP, ends)];
        assert_eq!(blocked(&sheet, &input), expected, "tap {tap}");
    }
}

#[test]
fn end_taps_block_the_other_way_round_when_reversed() {
    for (start, source, expected) in [(40, 3, [0, 0, 1, 0]), (1, 3, [0, 0, 0, 1]), (40, 4, [0, 0, 0, 1]), (1, 4, [0, 0, 1, 0])]
    {
        let sheet = [(slot::TAP_SOURCE, source), (slot::BLOCK_AT_END_TAP, 1), (slot::N_POS, start)];
        assert_eq!(blocked(&sheet, &calm()), expected);
    }
}

#[test]
fn a_fault_that_stays_keeps_the_drive_at_rest() {
    let mut record = fresh(&[]);
    step(&mut record, &with(&[bit::SWITCHING]));
    step(&mut record, &calm());
    assert_eq!(step(&mut record, &with(&[bit::RAISE_BUTTON]))[0], 0);
    assert_eq!(record.drive, Drive::Rest);
}
