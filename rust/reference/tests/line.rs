//! Scenarios for ticket 3's compensation along the line's impedance.

mod common;

use common::*;
use reference::input::{bit, Input, READINGS};
use reference::line::{remaining, root, voltage_drop};
use reference::phasor::{Pair, Phasor};
use reference::reading::Reading;
use reference::record::{Drive, Record, ORGANS};
use reference::sheet::{slot, Settings};
use reference::values::{base_5a, BASE};
use reference::voltage::judge;

/// The fresh record of the base sheet with slot 3 = 2 and some slots changed.
fn along(changes: &[(usize, u32)]) -> Record {
    fresh(&[&[(slot::COMPENSATION, 2)], changes].concat())
}

/// Automatic, with this U_AB as a pair and no current. The scalar U_AB lies in
/// the band.
fn at(re: i32, im: i32) -> Input {
    let mut input = auto(100_000, &[]);
    input.u_ab_pair = pair(re, im);
    input
}

/// The same, with this bus current as a pair.
fn at_with(u: (i32, i32), current: (i32, i32)) -> Input {
    let mut input = at(u.0, u.1);
    input.i_bus_pair = pair(current.0, current.1);
    input
}

/// U on this tick, which the outputs must show as low, high or missing.
fn u_of(record: &Record, input: &Input) -> Option<i64> {
    let u = judge(&record.settings, input).u;
    let outputs = step(&mut record.clone(), input);
    let shown = [outputs[17] == 1, outputs[18] == 1, outputs[13] == 1];
    // U_supp 100,000, dU 2,000; nothing else blocks.
    let expected = [u.is_some_and(|u| u <= 99_000), u.is_some_and(|u| u >= 101_000), u.is_none()];
    assert_eq!(shown, expected, "{u:?}");
    u
}

// The root.

/// Whether `u` is the largest whole number whose square is not above `n`.
fn is_root(u: u128, n: u128) -> bool {
    u * u <= n && (u + 1).checked_mul(u + 1).is_none_or(|next| next > n)
}

#[test]
fn the_root_is_the_largest_whole_number() {
    let mut u = 0;
    for n in 0..200_000_u128 {
        // By counting up.
        while (u + 1) * (u + 1) <= n {
            u += 1;
        }
        assert_eq!(root(n), u);
    }
}

#[test]
fn the_root_at_and_beside_squares() {
    let mut u: u128 = 1;
    while u < 1 << 60 {
        for u in [u - 1, u, u + 1, 3 * u, 7 * u] {
            let square = u * u;
            for n in [square.saturating_sub(1), square, square + 1, square + 2 * u] {
                assert!(is_root(root(n), n), "{n}");
            }
            assert_eq!((root(square), root(square + 2 * u), root(square + 2 * u + 1)), (u, u, u + 1));
        }
        u = u * 5 / 3 + 1;
    }
    assert!(is_root(root(u128::MAX), u128::MAX));
    assert_eq!(root(u64::MAX.into()), 4_294_967_295);
}

#[test]
fn the_root_of_chance_numbers() {
    let mut n: u128 = 1;
    for i in 0..100_000 {
        n = n.wrapping_mul(0x2360_ED05_1FC6_5DA4_4385_DF64_9FCC_F645).wrapping_add(12_345);
        let some = n >> (i % 128);
        assert!(is_root(root(some), some), "{some}");
    }
}

// The drop.

#[test]
fn r_alone() {
    let record = along(&[(slot::R, 4_000), (slot::X, 0)]);
    // 4 ohms x 1 A x the root of 3: 6,928.204 mV along the current.
    assert_eq!(u_of(&record, &at_with((100_000, 0), (1_000, 0))), Some(93_072));
    assert_eq!(u_of(&record, &at_with((100_000, 0), (-1_000, 0))), Some(106_928));
    assert_eq!(u_of(&record, &at_with((0, 100_000), (0, 1_000))), Some(93_072));
    assert_eq!(u_of(&record, &at_with((0, -100_000), (0, 1_000))), Some(106_928));
    // Across it: the root of 100,000² + 6,928².
    assert_eq!(u_of(&record, &at_with((100_000, 0), (0, 1_000))), Some(100_239));
}

#[test]
fn x_alone() {
    let record = along(&[(slot::R, 0), (slot::X, 3_000)]);
    // 3 ohms x 1 A x the root of 3: 5,196.153 mV, a quarter turn ahead.
    assert_eq!(u_of(&record, &at_with((100_000, 0), (1_000, 0))), Some(100_134));
    assert_eq!(u_of(&record, &at_with((100_000, 0), (0, -1_000))), Some(94_804));
    assert_eq!(u_of(&record, &at_with((100_000, 0), (0, 1_000))), Some(105_196));
    assert_eq!(u_of(&record, &at_with((0, 100_000), (1_000, 0))), Some(94_804));
    assert_eq!(u_of(&record, &at_with((0, 100_000), (-1_000, 0))), Some(105_196));
}

#[test]
fn r_and_x() {
    let record = along(&[]);
    assert_eq!((record.settings[slot::R], record.settings[slot::X]), (4_000, 3_000));
    // 5,500 and 1,000 mV times the root of 3: 9,526 and 1,732.
    assert_eq!(voltage_drop(4_000, 3_000, Phasor { re: 1_000, im: -500 }), (9_526, 1_732));
    assert_eq!(u_of(&record, &at_with((100_000, 0), (1_000, -500))), Some(90_490));
    assert_eq!(u_of(&record, &at_with((109_526, 1_732), (1_000, -500))), Some(100_000));
}

#[test]
fn without_current_or_impedance_u_is_the_length_of_u_ab() {
    for (re, im) in [(60_000, 80_000), (-60_000, 80_000), (80_000, -60_000), (-100_000, 0), (0, -100_000)] {
        assert_eq!(u_of(&along(&[]), &at(re, im)), Some(100_000));
        let no_line = along(&[(slot::R, 0), (slot::X, 0)]);
        assert_eq!(u_of(&no_line, &at_with((re, im), (40_000, -40_000))), Some(100_000));
    }
}

#[test]
fn a_drop_larger_than_u() {
    let record = along(&[(slot::X, 0)]);
    assert_eq!(u_of(&record, &at_with((1_000, 0), (1_000, 0))), Some(5_928));
    assert_eq!(u_of(&record, &at_with((6_928, 0), (1_000, 0))), Some(0));
    let longest = along(&[(slot::R, 400_000), (slot::X, 0)]);
    assert_eq!(u_of(&longest, &at_with((100_000, 0), (40_000, 0))), Some(27_612_816));
}

#[test]
fn each_part_of_the_drop_is_divided_once_toward_zero() {
    for (microvolts, millivolts) in [(577, 0), (578, 1), (1_154, 1), (1_155, 2)] {
        for sign in [1, -1] {
            let expected = i128::from(sign * millivolts);
            let along = |re, im| Phasor { re: sign * re, im: sign * im };
            assert_eq!(voltage_drop(1, 0, along(microvolts, 0)), (expected, 0));
            assert_eq!(voltage_drop(1, 0, along(0, microvolts)), (0, expected));
            assert_eq!(voltage_drop(0, 1, along(microvolts, 0)), (0, expected));
            assert_eq!(voltage_drop(0, 1, along(0, microvolts)), (-expected, 0));
        }
    }
    // Once: 289 and 289 µV are 578.
    assert_eq!(voltage_drop(1, 1, Phasor { re: 289, im: -289 }), (1, 0));
    assert_eq!(voltage_drop(1, 1, Phasor { re: 289, im: 289 }), (0, 1));
    // By 1,732,051, which a shorter factor would not give: 40,000 mΩ x 50,000 mA.
    assert_eq!(voltage_drop(40_000, 0, Phasor { re: 50_000, im: 0 }), (3_464_102, 0));
}

/// The low edge is 97,000 mV here.
fn low_edge_97_000() -> Record {
    along(&[(slot::U_SUPP, 98_000)])
}

#[test]
fn roots_that_are_exact_and_one_below_and_above() {
    for (re, im, more, low) in [(17_088, 95_484, -1, 1), (48_160, 84_201, 0, 0), (17_491, 95_411, 1, 0)] {
        // The squares' sum is 97,001² and as much more.
        let sum = i64::from(re) * i64::from(re) + i64::from(im) * i64::from(im);
        assert_eq!(sum, 97_001 * 97_001 + more);
        for (re, im) in [(re, im), (-re, im), (im, -re), (-im, -re)] {
            // 4 and 3 ohms, 1,000 and -500 mA drop 9,526 and 1,732 mV.
            for (input, drop) in [(at(re, im), "none"), (at_with((re + 9_526, im + 1_732), (1_000, -500)), "some")] {
                let outputs = step(&mut low_edge_97_000(), &input);
                assert_eq!(outputs[17..=18], [low, 0], "{more}, {drop}");
                let u = judge(&low_edge_97_000().settings, &input).u;
                assert_eq!(u, Some(97_001 - i64::from(low)));
            }
        }
    }
    // Small ones: 8, 9, 10.
    for (re, im, u) in [(2, -2, 2), (0, -3, 3), (-3, 1, 3)] {
        assert_eq!(u_of(&along(&[]), &at(re, im)), Some(u));
    }
}

#[test]
fn band_edges_are_judged_by_the_whole_u() {
    for (re, im, sides) in [
        (99_000, 0, [1, 0]),
        (99_000, 444, [1, 0]), // 99,000.9956
        (99_000, 445, [0, 0]), // 99,001.0001
        (99_001, 0, [0, 0]),
        (100_999, 449, [0, 0]), // 100,999.998
        (100_999, 450, [0, 1]), // 101,000.002
        (101_000, 0, [0, 1]),
    ] {
        for input in [at(re, im), at(-re, im), at(im, -re)] {
            assert_eq!(step(&mut along(&[]), &input)[17..=18], sides, "{re}, {im}");
        }
    }
}

#[test]
fn parts_count_by_magnitude_to_the_nearest() {
    // 99,000.4 mV count as 99,000 and 99,000.6 as 99,001, whatever the sign.
    for (volts, low) in [(99.0004_f32, 1), (99.0006, 0)] {
        for x in [volts, -volts] {
            for (re, im) in [(x, -0.0), (0.0, x)] {
                let mut input = at(0, 0);
                input.u_ab_pair = Pair { re: Reading::Good(re), im: Reading::Good(im) };
                assert_eq!(step(&mut along(&[]), &input)[17], low, "{x}");
            }
        }
    }
}

// What is needed.

/// The readings by their place: U_AB's pair, the bus's, the coupler's.
const PAIRS: [usize; 6] = [6, 7, 8, 9, 10, 11];

/// Which of them slot 4 needs.
fn needed(current: u32) -> &'static [usize] {
    match current {
        0 => &[6, 7, 8, 9],
        1 => &[6, 7, 10, 11],
        _ => &[6, 7, 8, 9, 10, 11],
    }
}

/// The input with another reading in this place.
fn with_reading(input: &Input, place: usize, reading: Reading) -> Input {
    let mut readings = input.readings();
    readings[place] = reading;
    Input::of(readings, input.contacts.0, input.bcd, input.sensor)
}

const BAD: [Reading; 8] = [
    Reading::Held(0.1),
    Reading::Held(-0.1),
    Reading::Invalid,
    Reading::Good(f32::NAN),
    Reading::Good(f32::INFINITY),
    Reading::Good(f32::NEG_INFINITY),
    Reading::Good(200.00002),
    Reading::Good(-200.00002),
];

#[test]
fn a_needed_part_that_is_missing_or_held() {
    for line in [[(slot::R, 4_000), (slot::X, 3_000)], [(slot::R, 4_000), (slot::X, 0)], [(slot::R, 0), (slot::X, 0)]] {
        for current in 0..=3 {
            let record = along(&[&line[..], &[(slot::COMPENSATION_CURRENT, current)]].concat());
            let input = at(98_000, 0);
            assert_eq!(u_of(&record, &input), Some(98_000));
            for (place, bad) in PAIRS.iter().flat_map(|&place| BAD.map(|bad| (place, bad))) {
                let u = u_of(&record, &with_reading(&input, place, bad));
                assert_eq!(u.is_none(), needed(current).contains(&place), "slot 4 = {current}: {bad:?} at {place}");
            }
        }
    }
}

#[test]
fn part_ranges_of_both_modules() {
    for (sheet, limit) in [(BASE, 40.0_f32), (base_5a(), 200.0)] {
        for (place, end) in [(6, 200.0), (7, 200.0), (8, limit), (9, limit)] {
            for (x, missing) in [(end, false), (-end, false), (end.next_up(), true), ((-end).next_down(), true)] {
                let mut settings = sheet;
                settings[slot::COMPENSATION] = 2;
                let input = with_reading(&at(98_000, 0), place, Reading::Good(x));
                assert_eq!(judge(&settings, &input).u.is_none(), missing, "{x} at {place}");
            }
        }
    }
}

#[test]
fn the_scalar_u_ab_is_not_needed() {
    let no_organs: Vec<_> = (0..ORGANS).map(|i| (slot::ORGANS_ON + i, 0)).collect();
    for (re, sides) in [(98_000, [1, 0]), (100_000, [0, 0]), (102_000, [0, 1])] {
        for scalar in BAD.into_iter().chain([good(0), good(98_000), good(100_000), good(102_000), good(200_000)]) {
            let mut input = at(re, 0);
            input.u_ab = scalar;
            let outputs = step(&mut along(&no_organs), &input);
            assert_eq!(outputs[13], 0, "{scalar:?}");
            assert_eq!(outputs[17..=18], sides, "{scalar:?}");
        }
    }
}

#[test]
fn the_scalar_currents_are_not_needed() {
    for bad in BAD {
        for current in 0..=3 {
            let record = along(&[(slot::COMPENSATION_CURRENT, current), (slot::ORGANS_ON + 2, 0)]);
            let mut input = at(98_000, 0);
            (input.i_bus, input.i_coupler) = (bad, bad);
            assert_eq!(u_of(&record, &input), Some(98_000));
        }
    }
}

#[test]
fn without_slot_3_at_2_no_pair_is_needed() {
    for compensation in [0, 1] {
        let sheet = [(slot::COMPENSATION, compensation), (slot::R, 400_000), (slot::X, 400_000)];
        let mut input = auto(98_000, &[]);
        input.i_bus = good(0);
        for pairs in BAD.map(|bad| Pair { re: bad, im: bad }).into_iter().chain([pair(100_000, 0), pair(200_000, 200_000)]) {
            (input.u_ab_pair, input.i_bus_pair, input.i_coupler_pair) = (pairs, pairs, pairs);
            let outputs = step(&mut fresh(&[&sheet[..], &[(slot::ORGANS_ON + 2, 0)]].concat()), &input);
            assert_eq!([outputs[13], outputs[17], outputs[18]], [0, 1, 0]);
        }
    }
}

#[test]
fn u_comp_does_not_count_along_the_line() {
    let record = along(&[(slot::U_COMP, 40_000)]);
    let mut input = at(100_000, 0);
    (input.i_bus, input.i_coupler) = (good(500), good(500));
    assert_eq!(u_of(&record, &input), Some(100_000));
}

#[test]
fn organs_and_section_stay_on_the_scalars() {
    let no_delay: Vec<_> = (0..ORGANS).map(|i| (slot::T9 + i, 0)).collect();
    let sheet = [&no_delay[..], &[(slot::SECTION_NEEDS_CURRENT, 1)]].concat();
    // Pairs far over every organ's set value, and below it.
    for (u, i) in [(pair(200_000, 0), pair(40_000, 0)), (pair(0, 0), pair(0, 0))] {
        let mut input = auto(100_000, &[]);
        (input.u_ab_pair, input.i_bus_pair, input.i_coupler_pair) = (u, i, i);
        let outputs = step(&mut along(&sheet), &input);
        assert_eq!((outputs[2], &outputs[6..=12]), (1, &[0; ORGANS][..]));
    }
    // Scalars that trip, U in the band.
    for (scalar, organ) in [(120_001, 9), (89_999, 10)] {
        let mut input = at(100_000, 0);
        input.u_ab = good(scalar);
        let outputs = step(&mut along(&sheet), &input);
        assert_eq!((outputs[organ], outputs[17], outputs[18]), (1, 0, 0));
    }
    let mut input = at(100_000, 0);
    (input.i_bus, input.i_bus_pair) = (good(100), pair(5_000, 0));
    assert_eq!(step(&mut along(&sheet), &input)[2], 0);
}

// Slot 4.

#[test]
fn every_current_of_slot_4() {
    // Bus (900, -400) mA, coupler (100, 300) mA.
    for (current, (re, im)) in [(0, (900, -400)), (1, (100, 300)), (2, (800, -700)), (3, (1_000, -100))] {
        let record = along(&[(slot::COMPENSATION_CURRENT, current)]);
        let mut input = at(90_000, -40_000);
        input.i_bus_pair = pair(900, -400);
        input.i_coupler_pair = pair(100, 300);
        // The same picked current as the bus's alone.
        let alone = at_with((90_000, -40_000), (re, im));
        let u = u_of(&along(&[]), &alone);
        assert_eq!(u_of(&record, &input), u, "slot 4 = {current}");
        let (drop_re, drop_im) = (4 * re - 3 * im, 4 * im + 3 * re);
        let millivolts = |volts: i32| (f64::from(volts) * 1.732_051).trunc();
        let length = (90_000.0 - millivolts(drop_re)).hypot(-40_000.0 - millivolts(drop_im));
        assert_eq!(u, Some(length as i64));
    }
}

// The ends of every range.

/// The squares' sum of what remains, told once more for currents in mA.
fn remaining_squares(settings: &Settings, parts: [i32; 6]) -> i128 {
    let [u_re, u_im, bus_re, bus_im, coupler_re, coupler_im] = parts.map(i128::from);
    let (i_re, i_im) = match settings[slot::COMPENSATION_CURRENT] {
        0 => (bus_re, bus_im),
        1 => (coupler_re, coupler_im),
        2 => (bus_re - coupler_re, bus_im - coupler_im),
        _ => (bus_re + coupler_re, bus_im + coupler_im),
    };
    let (r, x) = (i128::from(settings[slot::R]), i128::from(settings[slot::X]));
    let re = u_re - (r * i_re - x * i_im) * 1_732_051 / 1_000_000_000;
    let im = u_im - (r * i_im + x * i_re) * 1_732_051 / 1_000_000_000;
    re * re + im * im
}

/// Each part at its low end, at 0 or at its high end, by a number below 3^6.
fn parts_at_ends(number: u32, amps: i32) -> [i32; 6] {
    let end = |i: u32| (number / 3_u32.pow(i) % 3) as i32 - 1;
    [end(0) * 200_000, end(1) * 200_000, end(2) * amps, end(3) * amps, end(4) * amps, end(5) * amps]
}

#[test]
fn nothing_overflows_at_the_ends_of_every_range() {
    for (sheet, most, amps) in [(BASE, 400_000, 40_000), (base_5a(), 80_000, 200_000)] {
        for choice in 0..16 {
            let mut settings = sheet;
            settings[slot::COMPENSATION] = 2;
            settings[slot::COMPENSATION_CURRENT] = choice % 4;
            settings[slot::R] = choice / 4 % 2 * most;
            settings[slot::X] = choice / 8 * most;
            let record = Record::start(&settings).unwrap();
            for number in 0..3_u32.pow(6) {
                let parts = parts_at_ends(number, amps);
                let mut input = auto(100_000, &[]);
                input.u_ab_pair = pair(parts[0], parts[1]);
                input.i_bus_pair = pair(parts[2], parts[3]);
                input.i_coupler_pair = pair(parts[4], parts[5]);
                let u = i128::from(judge(&settings, &input).u.unwrap());
                let squares = remaining_squares(&settings, parts);
                assert!(u >= 0 && is_root(u.unsigned_abs(), squares.unsigned_abs()), "{settings:?} {parts:?}");
                step(&mut record.clone(), &input);
            }
        }
    }
}

#[test]
fn nothing_overflows_whatever_the_numbers_are() {
    let ends = [i32::MIN, 0, i32::MAX];
    for (r, x) in [(u32::MAX, u32::MAX), (u32::MAX, 0), (0, u32::MAX)] {
        for (u, i) in ends.iter().flat_map(|&u| ends.map(|i| (u, i))) {
            for (one, other) in [(u, i), (i, u)] {
                assert!(remaining(r, x, Phasor { re: u, im: one }, Phasor { re: i, im: other }) >= 0);
            }
        }
    }
}

#[test]
fn both_modules_count_the_same_milliamperes() {
    for sheet in [BASE, base_5a()] {
        let mut settings = sheet;
        settings[slot::COMPENSATION] = 2;
        let input = at_with((109_526, 1_732), (1_000, -500));
        assert_eq!(judge(&settings, &input).u, Some(100_000));
        // 80 ohms and -40 A, the farthest that both take.
        (settings[slot::R], settings[slot::X]) = (80_000, 0);
        assert_eq!(judge(&settings, &at_with((0, 0), (0, -40_000))).u, Some(5_542_563));
    }
}

// Deviations by this U.

/// The number of the tick, of this input, on which a command begins, and
/// whether it is a raise.
fn begins_on(record: &mut Record, input: &Input) -> Option<(u32, bool)> {
    (1..=200).find_map(|number| {
        let outputs = step(record, input);
        (outputs[0] + outputs[1] == 1).then_some((number, outputs[0] == 1))
    })
}

const DELAYS: [(usize, u32); 3] = [(slot::T1, 50), (slot::T2, 30), (slot::T3, 20)];

#[test]
fn t3_goes_by_this_u() {
    // U_set5 is 110,000.
    for (re, im, delay) in [(110_001, 0, 20), (110_000, 0, 50), (110_000, 469, 50), (110_000, 470, 20)] {
        for scalar in [good(100_000), good(111_000), good(98_000), Reading::Invalid] {
            let mut input = at_with((re + 9_526, im + 1_732), (1_000, -500));
            input.u_ab = scalar;
            assert_eq!(begins_on(&mut along(&DELAYS), &input), Some((delay, false)), "{re}, {im}");
        }
    }
    // Nor does the scalar alone name T3, or make U high.
    for (re, begun) in [(101_000, Some((50, false))), (100_000, None)] {
        let mut input = at(re, 0);
        input.u_ab = good(115_000);
        assert_eq!(begins_on(&mut along(&DELAYS), &input), begun);
    }
}

#[test]
fn commands_go_by_this_u() {
    for scalar in [good(100_000), good(104_000), good(96_000), held(100_000)] {
        for (re, raise) in [(-99_000, true), (-101_000, false)] {
            let mut input = at(0, re);
            input.u_ab = scalar;
            assert_eq!(begins_on(&mut along(&DELAYS), &input), Some((50, raise)));
        }
        let mut input = at(0, -100_000);
        input.u_ab = scalar;
        assert_eq!(begins_on(&mut along(&DELAYS), &input), None);
    }
}

#[test]
fn t2_and_its_memory_go_by_this_u() {
    for (between, delay) in [(at(98_000, 0), 30), (at(100_000, 0), 50), (at(102_000, 0), 50)] {
        let mut record = along(&DELAYS);
        let low = at(98_000, 0);
        assert_eq!(begins_on(&mut record, &low), Some((50, true)));
        let mut closed = low;
        closed.contacts.0 |= 1 << bit::SWITCHING;
        steps(&mut record, &closed, 20);
        step(&mut record, &between);
        assert_eq!((record.drive, begins_on(&mut record, &low)), (Drive::Rest, Some((delay, true))));
    }
}

#[test]
fn a_wait_ends_where_a_needed_part_is_missing() {
    let mut record = along(&DELAYS);
    let low = at(98_000, 0);
    steps(&mut record, &low, 49);
    assert_eq!(record.wait.ticks(), 49);
    let outputs = step(&mut record, &with_reading(&low, 9, Reading::Held(0.0)));
    assert_eq!([outputs[0], outputs[13], outputs[17], record.wait.ticks()], [0, 1, 0, 0]);
    assert_eq!(begins_on(&mut record, &low), Some((50, true)));
}

#[test]
fn a_held_command_ends_by_this_u() {
    let low = at(98_000, 0);
    for (then, on) in [
        (low, 1),
        (at(100_000, 0), 0),
        (at(-102_000, 0), 0),
        (with_reading(&low, 7, Reading::Invalid), 0),
        (with_reading(&low, 11, Reading::Invalid), 1),
    ] {
        let mut record = fresh_continuous(&[(slot::COMPENSATION, 2)]);
        assert_eq!(begins_on(&mut record, &low), Some((20, true)));
        let mut input = then;
        input.u_ab = good(98_000);
        let outputs = step(&mut record, &input);
        assert_eq!([outputs[0], outputs[24], outputs[25]], [on, on, 1 - on]);
    }
    let mut record = fresh_continuous(&[(slot::COMPENSATION, 2), (slot::T4, 30)]);
    begins_on(&mut record, &low);
    assert_eq!(steps(&mut record, &low, 30)[21], 1);
}

#[test]
fn manual_goes_by_no_u() {
    let mut record = along(&[]);
    let mut still = calm();
    let nothing = Pair { re: Reading::Invalid, im: Reading::Invalid };
    (still.u_ab_pair, still.i_bus_pair) = (nothing, nothing);
    assert_eq!(step(&mut record, &still)[13..=14], [1, 0]);
    let mut pressed = still;
    pressed.contacts.0 |= 1 << bit::RAISE_BUTTON;
    assert_eq!(step(&mut record, &pressed)[0], 1);
}

#[test]
fn a_tick_brings_twelve_readings() {
    let readings: [Reading; READINGS] = std::array::from_fn(|i| Reading::Good(i as f32));
    assert_eq!(READINGS, 12);
    let input = Input::of(readings, 0, 0, 0);
    assert_eq!(input.readings(), readings);
    assert_eq!((input.u_ab, input.i_coupler), (readings[0], readings[5]));
    assert_eq!(input.u_ab_pair, Pair { re: readings[6], im: readings[7] });
    assert_eq!(input.i_bus_pair, Pair { re: readings[8], im: readings[9] });
    assert_eq!(input.i_coupler_pair, Pair { re: readings[10], im: readings[11] });
}
