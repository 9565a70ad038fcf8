//! The simulated substation's readings: what they count as, and that the
//! outputs show how a number between two thousandths is rounded.

use reference::floats::{float_of, floats_beside, part_of, parts_beside};
use reference::input::Input;
use reference::reading::{amp_limit, signed_thousandths, thousandths, Reading, VOLT_LIMIT};
use reference::scene::Scene;
use reference::sheet::{module_k, Settings};
use reference::tick::{tick, OUTPUTS};

/// A float's thousandfold. f64 is exact here: the float's 24 bits and the 10 of
/// 1,000 fit into its 53.
fn thousandfold(x: f32) -> f64 {
    f64::from(x) * 1_000.0
}

/// How far a float lies above the whole number of thousandths it counts as; one
/// below 0, as a part does, by its magnitude.
fn off(x: f32) -> Option<f64> {
    let number = thousandths(x.abs(), VOLT_LIMIT)?;
    Some(thousandfold(x.abs()) - f64::from(number))
}

#[test]
fn every_float_counts_as_its_number() {
    for number in 0..=200_000 {
        assert_eq!(thousandths(float_of(number), 200), Some(number));
        assert!(off(float_of(number)).unwrap().abs() < 0.01);
    }
    for number in 1..200_000 {
        for x in floats_beside(number) {
            assert_eq!(thousandths(x, 200), Some(number), "{x}");
            assert!(off(x).unwrap().abs() > 0.4);
        }
    }
}

#[test]
fn every_part_counts_as_its_number() {
    for number in -200_000..=200_000 {
        assert_eq!(signed_thousandths(part_of(number), 200), Some(number));
    }
    for number in -199_999..200_000 {
        for x in parts_beside(number) {
            assert_eq!(signed_thousandths(x, 200), Some(number), "{x}");
            assert!(off(x).unwrap().abs() > 0.4 || x.to_bits() == 0x8000_0000);
        }
    }
}

#[test]
fn floats_beside_reach_both_halves() {
    for number in 1..200_000 {
        let [first, second, .., last] = floats_beside(number);
        assert_eq!(thousandths(first.next_down(), 200), Some(number - 1));
        match number % 125 {
            63 => assert_eq!(off(first), Some(-0.5)),
            _ => {
                assert!(first < second && off(first) > Some(-0.5));
                assert_eq!(thousandths(last.next_up(), 200), Some(number + 1));
            }
        }
    }
}

#[test]
fn floats_beside_an_end_of_the_range_can_be_missing() {
    let missing = |number, limit| floats_beside(number).map(|x| thousandths(x, limit).is_none());
    assert_eq!(missing(0, 200), [true, true, true, false, false]);
    assert_eq!(missing(40_000, 40), [false, false, false, true, true]);
    assert_eq!(missing(200_000, 200), [false, false, false, true, true]);
}

#[test]
fn a_good_share_of_the_readings_lies_beside() {
    let (mut all, mut beside, mut halves) = (0, 0, 0);
    for seed in 0..100 {
        let mut scene = Scene::new(seed);
        for _ in 0..500 {
            let (input, _) = scene.next_tick();
            let floats = input.readings().map(|reading| match reading {
                Reading::Good(x) | Reading::Held(x) => off(x),
                Reading::Invalid => None,
            });
            let offs: Vec<f64> = floats.into_iter().flatten().collect();
            all += offs.len();
            beside += offs.iter().filter(|off| off.abs() > 0.4).count();
            halves += offs.iter().filter(|&&off| off == -0.5).count();
        }
    }
    assert!((all / 5..all / 3).contains(&beside), "{beside} of {all}");
    assert!(halves > 200, "{halves} of {all}");
}

/// A way to make a whole number of a thousandfold.
type Count = fn(f64) -> f64;

/// The tick with each number in range replaced by the one it counts as.
fn counted(input: &Input, settings: &Settings, count: Count) -> Input {
    let amps = amp_limit(module_k(settings));
    let volts = VOLT_LIMIT;
    let limits = [volts, volts, volts, amps, amps, amps, volts, volts, amps, amps, amps, amps];
    // A part by its magnitude, with its sign.
    let whole = |x: f32| float_of(count(thousandfold(x.abs())) as u32).copysign(x);
    let mut readings = input.readings();
    for (place, (reading, limit)) in readings.iter_mut().zip(limits).enumerate() {
        let in_range = |x: f32| thousandths(if place < 6 { x } else { x.abs() }, limit).is_some();
        *reading = match *reading {
            Reading::Good(x) if in_range(x) => Reading::Good(whole(x)),
            Reading::Held(x) if in_range(x) => Reading::Held(whole(x)),
            missing => missing,
        };
    }
    Input::of(readings, input.contacts.0, input.bcd, input.sensor)
}

/// On how many simulated ticks each output, and any output at all, would be
/// another one if readings were counted this way.
fn ticks_that_differ(seeds: u64, count: Count) -> ([u32; OUTPUTS], u32) {
    let (mut by_field, mut any) = ([0; OUTPUTS], 0);
    for seed in 0..seeds {
        let mut scene = Scene::new(seed);
        for _ in 0..500 {
            let before = scene.record.clone();
            let (input, ticked) = scene.next_tick();
            let other = tick(&before, &counted(&input, &before.settings, count));
            any += u32::from(other.outputs != ticked.outputs);
            for (field, differ) in by_field.iter_mut().enumerate() {
                *differ += u32::from(other.outputs[field] != ticked.outputs[field]);
            }
        }
    }
    (by_field, any)
}

#[test]
fn no_output_differs_by_the_nearest() {
    // `round` takes a half away from zero, so up.
    assert_eq!(ticks_that_differ(100, f64::round), ([0; OUTPUTS], 0));
}

#[test]
fn outputs_differ_if_readings_are_cut_off() {
    let (by_field, any) = ticks_that_differ(1_000, f64::floor);
    assert!(any > 1_000, "{any}");
    // The section, the trips, automatic and manual blocked, low and high.
    for field in [2, 6, 7, 8, 9, 10, 11, 12, 13, 14, 17, 18] {
        assert!(by_field[field] > 0, "output {field}");
    }
}

#[test]
fn outputs_differ_if_readings_are_taken_up() {
    let (_, any) = ticks_that_differ(100, f64::ceil);
    assert!(any > 500, "{any}");
}

#[test]
fn outputs_differ_if_a_half_goes_down_or_to_the_even_number() {
    // Rare: next to most borders no float holds a half.
    let (_, down) = ticks_that_differ(400, |y| (y - 0.5).ceil());
    let (_, even) = ticks_that_differ(400, f64::round_ties_even);
    assert!(down > 0 && even > 0, "{down}, {even}");
}
