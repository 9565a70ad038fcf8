//! Scenarios for ticket 5's ratings of the current transformer and the breaker.

mod common;

use common::*;
use reference::input::{bit, Input};
use reference::reading::Reading;
use reference::record::Record;
use reference::sheet::{module_k, slot, Settings};
use reference::tick::tick;
use reference::values::{base_5a, u_by_u_comp, BASE, COMPS};
use reference::voltage::{compensation, judge, Ratings};

fn rated(transformer: u32, breaker: u32) -> Ratings {
    Ratings { transformer, breaker }
}

/// Two slots' changes that give these ratings.
fn ratings(transformer: u32, breaker: u32) -> [(usize, u32); 2] {
    [(slot::TRANSFORMER_RATING, transformer), (slot::BREAKER_RATING, breaker)]
}

// The drop.

#[test]
fn worked_values() {
    let expected = [
        // 5,100 x -3 / 5,000 is -3.06: 01's bench value.
        100_003,
        // x 2,000 / 1,250 it is -4.896; down it would be -5, the nearest is -5.
        100_004,
        // 4.896: down and toward zero it is 4, the nearest is 5.
        99_996,
        // -1.9125: ratings swapped.
        100_001,
        // With 1 A -24.48: five times -4.896, cut off afterwards.
        100_024,
        // -60.384. Cut off to -37 before the ratings, it would be -59.2.
        100_060,
        // No current, no drop.
        100_000,
        // Just 2.
        99_998,
        // 1.99999: the nearest would be 2.
        99_999,
        // 29,985. With 1,999 / 2,000 cut off first there would be no drop.
        70_015,
        // 1.6 million mV: U is far below 0.
        -1_500_000,
        // -32 million V: past what 32 bits hold.
        32_000_200_000,
        -32_000_000_000,
    ];
    assert_eq!(COMPS.map(u_by_u_comp), expected);
}

/// A drop, from U_comp, I, k and the two ratings.
type Rule = fn(i128, i128, i128, i128, i128) -> i128;

/// The ticket's sentence once more.
const TICKET: Rule = |u, i, k, t, b| u * i * t / (1_000 * k * b);

/// Wrong and inviting, and the rows of the worked values that show it.
const WRONG: [(&str, Rule, &[usize]); 8] = [
    ("01's drop", |u, i, k, _, _| u * i / (1_000 * k), &[1, 2, 3, 4, 5, 7, 8, 9, 11, 12]),
    ("ratings swapped", |u, i, k, t, b| u * i * b / (1_000 * k * t), &[1, 2, 3, 4, 5, 7, 8, 9, 11, 12]),
    ("01's drop first", |u, i, k, t, b| u * i / (1_000 * k) * t / b, &[5]),
    ("the ratings' quotient first", |u, i, k, t, b| u * i * (t / b) / (1_000 * k), &[1, 2, 3, 4, 5, 7, 8, 9]),
    ("the current per k first", |u, i, k, t, b| u * (i / k) * t / (1_000 * b), &[0, 1, 2, 3, 5]),
    ("down", |u, i, k, t, b| (u * i * t).div_euclid(1_000 * k * b), &[0, 1, 3, 4, 5]),
    (
        "away from zero",
        |u, i, k, t, b| (u * i * t + i.signum() * (1_000 * k * b - 1)) / (1_000 * k * b),
        &[0, 1, 2, 3, 4, 5, 8],
    ),
    ("the nearest", |u, i, k, t, b| (2 * u * i * t + i.signum() * 1_000 * k * b) / (2_000 * k * b), &[1, 2, 3, 8]),
];

/// A rule's drop on each row of the worked values.
fn drops(rule: Rule) -> [i128; COMPS.len()] {
    COMPS.map(|row| {
        let k = if row.module == 1 { 5 } else { 1 };
        let current = i128::from(row.i_bus) - i128::from(row.i_coupler);
        rule(row.u_comp.into(), current, k, row.transformer.into(), row.breaker.into())
    })
}

#[test]
fn worked_values_tell_the_wrong_rules() {
    let right = drops(TICKET);
    let shown = COMPS.map(|row| i128::from(row.u_ab) - i128::from(u_by_u_comp(row)));
    assert_eq!(shown, right);
    for (name, rule, rows) in WRONG {
        let wrong = drops(rule);
        let differ: Vec<usize> = (0..COMPS.len()).filter(|&row| wrong[row] != right[row]).collect();
        assert_eq!(differ, rows, "{name}");
    }
}

#[test]
fn divided_once_after_all_products() {
    // With 5 A and U_comp 5,000 01's drop is the current itself, in mV: so many
    // times 2,000 / 1,250, toward zero.
    for (current, drop) in [(1, 1), (2, 3), (3, 4), (4, 6), (5, 8), (-1, -1), (-2, -3), (-3, -4), (-4, -6), (-5, -8)] {
        assert_eq!(compensation(5_000, current, 5, rated(2_000, 1_250)), drop);
    }
    // 0.2 mV: nothing is left of it by itself, 16 mV times 80.
    assert_eq!(compensation(1_000, 1, 5, rated(1, 1)), 0);
    assert_eq!(compensation(1_000, 1, 5, rated(80, 1)), 16);
    assert_eq!(compensation(1_000, -1, 5, rated(80, 1)), -16);
    // Just below and at 1 mV.
    for (transformer, drop) in [(4_999, 0), (5_000, 1), (5_001, 1)] {
        for sign in [1, -1] {
            assert_eq!(compensation(1_000, sign, 5, rated(transformer, 1_000)), sign * drop);
        }
    }
}

#[test]
fn equal_ratings_give_01_s_drop() {
    let currents = [0, 1, 2, 3, 4, 7, 37, 499, 500, 1_000, 39_999, 40_000, 199_999, 200_000, 400_000];
    for (k, rating) in [1, 5].into_iter().flat_map(|k| [1, 2, 3, 1_249, 1_250, 2_000, 19_999, 20_000].map(|r| (k, r))) {
        for u_comp in (1_000..=40_000).step_by(100) {
            for current in currents.into_iter().flat_map(|current| [current, -current]) {
                let by_01 = i64::from(u_comp) * current / (1_000 * i64::from(k));
                assert_eq!(compensation(u_comp, current, k, rated(rating, rating)), by_01);
            }
        }
    }
}

#[test]
fn only_the_quotient_of_the_ratings_counts() {
    for current in -2_000..=2_000 {
        let drop = compensation(5_100, current, 5, rated(8, 5));
        for times in [2, 250, 2_500] {
            assert_eq!(compensation(5_100, current, 5, rated(8 * times, 5 * times)), drop);
        }
    }
}

/// The low end, beside it, the middle, beside the high end and the high end.
fn along_range(low: u32, high: u32) -> [u32; 5] {
    [low, low + 1, (low + high) / 2, high - 1, high]
}

#[test]
fn the_drop_is_the_ticket_s_over_the_whole_range() {
    let u_comps = [1_000, 1_100, 5_100, 39_900, 40_000];
    let currents = [-400_000, -199_999, -37, -3, -1, 0, 1, 3, 37, 199_999, 400_000];
    for (k, u_comp) in [1, 5].into_iter().flat_map(|k| u_comps.map(|u_comp| (k, u_comp))) {
        for (t, b) in along_range(1, 20_000).into_iter().flat_map(|t| along_range(1, 20_000).map(|b| (t, b))) {
            for current in currents {
                let drop = TICKET(u_comp.into(), current.into(), k.into(), t.into(), b.into());
                assert_eq!(i128::from(compensation(u_comp, current, k, rated(t, b))), drop);
            }
        }
    }
}

// Whole ticks.

/// The base sheet of a module, by U_comp and this current of slot 4.
fn by_u_comp(base: Settings, current: u32) -> Settings {
    let mut settings = base;
    settings[slot::COMPENSATION] = 1;
    settings[slot::COMPENSATION_CURRENT] = current;
    settings
}

/// U_comp and both ratings at an end of their ranges, by a number below 8.
fn at_ends(settings: &mut Settings, number: u32) {
    let rows = [(slot::U_COMP, 1_000, 40_000), (slot::TRANSFORMER_RATING, 1, 20_000), (slot::BREAKER_RATING, 1, 20_000)];
    for (place, (slot, low, high)) in rows.into_iter().enumerate() {
        settings[slot] = if number >> place & 1 == 0 { low } else { high };
    }
}

/// U by the ticket's sentence, and slot 4's once more.
fn expected_u(settings: &Settings, [u_ab, bus, coupler]: [u32; 3]) -> i128 {
    let [u_ab, bus, coupler] = [u_ab, bus, coupler].map(i128::from);
    let current = [bus, coupler, bus - coupler, bus + coupler][settings[slot::COMPENSATION_CURRENT] as usize];
    let [u_comp, transformer, breaker] = [slot::U_COMP, 66, 67].map(|slot| i128::from(settings[slot]));
    u_ab - TICKET(u_comp, current, module_k(settings).into(), transformer, breaker)
}

#[test]
fn nothing_overflows_at_the_ends_of_every_range() {
    for (base, amps) in [(BASE, 40_000), (base_5a(), 200_000)] {
        for (current, number) in (0..32).map(|choice| (choice % 4, choice / 4)) {
            let mut settings = by_u_comp(base, current);
            at_ends(&mut settings, number);
            let mut record = Record::start(&settings).unwrap();
            for number in 0..8 {
                let [u_ab, bus, coupler] = [(1, 200_000), (2, amps), (4, amps)].map(|(bit, end)| (number & bit) / bit * end);
                let input = at(u_ab, bus, coupler);
                let u = judge(&settings, &input).u.map(i128::from);
                assert_eq!(u, Some(expected_u(&settings, [u_ab, bus, coupler])), "{settings:?}");
                step(&mut record, &input);
            }
        }
    }
}

/// The base sheet with 5 A, U_comp 5,100, bus - coupler and these ratings.
fn of_5a(transformer: u32, breaker: u32, changes: &[(usize, u32)]) -> Record {
    let mut settings = by_u_comp(base_5a(), 2);
    settings[slot::U_COMP] = 5_100;
    for &(slot, number) in ratings(transformer, breaker).iter().chain(changes) {
        settings[slot] = number;
    }
    Record::start(&settings).unwrap()
}

/// Automatic, with this U_AB and these currents.
fn at(u_ab: u32, bus: u32, coupler: u32) -> Input {
    let mut input = auto(u_ab, &[]);
    (input.i_bus, input.i_coupler) = (good(bus), good(coupler));
    input
}

#[test]
fn the_ratings_decide_whether_u_is_low() {
    // The low edge is 99,000; the current is 37 mA. 01's drop is 37.74, and 60.384
    // with 2,000 on 1,250, 23.58 with 1,250 on 2,000.
    for (transformer, breaker, drop) in [(1_250, 1_250, 37), (2_000, 1_250, 60), (1_250, 2_000, 23), (1, 20_000, 0)] {
        for (u_ab, low) in [(99_000 + drop, 1), (99_001 + drop, 0)] {
            let outputs = step(&mut of_5a(transformer, breaker, &[]), &at(u_ab, 637, 600));
            assert_eq!((outputs[13], outputs[17], outputs[18]), (0, low, 0), "{transformer} on {breaker}: {u_ab}");
        }
        // The other way the drop lifts U.
        for (u_ab, high) in [(101_000 - drop, 1), (100_999 - drop, 0)] {
            let outputs = step(&mut of_5a(transformer, breaker, &[]), &at(u_ab, 600, 637));
            assert_eq!((outputs[13], outputs[17], outputs[18]), (0, 0, high), "{transformer} on {breaker}: {u_ab}");
        }
    }
    // The same tick, by the ratings low, in the band or high.
    for (transformer, breaker, sides) in [(2_000, 1_250, [1, 0]), (1_250, 2_000, [0, 0]), (1_250, 1_250, [0, 0])] {
        assert_eq!(step(&mut of_5a(transformer, breaker, &[]), &at(99_060, 637, 600))[17..=18], sides);
        let lifted = [sides[1], sides[0]];
        assert_eq!(step(&mut of_5a(transformer, breaker, &[]), &at(100_940, 600, 637))[17..=18], lifted);
    }
}

#[test]
fn every_current_of_slot_4_goes_by_the_ratings() {
    // U_comp 5,000 mV at 1 A, 2,000 on 1,250: 8 mV for 1 mA. Bus 400 mA, coupler 100 mA.
    for (current, drop) in [(0, 3_200), (1, 800), (2, 2_400), (3, 4_000)] {
        let record = Record::start(&by_u_comp(BASE, current)).unwrap();
        assert_eq!(Ratings::of(&record.settings), rated(2_000, 1_250));
        for (u_ab, low) in [(99_000 + drop, 1), (99_001 + drop, 0)] {
            assert_eq!(step(&mut record.clone(), &at(u_ab, 400, 100))[17], low, "slot 4 = {current}");
        }
    }
}

/// The number of the tick, of this input, on which a command begins, and
/// whether it is a raise.
fn begins_on(record: &mut Record, input: &Input) -> Option<(u32, bool)> {
    (1..=200).find_map(|number| {
        let outputs = step(record, input);
        (outputs[0] + outputs[1] == 1).then_some((number, outputs[0] == 1))
    })
}

#[test]
fn commands_and_t3_go_by_the_rated_u() {
    let delays = [(slot::T1, 50), (slot::T3, 20)];
    // U_set5 is 110,000; U is 60, 23 or 37 mV more than U_AB.
    for (u_ab, rated, begun) in [
        (109_941, (2_000, 1_250), Some((20, false))),
        (109_940, (2_000, 1_250), Some((50, false))),
        (109_941, (1_250, 2_000), Some((50, false))),
        (109_941, (1_250, 1_250), Some((50, false))),
        (98_940, (2_000, 1_250), Some((50, true))),
        (98_941, (2_000, 1_250), None),
        (98_941, (1_250, 1_250), Some((50, true))),
        (98_977, (1_250, 2_000), Some((50, true))),
        (98_978, (1_250, 2_000), None),
    ] {
        let mut record = of_5a(rated.0, rated.1, &delays);
        assert_eq!(begins_on(&mut record, &at(u_ab, 600, 637)), begun, "{u_ab} by {rated:?}");
    }
}

#[test]
fn a_held_command_ends_by_the_rated_u() {
    for (transformer, breaker, on) in [(2_000, 1_250, 1), (1_250, 2_000, 0)] {
        let mut record = of_5a(transformer, breaker, &[(slot::CONTINUOUS, 1), (slot::T4, 30)]);
        assert_eq!(begins_on(&mut record, &at(98_000, 637, 600)), Some((20, true)));
        // U is 98,999 or 99,036.
        assert_eq!(step(&mut record, &at(99_059, 637, 600))[0], on);
    }
}

#[test]
fn organs_and_section_go_by_no_rating() {
    for (transformer, breaker) in [(1, 20_000), (1_250, 1_250), (20_000, 1)] {
        let sheet = [(slot::SECTION_NEEDS_CURRENT, 1), (slot::T9 + 1, 0), (slot::T9 + 2, 0)];
        // I_set2 is 5,000 mA, I_set3 500 mA, on the module's side.
        for (bus, section, over) in [(500, 0, 0), (501, 1, 0), (5_000, 1, 0), (5_001, 1, 1)] {
            let outputs = step(&mut of_5a(transformer, breaker, &sheet), &at(100_000, bus, bus));
            assert_eq!((outputs[2], outputs[7]), (section, over), "{bus} mA");
        }
    }
}

#[test]
fn a_needed_current_is_needed_whatever_the_ratings_are() {
    for (transformer, breaker) in [(1, 20_000), (1_250, 1_250), (20_000, 1)] {
        for bad in [held(0), Reading::Invalid, Reading::Good(f32::NAN), Reading::Good(-1.0), Reading::Good(200.00002)] {
            let mut input = at(98_000, 600, 600);
            input.i_coupler = bad;
            let outputs = step(&mut of_5a(transformer, breaker, &[]), &input);
            assert_eq!((outputs[13], outputs[17], outputs[18]), (1, 0, 0));
        }
    }
}

// Where the ratings do not count.

const ANY_RATINGS: [(u32, u32); 6] = [(1, 1), (1, 20_000), (20_000, 1), (20_000, 20_000), (600, 1_250), (1_250, 2_000)];

#[test]
fn without_slot_3_at_1_no_rating_counts() {
    for compensation in [0, 2] {
        let start = |(transformer, breaker)| {
            let slots = [&[(slot::COMPENSATION, compensation)][..], &ratings(transformer, breaker)].concat();
            fresh(&slots)
        };
        let base = start((2_000, 1_250));
        for u in 98_990..=99_010 {
            let mut input = at(u, 700, 300);
            (input.u_ab_pair, input.i_bus_pair) = (pair(u as i32 + 2_771, 2_078), pair(400, 0));
            let expected = tick(&base, &input);
            // R and X drop 2,771 and 2,078 mV.
            assert_eq!(expected.outputs[17], u32::from(u <= 99_000));
            for any in ANY_RATINGS {
                assert_eq!(tick(&start(any), &input).outputs, expected.outputs, "slot 3 = {compensation}, {any:?}");
            }
        }
    }
}

#[test]
fn a_run_along_the_line_is_the_same_whatever_the_ratings_are() {
    let run = |(transformer, breaker)| {
        let mut record = fresh(&[&[(slot::COMPENSATION, 2)][..], &ratings(transformer, breaker)].concat());
        let low = |number: u32| number % 70 < 45;
        let outputs: Vec<Outputs> = (0..500)
            .map(|number| {
                let mut input = at(100_000, 600 + number % 7, 300);
                input.u_ab_pair = pair(if low(number) { 98_000 } else { 103_000 }, 0);
                input.i_bus_pair = pair((number % 5) as i32, -((number % 3) as i32));
                input.contacts.0 |= u32::from(number % 70 > 45) << bit::SWITCHING;
                step(&mut record, &input)
            })
            .collect();
        (outputs, record.operations)
    };
    let expected = run((2_000, 1_250));
    assert!(expected.1 > 3 && expected.0.iter().any(|outputs| outputs[0] == 1));
    for any in ANY_RATINGS {
        assert_eq!(run(any), expected, "{any:?}");
    }
}
