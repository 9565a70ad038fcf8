//! The setting sheet's check.

use reference::record::{within_limits, Drive, Fault, Record, Wait};
use reference::sheet::{check, slot, Refusal, Settings, RANGES, SLOTS};
use reference::values::{base_5a, base_continuous, BASE};

fn refused(list: &[u32]) -> (u32, u32) {
    match check(list) {
        Ok(_) => (0, 0),
        Err(Refusal { number, slot }) => (number, slot),
    }
}

fn changed(base: &Settings, slot: usize, number: u32) -> Settings {
    let mut list = *base;
    list[slot] = number;
    list
}

#[test]
fn a_list_of_another_length() {
    assert_eq!(SLOTS, 68);
    for length in 0..=130 {
        let list: Vec<u32> = BASE.into_iter().cycle().take(length).collect();
        assert_eq!(refused(&list), if length == 68 { (0, 0) } else { (1, 0) }, "{length} numbers");
    }
    assert_eq!(refused(&[]), (1, 0));
    assert_eq!(refused(&BASE[..SLOTS - 1]), (1, 0));
    assert_eq!(refused(&[BASE.as_slice(), &[0]].concat()), (1, 0));
}

#[test]
fn base_sheets_are_taken() {
    assert_eq!(refused(&BASE), (0, 0));
    assert_eq!(refused(&base_5a()), (0, 0));
}

/// Low, high, step of every row of the paper, written out once more.
fn paper_row(i: usize, k: u32) -> (u32, u32, u32) {
    match i {
        0..=2 | 6..=18 => (0, 1, 1),
        3 => (0, 2, 1),
        4 => (0, 3, 1),
        5 => (0, 4, 1),
        19..=22 => (80_000, 140_000, 100),
        23 | 24 => (1_000, 40_000, 100),
        25 | 26 => (100 * k, 40_000 * k, 1),
        27 => (50 * k, 5_000 * k, 1),
        28 | 32 => (5_000, 200_000, 100),
        29 => (5_000, 100_000, 100),
        30 => (2_000, 100_000, 100),
        31 => (2_000, 60_000, 100),
        33..=37 => (20, 36_000, 1),
        38 | 39 | 41..=47 => (0, 36_000, 1),
        40 => (20, 2_000, 1),
        48..=50 => (1, 40, 1),
        51 => (0, 499_999, 1),
        52 => (1, 500_000, 1),
        53..=62 => (0, 40, 1),
        63 => (0, 1, 1),
        64 | 65 if k == 5 => (0, 80_000, 1),
        64 | 65 => (0, 400_000, 1),
        66 | 67 => (1, 20_000, 1),
        _ => unreachable!(),
    }
}

#[test]
fn every_row_has_its_ends_and_its_step() {
    for (i, range) in RANGES.iter().enumerate() {
        for k in [1, 5] {
            let (low, high, step) = paper_row(i, k);
            for number in [low, high, low + step, high - step] {
                assert!(range.takes(number, k), "slot {i}: {number}");
            }
            let outside = [low.wrapping_sub(1), high + 1, u32::MAX];
            for number in outside {
                assert!(!range.takes(number, k), "slot {i}: {number}");
            }
            assert_eq!(range.takes(low + 1, k), step == 1, "slot {i}");
        }
    }
}

#[test]
fn the_lowest_bad_slot_is_named() {
    let mut list = changed(&BASE, 60, 41);
    assert_eq!(refused(&list), (2, 60));
    list[33] = 19;
    assert_eq!(refused(&list), (2, 33));
    list[1] = 2;
    assert_eq!(refused(&list), (2, 1));
}

#[test]
fn currents_go_with_the_module() {
    assert_eq!(refused(&changed(&BASE, 25, 40_001)), (2, 25));
    assert_eq!(refused(&changed(&base_5a(), 25, 40_001)), (0, 0));
    assert_eq!(refused(&changed(&base_5a(), 25, 499)), (2, 25));
    assert_eq!(refused(&changed(&BASE, 1, 1)), (2, 27));
}

#[test]
fn r_and_x_go_with_the_module() {
    assert_eq!((slot::R, slot::X), (64, 65));
    for slot in [64, 65] {
        let refusal = (2, slot as u32);
        for (number, by_1a, by_5a) in [
            (0, (0, 0), (0, 0)),
            (1, (0, 0), (0, 0)),
            (80_000, (0, 0), (0, 0)),
            (80_001, (0, 0), refusal),
            (400_000, (0, 0), refusal),
            (400_001, refusal, refusal),
            (u32::MAX, refusal, refusal),
        ] {
            assert_eq!(refused(&changed(&BASE, slot, number)), by_1a, "slot {slot}: {number}");
            assert_eq!(refused(&changed(&base_5a(), slot, number)), by_5a, "slot {slot}: {number}");
        }
    }
    // R is named before X; with 5 A they are tested whatever slot 3 is.
    let mut list = changed(&base_5a(), slot::R, 80_001);
    list[slot::X] = 80_001;
    assert_eq!(refused(&list), (2, 64));
    for compensation in [0, 1, 2] {
        list[slot::COMPENSATION] = compensation;
        assert_eq!(refused(&list), (2, 64));
    }
}

/// Both slots of ticket 5, with numbers at and past the ends of their range.
fn rating_rows() -> impl Iterator<Item = (usize, u32, bool)> {
    let numbers = [(0, false), (1, true), (2, true), (19_999, true), (20_000, true), (20_001, false), (u32::MAX, false)];
    [66, 67].into_iter().flat_map(move |slot| numbers.map(|(number, taken)| (slot, number, taken)))
}

#[test]
fn ratings_are_1_to_20_000_whatever_the_module() {
    assert_eq!((slot::TRANSFORMER_RATING, slot::BREAKER_RATING), (66, 67));
    for (slot, number, taken) in rating_rows() {
        let answer = if taken { (0, 0) } else { (2, slot as u32) };
        for base in [BASE, base_5a()] {
            for compensation in [0, 1, 2] {
                let list = changed(&base, slot::COMPENSATION, compensation);
                assert_eq!(refused(&changed(&list, slot, number)), answer, "slot {slot}: {number}");
            }
        }
    }
}

#[test]
fn ratings_are_tested_in_the_order_of_the_slots() {
    for bad in [0, 20_001] {
        let mut list = changed(&changed(&BASE, 66, bad), 67, bad);
        assert_eq!(refused(&list), (2, 66));
        list[65] = 400_001;
        assert_eq!(refused(&list), (2, 65));
        list[3] = 3;
        assert_eq!(refused(&list), (2, 3));
    }
    // Before 3 and 5, and after 1.
    for (slot, number, taken) in rating_rows() {
        let refusal = |otherwise| if taken { otherwise } else { (2, slot as u32) };
        let taps = changed(&BASE, slot::N_L, 40);
        assert_eq!(refused(&changed(&taps, slot, number)), refusal((3, 49)));
        let position = changed(&BASE, slot::N_L, 21);
        assert_eq!(refused(&changed(&position, slot, number)), refusal((3, 48)));
        assert_eq!(refused(&changed(&base_continuous(), slot, number)), refusal((5, 63)));
        assert_eq!(refused(&changed(&BASE, slot, number)[..67]), (1, 0));
    }
}

#[test]
fn slot_3_takes_2_and_not_3() {
    for base in [BASE, base_5a()] {
        for (number, answer) in [(0, (0, 0)), (1, (0, 0)), (2, (0, 0)), (3, (2, 3)), (u32::MAX, (2, 3))] {
            assert_eq!(refused(&changed(&base, slot::COMPENSATION, number)), answer);
        }
    }
}

#[test]
fn taps_must_be_in_order() {
    assert_eq!(refused(&changed(&BASE, slot::N_L, 40)), (3, 49));
    let mut list = changed(&BASE, slot::N_R, 20);
    list[slot::N_L] = 21;
    assert_eq!(refused(&list), (3, 49));
    assert_eq!(refused(&changed(&BASE, slot::N_L, 21)), (3, 48));
    assert_eq!(refused(&changed(&BASE, slot::N_R, 19)), (3, 48));
    assert_eq!(refused(&changed(&BASE, slot::N_R, 20)), (0, 0));
    // A slot out of range comes before the order of the taps.
    list[62] = 41;
    assert_eq!(refused(&list), (2, 62));
}

#[test]
fn without_the_contact_taps_cannot_be_counted() {
    for (source, continuous, answer) in [
        (0, 1, (0, 0)),
        (1, 1, (0, 0)),
        (2, 1, (0, 0)),
        (3, 1, (5, 63)),
        (4, 1, (5, 63)),
        (3, 0, (0, 0)),
        (4, 0, (0, 0)),
        (3, 2, (2, 63)),
        (5, 1, (2, 5)),
    ] {
        let mut list = changed(&BASE, slot::TAP_SOURCE, source);
        list[slot::CONTINUOUS] = continuous;
        assert_eq!(refused(&list), answer);
    }
}

#[test]
fn refusals_2_and_3_come_before_5() {
    let list = base_continuous();
    assert_eq!(refused(&list), (5, 63));
    assert_eq!(refused(&changed(&list, slot::SLIDING, 41)), (2, 53));
    assert_eq!(refused(&changed(&list, slot::N_L, 40)), (3, 49));
    assert_eq!(refused(&changed(&list, slot::N_L, 21)), (3, 48));
    let longer = [list.as_slice(), &[0]].concat();
    assert_eq!(refused(&longer), (1, 0));
    assert_eq!(refused(&list[..67]), (1, 0));
    assert_eq!(refused(&changed(&list, slot::X, 400_001)), (2, 65));
    assert_eq!(refused(&changed(&list, slot::BREAKER_RATING, 0)), (2, 67));
}

#[test]
fn the_fresh_record() {
    let list = changed(&BASE, slot::N_START, 77);
    let record = Record::start(&list).unwrap();
    assert_eq!(record.settings, list);
    assert!(record.organs.iter().all(|organ| !organ.marked && organ.count == 0));
    assert_eq!((record.drive, record.fault), (Drive::Rest, Fault::None));
    assert_eq!((record.fault_age, record.wait), (0, Wait::None));
    assert_eq!((record.repeat, record.last_direction), (None, None));
    assert_eq!((record.counted_tap, record.operations), (20, 77));
    assert!(record.raise_button && record.lower_button && record.remote_raise && record.remote_lower);
    assert!(!record.remote);
    assert_eq!((record.remembered, Record::zeros().remembered), (None, None));
    assert!(within_limits(&record));
}

#[test]
fn the_record_of_zeros_is_outside_its_limits() {
    assert!(!within_limits(&Record::zeros()));
}
