//! Ticket 9, "A journal of changes": worked lists, and what the writer makes of them.

mod common;

use common::journals::written;
use reference::journal::{write, TextWritten, CHANGE};
use reference::tick::OUTPUTS;

/// The list of these records.
fn list(records: &[[u32; CHANGE]]) -> Vec<u32> {
    records.concat()
}

/// The place of the broken number of these records, if one is.
fn broken(records: &[[u32; CHANGE]]) -> Option<usize> {
    written(&list(records)).err()
}

const MAX: u32 = u32::MAX;

// "Each is an unsigned number below 4,294,967,296 in groups of seven bits."

#[test]
fn a_record_is_stamp_field_value() {
    assert_eq!(written(&[5, 24, 1, 9, 24, 0]), Ok(vec![0x05, 0x18, 0x01, 0x09, 0x18, 0x00]));
    assert_eq!(written(&[300, 25, 999_999]), Ok(vec![0xAC, 0x02, 0x19, 0xBF, 0x84, 0x3D]));
    assert_eq!(written(&[MAX, 0, 1, 0, 0, 0]), Ok(vec![0xFF, 0xFF, 0xFF, 0xFF, 0x0F, 0, 1, 0, 0, 0]));
}

#[test]
fn an_empty_list_has_an_empty_text() {
    assert_eq!(written(&[]), Ok(vec![]));
    assert_eq!(write(&[], &mut []), TextWritten { refusal: 0, place: 0, length: 0 });
}

#[test]
fn the_first_stamp_may_be_any() {
    for stamp in [0, 1, 127, 128, 0x7FFF_FFFF, 0x8000_0000, 0x8000_0001, MAX - 1, MAX] {
        assert_eq!(broken(&[[stamp, 0, 1]]), None);
    }
}

// "... b is later than a if b − a, so wrapped, is 1 to 2,147,483,647." "Neighbouring
// records have equal or later stamps."

const LATER: [(u32, u32); 12] = [
    (0, 1),
    (0, 2_147_483_646),
    (0, 2_147_483_647),
    (1, 2_147_483_648),
    (2_147_483_647, 2_147_483_648),
    (2_147_483_648, 4_294_967_295),
    (2_147_483_649, 0),
    (4_294_967_294, 4_294_967_295),
    (4_294_967_295, 0),
    (4_294_967_295, 1),
    (4_294_967_295, 2_147_483_646),
    (3_000_000_000, 852_516_351),
];

const NOT_LATER: [(u32, u32); 12] = [
    (1, 0),
    (5, 4),
    (0, 2_147_483_648),
    (0, 2_147_483_649),
    (0, 4_294_967_295),
    (1, 2_147_483_649),
    (2_147_483_648, 0),
    (2_147_483_648, 2_147_483_647),
    (4_294_967_295, 2_147_483_647),
    (4_294_967_295, 4_294_967_294),
    (2_147_483_647, 4_294_967_295),
    (3_000_000_000, 852_516_352),
];

#[test]
fn a_later_stamp_follows_and_an_earlier_one_does_not() {
    for field in [0, 5, 6, 27] {
        for (a, b) in LATER {
            assert_eq!(broken(&[[a, 5, 1], [b, field, u32::from(field != 5)]]), None, "{a}, {b}");
        }
        for (a, b) in NOT_LATER {
            assert_eq!(broken(&[[a, 5, 1], [b, field, u32::from(field != 5)]]), Some(3), "{a}, {b}");
        }
    }
}

#[test]
fn a_stamp_follows_its_neighbour_s_alone() {
    let far: u32 = 2_147_483_647;
    let round: Vec<u32> = (0..7).flat_map(|i: u32| [far.wrapping_mul(i), 0, (i + 1) % 2]).collect();
    assert_eq!(written(&round).err(), None);
    // Later than the first, but not than the second.
    assert_eq!(broken(&[[10, 0, 1], [20, 1, 1], [15, 2, 1]]), Some(6));
    // Not later than the first, but later than the second.
    assert_eq!(broken(&[[10, 0, 1], [far, 1, 1], [far + 11, 2, 1]]), None);
}

// "... with equal stamps the field rises."

#[test]
fn with_equal_stamps_the_field_rises() {
    for stamp in [0, 7, 0x8000_0000, MAX] {
        for (before, field) in [(0, 1), (0, 27), (3, 4), (12, 25), (26, 27)] {
            assert_eq!(broken(&[[stamp, before, 1], [stamp, field, 1]]), None);
        }
        for (before, field) in [(1, 0), (27, 0), (4, 3), (25, 12), (27, 26)] {
            assert_eq!(broken(&[[stamp, before, 1], [stamp, field, 1]]), Some(4));
        }
        for field in [0, 3, 25, 27] {
            assert_eq!(broken(&[[stamp, field, 1], [stamp, field, 0]]), Some(4));
            assert_eq!(broken(&[[stamp, field, 1], [stamp.wrapping_add(1), field, 0]]), None);
        }
    }
}

#[test]
fn all_fields_may_change_on_one_tick() {
    let all: Vec<[u32; CHANGE]> = (0..OUTPUTS as u32).map(|field| [9, field, 1]).collect();
    assert_eq!(broken(&all), None);
    // After the last field it is the field that cannot rise, not the stamp.
    for field in 0..30 {
        assert_eq!(broken(&[&all[..], &[[9, field, 0]]].concat()), Some(3 * OUTPUTS + 1));
        let next_tick = if field < 28 { None } else { Some(3 * OUTPUTS + 1) };
        assert_eq!(broken(&[&all[..], &[[10, field, 0]]].concat()), next_tick);
    }
}

#[test]
fn the_field_rises_above_the_last_record_s() {
    assert_eq!(broken(&[[1, 2, 1], [1, 8, 1], [1, 5, 1]]), Some(7));
    assert_eq!(broken(&[[1, 8, 1], [2, 2, 1], [2, 5, 1]]), None);
    assert_eq!(broken(&[[1, 8, 1], [2, 2, 1], [2, 2, 0]]), Some(7));
}

// "Fields are 0–27, values at most 1, but 40 for field 3 and 999,999 for field 25."

#[test]
fn fields_go_from_0_to_27() {
    for field in 0..=27 {
        assert_eq!(broken(&[[0, field, 1]]), None);
    }
    for field in [28, 29, 63, 127, 128, 131, 153, 256, 65_536 + 3, 0x8000_0000, 0x8000_0019, MAX] {
        for value in [0, 1, 2, 40, MAX] {
            assert_eq!(broken(&[[0, field, value]]), Some(1));
        }
        assert_eq!(broken(&[[7, 4, 1], [8, field, 1]]), Some(4));
    }
}

#[test]
fn values_go_up_to_their_field_s_highest() {
    for field in 0..=27 {
        let highest = match field {
            3 => 40,
            25 => 999_999,
            _ => 1,
        };
        for value in [1, 2, 39, 40, 41, 127, 128, 999_998, 999_999, 1_000_000, 0x8000_0001, MAX] {
            let place = (value > highest).then_some(2);
            assert_eq!(broken(&[[3, field, value]]), place, "field {field}, value {value}");
        }
    }
}

// "A value differs from its field's last one, at first 0."

#[test]
fn a_first_value_is_not_0() {
    for field in 0..=27 {
        assert_eq!(broken(&[[3, field, 0]]), Some(2));
        let other = (field + 1) % 28;
        assert_eq!(broken(&[[3, other, 1], [4, other, 0], [5, field, 0]]), Some(8));
        assert_eq!(broken(&[[3, other, 1], [4, field, 1], [5, field, 0]]), None);
    }
}

#[test]
fn a_value_is_not_its_field_s_last_one() {
    assert_eq!(broken(&[[1, 0, 1], [2, 0, 1]]), Some(5));
    assert_eq!(broken(&[[1, 0, 1], [2, 0, 0], [3, 0, 0]]), Some(8));
    assert_eq!(broken(&[[1, 0, 1], [2, 0, 0], [3, 0, 1]]), None);
    assert_eq!(broken(&[[1, 3, 20], [2, 3, 21], [3, 3, 20], [4, 3, 0], [5, 3, 40]]), None);
    assert_eq!(broken(&[[1, 3, 20], [2, 3, 20]]), Some(5));
    assert_eq!(broken(&[[1, 25, 999_999], [2, 25, 0], [3, 25, 999_999]]), None);
    assert_eq!(broken(&[[1, 25, 999_999], [2, 25, 999_999]]), Some(5));
}

#[test]
fn the_last_value_is_that_of_the_same_field() {
    // Others in between, on the same tick or on others, do not count.
    assert_eq!(broken(&[[1, 3, 7], [1, 25, 8], [2, 3, 8], [2, 25, 7]]), None);
    assert_eq!(broken(&[[1, 3, 7], [2, 25, 8], [3, 3, 7]]), Some(8));
    assert_eq!(broken(&[[1, 3, 7], [2, 25, 8], [3, 3, 9], [4, 25, 8]]), Some(11));
    let mut long = vec![[0, 13, 1]];
    long.extend((1..=1_000).map(|stamp| [stamp, 14, stamp % 2]));
    assert_eq!(broken(&[&long[..], &[[2_000, 13, 0]]].concat()), None);
    assert_eq!(broken(&[&long[..], &[[2_000, 13, 1]]].concat()), Some(3 * 1_001 + 2));
}

#[test]
fn each_field_has_a_last_value_of_its_own() {
    let up: Vec<[u32; CHANGE]> = (0..28).map(|field| [field, field, 1]).collect();
    for field in 0..28 {
        assert_eq!(broken(&[&up[..], &[[50, field, 0]]].concat()), None);
        assert_eq!(broken(&[&up[..], &[[50, field, 1]]].concat()), Some(3 * 28 + 2));
    }
}
