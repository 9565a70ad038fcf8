//! Ticket 9, "A journal of changes": the groups of a number, round trips both ways,
//! and that a text is the only one of its list.

mod common;

use common::journals::{taken, told_of_list, told_of_text, written};
use reference::dice::Dice;
use reference::journal::{groups, read, write, NumbersRead, TextWritten, CHANGE};
use reference::near_journal::{journal, shaken_text};

/// Numbers at both ends of each count of groups.
const NUMBERS: [(u32, &[u8]); 16] = [
    (0, &[0x00]),
    (1, &[0x01]),
    (127, &[0x7F]),
    (128, &[0x80, 0x01]),
    (129, &[0x81, 0x01]),
    (16_383, &[0xFF, 0x7F]),
    (16_384, &[0x80, 0x80, 0x01]),
    (2_097_151, &[0xFF, 0xFF, 0x7F]),
    (2_097_152, &[0x80, 0x80, 0x80, 0x01]),
    (268_435_455, &[0xFF, 0xFF, 0xFF, 0x7F]),
    (268_435_456, &[0x80, 0x80, 0x80, 0x80, 0x01]),
    (2_147_483_647, &[0xFF, 0xFF, 0xFF, 0xFF, 0x07]),
    (2_147_483_648, &[0x80, 0x80, 0x80, 0x80, 0x08]),
    (0x1234_5678, &[0xF8, 0xAC, 0xD1, 0x91, 0x01]),
    (4_294_967_294, &[0xFE, 0xFF, 0xFF, 0xFF, 0x0F]),
    (4_294_967_295, &[0xFF, 0xFF, 0xFF, 0xFF, 0x0F]),
];

/// A text with this as its first stamp.
fn as_stamp(number: &[u8]) -> Vec<u8> {
    [number, &[0x18, 0x01]].concat()
}

#[test]
fn numbers_have_their_groups() {
    for (number, bytes) in NUMBERS {
        assert_eq!(groups(number), bytes);
        assert_eq!(written(&[number, 24, 1]), Ok(as_stamp(bytes)));
        assert_eq!(taken(&as_stamp(bytes)), Ok(vec![number, 24, 1]));
    }
}

#[test]
fn a_needless_last_group_breaks_the_number() {
    for (_, bytes) in NUMBERS {
        for more in 0..6 {
            let mut long = bytes.to_vec();
            *long.last_mut().unwrap() |= 0x80;
            long.extend(vec![0x80; more]);
            long.push(0);
            assert_eq!(taken(&as_stamp(&long)), Err(0), "{long:?}");
        }
    }
    // A last group of 0 that is the only one is not needless.
    assert_eq!(taken(&[0x00, 0x00, 0x01, 0x01, 0x00, 0x00]), Ok(vec![0, 0, 1, 1, 0, 0]));
    // Each number of a record can have one.
    assert_eq!(taken(&[0x05, 0x98, 0x00, 0x01]), Err(1));
    assert_eq!(taken(&[0x05, 0x18, 0x81, 0x00]), Err(2));
    assert_eq!(taken(&[0x05, 0x18, 0x01, 0x89, 0x00, 0x18, 0x00]), Err(3));
    assert_eq!(taken(&[0x05, 0x18, 0x01, 0x09, 0x18, 0x80, 0x00]), Err(5));
}

#[test]
fn a_number_not_below_2_to_the_32nd_is_broken() {
    for last in 0x01..=0x7F {
        let offset = (last > 0x0F).then_some(0);
        assert_eq!(taken(&as_stamp(&[0x80, 0x80, 0x80, 0x80, last])).err(), offset, "{last}");
        assert_eq!(taken(&as_stamp(&[0xFF, 0xFF, 0xFF, 0xFF, last])).err(), offset, "{last}");
    }
    // Cut to 32 bits it would be field 24 or value 1.
    assert_eq!(taken(&[0x05, 0x98, 0x80, 0x80, 0x80, 0x10, 0x01]), Err(1));
    assert_eq!(taken(&[0x05, 0x18, 0x81, 0x80, 0x80, 0x80, 0x10]), Err(2));
}

#[test]
fn a_sixth_group_breaks_the_number() {
    for last in 0x00..=0x7F {
        for middle in [0x80, 0x8F, 0xFF] {
            assert_eq!(taken(&as_stamp(&[0x85, 0x80, 0x80, 0x80, middle, last])), Err(0));
        }
    }
    // Groups so far up that a shift would come round.
    for groups in 7..80 {
        let long = [vec![0x85], vec![0x80; groups - 2], vec![0x01]].concat();
        assert_eq!(taken(&as_stamp(&long)), Err(0), "{groups}");
        assert_eq!(taken(&[&[0x05], &long[..], &[0x01]].concat()), Err(1), "{groups}");
    }
}

#[test]
fn rules_count_for_the_reader_as_for_the_writer() {
    assert_eq!(taken(&[0x05, 0x18, 0x01, 0x09, 0x18, 0x00]), Ok(vec![5, 24, 1, 9, 24, 0]));
    assert_eq!(taken(&[0x05, 0x1C, 0x01]), Err(1)); // field 28
    assert_eq!(taken(&[0x05, 0x98, 0x01, 0x01]), Err(1)); // field 152
    assert_eq!(taken(&[0x05, 0x18, 0x02]), Err(2)); // above 1
    assert_eq!(taken(&[0x05, 0x03, 0x28]), Ok(vec![5, 3, 40]));
    assert_eq!(taken(&[0x05, 0x03, 0x29]), Err(2));
    assert_eq!(taken(&[0x05, 0x19, 0xBF, 0x84, 0x3D]), Ok(vec![5, 25, 999_999]));
    assert_eq!(taken(&[0x05, 0x19, 0xC0, 0x84, 0x3D]), Err(2));
    assert_eq!(taken(&[0x05, 0x18, 0x00]), Err(2)); // at first 0
    assert_eq!(taken(&[0x05, 0x18, 0x01, 0x09, 0x18, 0x01]), Err(5)); // the last one again
    assert_eq!(taken(&[0x05, 0x18, 0x01, 0x05, 0x18, 0x00]), Err(4)); // the field does not rise
    assert_eq!(taken(&[0x05, 0x18, 0x01, 0x05, 0x19, 0x01]), Ok(vec![5, 24, 1, 5, 25, 1]));
    assert_eq!(taken(&[0x05, 0x18, 0x01, 0x04, 0x18, 0x00]), Err(3)); // earlier
    let end = [0xFF, 0xFF, 0xFF, 0xFF, 0x0F];
    assert_eq!(taken(&[&end[..], &[0x18, 0x01, 0x00, 0x18, 0x00]].concat()), Ok(vec![u32::MAX, 24, 1, 0, 24, 0]));
    assert_eq!(taken(&[&[0x00, 0x18, 0x01], &end[..], &[0x18, 0x00]].concat()), Err(3));
}

// "A writer makes the one possible text of a list, and a reader takes nothing else."

#[test]
fn what_is_written_reads_back() {
    let mut dice = Dice::new(91);
    for changes in (0..60).cycle().take(1_500) {
        let list = journal(&mut dice, changes);
        let text = written(&list).expect("it keeps all rules");
        assert_eq!(taken(&text), Ok(list));
    }
}

#[test]
fn what_is_read_is_written_just_so() {
    let mut dice = Dice::new(92);
    let mut took = 0;
    for changes in (1..6).cycle().take(20_000) {
        let text = shaken_text(&mut dice, changes);
        if let Ok(list) = taken(&text) {
            assert_eq!(written(&list), Ok(text));
            took += 1;
        }
    }
    assert!(took > 1_000, "{took}");
}

/// All texts of up to six of these bytes: up to two records.
#[test]
fn short_texts_are_taken_once_each() {
    let bytes = [0x00, 0x01, 0x02, 0x03, 0x1B, 0x1C, 0x80, 0x81];
    let mut took = 0;
    let mut texts: Vec<Vec<u8>> = vec![vec![]];
    for _ in 0..=6 {
        for text in &texts {
            let mut list = [0; 6];
            let answer = read(text, &mut list);
            assert_eq!((answer.refusal == 8).then_some(answer.offset), told_of_text(text).map(|(offset, _)| offset));
            if answer.refusal == 0 {
                let mut again = [0; 6];
                let length = text.len();
                assert_eq!(write(&list[..answer.count], &mut again), TextWritten { refusal: 0, place: 0, length });
                assert_eq!(again[..length], text[..]);
                took += 1;
            }
        }
        texts = texts.iter().flat_map(|text| bytes.map(|byte| [&text[..], &[byte]].concat())).collect();
    }
    assert!(took > 100, "{took}");
}

/// All lists of up to two records of these numbers, each up to its first broken one.
#[test]
fn short_lists_are_written_once_each() {
    let numbers = [0, 1, 2, 3, 25, 27, 28, 0x7FFF_FFFF, 0x8000_0000, u32::MAX];
    let mut lists: Vec<Vec<u32>> = vec![vec![]];
    let mut texts = Vec::new();
    for length in 0..=2 * CHANGE {
        for list in &lists {
            let mut buffer = [0; 5 * 2 * CHANGE];
            let TextWritten { refusal, place, length } = write(list, &mut buffer);
            assert_eq!((refusal == 8).then_some(place), told_of_list(list).map(|(place, _)| place), "{list:?}");
            if refusal == 0 {
                let mut again = vec![0; list.len()];
                let count = list.len();
                assert_eq!(read(&buffer[..length], &mut again), NumbersRead { refusal: 0, offset: 0, count });
                assert_eq!(&again, list);
                texts.push(buffer[..length].to_vec());
            }
        }
        if length < 2 * CHANGE {
            let kept = lists.into_iter().filter(|list| told_of_list(list).is_none_or(|(place, _)| place == list.len()));
            lists = kept.flat_map(|list| numbers.map(|number| [&list[..], &[number]].concat())).collect();
        }
    }
    let count = texts.len();
    texts.sort();
    texts.dedup();
    assert!(texts.len() == count && count > 1_000, "{count}");
}

/// Ticket 10 speaks of journals of at most 65,536 bytes. In these, all fields change in
/// turn, one on a tick or all at once, or one field alone.
#[test]
fn long_journals_are_written_and_read() {
    let in_turn = |i: u32| [i, i % 28, (i / 28 + 1) % 2];
    let at_once = |i: u32| [i / 28, i % 28, (i / 28 + 1) % 2];
    let alone = |i: u32| [i.wrapping_mul(0x7FFF_FFFF), 14, (i + 1) % 2];
    for change in [in_turn, at_once, alone] {
        let list: Vec<u32> = (0..20_000).flat_map(change).collect();
        let text = written(&list).expect("it keeps all rules");
        assert!(text.len() > 65_536);
        assert_eq!(taken(&text), Ok(list));
    }
    assert_eq!(taken(&[0x80; 65_536]), Err(0));
}
