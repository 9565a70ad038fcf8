//! For ticket 9: the writer and the reader with what they are lent, and the rules
//! once more, told by walking along the records.

use reference::journal::{read, write, NumbersRead, TextWritten};

/// What lent memory holds before.
const BYTE: u8 = 0xA5;
const NUMBER: u32 = 0xA5A5_A5A5;

/// The text that the writer makes of a list, or the place of the broken number. With
/// it goes what holds of every list: a buffer that is long enough is written at its
/// front alone, a shorter one not at all, and 8 comes whatever is lent.
pub fn written(list: &[u32]) -> Result<Vec<u8>, usize> {
    let mut buffer = vec![BYTE; 5 * list.len() + 9];
    let TextWritten { refusal, place, length } = write(list, &mut buffer);
    match refusal {
        0 => {
            assert_eq!(place, 0);
            assert!(buffer[length..].iter().all(|&byte| byte == BYTE), "written past the text");
            buffer.truncate(length);
            assert_text_fits(list, &buffer);
            Ok(buffer)
        }
        _ => {
            for lent in [0, 1, list.len(), buffer.len()] {
                let mut buffer = vec![BYTE; lent];
                assert_eq!(write(list, &mut buffer), TextWritten { refusal: 8, place, length: 0 });
                assert_eq!(buffer, vec![BYTE; lent]);
            }
            Err(place)
        }
    }
}

/// The text goes into a buffer just as long, and into no shorter one.
fn assert_text_fits(list: &[u32], text: &[u8]) {
    let mut buffer = vec![!BYTE; text.len()];
    assert_eq!(write(list, &mut buffer), TextWritten { refusal: 0, place: 0, length: text.len() });
    assert_eq!(buffer, text);
    for lent in [0, text.len() / 2, text.len().saturating_sub(1)].into_iter().filter(|&lent| lent < text.len()) {
        let mut buffer = vec![BYTE; lent];
        assert_eq!(write(list, &mut buffer), TextWritten { refusal: 7, place: 0, length: 0 });
        assert_eq!(buffer, vec![BYTE; lent]);
    }
}

/// The numbers that the reader takes from a text, or the offset of the broken one,
/// with the like of what goes with `written`.
pub fn taken(text: &[u8]) -> Result<Vec<u32>, usize> {
    let mut list = vec![NUMBER; text.len() + 4];
    let NumbersRead { refusal, offset, count } = read(text, &mut list);
    match refusal {
        0 => {
            assert_eq!(offset, 0);
            assert!(list[count..].iter().all(|&number| number == NUMBER), "written past the numbers");
            list.truncate(count);
            assert_numbers_fit(text, &list);
            Ok(list)
        }
        _ => {
            for lent in [0, 1, text.len(), list.len()] {
                let mut list = vec![NUMBER; lent];
                assert_eq!(read(text, &mut list), NumbersRead { refusal: 8, offset, count: 0 });
                assert_eq!(list, vec![NUMBER; lent]);
            }
            Err(offset)
        }
    }
}

/// The numbers go into a list just as long, and into no shorter one.
fn assert_numbers_fit(text: &[u8], numbers: &[u32]) {
    let count = numbers.len();
    let mut list = vec![!NUMBER; count];
    assert_eq!(read(text, &mut list), NumbersRead { refusal: 0, offset: 0, count });
    assert_eq!(list, numbers);
    for lent in [0, count / 2, count.saturating_sub(1)].into_iter().filter(|&lent| lent < count) {
        let mut list = vec![NUMBER; lent];
        assert_eq!(read(text, &mut list), NumbersRead { refusal: 7, offset: 0, count: 0 });
        assert_eq!(list, vec![NUMBER; lent]);
    }
}

/// The rules that a number can break.
pub const LIST_RULES: [&str; 6] =
    ["stamp not later", "field too high", "field not rising", "value too high", "value repeated", "number missing"];
pub const GROUP_RULES: [&str; 3] = ["needless group", "number too large", "number cut off"];

/// The first broken number of a list and the rule that it breaks.
pub fn told_of_list(list: &[u32]) -> Option<(usize, &'static str)> {
    let mut values = [0; 28];
    let mut before = None;
    for (i, record) in list.chunks(3).enumerate() {
        if let Some((number, rule)) = told_of_record(record, before, &values) {
            return Some((3 * i + number, rule));
        }
        values[record[1] as usize] = record[2];
        before = Some((record[0], record[1]));
    }
    None
}

fn told_of_record(record: &[u32], before: Option<(u32, u32)>, values: &[u32; 28]) -> Option<(usize, &'static str)> {
    let ahead = match before {
        Some((stamp, _)) => (i64::from(record[0]) - i64::from(stamp)).rem_euclid(1 << 32),
        None => 1,
    };
    let not_rising = |field: u32| ahead == 0 && before.is_some_and(|(_, field_before)| field <= field_before);
    let most = |field| [1, 40, 999_999][usize::from(field == 3) + 2 * usize::from(field == 25)];
    match *record {
        [_, ..] if ahead >= 1 << 31 => Some((0, LIST_RULES[0])),
        [_, field, ..] if field > 27 => Some((1, LIST_RULES[1])),
        [_, field, ..] if not_rising(field) => Some((1, LIST_RULES[2])),
        [_, field, value] if value > most(field) => Some((2, LIST_RULES[3])),
        [_, field, value] if value == values[field as usize] => Some((2, LIST_RULES[4])),
        [_, _, _] => None,
        _ => Some((record.len(), LIST_RULES[5])),
    }
}

/// The offset of the first broken number of a text and the rule that it breaks.
pub fn told_of_text(text: &[u8]) -> Option<(usize, &'static str)> {
    let (mut list, mut offsets) = (Vec::new(), vec![0]);
    let mut rest = text;
    let mut bad_groups = None;
    while !rest.is_empty() && bad_groups.is_none() {
        match told_of_number(rest) {
            Ok((number, after)) => {
                list.push(number);
                rest = after;
                offsets.push(text.len() - rest.len());
            }
            Err(rule) => bad_groups = Some(rule),
        }
    }
    match (told_of_list(&list), bad_groups) {
        (Some((place, rule)), _) if place < list.len() => Some((offsets[place], rule)),
        (_, Some(rule)) => Some((offsets[list.len()], rule)),
        (missing, None) => missing.map(|(_, rule)| (text.len(), rule)),
    }
}

/// The number in front and what comes after it, or the rule that it breaks.
fn told_of_number(text: &[u8]) -> Result<(u32, &[u8]), &'static str> {
    let mut number: u64 = 0;
    for (place, &byte) in text.iter().enumerate() {
        number += u64::from(byte % 128) << (7 * place.min(5)); // past five groups it is too large anyway
        match (byte, place) {
            (128.., _) => {}
            (0, 1..) => return Err(GROUP_RULES[0]),
            _ if place >= 5 || number >> 32 != 0 => return Err(GROUP_RULES[1]),
            _ => return Ok((number as u32, &text[place + 1..])),
        }
    }
    Err(GROUP_RULES[2])
}
