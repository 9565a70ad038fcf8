//! Ticket 9: "A journal of changes", its writer, its reader and its recorder.
//!
//! "The fault service wants each change of an output field: stamp, field, new
//! value."

use crate::tick::OUTPUTS;

/// The numbers of one change: stamp, field, value.
pub const CHANGE: usize = 3;

/// "b is later than a if b − a, so wrapped, is 1 to 2,147,483,647."
const FURTHEST: u32 = 2_147_483_647;

/// The bit that is "set on all but the last group".
const MORE: u8 = 1 << 7;

/// The answer of the writer.
#[derive(Clone, Copy, Debug, PartialEq, Eq)]
pub struct TextWritten {
    /// 0; 7 for a buffer shorter than the text, 8 for a list that breaks a rule.
    pub refusal: u32,
    /// With 8 the broken number's place in the list, from 0; else 0.
    pub place: usize,
    /// With 0 the bytes of the text; else 0.
    pub length: usize,
}

/// The answer of the reader.
#[derive(Clone, Copy, Debug, PartialEq, Eq)]
pub struct NumbersRead {
    /// 0; 7 for a list shorter than the numbers, 8 for a text that breaks a rule.
    pub refusal: u32,
    /// With 8 the offset of the broken number's first byte; else 0.
    pub offset: usize,
    /// With 0 how many numbers were written; else 0.
    pub count: usize,
}

/// The answer of the recorder.
#[derive(Clone, Copy, Debug, PartialEq, Eq)]
pub struct ChangesAdded {
    /// 0; 7 for a list shorter than the tick's changes.
    pub refusal: u32,
    /// With 0 how many numbers were written; else 0.
    pub count: u32,
    /// With 0 the next tick's stamp; else the one given.
    pub stamp: u32,
}

/// "A writer makes the one possible text of a list": the text of a journal given
/// as a flat list of numbers, three a record, at the front of the lent buffer.
pub fn write(list: &[u32], buffer: &mut [u8]) -> TextWritten {
    // "8 is tested before 7, and neither writes anything."
    if let Some(place) = first_broken(list) {
        return TextWritten { refusal: 8, place, length: 0 };
    }
    let text: Vec<u8> = list.iter().flat_map(|&number| groups(number)).collect();
    match put_in_front(buffer, &text) {
        true => TextWritten { refusal: 0, place: 0, length: text.len() },
        false => TextWritten { refusal: 7, place: 0, length: 0 },
    }
}

/// The reader, which "takes nothing else": the numbers of a journal's text, at the
/// front of the lent list.
pub fn read(text: &[u8], list: &mut [u32]) -> NumbersRead {
    match numbers(text) {
        Err(offset) => NumbersRead { refusal: 8, offset, count: 0 },
        Ok(numbers) => match put_in_front(list, &numbers) {
            true => NumbersRead { refusal: 0, offset: 0, count: numbers.len() },
            false => NumbersRead { refusal: 7, offset: 0, count: 0 },
        },
    }
}

/// The recorder: what one tick adds to a journal, at the front of the lent list, a
/// record for each output that is not what it was before.
pub fn changes(before: &[u32; OUTPUTS], now: &[u32; OUTPUTS], stamp: u32, list: &mut [u32]) -> ChangesAdded {
    let added = differences(before, now, stamp);
    match put_in_front(list, &added) {
        true => ChangesAdded { refusal: 0, count: added.len() as u32, stamp: next(stamp) },
        false => ChangesAdded { refusal: 7, count: 0, stamp },
    }
}

/// The journal of a whole run as its numbers. "The first tick is compared with all
/// fields 0. The stamp counts ticks from the number that the caller gives the first
/// one."
pub fn of_run(stamp: u32, ticks: &[[u32; OUTPUTS]]) -> Vec<u32> {
    let (mut journal, mut before, mut stamp) = (Vec::new(), [0; OUTPUTS], stamp);
    for now in ticks {
        journal.extend(differences(&before, now, stamp));
        (before, stamp) = (*now, next(stamp));
    }
    journal
}

/// "... values at most 1, but 40 for field 3 and 999,999 for field 25."
pub fn highest(field: u32) -> u32 {
    match field {
        3 => 40,
        25 => 999_999,
        _ => 1,
    }
}

/// A number "in groups of seven bits, least first, bit 7 set on all but the last
/// group, no needless last group of 0".
pub fn groups(number: u32) -> Vec<u8> {
    let mut groups = Vec::new();
    let mut rest = number;
    while rest >= u32::from(MORE) {
        groups.push(rest as u8 | MORE);
        rest >>= 7;
    }
    groups.push(rest as u8);
    groups
}

/// Puts all of these at the front of what is lent, or nothing if it is too short.
fn put_in_front<T: Copy>(lent: &mut [T], these: &[T]) -> bool {
    match lent.get_mut(..these.len()) {
        Some(front) => {
            front.copy_from_slice(these);
            true
        }
        None => false,
    }
}

/// The changes of one tick, by rising field.
fn differences(before: &[u32; OUTPUTS], now: &[u32; OUTPUTS], stamp: u32) -> Vec<u32> {
    let changed = (0..OUTPUTS).filter(|&field| now[field] != before[field]);
    changed.flat_map(|field| [stamp, field as u32, now[field]]).collect()
}

/// "... the stamp runs through 4,294,967,295 back to 0."
fn next(stamp: u32) -> u32 {
    stamp.wrapping_add(1)
}

/// The place of the list's first broken number, or its length if that is missing.
fn first_broken(list: &[u32]) -> Option<usize> {
    let broken = (0..list.len()).find(|&place| breaks(&list[..place], list[place]));
    broken.or((!list.len().is_multiple_of(CHANGE)).then_some(list.len()))
}

/// The numbers of a text, or the offset of the first byte of the first broken one:
/// the text's length if that is missing.
fn numbers(text: &[u8]) -> Result<Vec<u32>, usize> {
    let mut numbers = Vec::new();
    let mut offset = 0;
    while offset < text.len() {
        let (number, length) = first_number(&text[offset..]).ok_or(offset)?;
        if breaks(&numbers, number) {
            return Err(offset);
        }
        numbers.push(number);
        offset += length;
    }
    match numbers.len() % CHANGE {
        0 => Ok(numbers),
        _ => Err(offset),
    }
}

/// The number at the front of a text, and how many bytes it has; nothing if it
/// breaks off, has a needless last group, or is not below 4,294,967,296.
fn first_number(text: &[u8]) -> Option<(u32, usize)> {
    let last = text.iter().position(|group| group & MORE == 0)?;
    if last > 0 && text[last] == 0 {
        return None;
    }
    let mut number: u32 = 0;
    for group in text[..=last].iter().rev() {
        number = number.checked_mul(1 << 7)? | u32::from(group & !MORE);
    }
    Some((number, last + 1))
}

/// Whether a number breaks a rule for records after the numbers before it, which
/// break none.
fn breaks(before: &[u32], number: u32) -> bool {
    let (records, begun) = before.split_at(before.len() - before.len() % CHANGE);
    match *begun {
        [] => !may_be_stamp(records, number),
        [stamp] => !may_be_field(records, stamp, number),
        [_, field, ..] => !may_be_value(records, field, number),
    }
}

/// "Neighbouring records have equal or later stamps."
fn may_be_stamp(records: &[u32], stamp: u32) -> bool {
    match latest_first(records).next() {
        Some([before, _, _]) => stamp == before || is_later(stamp, before),
        None => true,
    }
}

/// "Fields are 0–27"; "with equal stamps the field rises."
fn may_be_field(records: &[u32], stamp: u32, field: u32) -> bool {
    let rises = match latest_first(records).next() {
        Some([stamp_before, field_before, _]) if stamp_before == stamp => field > field_before,
        _ => true,
    };
    (field as usize) < OUTPUTS && rises
}

/// "A value differs from its field's last one, at first 0", and is not above the
/// field's highest.
fn may_be_value(records: &[u32], field: u32, value: u32) -> bool {
    let last = match latest_first(records).find(|record| record[1] == field) {
        Some([_, _, last]) => last,
        None => 0,
    };
    value <= highest(field) && value != last
}

/// "... b is later than a if b − a, so wrapped, is 1 to 2,147,483,647."
fn is_later(b: u32, a: u32) -> bool {
    (1..=FURTHEST).contains(&b.wrapping_sub(a))
}

/// The records, the latest first.
fn latest_first(records: &[u32]) -> impl Iterator<Item = [u32; CHANGE]> + '_ {
    records.rchunks_exact(CHANGE).map(|record| [record[0], record[1], record[2]])
}
