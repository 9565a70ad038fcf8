//! Chance journals for ticket 9: lists and texts that keep all rules, often just
//! so, and ones that break a single rule, often just so.

use crate::dice::Dice;
use crate::journal::{groups, highest, CHANGE};
use crate::tick::OUTPUTS;

/// The rule near which a list or a text is spoiled.
#[derive(Clone, Copy, Debug, PartialEq, Eq, PartialOrd, Ord)]
pub enum Kind {
    /// A stamp neither equal to the one before nor later.
    StampNotLater,
    /// A field above the last one.
    FieldTooHigh,
    /// Equal stamps, and a field not above the one before.
    FieldNotRising,
    /// A value above its field's highest.
    ValueTooHigh,
    /// The last value of its field again.
    ValueRepeated,
    /// A field's first value, and it is 0.
    ValueFirstZero,
    /// One or two numbers of the last record are missing.
    NumberMissing,
    /// In texts alone: a last group of 0 after others.
    GroupNeedless,
    /// In texts alone: five groups that come to 4,294,967,296 or more.
    NumberTooLarge,
    /// In texts alone: six groups or more, the last not 0.
    GroupSixth,
    /// In texts alone: a number without its last group.
    NumberCutOff,
}

use Kind::*;

/// The kinds of spoiled lists.
pub const LIST_KINDS: [Kind; 7] =
    [StampNotLater, FieldTooHigh, FieldNotRising, ValueTooHigh, ValueRepeated, ValueFirstZero, NumberMissing];

/// The kinds that only texts have.
pub const GROUP_KINDS: [Kind; 4] = [GroupNeedless, NumberTooLarge, GroupSixth, NumberCutOff];

/// A spoiled list of numbers, or a spoiled text of bytes.
#[derive(Clone, Debug, PartialEq, Eq)]
pub struct Spoiled<T> {
    pub made: Vec<T>,
    pub kind: Kind,
    /// The place of the first broken number in a list, or the offset of its first
    /// byte in a text.
    pub at: usize,
}

/// A stamp may be so much later than the one before, and no more.
const FURTHEST: u32 = 2_147_483_647;

/// A journal of so many changes that keeps all rules.
pub fn journal(dice: &mut Dice, changes: usize) -> Vec<u32> {
    let mut list = Vec::new();
    for _ in 0..changes {
        let change = next_change(dice, &list);
        list.extend(change);
    }
    list
}

/// A list with one kind of spoiled number after at most so many changes that keep
/// all rules. What comes after that number may break any.
pub fn spoiled_list(dice: &mut Dice, changes: usize) -> Spoiled<u32> {
    let kind = dice.pick(&LIST_KINDS);
    let mut list = journal_before(dice, kind, changes);
    let (change, number) = broken_change(dice, &list, kind);
    let at = list.len() + number;
    list.extend(change);
    match kind {
        NumberMissing => list.truncate(at),
        _ => list.extend(rest(dice)),
    }
    Spoiled { made: list, kind, at }
}

/// A text with one kind of spoiled number after at most so many changes that keep
/// all rules. What comes after that number may break any.
pub fn spoiled_text(dice: &mut Dice, changes: usize) -> Spoiled<u8> {
    if dice.between(1, (LIST_KINDS.len() + GROUP_KINDS.len()) as u32) <= LIST_KINDS.len() as u32 {
        let Spoiled { made, kind, at } = spoiled_list(dice, changes);
        return Spoiled { at: text(&made[..at]).len(), made: text(&made), kind };
    }
    let kind = dice.pick(&GROUP_KINDS);
    let mut list = journal_before(dice, kind, changes);
    let change = next_change(dice, &list);
    let number = dice.between(0, CHANGE as u32 - 1) as usize;
    list.extend(&change[..number]);
    let mut made = text(&list);
    let at = made.len();
    made.extend(broken_groups(dice, change[number], kind));
    if kind != NumberCutOff {
        made.extend(text(&change[number + 1..]));
        made.extend(text(&rest(dice)));
    }
    Spoiled { made, kind, at }
}

/// A journal in which a few numbers are put beside what they were, taken out, or
/// put in. It may still keep all rules.
pub fn shaken_list(dice: &mut Dice, changes: usize) -> Vec<u32> {
    let mut list = journal(dice, changes);
    for _ in 0..dice.between(1, 3) {
        let place = dice.between(0, list.len() as u32) as usize;
        match (dice.between(0, 5), list.get_mut(place)) {
            (0, Some(number)) => *number = number.wrapping_add(1),
            (1, Some(number)) => *number = number.wrapping_sub(1),
            (2, Some(number)) => *number ^= 1 << dice.between(0, 31),
            (3, Some(_)) => drop(list.remove(place)),
            _ => list.insert(place, dice.bits() >> dice.between(0, 31)),
        }
    }
    list
}

/// A journal's text in which a few bytes are changed, taken out, or put in, or which
/// is cut off. It may still keep all rules.
pub fn shaken_text(dice: &mut Dice, changes: usize) -> Vec<u8> {
    let mut text = text(&journal(dice, changes));
    for _ in 0..dice.between(1, 3) {
        let place = dice.between(0, text.len() as u32) as usize;
        match (dice.between(0, 5), text.get_mut(place)) {
            (0..=1, Some(byte)) => *byte ^= 1 << dice.between(0, 7),
            (2, Some(byte)) => *byte = dice.bits() as u8,
            (3, Some(_)) => drop(text.remove(place)),
            (4, Some(_)) => text.truncate(place),
            _ => text.insert(place, dice.pick(&[0x00, 0x01, 0x1B, 0x7F, 0x80, 0x81, 0xFF])),
        }
    }
    text
}

/// The groups of these numbers, whatever rules they break.
pub fn text(list: &[u32]) -> Vec<u8> {
    list.iter().flat_map(|&number| groups(number)).collect()
}

/// A change that keeps all rules after these.
pub fn next_change(dice: &mut Dice, list: &[u32]) -> [u32; CHANGE] {
    let last_field = OUTPUTS as u32 - 1;
    let (stamp, field) = match *list {
        [.., stamp, field, _] if field < last_field && dice.one_in(3) => {
            let any = dice.between(field + 1, last_field);
            (stamp, dice.pick(&[field + 1, any, last_field]))
        }
        [.., stamp, _, _] => (later(dice, stamp), any_field(dice)),
        _ => (any_stamp(dice), any_field(dice)),
    };
    let value = other_value(dice, field, last_value(list, field));
    [stamp, field, value]
}

/// A stamp, mostly beside one of the ends.
fn any_stamp(dice: &mut Dice) -> u32 {
    let beside = dice.pick(&[0_u32, 1 << 31]).wrapping_add(dice.between(0, 20)).wrapping_sub(10);
    let any = dice.bits();
    dice.pick(&[beside, beside, 0, u32::MAX, any])
}

/// A later stamp: soon, as late as can be, or beside one of the ends.
fn later(dice: &mut Dice, stamp: u32) -> u32 {
    let ahead = any_stamp(dice).wrapping_sub(stamp).clamp(1, FURTHEST);
    let any = dice.between(1, FURTHEST) >> dice.between(0, 30);
    let soon = dice.between(1, 200);
    stamp.wrapping_add(dice.pick(&[1, 1, soon, any.max(1), ahead, ahead, FURTHEST - 1, FURTHEST]))
}

/// A stamp that is neither equal nor later: by one tick, just not later, or anything.
fn earlier(dice: &mut Dice, stamp: u32) -> u32 {
    let by = [1, dice.between(1, 200), dice.between(1, FURTHEST + 1), FURTHEST, FURTHEST + 1];
    stamp.wrapping_sub(dice.pick(&by))
}

/// A field, often one of the two with many values.
fn any_field(dice: &mut Dice) -> u32 {
    let any = dice.between(0, OUTPUTS as u32 - 1);
    dice.pick(&[3, 25, any, any, any, any])
}

/// A value of this field other than the last one, often an end of its range.
fn other_value(dice: &mut Dice, field: u32, last: u32) -> u32 {
    let most = highest(field);
    loop {
        let any = dice.between(0, most);
        let ends = dice.pick(&[0, 1, 127, 128, 16_383, 16_384, most]);
        let value = dice.pick(&[any, ends, last.wrapping_add(1), last.wrapping_sub(1)]);
        if value <= most && value != last {
            return value;
        }
    }
}

/// "... its field's last one, at first 0."
fn last_value(list: &[u32], field: u32) -> u32 {
    list.chunks_exact(CHANGE).rfind(|change| change[1] == field).map_or(0, |change| change[2])
}

/// A journal after which this kind can come.
fn journal_before(dice: &mut Dice, kind: Kind, changes: usize) -> Vec<u32> {
    let least = match kind {
        StampNotLater | FieldNotRising | ValueRepeated => 1,
        _ => 0,
    };
    // With fewer changes than fields, one field has none yet.
    let most = match kind {
        ValueFirstZero => changes.min(OUTPUTS - 1),
        _ => changes.max(least),
    };
    let changes = dice.between(least as u32, most as u32) as usize;
    journal(dice, changes)
}

/// A change that breaks a rule after these, and which of its numbers does so first.
fn broken_change(dice: &mut Dice, list: &[u32], kind: Kind) -> ([u32; CHANGE], usize) {
    let [stamp, field, value] = next_change(dice, list);
    let (stamp_before, field_before) = match *list {
        [.., stamp, field, _] => (stamp, field),
        _ => (0, 0),
    };
    match kind {
        StampNotLater => ([earlier(dice, stamp_before), field, value], 0),
        FieldTooHigh => ([stamp, above(dice, OUTPUTS as u32 - 1, field), value], 1),
        FieldNotRising => {
            let any = dice.between(0, field_before);
            let field = dice.pick(&[field_before, any, 0]);
            ([stamp_before, field, other_value(dice, field, last_value(list, field))], 1)
        }
        ValueTooHigh => ([stamp, field, above(dice, highest(field), value)], 2),
        ValueRepeated => {
            let field = list[CHANGE * dice.between(0, (list.len() / CHANGE) as u32 - 1) as usize + 1];
            ([later(dice, stamp_before), field, last_value(list, field)], 2)
        }
        ValueFirstZero => {
            let fresh: Vec<u32> = (0..OUTPUTS as u32).filter(|&field| !has(list, field)).collect();
            let stamp = if list.is_empty() { stamp } else { later(dice, stamp_before) };
            ([stamp, dice.pick(&fresh), 0], 2)
        }
        _ => ([stamp, field, value], dice.pick(&[1, 2])), // the number that will be missing
    }
}

/// A number above the highest: by one, or with some of the bits of one that is not.
fn above(dice: &mut Dice, highest: u32, kept: u32) -> u32 {
    let beside = highest + dice.pick(&[1, 1, 1, 2, 100]);
    let wider = kept | 1 << dice.pick(&[7, 8, 20, 21, 28, 31]);
    let any = dice.between(highest + 1, u32::MAX);
    dice.pick(&[beside, wider.max(highest + 1), any, u32::MAX])
}

/// Whether a list has a change of this field.
fn has(list: &[u32], field: u32) -> bool {
    list.chunks_exact(CHANGE).any(|change| change[1] == field)
}

/// Numbers that come after a broken one: none, a few of any size, or a journal.
fn rest(dice: &mut Dice) -> Vec<u32> {
    match dice.between(0, 2) {
        0 => Vec::new(),
        1 => (0..dice.between(1, 5)).map(|_| dice.bits() >> dice.between(0, 31)).collect(),
        _ => journal(dice, 3),
    }
}

/// Groups that break a rule, made of those of a number that keeps all.
fn broken_groups(dice: &mut Dice, number: u32, kind: Kind) -> Vec<u8> {
    let five: Vec<u8> = (0..5).map(|group| (number >> (7 * group)) as u8 | 0x80).collect();
    let large = if dice.one_in(4) { vec![0x80; 5] } else { five };
    match kind {
        GroupNeedless => {
            let mut made = groups(number);
            *made.last_mut().expect("a number has a group") |= 0x80;
            made.extend(vec![0x80; dice.pick(&[0, 0, 1, 3, 4])]);
            [made, vec![0]].concat()
        }
        NumberTooLarge => {
            let last = large[4] & 0x0F | dice.pick(&[0x10, 0x20, 0x40, 0x70]);
            [&large[..4], &[last]].concat()
        }
        GroupSixth => {
            let more = vec![0x80; dice.pick(&[0, 0, 1, 4, 5, 20])];
            [large, more, vec![dice.pick(&[1, 2, 0x7F])]].concat()
        }
        _ => large[..dice.between(1, 5) as usize].to_vec(), // cut off
    }
}
