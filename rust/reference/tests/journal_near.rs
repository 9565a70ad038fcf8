//! Ticket 9, "A journal of changes": lists and texts near each rule, with the rules
//! told once more to compare.

mod common;

use std::collections::BTreeMap;

use common::journals::*;
use reference::dice::Dice;
use reference::journal::{read, write};
use reference::near_journal::*;
use reference::tick::OUTPUTS;

/// How often what came up.
#[derive(Default)]
struct Tried(BTreeMap<String, u32>);

impl Tried {
    fn add(&mut self, what: &str) {
        *self.0.entry(what.to_string()).or_default() += 1;
    }

    fn assert_enough(&self, what: &str) {
        let count = self.0.get(what).copied().unwrap_or(0);
        assert!(count >= 100, "{what} came up {count} times: {:?}", self.0);
    }

    fn assert_kinds(&self, kinds: &[Kind]) {
        kinds.iter().for_each(|kind| self.assert_enough(&format!("{kind:?}")));
    }
}

/// How many changes come before what is spoiled: mostly few.
fn length(dice: &mut Dice) -> usize {
    let (few, many) = (dice.between(0, 4), dice.between(0, 60));
    dice.pick(&[few, few, few, many]) as usize
}

/// The rule that each kind breaks.
fn rule(kind: Kind) -> &'static str {
    match kind {
        Kind::StampNotLater => "stamp not later",
        Kind::FieldTooHigh => "field too high",
        Kind::FieldNotRising => "field not rising",
        Kind::ValueTooHigh => "value too high",
        Kind::ValueRepeated | Kind::ValueFirstZero => "value repeated",
        Kind::NumberMissing => "number missing",
        Kind::GroupNeedless => "needless group",
        Kind::NumberTooLarge | Kind::GroupSixth => "number too large",
        Kind::NumberCutOff => "number cut off",
    }
}

#[test]
fn journals_keep_all_rules_and_go_to_the_edges() {
    let (mut dice, mut tried) = (Dice::new(93), Tried::default());
    for _ in 0..3_000 {
        let changes = length(&mut dice);
        let list = journal(&mut dice, changes);
        assert_eq!((list.len(), told_of_list(&list)), (3 * changes, None));
        let text = written(&list).expect("it keeps all rules");
        assert_eq!(told_of_text(&text), None);
        assert_eq!(taken(&text).as_ref(), Ok(&list));
        for pair in list.chunks_exact(3).zip(list.chunks_exact(3).skip(1)) {
            count_edges(&mut tried, pair);
        }
    }
    for edge in ["equal", "next field", "one later", "furthest", "round", "onto 0", "40", "999999"] {
        tried.assert_enough(edge);
    }
    (0..OUTPUTS).for_each(|field| tried.assert_enough(&format!("field {field}")));
}

fn count_edges(tried: &mut Tried, (a, b): (&[u32], &[u32])) {
    tried.add(&format!("field {}", b[1]));
    match b[0].wrapping_sub(a[0]) {
        0 => tried.add("equal"),
        1 => tried.add("one later"),
        2_147_483_647 => tried.add("furthest"),
        _ => {}
    }
    for (holds, what) in [
        (a[0] == b[0] && b[1] == a[1] + 1, "next field"),
        (b[0] < a[0], "round"),
        (b[0] == 0, "onto 0"),
        (b[1] == 3 && b[2] == 40, "40"),
        (b[1] == 25 && b[2] == 999_999, "999999"),
    ] {
        if holds {
            tried.add(what);
        }
    }
}

#[test]
fn spoiled_lists_are_refused_where_they_are_spoiled() {
    let (mut dice, mut tried) = (Dice::new(94), Tried::default());
    for _ in 0..30_000 {
        let changes = length(&mut dice);
        let Spoiled { made: list, kind, at } = spoiled_list(&mut dice, changes);
        assert_eq!(told_of_list(&list), Some((at, rule(kind))), "{kind:?}: {list:?}");
        assert_eq!(written(&list), Err(at), "{kind:?}: {list:?}");
        assert_eq!(taken(&text(&list)), Err(text(&list[..at]).len()), "{kind:?}: {list:?}");
        tried.add(&format!("{kind:?}"));
        tried.add(rule(kind));
    }
    tried.assert_kinds(&LIST_KINDS);
    LIST_RULES.iter().for_each(|rule| tried.assert_enough(rule));
}

#[test]
fn spoiled_texts_are_refused_where_they_are_spoiled() {
    let (mut dice, mut tried) = (Dice::new(95), Tried::default());
    for _ in 0..30_000 {
        let changes = length(&mut dice);
        let Spoiled { made: text, kind, at } = spoiled_text(&mut dice, changes);
        assert_eq!(told_of_text(&text), Some((at, rule(kind))), "{kind:?}: {text:?}");
        assert_eq!(taken(&text), Err(at), "{kind:?}: {text:?}");
        // What comes before keeps all rules, as far as it goes.
        assert!(taken(&text[..at]).is_err_and(|offset| offset == at) || taken(&text[..at]).is_ok());
        tried.add(&format!("{kind:?}"));
        tried.add(rule(kind));
    }
    tried.assert_kinds(&LIST_KINDS);
    tried.assert_kinds(&GROUP_KINDS);
    LIST_RULES.iter().chain(&GROUP_RULES).for_each(|rule| tried.assert_enough(rule));
}

#[test]
fn shaken_lists_and_texts_are_refused_by_the_rules_alone() {
    let (mut dice, mut tried) = (Dice::new(96), Tried::default());
    for _ in 0..30_000 {
        let changes = length(&mut dice);
        let list = shaken_list(&mut dice, changes);
        assert_eq!(written(&list).err(), told_of_list(&list).map(|(place, _)| place), "{list:?}");
        tried.add(told_of_list(&list).map_or("list kept", |(_, rule)| rule));
        let text = shaken_text(&mut dice, changes);
        assert_eq!(taken(&text).err(), told_of_text(&text).map(|(offset, _)| offset), "{text:?}");
        tried.add(told_of_text(&text).map_or("text kept", |(_, rule)| rule));
    }
    ["list kept", "text kept"].iter().for_each(|what| tried.assert_enough(what));
    LIST_RULES.iter().chain(&GROUP_RULES).for_each(|rule| tried.assert_enough(rule));
}

/// A length beside this one, or none.
fn beside(dice: &mut Dice, length: usize) -> usize {
    dice.pick(&[0, length.saturating_sub(1), length, length + 1, length + 9])
}

#[test]
fn each_refusal_comes_with_what_is_lent() {
    let (mut dice, mut tried) = (Dice::new(97), Tried::default());
    for _ in 0..30_000 {
        let changes = length(&mut dice);
        let list = if dice.one_in(2) { journal(&mut dice, changes) } else { spoiled_list(&mut dice, changes).made };
        let bytes = text(&list);
        let mut buffer = vec![0xEE; beside(&mut dice, bytes.len())];
        let mut numbers = vec![77; beside(&mut dice, list.len())];
        let refusal = |long_enough: bool| match told_of_list(&list) {
            Some(_) => 8,
            None if long_enough => 0,
            None => 7,
        };
        let writers = refusal(buffer.len() >= bytes.len());
        assert_eq!(write(&list, &mut buffer).refusal, writers);
        let front = if writers == 0 { bytes.len() } else { 0 };
        assert!(buffer[..front] == bytes[..front] && buffer[front..].iter().all(|&byte| byte == 0xEE));
        let readers = refusal(numbers.len() >= list.len());
        assert_eq!(read(&bytes, &mut numbers).refusal, readers);
        let front = if readers == 0 { list.len() } else { 0 };
        assert!(numbers[..front] == list[..front] && numbers[front..].iter().all(|&number| number == 77));
        tried.add(&format!("writer {writers}"));
        tried.add(&format!("reader {readers}"));
    }
    for refusal in [0, 7, 8] {
        tried.assert_enough(&format!("writer {refusal}"));
        tried.assert_enough(&format!("reader {refusal}"));
    }
}
