//! `avr_start` against the second program's check of a list.

use comparison::convert::image_of;
use library::{start, Started};
use reference::dice::Dice;
use reference::make_sheet;
use reference::record::Record;
use reference::sheet::{slot, RANGES, SLOTS};

const LISTS: usize = 200_000;

fn expected(list: &[u32]) -> Started {
    let (number, slot, record) = match Record::start(list) {
        Ok(record) => (0, 0, record),
        Err(refusal) => (refusal.number, refusal.slot, Record::zeros()),
    };
    Started { number, slot, image: image_of(&record) }
}

/// A sheet with up to three slots changed, a few near the ends of their ranges.
fn spoiled(dice: &mut Dice) -> Vec<u32> {
    let mut list = make_sheet::sheet(dice).to_vec();
    for _ in 0..dice.between(0, 3) {
        let i = dice.between(0, SLOTS as u32 - 1) as usize;
        let (low, high) = RANGES[i].ends(dice.pick(&[1, 5]));
        let step = RANGES[i].step;
        list[i] = match dice.between(0, 3) {
            0 => dice.pick(&[low.wrapping_sub(1), low, high, high + 1]),
            1 => dice.pick(&[low.wrapping_sub(step), low + step / 2, high + step]),
            2 => dice.between(low, high),
            _ => dice.bits() >> dice.between(0, 31),
        };
    }
    if dice.one_in(8) {
        list[slot::N_L] = dice.between(1, 40);
        list[slot::N_R] = dice.between(1, 40);
        list[slot::N_POS] = dice.between(1, 40);
    }
    if dice.one_in(8) {
        list[slot::CONTINUOUS] = 1;
        list[slot::TAP_SOURCE] = dice.between(0, 4);
    }
    if dice.one_in(20) {
        list.resize(dice.between(0, 130) as usize, 1);
    }
    list
}

#[test]
fn as_the_second_program() {
    let mut dice = Dice::new(7);
    let mut numbers = [0; 6];
    for i in 0..LISTS {
        let list = spoiled(&mut dice);
        let before = list.clone();
        let started = start(&list);
        assert_eq!(started, expected(&list), "list {i}: {list:?}");
        assert_eq!(list, before, "list {i} was changed");
        numbers[started.number as usize] += 1;
    }
    println!("answers 0 to 5: {numbers:?}");
    assert_eq!(numbers[4], 0, "4 is no answer to a list");
    assert!([0, 1, 2, 3, 5].iter().all(|&n| numbers[n] > LISTS / 100), "{numbers:?}");
}

#[test]
fn an_empty_list() {
    assert_eq!(start(&[]), expected(&[]));
    assert_eq!(start(&[]).number, 1);
}
