//! Images that a careless or hostile host might lend.

use library::{DriveImage, Image, KeyImage, WaitImage, SLOTS, WORDS};
use reference::dice::Dice;
use reference::record::{LONGEST_WAIT, MOST_OPERATIONS};
use reference::sheet::{slot, Settings};

/// Some of the image's numbers changed: mostly to other records, within their limits and outside.
pub fn tampered(dice: &mut Dice, image: &Image) -> Image {
    let (settings, all) = (SLOTS as u32, WORDS as u32);
    let mut words = image.words();
    for _ in 0..dice.between(1, 4) {
        let at = match dice.one_in(4) {
            true => dice.between(0, settings - 1),
            false => dice.between(settings, all - 1),
        } as usize;
        words[at] = number(dice, image, words[at]);
    }
    let mut changed = Image::from_words(words);
    if dice.one_in(2) {
        drive_and_wait(dice, &image.settings, &mut changed);
    }
    changed
}

/// A number near the old one, small, near one of the image's settings, or any.
fn number(dice: &mut Dice, image: &Image, old: u32) -> u32 {
    let near = dice.between(0, 2);
    match dice.between(0, 5) {
        0 | 1 => dice.between(0, 5),
        2 => old.wrapping_add(near).wrapping_sub(1),
        3 => dice.pick(&image.settings).wrapping_add(near).wrapping_sub(1),
        4 => dice.pick(&[LONGEST_WAIT, LONGEST_WAIT + 1, MOST_OPERATIONS, MOST_OPERATIONS + 1, 80_001, 400_001, u32::MAX]),
        _ => dice.bits() >> dice.between(0, 31),
    }
}

/// A drive, a fault, a wait and a remembered press of their own, each about its limit, and keys.
fn drive_and_wait(dice: &mut Dice, settings: &Settings, image: &mut Image) {
    image.drive = drive(dice, settings);
    let rests = image.drive.kind == 0;
    let fault = if rests || dice.one_in(4) { dice.between(0, 4) } else { 0 };
    let t8 = settings[slot::T8];
    image.fault = fault;
    image.fault_age = match fault {
        0 if !dice.one_in(8) => 0,
        _ => dice.pick(&[0, 1, t8.wrapping_sub(1), t8, t8.wrapping_add(1)]),
    };
    let side = dice.between(0, 2);
    let ticks = match side {
        0 => 0,
        _ if rests => dice.pick(&[0, 1, 19, 20, LONGEST_WAIT - 1, LONGEST_WAIT, LONGEST_WAIT + 1]),
        _ => dice.pick(&[0, 0, 1]),
    };
    image.wait = WaitImage { side, ticks };
    image.repeat = dice.between(0, 2);
    image.last = dice.between(0, 2);
    image.remembered = if fault == 0 || dice.one_in(4) { dice.between(0, 2) } else { 0 };
    image.keys = keys(dice);
}

fn keys(dice: &mut Dice) -> KeyImage {
    let [raise_button, lower_button, remote_raise, remote_lower, remote] = std::array::from_fn(|_| dice.between(0, 1));
    KeyImage { raise_button, lower_button, remote_raise, remote_lower, remote }
}

fn drive(dice: &mut Dice, settings: &Settings) -> DriveImage {
    let kind = dice.between(0, 4);
    if kind == 0 {
        return DriveImage { kind, direction: 0, ticks: 0 };
    }
    let direction = dice.between(0, 1);
    let bound = dice.pick(&[settings[slot::T4], settings[slot::T5]]);
    let ticks = dice.pick(&[0, 1, bound.wrapping_sub(1), bound, bound.wrapping_add(1)]);
    DriveImage { kind, direction, ticks }
}

/// The image with each of its numbers changed by itself, to small ones, its neighbours and the largest: which one, to what.
pub fn one_changed(image: &Image) -> impl Iterator<Item = (usize, u32, Image)> {
    let words = image.words();
    let values = |old: u32| [0, 1, 2, 3, 4, 5, old.wrapping_add(1), old.wrapping_sub(1), u32::MAX];
    let places = (0..WORDS).flat_map(move |at| values(words[at]).map(|value| (at, value)));
    places.map(move |(at, value)| {
        let mut changed = words;
        changed[at] = value;
        (at, value, Image::from_words(changed))
    })
}

/// Numbers with no thought at all.
pub fn senseless(dice: &mut Dice) -> Image {
    let shift = dice.between(0, 31);
    Image::from_words(std::array::from_fn(|_| dice.bits() >> shift))
}
