//! `avr_tick` against the second program, tick by tick: the answer, all outputs and the whole next record.

use comparison::convert::{brought, image_of, record_of};
use comparison::hostile::{one_changed, senseless, tampered};
use library::{start, tick, tick_by_value, Image, Outputs, Ticked, FIELDS};
use reference::dice::Dice;
use reference::input::{bit, Contacts, Input};
use reference::scene::Scene;
use reference::sheet::{slot, Settings};
use reference::tick::tick as second;

const RUNS: u64 = 4_000;
const TICKS: usize = 2_500;

/// What both programs make of an image, which are to be the same.
struct Both {
    answer: u32,
    next: Image,
}

/// One tick of an image by both programs.
fn compare(image: &Image, input: &Input, dice: &mut Dice, at: &str) -> Both {
    let mut lent = *image;
    let mut outputs = Outputs { fields: [dice.bits(); FIELDS] };
    let given = brought(input, dice);
    let answer = tick(&mut lent, &given, &mut outputs);
    let by_value = Ticked { refusal: answer, outputs, next: lent };
    assert_eq!(tick_by_value(*image, given), by_value, "{at}: by value");
    let (refusal, fields, next) = match record_of(image) {
        Some(record) => {
            let ticked = second(&record, input);
            (ticked.refusal, ticked.outputs, image_of(&ticked.next))
        }
        None => (4, [0; FIELDS], *image),
    };
    assert_eq!(answer, refusal, "{at}: answer\n{image:?}\n{input:?}");
    assert_eq!(outputs.fields, fields, "{at}: outputs\n{image:?}\n{input:?}");
    assert_eq!(lent, next, "{at}: next record\n{image:?}\n{input:?}");
    Both { answer, next }
}

/// The ways of compensation, by U_comp with ratings that are equal and that are not.
const WAYS: [&str; 4] = ["none", "by U_comp", "by U_comp with two ratings", "along R and X"];

fn way(settings: &Settings) -> usize {
    match settings[slot::COMPENSATION] {
        0 => 0,
        1 if settings[slot::TRANSFORMER_RATING] == settings[slot::BREAKER_RATING] => 1,
        1 => 2,
        _ => 3,
    }
}

/// What becomes of presses while the drive runs: remembered, replaced by the other one, carried out, gone without a command.
const PRESSES: [&str; 4] = ["remembered", "replaced", "carried out", "dropped"];

/// What one tick did to a remembered press.
fn press(before: &Image, after: &Image) -> Option<usize> {
    let asked = matches!(after.drive.kind, 1 | 4);
    match (before.remembered, after.remembered) {
        (0, 0) => None,
        (0, _) => Some(0),
        (old, 0) if before.drive.kind == 0 && asked && after.drive.direction == old - 1 => Some(2),
        (_, 0) => Some(3),
        (old, new) => (old != new).then_some(1),
    }
}

/// What is tried of the two pairs: commands of each, one while the other pair is pressed, presses dropped by a change of mode, and
/// buttons held through one at rest.
const PAIRS: [&str; 5] =
    ["by the panel", "by the dispatcher", "beside the other pair", "dropped by a change", "held through a change"];

/// Which of these one tick was.
fn pairs(before: &Image, contacts: Contacts, after: &Image) -> [bool; PAIRS.len()] {
    let remote = contacts.on(bit::REMOTE);
    let panel = [contacts.on(bit::RAISE_BUTTON), contacts.on(bit::LOWER_BUTTON)];
    let dispatcher = [contacts.on(bit::REMOTE_RAISE), contacts.on(bit::REMOTE_LOWER)];
    let (pair, other) = if remote { (dispatcher, panel) } else { (panel, dispatcher) };
    let held = match remote {
        true => [before.keys.remote_raise, before.keys.remote_lower],
        false => [before.keys.raise_button, before.keys.lower_button],
    };
    let begins = before.drive.kind == 0 && after.drive.kind == 4;
    let changed = u32::from(remote) != before.keys.remote && !contacts.on(bit::OUT);
    let still = pair.iter().zip(held).all(|(&now, before)| u32::from(now) <= before) && pair.contains(&true);
    [
        begins && !remote,
        begins && remote,
        begins && other.contains(&true),
        changed && before.remembered != 0,
        changed && still && before.drive.kind == 0 && !contacts.on(bit::AUTOMATIC),
    ]
}

/// How often each output was on, how many commands began, how many ticks were low, in band or without U, and high with each way of
/// compensation, and what became of presses, and what was tried of the two pairs, with a switching contact and without.
#[derive(Default)]
struct Seen {
    on: [u64; FIELDS],
    commands: u64,
    sides: [[u64; 3]; WAYS.len()],
    presses: [[u64; PRESSES.len()]; 2],
    pairs: [[u64; PAIRS.len()]; 2],
}

impl Seen {
    fn add(&mut self, way: usize, before: &Outputs, outputs: &Outputs) {
        let side = 1 + outputs.fields[18] as usize - outputs.fields[17] as usize;
        self.sides[way][side] += 1;
        let command = |o: &Outputs| o.fields[0] | o.fields[1];
        self.commands += u64::from(command(outputs) & !command(before));
        for (sum, &field) in self.on.iter_mut().zip(&outputs.fields) {
            *sum += u64::from(field != 0);
        }
    }
}

/// One run from a sheet, in a simulated substation.
fn run(seed: u64, dice: &mut Dice, seen: &mut Seen) {
    let mut scene = Scene::new(seed);
    let started = start(&scene.record.settings);
    assert_eq!(started.number, 0, "seed {seed}");
    let mut image = started.image;
    let mut outputs = Outputs { fields: [0; FIELDS] };
    for t in 0..TICKS {
        let (before, record) = (outputs, image);
        let (input, ticked) = scene.next_tick();
        let answer = tick(&mut image, &brought(&input, dice), &mut outputs);
        let at = || format!("seed {seed}, tick {t}: {input:?}");
        assert_eq!(answer, ticked.refusal, "{}", at());
        assert_eq!(outputs.fields, ticked.outputs, "{}", at());
        assert_eq!(image, image_of(&ticked.next), "{}", at());
        seen.add(way(&image.settings), &before, &outputs);
        let kind = image.settings[slot::CONTINUOUS] as usize;
        if let Some(fate) = press(&record, &image) {
            seen.presses[kind][fate] += 1;
        }
        for (sum, tried) in seen.pairs[kind].iter_mut().zip(pairs(&record, input.contacts, &image)) {
            *sum += u64::from(tried);
        }
    }
}

#[test]
fn runs() {
    let mut dice = Dice::new(11);
    let mut seen = Seen::default();
    for seed in 0..RUNS {
        run(seed, &mut dice, &mut seen);
    }
    println!("{} ticks, {} commands", RUNS * TICKS as u64, seen.commands);
    println!("ticks with each output on: {:?}", seen.on);
    println!("ticks low, neither and high, compensated {}: {:?}", WAYS.join(", "), seen.sides);
    println!("presses {}, with the contact and without: {:?}", PRESSES.join(", "), seen.presses);
    println!("the pairs, {}, with the contact and without: {:?}", PAIRS.join(", "), seen.pairs);
    assert!(seen.on.iter().all(|&n| n > 0), "an output never came on");
    assert!(seen.sides.iter().flatten().all(|&n| n > 100_000), "a way of compensation is seldom tried: {:?}", seen.sides);
    assert!(seen.presses.iter().flatten().all(|&n| n > 1_000), "a press in a move is seldom tried: {:?}", seen.presses);
    assert!(seen.pairs.iter().flatten().all(|&n| n > 1_000), "a pair is seldom tried: {:?}", seen.pairs);
}

/// Records within their limits and outside, and images of no record: one tick, and the next ones where it is accepted.
#[test]
fn tampered_images() {
    let mut dice = Dice::new(13);
    let (mut ticks, mut refused, mut none) = (0u64, 0u64, 0u64);
    for seed in 0..2_000 {
        let mut scene = Scene::new(1_000 + seed);
        for t in 0..500 {
            let (input, ticked) = scene.next_tick();
            let mut image = tampered(&mut dice, &image_of(&ticked.next));
            none += u64::from(record_of(&image).is_none());
            for further in 0..3 {
                let at = format!("seed {seed}, tick {t}, {further} further");
                let both = compare(&image, &input, &mut dice, &at);
                ticks += 1;
                if both.answer == 4 {
                    assert_eq!(both.next, image, "{at}: refused and changed");
                    refused += 1;
                    break;
                }
                image = both.next;
            }
        }
    }
    println!("{ticks} ticks, {refused} refused, {none} images of no record");
    assert!(refused > 200_000 && none > 100_000 && ticks - refused > 200_000);
}

/// Each number of an accepted image changed by itself.
#[test]
fn one_number_changed() {
    let mut dice = Dice::new(17);
    let mut ticks = 0u64;
    for seed in 0..40 {
        let mut scene = Scene::new(2_000 + seed);
        for _ in 0..300 {
            scene.next_tick();
        }
        let (input, ticked) = scene.next_tick();
        for (at, value, image) in one_changed(&image_of(&ticked.next)) {
            compare(&image, &input, &mut dice, &format!("seed {seed}, word {at} = {value}"));
            ticks += 1;
        }
    }
    println!("{ticks} ticks");
}

#[test]
fn senseless_images() {
    let mut dice = Dice::new(19);
    let mut scene = Scene::new(5);
    for i in 0..50_000 {
        let image = senseless(&mut dice);
        let (input, _) = scene.next_tick();
        compare(&image, &input, &mut dice, &format!("image {i}"));
    }
}
