//! `avr_ahead` against the second program: the answer, the tick, the way, all outputs and the whole next record.

use comparison::convert::{brought, image_of, outlook_of, record_of};
use comparison::hostile::{one_changed, senseless, tampered};
use library::{ahead, tick_by_value, Brought, Image, Outlook, Outputs, Ticked, FIELDS, LONGEST_HORIZON};
use reference::ahead::ahead as second;
use reference::dice::Dice;
use reference::floats::float_of;
use reference::input::{bit, Input, READINGS};
use reference::reading::Reading;
use reference::record::Record;
use reference::scene::Scene;
use reference::sheet::slot;
use reference::values::BASE;

const RUNS: u64 = 600;
const TICKS: usize = 1_000;

/// What a refused look gives: no tick, no way, outputs 0, and the image as it was handed in.
fn refused(refusal: u32, image: &Image) -> Outlook {
    Outlook { refusal, tick: 0, way: 0, outputs: Outputs { fields: [0; FIELDS] }, next: *image }
}

/// One look by both programs.
fn compare(image: &Image, input: &Input, horizon: u32, dice: &mut Dice, at: &str) -> Outlook {
    let outlook = ahead(*image, brought(input, dice), horizon);
    let expected = match record_of(image) {
        Some(record) => outlook_of(&second(&record, input, horizon)),
        None => refused(4, image),
    };
    let at = || format!("{at}, horizon {horizon}\n{image:?}\n{input:?}");
    let answer = |outlook: &Outlook| [outlook.refusal, outlook.tick, outlook.way];
    assert_eq!(answer(&outlook), answer(&expected), "refusal, tick and way: {}", at());
    assert_eq!(outlook.outputs, expected.outputs, "outputs: {}", at());
    assert_eq!(outlook.next, expected.next, "next record: {}", at());
    if outlook.refusal != 0 {
        assert_eq!(outlook, refused(outlook.refusal, image), "a refusal: {}", at());
    }
    outlook
}

/// What so many ticks of the library give, one by one.
fn ticks_by_value(image: &Image, given: Brought, count: u32) -> Ticked {
    let first = tick_by_value(*image, given);
    (1..count).fold(first, |ticked, _| tick_by_value(ticked.next, given))
}

/// An accepted look is as many ticks, and none of them is refused.
fn hold_to_ticks(image: &Image, input: &Input, horizon: u32, outlook: &Outlook, dice: &mut Dice) {
    let count = if outlook.tick > 0 { outlook.tick } else { horizon };
    let ticked = ticks_by_value(image, brought(input, dice), count);
    let Outlook { refusal, outputs, next, .. } = *outlook;
    assert_eq!(ticked, Ticked { refusal, outputs, next }, "{count} ticks by value\n{image:?}\n{input:?}");
}

/// How a look starts.
const STARTS: [&str; 9] =
    ["out", "fault", "press at rest", "waiting", "at rest", "asked", "asked by a button", "moving", "own move"];

fn start(image: &Image, input: &Input) -> usize {
    let out = input.contacts.on(bit::OUT) || image.settings[slot::IN_SERVICE] == 0;
    match image.drive.kind {
        _ if out => 0,
        0 if image.fault != 0 => 1,
        0 if image.remembered != 0 => 2,
        0 if image.wait.ticks > 0 => 3,
        0 => 4,
        1 => 5,
        4 => 6,
        2 => 7,
        _ => 8,
    }
}

/// What came up: none, raise and lower, in manual and in automatic, with the contact and without; starts without a command found and
/// with one; refusals by their numbers; and how many looks were taken again about the tick that was answered.
#[derive(Default)]
struct Seen {
    looks: u64,
    again: u64,
    answers: [[[u64; 3]; 2]; 2],
    starts: [[u64; 2]; STARTS.len()],
    refused: [u64; 7],
    ticks: u64,
}

impl Seen {
    fn add(&mut self, image: &Image, input: &Input, horizon: u32, outlook: &Outlook) {
        self.looks += 1;
        self.refused[outlook.refusal as usize] += 1;
        if outlook.refusal != 0 {
            return;
        }
        self.ticks += u64::from(if outlook.tick > 0 { outlook.tick } else { horizon });
        let [drive, mode] = [image.settings[slot::CONTINUOUS] as usize, usize::from(input.contacts.on(bit::AUTOMATIC))];
        self.answers[drive][mode][outlook.way as usize] += 1;
        self.starts[start(image, input)][usize::from(outlook.tick > 0)] += 1;
    }

    /// One line, since it is read among many.
    fn print(&self) {
        let Seen { looks, again, answers, starts, refused, ticks } = self;
        let starts: Vec<String> =
            STARTS.iter().zip(starts).map(|(name, [none, found])| format!("{name} {none}/{found}")).collect();
        println!(
            "{looks} looks over {ticks} ticks, {again} more about the ticks found; none, raise and lower, manual and automatic, \
             with the contact {:?} and without {:?}; none/found from {}; refused with 4: {}, with 6: {}",
            answers[0],
            answers[1],
            starts.join(", "),
            refused[4],
            refused[6]
        );
    }

    fn assert_accepted(&self, enough: u64) {
        assert!(self.answers.iter().flatten().flatten().all(|&n| n >= enough), "an answer is seldom: {:?}", self.answers);
        assert!(self.starts[1..].iter().flatten().all(|&n| n >= enough), "a start is seldom: {:?}", self.starts);
        assert!(self.starts[0][0] >= enough && self.starts[0][1] == 0, "out: {:?}", self.starts[0]);
    }
}

/// Mostly some hundred ticks; small ones, some thousands, and what is not taken.
fn any_horizon(dice: &mut Dice) -> u32 {
    match dice.between(0, 19) {
        0 => {
            let bits = dice.bits();
            dice.pick(&[0, LONGEST_HORIZON + 1, u32::MAX, bits.max(LONGEST_HORIZON + 1)])
        }
        1 | 2 => dice.between(1, 3),
        3..=10 => dice.between(4, 100),
        11..=18 => dice.between(100, 500),
        _ => dice.between(500, 3_000),
    }
}

/// A look, and those with the horizons about the tick that it answers, and the longest one.
fn look_about(image: &Image, input: &Input, dice: &mut Dice, seen: &mut Seen, at: &str) {
    let horizon = any_horizon(dice);
    let outlook = compare(image, input, horizon, dice, at);
    seen.add(image, input, horizon, &outlook);
    if outlook.refusal == 0 && dice.one_in(4) {
        hold_to_ticks(image, input, horizon, &outlook, dice);
    }
    if outlook.tick == 0 {
        return;
    }
    for near in [outlook.tick - 1, outlook.tick, outlook.tick + 1, LONGEST_HORIZON, LONGEST_HORIZON + 1] {
        let again = compare(image, input, near, dice, at);
        let expected = if (outlook.tick..=LONGEST_HORIZON).contains(&near) { outlook.tick } else { 0 };
        assert_eq!(again.tick, expected, "{at}, horizon {near}");
        seen.again += 1;
    }
}

/// The tick with these contacts set.
fn with(input: &Input, bits: &[u32]) -> Input {
    let mut with = *input;
    bits.iter().for_each(|bit| with.contacts.0 |= 1 << bit);
    with
}

/// One tick in so many is looked from: more of those on which a move ends, a press acts or one is remembered, which are few.
fn one_in(before: &Image, after: &Image) -> u32 {
    match (before.drive.kind, after.drive.kind) {
        (3, 0) => 1,
        (2, 0) | (0, 4) => 2,
        (0, _) if before.remembered != 0 => 2,
        _ if before.remembered != 0 => 10,
        _ => 25,
    }
}

/// From points of simulated runs, with the tick as it stands and in automatic; from a fault, or what may become one, with reset too.
#[test]
fn looks_from_runs() {
    let mut dice = Dice::new(23);
    let mut seen = Seen::default();
    for seed in 0..RUNS {
        let mut scene = Scene::new(3_000 + seed);
        for t in 0..TICKS {
            let image = image_of(&scene.record);
            let (input, ticked) = scene.next_tick();
            if !dice.one_in(one_in(&image, &image_of(&ticked.next))) {
                continue;
            }
            let at = format!("seed {seed}, tick {t}");
            look_about(&image, &input, &mut dice, &mut seen, &at);
            look_about(&image, &with(&input, &[bit::AUTOMATIC]), &mut dice, &mut seen, &at);
            if image.fault != 0 || image.drive.kind == 1 {
                look_about(&image, &with(&input, &[bit::AUTOMATIC, bit::RESET]), &mut dice, &mut seen, &at);
            }
        }
    }
    seen.print();
    seen.assert_accepted(100);
    assert_eq!(seen.refused[4], 0, "a run's record is refused");
    assert!(seen.refused[6] > 500 && seen.again > 10_000, "{:?}, {}", seen.refused, seen.again);
}

/// Records within their limits and outside, and images of no record.
#[test]
fn looks_from_tampered_images() {
    let mut dice = Dice::new(29);
    let mut seen = Seen::default();
    let (mut none, mut both) = (0u64, 0u64);
    for seed in 0..1_000 {
        let mut scene = Scene::new(5_000 + seed);
        for t in 0..400 {
            let (input, ticked) = scene.next_tick();
            if !dice.one_in(5) {
                continue;
            }
            let image = tampered(&mut dice, &image_of(&ticked.next));
            let horizon = if dice.one_in(4) { any_horizon(&mut dice) } else { dice.between(0, 60) };
            let outlook = compare(&image, &input, horizon, &mut dice, &format!("seed {seed}, tick {t}"));
            seen.add(&image, &input, horizon, &outlook);
            none += u64::from(record_of(&image).is_none());
            both += u64::from(outlook.refusal == 4 && (horizon == 0 || horizon > LONGEST_HORIZON));
        }
    }
    seen.print();
    println!("{none} images of no record, {both} refused with 4 where the horizon is not taken either");
    assert!(
        none > 2_000 && both > 200 && seen.refused[4] > 5_000 && seen.refused[6] > 100,
        "{none}, {both}, {:?}",
        seen.refused
    );
    assert!(seen.answers.iter().flatten().flatten().all(|&n| n > 10), "an answer is seldom: {:?}", seen.answers);
}

/// Each number of an accepted image changed by itself.
#[test]
fn one_number_changed() {
    let mut dice = Dice::new(31);
    let mut seen = Seen::default();
    for seed in 0..20 {
        let mut scene = Scene::new(7_000 + seed);
        for _ in 0..300 {
            scene.next_tick();
        }
        let (input, ticked) = scene.next_tick();
        for (at, value, image) in one_changed(&image_of(&ticked.next)) {
            for horizon in [0, dice.between(1, 40), LONGEST_HORIZON + 1] {
                let outlook = compare(&image, &input, horizon, &mut dice, &format!("seed {seed}, word {at} = {value}"));
                seen.add(&image, &input, horizon, &outlook);
            }
        }
    }
    seen.print();
    assert!([0, 4, 6].iter().all(|&number| seen.refused[number] > 1_000), "{:?}", seen.refused);
}

#[test]
fn senseless_images() {
    let mut dice = Dice::new(37);
    let mut scene = Scene::new(6);
    for i in 0..20_000 {
        let image = senseless(&mut dice);
        let (input, _) = scene.next_tick();
        let horizon = dice.pick(&[0, 1, 20, LONGEST_HORIZON, LONGEST_HORIZON + 1, u32::MAX]);
        let outlook = compare(&image, &input, horizon, &mut dice, &format!("image {i}"));
        assert_eq!(outlook.refusal, 4, "image {i}");
    }
}

/// The fresh record of the worked values' sheet with the longest delays, and its image.
fn slow(continuous: u32, delay: u32) -> Image {
    let mut sheet = BASE;
    sheet[slot::CONTINUOUS] = continuous;
    sheet[slot::ORGANS_ON..slot::CURRENT_ORGANS_PASS].fill(0);
    sheet[slot::T1..=slot::T3].fill(delay);
    image_of(&Record::start(&sheet).expect("a sheet that is taken"))
}

/// All readings so many thousandths, breaker closed, automatic.
fn steady(thousandths: u32) -> Input {
    let contacts = 1 << bit::BREAKER_CLOSED | 1 << bit::AUTOMATIC;
    Input::of([Reading::Good(float_of(thousandths)); READINGS], contacts, 0, 0)
}

/// A command on the longest horizon's last tick, and a tick too late.
#[test]
fn longest_delays() {
    let mut dice = Dice::new(41);
    for continuous in [0, 1] {
        for (thousandths, way) in [(98_000, 1), (102_000, 2), (120_000, 2)] {
            let (image, input) = (slow(continuous, LONGEST_HORIZON), steady(thousandths));
            let mut answers = |horizon: u32| {
                let outlook = compare(&image, &input, horizon, &mut dice, "the longest delay");
                (outlook.refusal, outlook.tick, outlook.way)
            };
            assert_eq!(answers(LONGEST_HORIZON - 1), (0, 0, 0));
            assert_eq!(answers(LONGEST_HORIZON), (0, LONGEST_HORIZON, way));
            assert_eq!(answers(LONGEST_HORIZON + 1), (6, 0, 0));
            assert_eq!(answers(u32::MAX), (6, 0, 0));
        }
    }
}

/// The longest horizon from points of simulated runs.
#[test]
fn longest_horizons() {
    let mut dice = Dice::new(43);
    let mut seen = Seen::default();
    for seed in 0..60 {
        let mut scene = Scene::new(9_000 + seed);
        for _ in 0..dice.between(0, 400) {
            scene.next_tick();
        }
        let image = image_of(&scene.record);
        let (input, _) = scene.next_tick();
        for input in [input, with(&input, &[bit::AUTOMATIC])] {
            let outlook = compare(&image, &input, LONGEST_HORIZON, &mut dice, &format!("seed {seed}"));
            seen.add(&image, &input, LONGEST_HORIZON, &outlook);
            if outlook.tick == 0 && dice.one_in(8) {
                hold_to_ticks(&image, &input, LONGEST_HORIZON, &outlook, &mut dice);
            }
        }
    }
    seen.print();
    let none: u64 = seen.starts.iter().map(|start| start[0]).sum();
    assert!(none > 20 && seen.looks - none > 20, "{none} of {} found none", seen.looks);
}
