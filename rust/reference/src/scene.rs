//! A regulator in a simulated substation, tick after tick.

use crate::dice::Dice;
use crate::feeder::{self, goes_by_pairs, length};
use crate::floats::{float_of, floats_beside, part_of, parts_beside, BESIDE};
use crate::input::{bit, Contacts, Input, CONTACTS, READINGS};
use crate::make_sheet;
use crate::motor::Motor;
use crate::operator::{in_between, remote_turns, Operator, Phase};
use crate::plant::Plant;
use crate::reading::Reading;
use crate::record::{Direction, Drive, Record};
use crate::sheet::{is_continuous, module_k, slot, Settings};
use crate::stretch::{others, Hands, Level, Others, Stretch, LOWER, RAISE};
use crate::tick::{tick, Ticked, OUTPUTS};
use crate::voltage::{compensated, compensation, picked, Ratings};

/// The regulator, the drive and the stretch of ticks they are in.
pub struct Scene {
    dice: Dice,
    pub record: Record,
    outputs: [u32; OUTPUTS],
    plant: Plant,
    motor: Motor,
    /// At the panel, and the dispatcher.
    operators: [Operator; 2],
    /// Whether the tick before started with a command or move unfinished.
    unfinished_before: bool,
    stretch: Stretch,
}

impl Scene {
    pub fn new(seed: u64) -> Scene {
        let mut dice = Dice::new(seed);
        let settings = make_sheet::sheet(&mut dice);
        let stretch = Stretch::new(&mut dice, &settings);
        Scene {
            dice,
            record: Record::fresh(settings),
            outputs: [0; OUTPUTS],
            plant: Plant::new(settings[slot::N_POS]),
            motor: Motor::default(),
            operators: Default::default(),
            unfinished_before: false,
            stretch,
        }
    }

    /// The next tick's input, and what the regulator made of it.
    pub fn next_tick(&mut self) -> (Input, Ticked) {
        if self.stretch.left == 0 {
            self.stretch = Stretch::new(&mut self.dice, &self.record.settings);
            self.motor.lift = 0;
        }
        self.stretch.left -= 1;
        let input = self.input();
        let ticked = tick(&self.record, &input);
        self.unfinished_before = self.record.drive != Drive::Rest;
        self.record = ticked.next.clone();
        self.outputs = ticked.outputs;
        (input, ticked)
    }

    fn input(&mut self) -> Input {
        let settings = self.record.settings;
        let contacts = self.contacts(&settings);
        if self.dice.one_in(self.stretch.others_change) {
            self.stretch.others = others(&mut self.dice, &settings);
        }
        let (scalars, parts) = self.numbers(&settings, contacts);
        let mut readings = [Reading::Invalid; READINGS];
        let places = readings.iter_mut();
        let numbers = scalars.map(Number::Scalar).into_iter().chain(parts.map(Number::Part));
        for (place, number) in places.zip(numbers) {
            *place = self.reading(number);
        }
        self.spoil(&settings, &mut readings);
        Input::of(readings, contacts, self.bcd(), self.sensor())
    }

    /// What is measured: the scalars and the pairs' parts, in whole thousandths.
    fn numbers(&mut self, settings: &Settings, contacts: u32) -> ([u32; SCALARS], [i32; READINGS - SCALARS]) {
        let u = self.voltage_at(self.stretch.level, settings, contacts) + self.motor.lift;
        let Others { scalars: others, bus, coupler } = self.stretch.others;
        let u_pair = match goes_by_pairs(settings) {
            true => {
                let current = picked(settings, Some(bus), Some(coupler)).expect("both are there");
                feeder::u_ab(&mut self.dice, settings, u.max(0) as u32, current)
            }
            false => feeder::any_u_ab(&mut self.dice),
        };
        let u_ab = match (goes_by_pairs(settings), self.stretch.scalar_level) {
            (false, _) => u + less(settings, &others),
            (true, Some(level)) => self.voltage_at(level, settings, contacts),
            (true, None) => i64::from(length(u_pair)),
        };
        let mut scalars = [u_ab.clamp(0, 200_000) as u32; SCALARS];
        scalars[1..].copy_from_slice(&others);
        (scalars, [u_pair.re, u_pair.im, bus.re, bus.im, coupler.re, coupler.im])
    }

    /// Spoils what U needs while a command is held, now and then, and in some
    /// stretches what it does not need.
    fn spoil(&mut self, settings: &Settings, readings: &mut [Reading; READINGS]) {
        if self.disturbs(settings) && self.dice.one_in(4) {
            let place = self.dice.pick(needed(settings));
            readings[place] = self.spoiled(readings[place]);
        }
        for &place in unneeded(settings) {
            if self.dice.one_in(self.stretch.unneeded_noise) {
                readings[place] = self.spoiled(readings[place]);
            }
        }
    }

    /// The steady contacts, the drive's, the buttons, reset, and flips.
    fn contacts(&mut self, settings: &Settings) -> u32 {
        let mut contacts = self.stretch.contacts | (self.dice.bits() << CONTACTS);
        contacts |= u32::from(self.switching(settings)) << bit::SWITCHING;
        let phase = Phase::of(&self.record, Contacts(contacts).on(bit::SWITCHING), self.unfinished_before);
        let turned = self.turn_of_mode(phase);
        contacts ^= turned ^ self.buttons(phase, turned != 0);
        if self.stretch.busy {
            contacts ^= self.between(phase);
        }
        let fault = self.outputs[19..=22].contains(&1);
        let resets = if self.stretch.busy { 8 } else { 25 };
        if fault && self.dice.one_in(resets) {
            contacts |= 1 << bit::RESET;
        }
        if self.dice.one_in(self.stretch.flips) {
            contacts ^= match self.dice.one_in(8) {
                true => self.dice.bits() & ((1 << CONTACTS) - 1),
                false => 1 << self.dice.between(0, CONTACTS - 1),
            };
        }
        if self.disturbs(settings) {
            contacts ^= 1 << self.dice.between(0, CONTACTS - 1);
        }
        contacts
    }

    /// A turn from local to remote mode or back, as a contact to turn over: for
    /// this tick alone or for longer.
    fn turn_of_mode(&mut self, phase: Phase) -> u32 {
        if !remote_turns(&mut self.dice, phase, self.stretch.remote_turns) {
            return 0;
        }
        if self.dice.one_in(2) {
            self.stretch.contacts ^= 1 << bit::REMOTE;
        }
        1 << bit::REMOTE
    }

    /// What the operator at the panel and the dispatcher press; `turned` says that
    /// the mode turns.
    fn buttons(&mut self, phase: Phase, turned: bool) -> u32 {
        let [panel, dispatcher] = [0, 1].map(|pair| match self.stretch.hands[pair] {
            Hands::Still(bits) => bits,
            Hands::Tapped if self.dice.one_in(6) => self.dice.pick(&[RAISE, LOWER]),
            Hands::Tapped => 0,
            Hands::Busy => self.operators[pair].press(&mut self.dice, phase, turned),
        });
        panel | dispatcher << (bit::REMOTE_RAISE - bit::RAISE_BUTTON)
    }

    /// What comes between while an operator is busy, and turns to automatic and
    /// back, as contacts to turn over.
    fn between(&mut self, phase: Phase) -> u32 {
        let mut turned = in_between(&mut self.dice, phase);
        if phase != Phase::Rest && self.dice.one_in(self.stretch.mode_turns) {
            self.stretch.contacts ^= 1 << bit::AUTOMATIC;
            turned ^= 1 << bit::AUTOMATIC;
        }
        turned
    }

    /// The drive's tick, and bit 1: anything where there is no contact.
    fn switching(&mut self, settings: &Settings) -> bool {
        let command = match (self.outputs[0], self.outputs[1]) {
            (1, _) => Some(Direction::Raise),
            (_, 1) => Some(Direction::Lower),
            _ => None,
        };
        let (dice, temper) = (&mut self.dice, self.stretch.temper);
        if is_continuous(settings) {
            self.motor.run(dice, settings, temper, command, &mut self.plant);
            return dice.one_in(2);
        }
        self.plant.contact(dice, settings, temper, command)
    }

    /// Whether something comes in between while a command is held: seldom, but
    /// often on the T4th tick after its first, the one of 'long'.
    fn disturbs(&mut self, settings: &Settings) -> bool {
        let often = match settings[slot::T4].checked_sub(self.motor.ticks) {
            Some(0) => 3,
            Some(1) => 15,
            _ => 200,
        };
        self.motor.ticks > 0 && self.dice.one_in(often)
    }

    /// The voltage of a level, in mV.
    fn voltage_at(&mut self, level: Level, settings: &Settings, contacts: u32) -> i64 {
        let chosen = match (contacts >> bit::U_SUPP2) & 7 {
            4..=7 => 3,
            2..=3 => 2,
            1 => 1,
            _ => 0,
        };
        let support = i64::from(settings[slot::U_SUPP + chosen]);
        let half = i64::from(settings[slot::DU]) / 2;
        match level {
            Level::FromLowEdge(by) => support - half + by,
            Level::FromHighEdge(by) => support + half + by,
            Level::FromSlot(slot, by) => i64::from(settings[slot]) + by,
            Level::BesideEdges => support + self.dice.pick(&[-half, half]) + self.dice.pick(&[-1, 0, 1]),
            Level::Wander => support - 2 * half + i64::from(self.dice.between(0, 4 * half as u32)),
        }
    }

    /// A reading that counts as this number, sometimes spoiled; one in four lies
    /// beside its number.
    fn reading(&mut self, number: Number) -> Reading {
        let place = self.dice.between(0, 4 * BESIDE as u32 - 1) as usize;
        let float = match (number, place) {
            (Number::Scalar(number), 0..BESIDE) => floats_beside(number)[place],
            (Number::Scalar(number), _) => float_of(number),
            (Number::Part(part), 0..BESIDE) => parts_beside(part)[place],
            (Number::Part(part), _) => part_of(part),
        };
        let reading = Reading::Good(float);
        match self.dice.one_in(self.stretch.noise * 3) {
            true => self.spoiled(reading),
            false => reading,
        }
    }

    /// Held, missing, or at an end of a range.
    fn spoiled(&mut self, reading: Reading) -> Reading {
        let float = match reading {
            Reading::Good(x) | Reading::Held(x) => x,
            Reading::Invalid => 0.0,
        };
        let dice = &mut self.dice;
        match dice.between(0, 9) {
            0..=2 => Reading::Held(float),
            3 => Reading::Invalid,
            4 => Reading::Good(f32::from_bits(dice.bits())),
            5 => Reading::Held(f32::from_bits(dice.bits())),
            6 => Reading::Good(dice.pick(&[f32::NAN, f32::INFINITY, f32::NEG_INFINITY])),
            7 => Reading::Good(dice.pick(&[-0.0, -float, f32::from_bits(1), f32::MAX])),
            8 => Reading::Good(f32::from_bits(dice.pick(&VOLT_ENDS))),
            _ => Reading::Good(f32::from_bits(dice.pick(&AMP_ENDS))),
        }
    }

    fn bcd(&mut self) -> u8 {
        let tap = self.plant.tap as u8;
        match self.dice.one_in(self.stretch.noise) {
            true => self.dice.bits() as u8,
            false => (16 * (tap / 10) + tap % 10) | self.dice.pick(&[0, 0x80]),
        }
    }

    fn sensor(&mut self) -> u8 {
        match self.dice.one_in(self.stretch.noise) {
            true => self.dice.bits() as u8,
            false => self.plant.tap as u8,
        }
    }
}

/// How many of the readings are scalars; the pairs' parts come after them.
const SCALARS: usize = 6;

/// What a reading is to count as.
#[derive(Clone, Copy)]
enum Number {
    Scalar(u32),
    Part(i32),
}

/// 200 and 40, -200 and -40, by their bits, and the next float past each.
const VOLT_ENDS: [u32; 4] = [0x4348_0000, 0x4348_0001, 0xC348_0000, 0xC348_0001];
const AMP_ENDS: [u32; 4] = [0x4220_0000, 0x4220_0001, 0xC220_0000, 0xC220_0001];

/// Which readings are worth spoiling since U needs them, by their place: U_AB,
/// or the pairs that slots 3 and 4 name.
fn needed(settings: &Settings) -> &'static [usize] {
    match (goes_by_pairs(settings), settings[slot::COMPENSATION_CURRENT]) {
        (false, _) => &[0],
        (true, 0) => &[6, 7, 8, 9],
        (true, 1) => &[6, 7, 10, 11],
        (true, _) => &[6, 7, 8, 9, 10, 11],
    }
}

/// Which readings U does not need, by their place: the scalar U_AB and the pair
/// that slot 4 does not pick, or all pairs.
fn unneeded(settings: &Settings) -> &'static [usize] {
    match (goes_by_pairs(settings), settings[slot::COMPENSATION_CURRENT]) {
        (false, _) => &[6, 7, 8, 9, 10, 11],
        (true, 0) => &[0, 10, 11],
        (true, 1) => &[0, 8, 9],
        (true, _) => &[0],
    }
}

/// By how many mV U is less than U_AB if slot 3 is 1.
fn less(settings: &Settings, others: &[u32; SCALARS - 1]) -> i64 {
    let [_, _, _, bus, coupler] = others.map(i64::from);
    let current = picked(settings, Some(bus), Some(coupler)).expect("both are there");
    match settings[slot::COMPENSATION] {
        compensated::BY_U_COMP => compensation(settings[slot::U_COMP], current, module_k(settings), Ratings::of(settings)),
        _ => 0,
    }
}
