//! Ticket 8: what holds of every look ahead, from chance records and from points
//! of simulated runs. Each property counts what it was tried on.

mod common;

use std::collections::BTreeMap;

use common::any::{any_input, any_record};
use common::scenes::ENOUGH;
use common::step;
use reference::ahead::{ahead, Outlook, LONGEST_HORIZON};
use reference::dice::Dice;
use reference::input::{bit, Input};
use reference::record::{within_limits, Direction, Drive, Fault, Record, Wait};
use reference::scene::Scene;
use reference::sheet::is_continuous;
use reference::tick::OUTPUTS;

/// A look ahead to be tried.
struct Look {
    record: Record,
    input: Input,
    horizon: u32,
}

impl Look {
    /// From here, with this tick, some hundred ticks far.
    fn new(dice: &mut Dice, record: &Record, input: Input) -> Look {
        let longest = dice.pick(&[3, 40, 100, 400]);
        Look { record: record.clone(), input, horizon: dice.between(1, longest) }
    }

    fn ahead(&self, horizon: u32) -> Outlook {
        ahead(&self.record, &self.input, horizon)
    }

    /// The drive, the mode, and what is answered.
    fn kind(&self, outlook: &Outlook) -> String {
        let drive = DRIVES[usize::from(is_continuous(&self.record.settings))];
        let mode = MODES[usize::from(self.input.contacts.on(bit::AUTOMATIC))];
        format!("{drive}, {mode}: {}", answered(outlook))
    }

    /// How the look starts, and whether a command is found.
    fn start(&self, outlook: &Outlook) -> String {
        let Record { drive, fault, wait, remembered, .. } = &self.record;
        let start = match drive {
            Drive::Rest if *fault != Fault::None => "fault",
            Drive::Rest if remembered.is_some() => "press at rest",
            Drive::Rest if wait.ticks() > 0 => "waiting",
            Drive::Rest => "at rest",
            _ if remembered.is_some() => "press in the move",
            Drive::Asked { automatic: true, .. } => "asked",
            Drive::Asked { automatic: false, .. } => "asked by a button",
            Drive::Moving { commanded: true, .. } => "moving",
            Drive::Moving { commanded: false, .. } => "own move",
        };
        format!("{start}: {}", if outlook.tick > 0 { "found" } else { "none" })
    }
}

const DRIVES: [&str; 2] = ["contact", "continuous"];
const MODES: [&str; 2] = ["manual", "automatic"];
const ANSWERS: [&str; 3] = ["raise", "lower", "none"];
const STARTS: [&str; 9] =
    ["fault", "press at rest", "waiting", "at rest", "press in the move", "asked", "asked by a button", "moving", "own move"];

fn answered(outlook: &Outlook) -> &'static str {
    match outlook.way {
        Some(Direction::Raise) => ANSWERS[0],
        Some(Direction::Lower) => ANSWERS[1],
        None => ANSWERS[2],
    }
}

/// How often what came up.
#[derive(Default)]
struct Tried(BTreeMap<String, u32>);

impl Tried {
    fn add(&mut self, look: &Look, outlook: &Outlook) {
        for what in [look.kind(outlook), look.start(outlook)] {
            *self.0.entry(what).or_default() += 1;
        }
    }

    fn assert_enough(&self, what: &str) {
        let count = self.0.get(what).copied().unwrap_or(0);
        assert!(count >= ENOUGH, "{what} came up {count} times: {:?}", self.0);
    }

    /// Each drive and mode came up with each of these answers.
    fn assert_kinds(&self, answers: &[&str]) {
        for (drive, mode) in DRIVES.iter().flat_map(|drive| MODES.map(|mode| (drive, mode))) {
            answers.iter().for_each(|answer| self.assert_enough(&format!("{drive}, {mode}: {answer}")));
        }
    }

    /// Each way to start came up with each of these outcomes.
    fn assert_starts(&self, outcomes: &[&str]) {
        for (start, outcome) in STARTS.iter().flat_map(|start| outcomes.iter().map(move |outcome| (start, outcome))) {
            self.assert_enough(&format!("{start}: {outcome}"));
        }
    }
}

/// Tries looks from points of so many simulated runs, with the tick as it stands
/// and in automatic, and as many from chance records.
fn try_looks(runs: u64, dice: &mut Dice, mut property: impl FnMut(&mut Dice, Look)) {
    for seed in 0..runs {
        let mut scene = Scene::new(seed);
        for _ in 0..600 {
            let before = scene.record.clone();
            let (input, _) = scene.next_tick();
            if !dice.one_in(30) {
                continue;
            }
            let mut automatic = input;
            automatic.contacts.0 |= 1 << bit::AUTOMATIC;
            let (any, tick) = (any_record(dice), any_input(dice));
            for look in [(&before, input), (&before, automatic), (&any, tick)] {
                let look = Look::new(dice, look.0, look.1);
                property(dice, look);
            }
        }
    }
}

/// The answer as the records tell it: the first tick that takes a drive from rest
/// to a command.
fn told_by_records(look: &Look) -> Outlook {
    let mut next = look.record.clone();
    let mut outputs = [0; OUTPUTS];
    for tick in 1..=look.horizon {
        let rested = next.drive == Drive::Rest;
        outputs = step(&mut next, &look.input);
        if let (true, Drive::Asked { direction, .. }) = (rested, next.drive) {
            return Outlook { refusal: 0, tick, way: Some(direction), outputs, next };
        }
    }
    Outlook { refusal: 0, tick: 0, way: None, outputs, next }
}

/// What holds on the tick on which a command begins.
fn assert_begun(look: &Look, direction: Direction, outlook: &Outlook) {
    let Outlook { outputs, next, tick, .. } = outlook;
    let automatic = look.input.contacts.on(bit::AUTOMATIC);
    let raise = direction == Direction::Raise;
    assert!((1..=look.horizon).contains(tick));
    assert_eq!((next.drive, next.wait), (Drive::Asked { direction, age: 0, automatic }, Wait::None));
    assert_eq!([outputs[0], outputs[1], outputs[24], outputs[27]], [raise, !raise, true, automatic].map(u32::from));
    let blocked = [if automatic { 13 } else { 14 }, if raise { 15 } else { 16 }].map(|field: usize| outputs[field]);
    assert_eq!(blocked, [0, 0], "against a block");
    let side = [outputs[17], outputs[18]];
    assert!(!automatic || side == [u32::from(raise), u32::from(!raise)], "not by the deviation");
}

#[test]
fn the_answer_is_what_so_many_ticks_give() {
    let mut tried = Tried::default();
    try_looks(400, &mut Dice::new(81), |_, look| {
        let outlook = look.ahead(look.horizon);
        assert_eq!(outlook, told_by_records(&look), "{:?}\n{:?}", look.record, look.input);
        match outlook.way {
            Some(direction) => assert_begun(&look, direction, &outlook),
            None => assert_eq!(outlook.tick, 0),
        }
        assert!(within_limits(&outlook.next));
        tried.add(&look, &outlook);
    });
    tried.assert_kinds(&ANSWERS);
    tried.assert_starts(&["found", "none"]);
}

#[test]
fn a_longer_horizon_changes_no_answer() {
    let mut tried = Tried::default();
    try_looks(400, &mut Dice::new(82), |dice, look| {
        let outlook = look.ahead(look.horizon);
        if outlook.tick > 0 {
            let any = dice.between(outlook.tick, LONGEST_HORIZON);
            for horizon in [outlook.tick, outlook.tick + 1, any, LONGEST_HORIZON] {
                assert_eq!(look.ahead(horizon), outlook);
            }
            tried.add(&look, &outlook);
        }
    });
    tried.assert_kinds(&["raise", "lower"]);
    tried.assert_starts(&["found"]);
}

#[test]
fn a_horizon_short_of_the_tick_finds_none() {
    let mut tried = Tried::default();
    try_looks(400, &mut Dice::new(83), |dice, look| {
        let outlook = look.ahead(look.horizon);
        if outlook.tick > 1 {
            for horizon in [outlook.tick - 1, dice.between(1, outlook.tick - 1)] {
                let short = Look { horizon, record: look.record.clone(), ..look };
                let none = short.ahead(horizon);
                assert_eq!((none.refusal, none.tick, none.way), (0, 0, None));
                assert_eq!(none, told_by_records(&short));
            }
            tried.add(&look, &outlook);
        }
    });
    tried.assert_kinds(&["raise", "lower"]);
}

/// A press made in the move is carried out on the second tick, so the first look
/// is often one of a single tick.
#[test]
fn looking_on_where_a_look_ended_is_one_look() {
    let mut tried = Tried::default();
    try_looks(400, &mut Dice::new(84), |dice, look| {
        for near in [1, look.horizon] {
            let first = look.ahead(near);
            if first.tick > 0 {
                return;
            }
            let further = dice.pick(&[1, 20, 300]);
            let second = ahead(&first.next, &look.input, further);
            let whole = look.ahead(near + further);
            let tick = if second.tick > 0 { near + second.tick } else { 0 };
            assert_eq!(whole, Outlook { tick, ..second });
            tried.add(&look, &whole);
        }
    });
    tried.assert_kinds(&ANSWERS);
    tried.assert_starts(&["none"]);
    let later = STARTS.iter().filter(|&&start| start != "press at rest");
    later.for_each(|start| tried.assert_enough(&format!("{start}: found")));
}

#[test]
fn refused_looks_leave_all_as_it_is() {
    let mut tried = Tried::default();
    try_looks(40, &mut Dice::new(85), |dice, mut look| {
        let refused =
            |refusal, look: &Look| Outlook { refusal, tick: 0, way: None, outputs: [0; OUTPUTS], next: look.record.clone() };
        tried.add(&look, &look.ahead(look.horizon));
        let beyond = dice.between(LONGEST_HORIZON + 1, u32::MAX);
        let not_taken = [0, LONGEST_HORIZON + 1, beyond, u32::MAX];
        not_taken.iter().for_each(|&horizon| assert_eq!(look.ahead(horizon), refused(6, &look)));
        look.record.operations = 1_000_000;
        for horizon in not_taken.into_iter().chain([1, look.horizon, LONGEST_HORIZON]) {
            assert_eq!(look.ahead(horizon), refused(4, &look));
        }
    });
    tried.assert_kinds(&["none"]);
}
