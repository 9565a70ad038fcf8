//! Ticket 6 in the simulated substation: every situation that the ticket speaks
//! of arises there, often enough that a comparison over made recordings means
//! something.

mod common;

use std::collections::BTreeMap;

use common::scenes::{Seen, ENOUGH};
use reference::input::bit;
use reference::record::{Direction, Drive, Fault, Record};
use reference::scene::Scene;
use reference::sheet::is_continuous;

impl Seen<'_> {
    /// The command or move is over with this tick.
    fn ends(&self) -> bool {
        self.unfinished() && self.ticked.next.drive == Drive::Rest
    }

    /// The buttons of the mode's pair, whether pressed and whether newly.
    fn buttons(&self) -> [(bool, bool); 2] {
        let Record { raise_button, lower_button, remote_raise, remote_lower, .. } = *self.before;
        let pair = match self.on(bit::REMOTE) {
            false => [(bit::RAISE_BUTTON, raise_button), (bit::LOWER_BUTTON, lower_button)],
            true => [(bit::REMOTE_RAISE, remote_raise), (bit::REMOTE_LOWER, remote_lower)],
        };
        pair.map(|(bit, before)| (self.on(bit), self.on(bit) && !before))
    }

    fn press(&self) -> Option<Direction> {
        match self.buttons() {
            [(_, true), (false, _)] => Some(Direction::Raise),
            [(false, _), (_, true)] => Some(Direction::Lower),
            _ => None,
        }
    }

    /// How the buttons are if there is no press.
    fn hands(&self) -> &'static str {
        match self.buttons() {
            [(false, _), (false, _)] => "none",
            [(_, true), (_, true)] => "both new",
            [(true, _), (true, _)] if self.buttons().contains(&(true, true)) => "one new, one held",
            [(true, _), (true, _)] => "both held",
            _ => "one held",
        }
    }

    fn blocked(&self, direction: Direction) -> Option<&'static str> {
        let outputs = &self.ticked.outputs;
        let way = if direction == Direction::Raise { outputs[15] } else { outputs[16] };
        match (outputs[14], way) {
            (1, _) => Some("mode"),
            (0, 1) => Some("direction"),
            _ => None,
        }
    }

    /// What drops a press on this tick, whatever the drive does.
    fn cause(&self) -> Option<&'static str> {
        let causes = [
            (self.out(), "out"),
            (self.on(bit::AUTOMATIC), "automatic"),
            (self.on(bit::LOCAL_DRIVE), "local drive"),
            (self.ticked.next.fault == Fault::RunAway, "run-away"),
            (self.ticked.next.fault == Fault::NotStarted, "not started"),
            (self.ticked.next.fault == Fault::Long, "long"),
            (self.ticked.next.fault == Fault::Fast, "fast"),
        ];
        causes.into_iter().find(|(is, _)| *is).map(|(_, cause)| cause)
    }
}

/// How often each situation has arisen, for drives with and without the contact.
#[derive(Default)]
struct Counts(BTreeMap<String, [u32; 2]>);

impl Counts {
    fn note(&mut self, seen: &Seen, situation: &str) {
        let kind = usize::from(is_continuous(&seen.before.settings));
        self.0.entry(situation.to_string()).or_default()[kind] += 1;
    }

    fn of(&self, situation: &str) -> [u32; 2] {
        self.0.get(situation).copied().unwrap_or_default()
    }

    /// A tick of a command or move.
    fn during(&mut self, seen: &Seen) {
        let place = if seen.ends() { "ending" } else { "unfinished" };
        match (seen.cause(), seen.press(), seen.before.remembered) {
            (Some(cause), None, Some(_)) => self.note(seen, &format!("{place}, {cause}, dropped")),
            (Some(cause), Some(_), _) => self.note(seen, &format!("{place}, {cause}, pressed")),
            (None, Some(press), None) => self.pressed(seen, place, press),
            (None, Some(press), Some(before)) if press != before => self.note(seen, &format!("{place}, replaced")),
            (None, None, Some(_)) => self.note(seen, &format!("{place}, kept, {}", seen.hands())),
            (None, None, None) => self.note(seen, &format!("{place}, nothing, {}", seen.hands())),
            _ => {}
        }
    }

    /// A press is remembered where none was.
    fn pressed(&mut self, seen: &Seen, place: &str, press: Direction) {
        let state = match seen.before.drive {
            Drive::Rest => unreachable!("unfinished"),
            Drive::Asked { automatic: true, .. } => "automatic command",
            Drive::Asked { automatic: false, .. } => "manual command",
            Drive::Moving { commanded: true, .. } => "commanded move",
            Drive::Moving { commanded: false, .. } => "own move",
        };
        self.note(seen, &format!("{place}, remembered, {state}"));
        if let Some(block) = seen.blocked(press) {
            self.note(seen, &format!("remembered, blocked by {block}"));
        }
    }

    /// The first tick at rest, with a press remembered.
    fn first(&mut self, seen: &Seen, remembered: Direction) {
        let began = seen.ticked.next.drive != Drive::Rest;
        match (seen.cause(), seen.press()) {
            (Some(cause), None) => self.note(seen, &format!("first, {cause}, dropped")),
            (Some(cause), Some(_)) => self.note(seen, &format!("first, {cause}, pressed")),
            (None, _) if matches!(seen.ticked.next.drive, Drive::Moving { .. }) => self.note(seen, "first, own move"),
            (None, Some(press)) => {
                let side = if press == remembered { "same" } else { "other" };
                let way = if began { "unblocked" } else { "blocked" };
                self.note(seen, &format!("first, real press to the {side} side, {way}"));
                if !began && press != remembered && seen.blocked(remembered).is_none() {
                    self.note(seen, "first, real press alone blocked");
                }
            }
            (None, None) if began => self.note(seen, &format!("first, carried out, {}", seen.hands())),
            (None, None) => {
                let block = seen.blocked(remembered).expect("a block, as nothing begins");
                self.note(seen, &format!("first, blocked by {block}"));
            }
        }
    }
}

fn counts() -> Counts {
    let mut counts = Counts::default();
    for seed in 5_000..7_500 {
        let mut scene = Scene::new(seed);
        let mut chained = false;
        for _ in 0..1_000 {
            let before = scene.record.clone();
            let (input, ticked) = scene.next_tick();
            let seen = Seen { before: &before, input: &input, ticked: &ticked };
            match before.remembered {
                // Ticket 7's change of mode drops a press too; tests/pair_scenes.rs counts it.
                _ if seen.changes() => {}
                _ if seen.unfinished() => counts.during(&seen),
                Some(remembered) => counts.first(&seen, remembered),
                None => {}
            }
            let carried_out = before.remembered.is_some() && !seen.unfinished() && seen.press().is_none();
            if before.drive == Drive::Rest {
                if chained && carried_out && ticked.outputs[24] == 1 {
                    counts.note(&seen, "chain");
                }
                chained = carried_out && ticked.outputs[24] == 1;
            }
        }
    }
    counts
}

/// Situations for either kind of drive: where, and what.
const EITHER: [(&str, &[&str]); 4] = [
    ("unfinished", &["remembered, manual command", "replaced", "automatic, dropped", "automatic, pressed"]),
    ("ending", &["replaced", "automatic, dropped", "automatic, pressed", "local drive, dropped"]),
    ("ending", &["local drive, pressed", "out, dropped", "out, pressed"]),
    ("first", &["automatic, dropped", "automatic, pressed", "local drive, dropped", "out, dropped", "out, pressed"]),
];

/// How the buttons are where a press is kept, where there is none, and where it
/// is carried out.
const HANDS: [&str; 5] = ["none", "one held", "both held", "both new", "one new, one held"];
const WITH_HANDS: [&str; 4] = ["unfinished, kept", "unfinished, nothing", "ending, kept", "first, carried out"];

/// What else comes on the first tick at rest, or of a press that is blocked.
const BLOCKED: [&str; 9] = [
    "remembered, blocked by mode",
    "remembered, blocked by direction",
    "first, blocked by mode",
    "first, blocked by direction",
    "first, real press to the same side, unblocked",
    "first, real press to the same side, blocked",
    "first, real press to the other side, unblocked",
    "first, real press to the other side, blocked",
    "first, real press alone blocked",
];

/// What only a drive with the contact can show.
const WITH_CONTACT: [&str; 14] = [
    "unfinished, remembered, automatic command",
    "unfinished, remembered, commanded move",
    "unfinished, remembered, own move",
    "ending, remembered, commanded move",
    "ending, remembered, own move",
    "ending, not started, dropped",
    "ending, not started, pressed",
    "ending, long, dropped",
    "ending, long, pressed",
    "ending, fast, dropped",
    "ending, fast, pressed",
    "first, run-away, dropped",
    "first, run-away, pressed",
    "first, own move",
];

/// What only one without it can show: no move follows its commands.
const WITHOUT_CONTACT: [&str; 2] = ["ending, remembered, automatic command", "ending, remembered, manual command"];

#[test]
fn every_situation_arises() {
    let counts = counts();
    let either = EITHER.iter().flat_map(|(place, all)| all.iter().map(move |what| format!("{place}, {what}")));
    let with_hands = WITH_HANDS.iter().flat_map(|place| HANDS.map(|hands| format!("{place}, {hands}")));
    let plain = BLOCKED.iter().chain(&["chain"]).map(|situation| situation.to_string());
    for situation in either.chain(with_hands).chain(plain) {
        let both = counts.of(&situation);
        assert!(both.iter().all(|&times| times >= ENOUGH), "{situation}: {both:?}");
    }
    for situation in WITH_CONTACT {
        let [with, without] = counts.of(situation);
        assert!(with >= ENOUGH && without == 0, "{situation}: {with}, without the contact {without}");
    }
    for situation in WITHOUT_CONTACT {
        let [with, without] = counts.of(situation);
        assert!(with == 0 && without >= ENOUGH, "{situation}: {with}, without the contact {without}");
    }
    // Mostly it is carried out.
    let carried_out = counts.of("first, carried out, none");
    assert!(carried_out.iter().all(|&times| times > 500), "{carried_out:?}");
}

#[test]
fn about_two_ticks_in_three_are_automatic() {
    let (mut all, mut automatic) = (0, 0);
    for seed in 0..400 {
        let mut scene = Scene::new(seed);
        for _ in 0..1_000 {
            let (input, _) = scene.next_tick();
            all += 1;
            automatic += u32::from(input.contacts.on(bit::AUTOMATIC));
        }
    }
    assert!((all * 64 / 100..all * 72 / 100).contains(&automatic), "{automatic} of {all}");
}
