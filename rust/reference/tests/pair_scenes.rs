//! Ticket 7 in the simulated substation: every situation that the ticket speaks of
//! arises there, in both modes and with both kinds of drive, often enough that a
//! comparison over made recordings means something.

mod common;

use std::collections::BTreeMap;
use std::ops::Range;

use common::scenes::{Seen, ENOUGH};
use reference::input::{bit, Contacts};
use reference::record::{Direction, Drive, Fault, Record};
use reference::scene::Scene;
use reference::sheet::{is_continuous, slot};
use reference::tick::tick;

/// The modes, and the place of each one's pair in the arrays here.
const MODES: [&str; 2] = ["local", "remote"];

/// A pair of buttons: raise and lower.
type Pair = [bool; 2];

/// The pairs of a tick, the panel's first.
fn pairs(contacts: Contacts) -> [Pair; 2] {
    [[bit::RAISE_BUTTON, bit::LOWER_BUTTON], [bit::REMOTE_RAISE, bit::REMOTE_LOWER]]
        .map(|bits| bits.map(|bit| contacts.on(bit)))
}

/// The pairs as a record remembers them.
fn pairs_before(record: &Record) -> [Pair; 2] {
    [[record.raise_button, record.lower_button], [record.remote_raise, record.remote_lower]]
}

impl Seen<'_> {
    fn mode(&self) -> usize {
        usize::from(self.on(bit::REMOTE))
    }

    /// Whether each button of a mode's pair is pressed, and whether newly.
    fn buttons(&self, mode: usize) -> [(bool, bool); 2] {
        let (now, before) = (pairs(self.input.contacts)[mode], pairs_before(self.before)[mode]);
        [0, 1].map(|side| (now[side], now[side] && !before[side]))
    }

    fn press(&self, mode: usize) -> Option<Direction> {
        match self.buttons(mode) {
            [(_, true), (false, _)] => Some(Direction::Raise),
            [(false, _), (_, true)] => Some(Direction::Lower),
            _ => None,
        }
    }

    /// The one button of a mode's pair that is held over.
    fn held(&self, mode: usize) -> Option<Direction> {
        match self.buttons(mode) {
            [(true, false), (false, _)] => Some(Direction::Raise),
            [(false, _), (true, false)] => Some(Direction::Lower),
            _ => None,
        }
    }

    /// How the other mode's pair is while the mode's own one goes this way.
    fn other(&self, way: Direction) -> &'static str {
        let mode = 1 - self.mode();
        match (self.press(mode), self.held(mode), self.buttons(mode)) {
            (Some(press), _, _) if press == way => "same new",
            (Some(_), _, _) => "opposite new",
            (_, Some(held), _) if held == way => "same held",
            (_, Some(_), _) => "opposite held",
            (_, _, [(false, _), (false, _)]) => "none",
            _ => "both",
        }
    }

    /// Manual, in service, and nothing that drops a press whatever the pairs do.
    fn counts(&self) -> bool {
        let dropped = self.on(bit::AUTOMATIC) || self.on(bit::LOCAL_DRIVE) || self.ticked.next.fault != Fault::None;
        self.before.settings[slot::IN_SERVICE] == 1 && !self.out() && !dropped
    }

    /// Whether a press this way could begin a command on this tick.
    fn could_begin(&self, way: Direction) -> bool {
        let outputs = &self.ticked.outputs;
        let blocked = outputs[14] == 1 || outputs[if way == Direction::Raise { 15 } else { 16 }] == 1;
        let moves = matches!(self.ticked.next.drive, Drive::Moving { .. });
        self.counts() && !self.unfinished() && !moves && !blocked
    }
}

/// What the counting keeps from tick to tick.
#[derive(Default)]
struct Course {
    /// Each pair on the last tick of its own mode.
    last: [Pair; 2],
    /// The mode of a press that a change has dropped in a command or move that is
    /// still unfinished, if none was remembered since, and which way it went.
    lost: Option<(usize, Direction)>,
}

impl Course {
    fn step(&mut self, seen: &Seen) {
        self.last[seen.mode()] = pairs(seen.input.contacts)[seen.mode()];
        self.lost = match (seen.before.remembered, seen.ticked.next.remembered) {
            _ if seen.ticked.next.drive == Drive::Rest && !seen.unfinished() => None,
            (Some(way), None) if seen.counts() && seen.changes() => Some((1 - seen.mode(), way)),
            (None, None) if seen.counts() => self.lost,
            _ => None,
        };
    }
}

/// How often each situation has arisen, for drives with and without the contact.
#[derive(Default)]
struct Counts(BTreeMap<String, [u32; 2]>);

impl Counts {
    fn note(&mut self, seen: &Seen, situation: &str) {
        let kind = usize::from(is_continuous(&seen.before.settings));
        let mode = MODES[seen.mode()];
        self.0.entry(format!("{mode}, {situation}")).or_default()[kind] += 1;
    }

    fn count(&mut self, seen: &Seen, course: &Course) {
        if seen.unfinished() {
            self.during(seen);
        } else {
            match (seen.before.remembered, seen.changes()) {
                (Some(remembered), false) => self.first(seen, remembered),
                (Some(remembered), true) => self.first_at_a_change(seen, remembered),
                (None, false) => self.at_rest(seen, course),
                (None, true) => self.at_a_change(seen, course),
            }
        }
    }

    /// A tick of a command or move.
    fn during(&mut self, seen: &Seen) {
        let place = if seen.ticked.next.drive == Drive::Rest { "ending" } else { "unfinished" };
        if !seen.counts() {
            return;
        }
        let before = if seen.before.remembered.is_some() { "dropped" } else { "none" };
        match (seen.changes(), seen.press(seen.mode()), seen.press(1 - seen.mode())) {
            (true, Some(_), _) => self.note(seen, &format!("{place}, change, {before}, new pair pressed")),
            (true, None, Some(_)) => self.note(seen, &format!("{place}, change, {before}, old pair pressed")),
            (true, None, None) if seen.held(seen.mode()).is_some() => {
                self.note(seen, &format!("{place}, change, {before}, new pair held"))
            }
            (true, None, None) => self.note(seen, &format!("{place}, change, {before}, quiet")),
            (false, Some(press), _) => self.note(seen, &format!("remembered, other pair {}", seen.other(press))),
            (false, None, Some(_)) => self.note(seen, &format!("{place}, other pair alone")),
            _ => {}
        }
    }

    /// The first tick at rest, with a press remembered in its mode.
    fn first(&mut self, seen: &Seen, remembered: Direction) {
        match seen.press(seen.mode()) {
            None if seen.could_begin(remembered) => {
                self.note(seen, &format!("carried out, other pair {}", seen.other(remembered)))
            }
            Some(press) if seen.could_begin(press) => {
                let other = if seen.other(press) == "none" { "none" } else { "pressed" };
                self.note(seen, &format!("real press wins, other pair {other}"))
            }
            _ => {}
        }
    }

    /// The first tick at rest, with a press remembered in the other mode.
    fn first_at_a_change(&mut self, seen: &Seen, remembered: Direction) {
        match (seen.press(seen.mode()), seen.press(1 - seen.mode())) {
            (Some(press), _) if seen.could_begin(press) => self.note(seen, "first, change, dropped, new pair pressed"),
            (Some(_), _) => {}
            _ if !seen.could_begin(remembered) => {}
            (None, Some(_)) => self.note(seen, "first, change, dropped, old pair pressed"),
            (None, None) if seen.held(seen.mode()).is_some() => self.note(seen, "first, change, dropped, new pair held"),
            (None, None) => self.note(seen, "first, change, dropped, quiet"),
        }
    }

    /// At rest in the mode of the tick before.
    fn at_rest(&mut self, seen: &Seen, course: &Course) {
        match (seen.press(seen.mode()), seen.press(1 - seen.mode())) {
            (Some(press), _) if seen.could_begin(press) => {
                self.note(seen, &format!("command, other pair {}", seen.other(press)))
            }
            (None, Some(press)) if seen.could_begin(press) => self.note(seen, "other pair alone"),
            _ => {}
        }
        self.fresh(seen);
        self.changed_back(seen, course);
    }

    /// At rest, on the tick of a change.
    fn at_a_change(&mut self, seen: &Seen, course: &Course) {
        let last = course.last[seen.mode()];
        match (seen.press(seen.mode()), seen.press(1 - seen.mode()), seen.held(seen.mode())) {
            (Some(press), _, _) if seen.could_begin(press) => {
                let before = if last[press as usize] { "let go in the other mode" } else { "not pressed before" };
                self.note(seen, &format!("change, new pair pressed, {before}"));
            }
            (None, Some(press), _) if seen.could_begin(press) => self.note(seen, "change, old pair pressed"),
            (None, _, Some(held)) if seen.could_begin(held) => {
                let before = if last[held as usize] { "held through" } else { "pressed in the other mode" };
                self.note(seen, &format!("change, new pair held, {before}"));
            }
            _ => {}
        }
        self.fresh(seen);
        self.changed_back(seen, course);
    }

    /// The first tick at rest, in the mode of a press that a change has dropped.
    fn changed_back(&mut self, seen: &Seen, course: &Course) {
        let back = course.lost.filter(|&(mode, way)| mode == seen.mode() && seen.could_begin(way));
        if back.is_some() && seen.press(seen.mode()).is_none() {
            self.note(seen, "changed back by the first tick at rest");
        }
    }

    /// One button on the first tick after fresh.
    fn fresh(&mut self, seen: &Seen) {
        let is_fresh = *seen.before == Record::fresh(seen.before.settings);
        if is_fresh && seen.held(seen.mode()).is_some_and(|held| seen.could_begin(held)) {
            self.note(seen, "fresh, one button");
        }
    }
}

/// Runs many scenes, with what is kept along each.
fn watch<T: Default>(seeds: Range<u64>, mut see: impl FnMut(&mut T, &Seen)) {
    for seed in seeds {
        let mut scene = Scene::new(seed);
        let mut kept = T::default();
        for _ in 0..1_000 {
            let before = scene.record.clone();
            let (input, ticked) = scene.next_tick();
            see(&mut kept, &Seen { before: &before, input: &input, ticked: &ticked });
        }
    }
}

/// How the other pair is where a press counts.
const OTHER: [&str; 6] = ["none", "same new", "opposite new", "same held", "opposite held", "both"];

/// Where a press counts.
const WITH_OTHER: [&str; 3] = ["command", "remembered", "carried out"];

/// What else must arise in each mode, at a change the new one.
const SITUATIONS: [&str; 24] = [
    "real press wins, other pair none",
    "real press wins, other pair pressed",
    "other pair alone",
    "unfinished, other pair alone",
    "ending, other pair alone",
    "unfinished, change, none, quiet",
    "unfinished, change, none, new pair pressed",
    "unfinished, change, none, old pair pressed",
    "unfinished, change, none, new pair held",
    "unfinished, change, dropped, quiet",
    "unfinished, change, dropped, new pair pressed",
    "unfinished, change, dropped, old pair pressed",
    "unfinished, change, dropped, new pair held",
    "ending, change, dropped, quiet",
    "ending, change, dropped, new pair pressed",
    "ending, change, dropped, old pair pressed",
    "ending, change, dropped, new pair held",
    "first, change, dropped, quiet",
    "first, change, dropped, new pair pressed",
    "first, change, dropped, old pair pressed",
    "first, change, dropped, new pair held",
    "changed back by the first tick at rest",
    "change, old pair pressed",
    "fresh, one button",
];

/// The buttons of the new mode's pair at a change at rest.
const AT_A_CHANGE: [&str; 4] = [
    "change, new pair pressed, let go in the other mode",
    "change, new pair pressed, not pressed before",
    "change, new pair held, held through",
    "change, new pair held, pressed in the other mode",
];

#[test]
fn every_situation_arises_in_both_modes() {
    let mut counts = Counts::default();
    watch(5_000..8_500, |course: &mut Course, seen| {
        counts.count(seen, course);
        course.step(seen);
    });
    let with_other = WITH_OTHER.iter().flat_map(|place| OTHER.map(|other| format!("{place}, other pair {other}")));
    let plain = SITUATIONS.iter().chain(&AT_A_CHANGE).map(|situation| situation.to_string());
    for situation in with_other.chain(plain) {
        for mode in MODES {
            let times = counts.0.get(&format!("{mode}, {situation}")).copied().unwrap_or_default();
            assert!(times.iter().all(|&times| times >= ENOUGH), "{mode}, {situation}: {times:?}");
        }
    }
}

#[test]
fn about_half_the_ticks_are_remote_and_the_mode_changes_now_and_then() {
    let (mut all, mut remote, mut changes) = (0, 0, 0);
    watch(0..1_000, |_: &mut (), seen| {
        all += 1;
        remote += u32::from(seen.on(bit::REMOTE));
        changes += u32::from(seen.changes() && seen.ticked.next != Record::fresh(seen.before.settings));
    });
    assert!((all * 45 / 100..all * 55 / 100).contains(&remote), "{remote} of {all}");
    assert!((all / 200..all / 40).contains(&changes), "{changes} of {all}");
}

// Wrong programs, each as the right one on a tick told wrongly.

/// A tick as a wrong program takes it, and what it keeps.
type Wrong = fn(&mut Kept, &mut Record, &mut Contacts);

/// What some of them keep.
#[derive(Default)]
struct Kept {
    /// Each pair on the last tick of its own mode.
    last: [Pair; 2],
    /// Whether the mode changed on the tick before.
    changed: bool,
}

fn set_pair(record: &mut Record, mode: usize, [raise, lower]: Pair) {
    match mode {
        0 => (record.raise_button, record.lower_button) = (raise, lower),
        _ => (record.remote_raise, record.remote_lower) = (raise, lower),
    }
}

/// The buttons of both pairs or-ed into both.
fn or_ed([[a, b], [c, d]]: [Pair; 2]) -> Pair {
    [a || c, b || d]
}

const WRONG: [(&str, Wrong); 11] = [
    ("both pairs or-ed", |_, record, contacts| {
        let (now, before) = (or_ed(pairs(*contacts)), or_ed(pairs_before(record)));
        set_pair(record, 0, before);
        set_pair(record, 1, before);
        let bits = u32::from(now[0]) | u32::from(now[1]) << 1;
        contacts.0 = contacts.0 & !(0b11011 << 19) | bits << 19 | bits << 22;
    }),
    ("the panel acts in remote mode too", |_, record, contacts| {
        let panel = contacts.0 >> 19 & 3;
        if panel != 0 && contacts.0 >> 22 & 3 == 0 {
            contacts.0 |= panel << 22;
            set_pair(record, 1, pairs_before(record)[0]);
        }
    }),
    ("the previous tick of the old mode's pair", |_, record, contacts| {
        set_pair(record, usize::from(contacts.on(bit::REMOTE)), pairs_before(record)[usize::from(record.remote)]);
    }),
    ("the other mode's pair not remembered", |_, record, contacts| {
        if contacts.on(bit::REMOTE) != record.remote {
            set_pair(record, usize::from(contacts.on(bit::REMOTE)), [false; 2]);
        }
    }),
    ("the other mode's pair as it last was in its mode", |kept, record, contacts| {
        let mode = usize::from(contacts.on(bit::REMOTE));
        if contacts.on(bit::REMOTE) != record.remote {
            set_pair(record, mode, kept.last[mode]);
        }
        kept.last[mode] = pairs(*contacts)[mode];
    }),
    ("a remembered press survives the change", |_, record, contacts| record.remote = contacts.on(bit::REMOTE)),
    ("it is dropped a tick late", |kept, record, contacts| {
        let changes = contacts.on(bit::REMOTE) != record.remote;
        record.remembered = record.remembered.filter(|_| !kept.changed);
        record.remote = contacts.on(bit::REMOTE);
        kept.changed = changes;
    }),
    ("bit 22 lowers", |_, record, contacts| {
        let [raise, lower] = pairs_before(record)[1];
        set_pair(record, 1, [lower, raise]);
        let bits = contacts.0 >> 22 & 3;
        contacts.0 = contacts.0 & !(3 << 22) | (bits & 1) << 23 | (bits >> 1) << 22;
    }),
    ("the mode turned round", |_, record, contacts| {
        record.remote = !record.remote;
        contacts.0 ^= 1 << bit::REMOTE;
    }),
    ("the dispatcher's buttons fresh unpressed", |_, record, _| {
        if *record == Record::fresh(record.settings) {
            set_pair(record, 1, [false; 2]);
        }
    }),
    ("the mode not remembered", |_, record, _| record.remote = false),
];

#[test]
fn wrong_programs_would_show() {
    // Ticks on which each would show other outputs at once.
    let mut shown = [0; WRONG.len()];
    watch(5_000..6_000, |kept: &mut [Kept; WRONG.len()], seen| {
        for (((_, wrong), kept), shown) in WRONG.iter().zip(kept).zip(&mut shown) {
            let (mut record, mut input) = (seen.before.clone(), *seen.input);
            wrong(kept, &mut record, &mut input.contacts);
            *shown += u32::from(tick(&record, &input).outputs != seen.ticked.outputs);
        }
    });
    for ((name, _), shown) in WRONG.iter().zip(shown) {
        assert!(shown > 50, "{name}: {shown}");
    }
}
