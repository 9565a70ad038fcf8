//! Rules 9 and 7 and tickets 6 and 7 told once more, from inputs and outputs
//! alone, for both kinds of drive: a watcher that never looks into the record must
//! agree on every tick.

use reference::input::{bit, Input};
use reference::record::{Direction, Side};
use reference::scene::Scene;
use reference::sheet::{is_continuous, slot, Settings};
use reference::tick::OUTPUTS;
use reference::voltage;

type Outputs = [u32; OUTPUTS];

/// All four buttons, and local mode.
const FRESH: u32 = 0b1101_1000_0000_0000_0000_0000;

/// What the watcher remembers.
struct Watcher {
    settings: Settings,
    before: Outputs,
    /// Waiting ticks in a row, and to which side.
    row: u32,
    row_side: Option<Side>,
    /// Side of the last automatic command, if nothing has ended T2 since.
    repeat: Option<Side>,
    /// The contacts of the tick before; from fresh, all buttons.
    contacts: u32,
    /// The last press since output 24 came on that nothing has dropped.
    pressed: Option<Direction>,
    /// Ticks in a row with the same supply-tripping fault.
    tripping: u32,
    operations: u32,
    commands: u32,
    /// Those that no press on their tick began.
    carried_out: u32,
}

impl Watcher {
    fn new(settings: Settings) -> Watcher {
        Watcher {
            settings,
            before: [0; OUTPUTS],
            row: 0,
            row_side: None,
            repeat: None,
            contacts: FRESH,
            pressed: None,
            tripping: 0,
            operations: settings[slot::N_START],
            commands: 0,
            carried_out: 0,
        }
    }

    fn watch(&mut self, input: &Input, outputs: &Outputs) {
        let on = |bit| input.contacts.on(bit);
        if on(bit::OUT) || self.settings[slot::IN_SERVICE] == 0 {
            assert_eq!(*outputs, [0; OUTPUTS]);
            let (commands, carried_out) = (self.commands, self.carried_out);
            *self = Watcher { commands, carried_out, ..Watcher::new(self.settings) };
            return;
        }
        let began = self.began(outputs);
        let expected = match on(bit::AUTOMATIC) {
            true => self.automatic(input, outputs),
            false => self.manual(input, outputs),
        };
        assert_eq!(began, expected);
        self.commands += u32::from(began != (0, 0));
        self.remember(input, outputs);
        self.supply_trip(input, outputs);
        self.wear(input, outputs);
        self.contacts = input.contacts.0;
        self.before = *outputs;
    }

    fn at_rest(&self) -> bool {
        self.before[24] == 0
    }

    /// Raise and lower that begin on this tick.
    fn began(&self, outputs: &Outputs) -> (u32, u32) {
        match self.at_rest() {
            true => (outputs[0], outputs[1]),
            false => (0, 0),
        }
    }

    /// Open contact; of a drive without one nothing is asked.
    fn open(&self, input: &Input) -> bool {
        is_continuous(&self.settings) || !input.contacts.on(bit::SWITCHING)
    }

    /// The side to which this is a waiting tick, in automatic.
    fn waits_to(&self, input: &Input, outputs: &Outputs) -> Option<Side> {
        let clear = self.at_rest() && self.open(input) && outputs[13] == 0 && outputs[19..=22] == [0; 4];
        if clear && outputs[17] == 1 && outputs[15] == 0 {
            Some(Side::Low)
        } else if clear && outputs[18] == 1 && outputs[16] == 0 {
            Some(Side::High)
        } else {
            None
        }
    }

    fn automatic(&mut self, input: &Input, outputs: &Outputs) -> (u32, u32) {
        let u = voltage::judge(&self.settings, input).u;
        let side = match (outputs[17], outputs[18]) {
            (1, _) => Some(Side::Low),
            (_, 1) => Some(Side::High),
            _ => None,
        };
        if u.is_some() && side != self.repeat {
            self.repeat = None;
        }
        let waits = self.waits_to(input, outputs);
        self.row = if waits == self.row_side { self.row + 1 } else { 1 };
        self.row_side = waits;
        let Some(side) = waits else {
            return (0, 0);
        };
        let fast = side == Side::High && u.unwrap() > i64::from(self.settings[slot::U_SET5]);
        let delay = match (fast, self.repeat) {
            (true, _) => self.settings[slot::T3],
            (false, Some(_)) if !is_continuous(&self.settings) => self.settings[slot::T2],
            (false, _) => self.settings[slot::T1],
        };
        if self.row < delay {
            return (0, 0);
        }
        self.row_side = None;
        self.repeat = Some(side);
        match side {
            Side::Low => (1, 0),
            Side::High => (0, 1),
        }
    }

    fn manual(&mut self, input: &Input, outputs: &Outputs) -> (u32, u32) {
        self.row_side = None;
        self.repeat = None;
        let rests = self.at_rest() && self.open(input);
        if !rests || outputs[14] == 1 {
            return (0, 0);
        }
        let real = self.press(input);
        let kept = if self.turns(input) { None } else { self.pressed };
        match real.or(kept) {
            Some(Direction::Raise) if outputs[15] == 0 => self.begin(real, (1, 0)),
            Some(Direction::Lower) if outputs[16] == 0 => self.begin(real, (0, 1)),
            _ => (0, 0),
        }
    }

    /// Counts a manual command that begins by a real press or by none.
    fn begin(&mut self, real: Option<Direction>, way: (u32, u32)) -> (u32, u32) {
        self.carried_out += u32::from(real.is_none());
        way
    }

    /// The one button of the mode's pair that is pressed, if it was not before.
    fn press(&self, input: &Input) -> Option<Direction> {
        let place = if input.contacts.on(bit::REMOTE) { 22 } else { 19 };
        let (before, now) = ((self.contacts >> place) & 3, (input.contacts.0 >> place) & 3);
        match now {
            1 if before & 1 == 0 => Some(Direction::Raise),
            2 if before & 2 == 0 => Some(Direction::Lower),
            _ => None,
        }
    }

    /// Whether the mode turns from local to remote or back.
    fn turns(&self, input: &Input) -> bool {
        (self.contacts ^ input.contacts.0) & (1 << 21) != 0
    }

    /// Keeps the last press of a command or move, until something drops it or a
    /// tick starts at rest.
    fn remember(&mut self, input: &Input, outputs: &Outputs) {
        let dropped = outputs[27] == 1 || outputs[19..=22] != [0; 4] || input.contacts.on(bit::LOCAL_DRIVE);
        if self.at_rest() || dropped {
            self.pressed = None;
        } else if let Some(press) = self.press(input) {
            self.pressed = Some(press);
        } else if self.turns(input) {
            self.pressed = None;
        }
    }

    /// Run-away or long shows output 23 for T8 ticks, or all along.
    fn supply_trip(&mut self, input: &Input, outputs: &Outputs) {
        let fault = [outputs[19], outputs[21]];
        let same = fault == [self.before[19], self.before[21]];
        if fault == [0, 0] {
            self.tripping = 0;
        } else if same && !input.contacts.on(bit::RESET) {
            self.tripping += 1;
        } else {
            self.tripping = 1;
        }
        let lasting = self.settings[slot::LASTING_SUPPLY_TRIP] == 1;
        let pulse = self.tripping <= self.settings[slot::T8];
        let expected = self.tripping > 0 && (lasting || pulse);
        assert_eq!(outputs[23], u32::from(expected));
    }

    /// A move has ended if the drive came to rest on an open contact, without
    /// local drive and without 'not started'; a drive without the contact has
    /// ended its command if it came to rest without local drive and 'long'.
    fn wear(&mut self, input: &Input, outputs: &Outputs) {
        let came_to_rest = self.before[24] == 1 && outputs[24] == 0;
        let fault = if is_continuous(&self.settings) { 21 } else { 20 };
        let local = input.contacts.on(bit::LOCAL_DRIVE);
        if came_to_rest && self.open(input) && !local && outputs[fault] == 0 {
            self.operations += 1;
        }
        let counts = self.settings[slot::WEAR_COUNT];
        assert_eq!(outputs[25], counts * self.operations);
        let worn = self.operations >= self.settings[slot::N_MAX];
        assert_eq!(outputs[26], counts * u32::from(worn));
    }
}

#[test]
fn a_watcher_agrees() {
    // By the number of slot 63.
    let mut commands = [0, 0];
    let mut carried_out = [0, 0];
    for seed in 1_000..1_300 {
        let mut scene = Scene::new(seed);
        let mut watcher = Watcher::new(scene.record.settings);
        for _ in 0..1_000 {
            let (input, ticked) = scene.next_tick();
            watcher.watch(&input, &ticked.outputs);
        }
        let kind = watcher.settings[slot::CONTINUOUS] as usize;
        commands[kind] += watcher.commands;
        carried_out[kind] += watcher.carried_out;
    }
    assert!(carried_out.iter().all(|&commands| commands > 100), "only {carried_out:?} by a remembered press");
    assert!(commands.iter().all(|&commands| commands > 300), "only {commands:?} commands");
}
