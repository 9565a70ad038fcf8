//! Ticket 2's held commands told once more, from inputs and outputs alone: on
//! made recordings each of them must end on its tick, and for its cause.

use reference::blocks::{judge, Blocks, Sight};
use reference::input::{bit, Input};
use reference::scene::Scene;
use reference::sheet::{is_continuous, slot, Settings};
use reference::tick::OUTPUTS;
use reference::voltage;

type Outputs = [u32; OUTPUTS];

/// How a held command ends.
#[derive(Clone, Copy, Debug, PartialEq, Eq)]
enum End {
    Out,
    LocalDrive,
    InBand,
    OtherSide,
    ManualMode,
    Blocked,
    Long,
    /// A manual command has had its T4 ticks.
    Over,
}

const ENDS: [End; 8] =
    [End::Out, End::LocalDrive, End::InBand, End::OtherSide, End::ManualMode, End::Blocked, End::Long, End::Over];

/// A held command.
#[derive(Clone, Copy)]
struct Held {
    raise: bool,
    automatic: bool,
    /// Ticks after its first.
    ticks: u32,
}

/// Outputs 13 to 16 but for the fault.
fn blocks_but_fault(settings: &Settings, input: &Input, outputs: &Outputs) -> Blocks {
    let trips = [6, 7, 8, 9, 10, 11, 12].map(|field| outputs[field] == 1);
    let voltage_missing = voltage::judge(settings, input).u.is_none();
    let (section, tap) = (outputs[2] == 1, outputs[3]);
    judge(&Sight { settings, contacts: input.contacts, section, voltage_missing, trips, tap })
}

/// What ends this command on this tick, if anything.
fn end_of(held: &Held, settings: &Settings, input: &Input, outputs: &Outputs) -> Option<End> {
    let on = |bit| input.contacts.on(bit);
    let blocks = blocks_but_fault(settings, input, outputs);
    let (side, other_side) = if held.raise { (outputs[17], outputs[18]) } else { (outputs[18], outputs[17]) };
    let blocked = blocks.automatic || if held.raise { blocks.raise } else { blocks.lower };
    let causes = [
        (on(bit::OUT), End::Out),
        (on(bit::LOCAL_DRIVE), End::LocalDrive),
        (held.automatic && other_side == 1, End::OtherSide),
        (held.automatic && !on(bit::AUTOMATIC), End::ManualMode),
        (held.automatic && blocked, End::Blocked),
        (held.automatic && side == 0, End::InBand),
        (held.automatic && held.ticks == settings[slot::T4], End::Long),
        (!held.automatic && held.ticks == settings[slot::T4], End::Over),
    ];
    causes.into_iter().find(|(is, _)| *is).map(|(_, end)| end)
}

/// Ends by cause: all of them, and those on the T4th tick after the first.
#[derive(Default)]
struct Ends {
    all: [u32; ENDS.len()],
    on_t4: [u32; ENDS.len()],
}

impl Ends {
    fn note(&mut self, end: End, on_t4: bool) {
        let i = ENDS.iter().position(|&known| known == end).unwrap();
        self.all[i] += 1;
        self.on_t4[i] += u32::from(on_t4);
    }
}

/// Follows one recording of a drive without the contact.
fn follow(scene: &mut Scene, ticks: u32, ends: &mut Ends) {
    let settings = scene.record.settings;
    let mut held: Option<Held> = None;
    for _ in 0..ticks {
        let (input, ticked) = scene.next_tick();
        let outputs = ticked.outputs;
        held = match held {
            None => begun(&outputs),
            Some(held) => {
                let held = Held { ticks: held.ticks + 1, ..held };
                let end = end_of(&held, &settings, &input, &outputs);
                assert_shown(&held, end, &outputs);
                if let Some(end) = end {
                    ends.note(end, held.ticks == settings[slot::T4]);
                }
                Some(held).filter(|_| end.is_none())
            }
        };
    }
}

fn begun(outputs: &Outputs) -> Option<Held> {
    let held = Held { raise: outputs[0] == 1, automatic: outputs[27] == 1, ticks: 0 };
    Some(held).filter(|_| outputs[24] == 1)
}

/// What the outputs show of a command that ends so, or goes on.
fn assert_shown(held: &Held, end: Option<End>, outputs: &Outputs) {
    let on = u32::from(end.is_none());
    let raise = u32::from(held.raise);
    assert_eq!([outputs[0], outputs[1], outputs[24]], [on * raise, on * (1 - raise), on], "{end:?}");
    assert_eq!(outputs[21], u32::from(end == Some(End::Long)), "{end:?}");
    if end == Some(End::Long) {
        assert_eq!(outputs[13..=16], [1; 4]);
    }
}

#[test]
fn held_commands_end_on_their_tick() {
    let mut ends = Ends::default();
    for seed in 2_000..2_800 {
        let mut scene = Scene::new(seed);
        if is_continuous(&scene.record.settings) {
            follow(&mut scene, 1_000, &mut ends);
        }
    }
    // Each of them happens in made recordings, on the T4th tick too.
    for (i, end) in ENDS.iter().enumerate() {
        let (all, on_t4) = (ends.all[i], ends.on_t4[i]);
        assert!(all >= 40 && on_t4 >= 5, "{end:?}: {all}, on the T4th tick {on_t4}");
    }
}
