//! Stretches of ticks during which little changes.

use crate::dice::Dice;
use crate::feeder;
use crate::input::{bit, Contacts};
use crate::motor::MOTOR_TEMPERS;
use crate::phasor::Phasor;
use crate::plant::{Temper, TEMPERS};
use crate::reading::amp_limit;
use crate::sheet::{is_continuous, module_k, slot, Settings};
use crate::voltage::{compensated, Ratings};

/// Where the voltage stays during a stretch of ticks.
#[derive(Clone, Copy)]
pub enum Level {
    /// So many mV from the low edge of the band.
    FromLowEdge(i64),
    /// So many mV from the high edge.
    FromHighEdge(i64),
    /// So many mV from a slot's voltage.
    FromSlot(usize, i64),
    /// On an edge of the band or 1 mV beside it, another place each tick.
    BesideEdges,
    /// Anywhere about the band, another place each tick.
    Wander,
}

/// What happens to a pair of buttons during a stretch; the bits are the panel's.
#[derive(Clone, Copy)]
pub enum Hands {
    Still(u32),
    Tapped,
    /// Pressed while the drive runs, by the operator.
    Busy,
}

/// A stretch of ticks during which little changes.
pub struct Stretch {
    pub left: u32,
    pub contacts: u32,
    pub level: Level,
    /// Where the scalar U_AB stays if U goes by the pairs; without it, it is as
    /// long as its pair.
    pub scalar_level: Option<Level>,
    pub temper: Temper,
    /// At the panel, and the dispatcher's.
    pub hands: [Hands; 2],
    /// Whether the operator of the mode in which the stretch begins is busy.
    pub busy: bool,
    pub others: Others,
    /// One tick in so many has other readings than the tick before.
    pub others_change: u32,
    /// One tick in so many has a spoiled reading or tap byte.
    pub noise: u32,
    /// A reading that U does not need is spoiled on one tick in so many.
    pub unneeded_noise: u32,
    /// One tick in so many has a flipped contact.
    pub flips: u32,
    /// With a busy operator, automatic and manual turn over on one tick in so many
    /// of a command or move.
    pub mode_turns: u32,
    /// Local and remote mode turn over on one tick in so many of a command or move.
    pub remote_turns: u32,
}

/// The readings besides U_AB and its pair, in whole thousandths.
#[derive(Clone, Copy)]
pub struct Others {
    /// 3U0, U2, I_high, I_bus and I_coupler.
    pub scalars: [u32; 5],
    pub bus: Phasor,
    pub coupler: Phasor,
}

pub const RAISE: u32 = 1 << bit::RAISE_BUTTON;
pub const LOWER: u32 = 1 << bit::LOWER_BUTTON;

impl Stretch {
    pub fn new(dice: &mut Dice, settings: &Settings) -> Stretch {
        let contacts = steady_contacts(dice);
        let automatic = Contacts(contacts).on(bit::AUTOMATIC);
        let own = hands(dice, automatic);
        let busy = matches!(own, Hands::Busy);
        let other = other_hands(dice, busy);
        Stretch {
            left: dice.pick(&[1, 10, 100, 200, 300]) + dice.between(0, 100),
            contacts,
            level: if goes_by_u_comp(settings) && dice.one_in(5) { Level::BesideEdges } else { level(dice) },
            scalar_level: Some(level(dice)).filter(|_| !dice.one_in(3)),
            temper: temper(dice, settings, busy),
            hands: if Contacts(contacts).on(bit::REMOTE) { [other, own] } else { [own, other] },
            busy,
            others: others(dice, settings),
            others_change: if goes_by_u_comp(settings) { dice.pick(&[100, 100, 100, 4]) } else { 100 },
            noise: dice.pick(&[0, 0, 0, 0, 200, 60, 10]),
            unneeded_noise: dice.pick(&[0, 0, 30, 3]),
            flips: dice.pick(&[0, 0, 0, 0, 300, 60, 10]),
            mode_turns: dice.pick(if automatic { &[8, 30] } else { &[0, 0, 20] }),
            remote_turns: dice.pick(if busy { &[0, 0, 300, 90] } else { &[0, 0, 0, 300] }),
        }
    }
}

/// Breaker, modes, U_supp and now and then something that blocks.
fn steady_contacts(dice: &mut Dice) -> u32 {
    let mut contacts = 0;
    if !dice.one_in(20) {
        contacts |= 1 << bit::BREAKER_CLOSED;
    }
    if !dice.one_in(3) {
        contacts |= 1 << bit::AUTOMATIC;
    }
    if dice.one_in(2) {
        contacts |= 1 << bit::REMOTE;
    }
    if dice.one_in(4) {
        contacts |= dice.between(0, 7) << bit::U_SUPP2;
    }
    if dice.one_in(8) {
        contacts |= 1 << dice.between(bit::SUPPLY_OFF, bit::RESET);
    }
    if dice.one_in(25) {
        contacts |= 1 << dice.pick(&[bit::LOCAL_DRIVE, bit::RESET]);
    }
    contacts
}

fn level(dice: &mut Dice) -> Level {
    let far = i64::from(dice.between(0, 4_000));
    match dice.between(0, 17) {
        0..=4 => Level::FromLowEdge(-far),
        5 | 13..=16 => Level::FromHighEdge(far),
        6 => Level::FromLowEdge(dice.pick(&[-1, 0, 1])),
        7 => Level::FromHighEdge(dice.pick(&[-1, 0, 1])),
        8 => Level::FromSlot(slot::U_SET5, dice.pick(&[0, 1, far])),
        9 => Level::FromSlot(slot::U_SET1, dice.pick(&[0, 1, far])),
        10 => Level::FromSlot(slot::U_SET2, dice.pick(&[0, -1, -far])),
        11 => Level::FromLowEdge(far),
        12 => Level::FromHighEdge(-far),
        _ => Level::Wander,
    }
}

/// A busy operator often has a proper drive, so that more moves end well.
fn temper(dice: &mut Dice, settings: &Settings, busy: bool) -> Temper {
    match (busy, is_continuous(settings)) {
        (_, true) => dice.pick(&MOTOR_TEMPERS),
        (true, false) if dice.one_in(2) => Temper::Proper,
        (_, false) => dice.pick(&TEMPERS),
    }
}

/// In manual stretches the operator of the mode's pair is mostly busy, in
/// automatic ones seldom.
fn hands(dice: &mut Dice, automatic: bool) -> Hands {
    match dice.between(0, 5) {
        0 => Hands::Still(dice.pick(&[RAISE, LOWER, RAISE | LOWER])),
        1 if automatic => Hands::Busy,
        1..=4 if !automatic => Hands::Busy,
        2 => Hands::Still(0),
        _ => Hands::Tapped,
    }
}

/// The other pair is held all along, tapped or left alone; beside a busy operator
/// there is often another one.
fn other_hands(dice: &mut Dice, busy: bool) -> Hands {
    match dice.between(0, 7) {
        0..=3 if busy => Hands::Busy,
        0..=3 => Hands::Still(0),
        4 => Hands::Tapped,
        _ => Hands::Still(dice.pick(&[RAISE, LOWER, RAISE | LOWER])),
    }
}

/// The scalars, and the currents as phasors. Where U goes by U_comp, the scalar
/// currents mostly drop no more than U_AB can make up for.
pub fn others(dice: &mut Dice, settings: &Settings) -> Others {
    let mut scalars = scalars(dice, settings);
    if goes_by_u_comp(settings) && !dice.one_in(3) {
        let [.., bus, coupler] = &mut scalars;
        limit_drop(dice, settings, bus, coupler);
    }
    let [bus, coupler] = feeder::currents(dice, settings);
    Others { scalars, bus, coupler }
}

/// 3U0, U2, I_high, I_bus and I_coupler, calm or near what trips.
fn scalars(dice: &mut Dice, settings: &Settings) -> [u32; 5] {
    let k = module_k(settings);
    let top = 1_000 * amp_limit(k);
    let bus = match dice.between(0, 5) {
        0 => near(dice, settings[slot::I_SET2]),
        1 => near(dice, settings[slot::I_SET3]),
        _ => dice.between(0, 600 * k).max(settings[slot::I_SET3] * 11 / 10),
    };
    [
        calm_or_near(dice, settings[slot::U_SET3]).min(200_000),
        calm_or_near(dice, settings[slot::U_SET4]).min(200_000),
        calm_or_near(dice, settings[slot::I_SET1]).min(top),
        bus.min(top),
        dice.between(0, 600 * k),
    ]
}

/// Whether U goes by U_comp and the scalar currents.
fn goes_by_u_comp(settings: &Settings) -> bool {
    settings[slot::COMPENSATION] == compensated::BY_U_COMP
}

/// The drop, in mV, that U_AB can make up for near most bands.
const MOST_DROP: u64 = 60_000;

/// Makes the currents that slot 4 names smaller where they drop too much. A
/// difference often becomes negative.
fn limit_drop(dice: &mut Dice, settings: &Settings, bus: &mut u32, coupler: &mut u32) {
    let most = current_of_drop(MOST_DROP, settings);
    let small = |dice: &mut Dice, current: u32, most: u32| match current > most {
        true => dice.between(0, most),
        false => current,
    };
    match settings[slot::COMPENSATION_CURRENT] {
        0 => *bus = small(dice, *bus, most),
        1 => *coupler = small(dice, *coupler, most),
        2 => {
            let apart = small(dice, bus.abs_diff(*coupler), most);
            let top = 1_000 * amp_limit(module_k(settings));
            *coupler = if dice.one_in(3) { bus.saturating_sub(apart) } else { (*bus + apart).min(top) };
        }
        _ => (*bus, *coupler) = (small(dice, *bus, most / 2), small(dice, *coupler, most / 2)),
    }
}

/// About the current, in mA, that drops so many mV by U_comp.
fn current_of_drop(millivolts: u64, settings: &Settings) -> u32 {
    let Ratings { transformer, breaker } = Ratings::of(settings);
    let product = u64::from(settings[slot::U_COMP]) * u64::from(transformer);
    let current = millivolts * 1_000 * u64::from(module_k(settings)) * u64::from(breaker) / product;
    current.min(u64::from(u32::MAX)) as u32
}

fn calm_or_near(dice: &mut Dice, set: u32) -> u32 {
    match dice.one_in(5) {
        true => near(dice, set),
        false => dice.between(0, set / 2),
    }
}

/// A number at or beside one of an organ's borders.
fn near(dice: &mut Dice, set: u32) -> u32 {
    let border = dice.pick(&[set, set * 19 / 20, set * 21 / 20]);
    (border + dice.between(0, 2)).saturating_sub(1)
}
