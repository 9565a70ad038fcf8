//! What each tick brings: a scenario, with its drive if it has one, or a recording. The sheet says which kind of drive.

use library::{Brought, Sample, FIELDS, INVALID};

use crate::cells::lines_of;
use crate::columns::{self, Column};
use crate::drive::{Drive, Nature, Seen, Way};
use crate::ends::{first_tap, Ends};
use crate::file::Errors;
use crate::inputs::{is_on, with, END_DOWN, END_UP, RESET, SUPPLY_OFF, SWITCHING, U_AB, U_AB_PAIR};
use crate::motor::Motor;
use crate::outputs::{LOWER, RAISE, SUPPLY_TRIP};
use crate::phasor;
use crate::scenario::Scenario;
use crate::sheet::is_continuous;

/// Where ticks come from.
pub enum Source<'a> {
    Scenario(Player<'a>),
    /// A recording, or what stands for one.
    Recording(&'a mut dyn Iterator<Item = Result<Brought, Errors>>),
}

impl Source<'_> {
    /// How many ticks there are, where that is known.
    pub fn ticks(&self) -> Option<u32> {
        match self {
            Source::Scenario(player) => Some(player.scenario.ticks),
            Source::Recording(ticks) => ticks.size_hint().1.and_then(|ticks| u32::try_from(ticks).ok()),
        }
    }

    /// What tick `tick`, from 1, brings after the outputs of the tick before; none after the last one.
    pub fn bring(&mut self, tick: u32, before: &[u32; FIELDS]) -> Result<Option<Brought>, Errors> {
        match self {
            Source::Scenario(player) => Ok((tick <= player.scenario.ticks).then(|| player.bring(tick, before))),
            Source::Recording(ticks) => ticks.next().transpose(),
        }
    }

    /// Whether it tells how its readings go, row by row.
    pub fn is_scenario(&self) -> bool {
        matches!(self, Source::Scenario(_))
    }
}

/// A drive with a switching contact or without.
enum Kind {
    Drive(Drive),
    Motor(Motor),
}

/// The simulated drive: its ends, and the tap at which it began.
struct Simulated {
    kind: Kind,
    ends: Ends,
    first: u8,
}

/// What a drive shows on a tick.
struct Shown {
    switching: bool,
    supply_off: bool,
    tap: u8,
}

impl Simulated {
    /// The kind that the sheet `list` regulates.
    fn new(list: &[u32], nature: &Nature) -> Simulated {
        let (ends, first) = (Ends::new(nature, list), first_tap(nature, list));
        let kind = match is_continuous(list) {
            true => Kind::Motor(Motor::new(first, ends)),
            false => Kind::Drive(Drive::new(first, ends)),
        };
        Simulated { kind, ends, first }
    }

    fn tick(&mut self, nature: &Nature, seen: Seen) -> Shown {
        match &mut self.kind {
            Kind::Drive(drive) => {
                let switching = drive.tick(nature, seen);
                Shown { switching, supply_off: drive.supply.off, tap: drive.tap }
            }
            Kind::Motor(motor) => {
                motor.tick(nature, seen);
                Shown { switching: false, supply_off: motor.supply.off, tap: motor.tap }
            }
        }
    }

    /// What the drive adds to the row: its contacts, its tap and the tap's voltage.
    fn answer(&self, mut brought: Brought, given: Given, nature: &Nature, shown: &Shown) -> Brought {
        brought.contacts = self.contacts(brought.contacts, given, shown);
        if !given.bcd {
            brought.bcd = lines_of(shown.tap);
        }
        if !given.sensor {
            brought.sensor = shown.tap;
        }
        let volts = f64::from(self.ends.raises(self.first, shown.tap)) * nature.step;
        if given.u_ab {
            brought.readings[U_AB] = shifted(brought.readings[U_AB], volts);
        }
        let pair = columns::pair(&brought, U_AB_PAIR);
        columns::put_pair(&mut brought, U_AB_PAIR, phasor::lengthened(pair, volts));
        brought
    }

    /// The row's contacts with those of the drive.
    fn contacts(&self, contacts: u32, given: Given, shown: &Shown) -> u32 {
        let ends = [(END_UP, given.end_up, Way::Raise), (END_DOWN, given.end_down, Way::Lower)];
        let drives = ends.into_iter().filter(|(_, given, _)| !given);
        let contacts = drives.fold(contacts, |all, (bit, _, way)| with(all, bit, !self.ends.free(shown.tap, way)));
        let supply_off = shown.supply_off || is_on(contacts, SUPPLY_OFF);
        with(with(contacts, SWITCHING, shown.switching), SUPPLY_OFF, supply_off)
    }
}

/// What columns give, in place of the drive.
#[derive(Clone, Copy)]
struct Given {
    bcd: bool,
    sensor: bool,
    u_ab: bool,
    end_up: bool,
    end_down: bool,
}

impl Given {
    fn by(columns: &[Column]) -> Given {
        let given = |column: Column| columns.contains(&column);
        Given {
            bcd: given(Column::Bcd),
            sensor: given(Column::Sensor),
            u_ab: given(Column::Reading(U_AB)),
            end_up: given(Column::Contact(END_UP)),
            end_down: given(Column::Contact(END_DOWN)),
        }
    }
}

/// A scenario that is played.
pub struct Player<'a> {
    scenario: &'a Scenario,
    row: usize,
    drive: Option<Simulated>,
    given: Given,
}

impl<'a> Player<'a> {
    /// The rows alone.
    pub fn new(scenario: &'a Scenario) -> Player<'a> {
        Player { scenario, row: 0, drive: None, given: Given::by(&scenario.columns) }
    }

    /// The rows with their drive, if they have one, for a unit with the sheet `list`.
    pub fn with_drive(scenario: &'a Scenario, list: &[u32]) -> Player<'a> {
        let first = &scenario.rows[0].standing.nature;
        let drive = scenario.has_drive().then(|| Simulated::new(list, first));
        Player { drive, ..Player::new(scenario) }
    }

    fn bring(&mut self, tick: u32, before: &[u32; FIELDS]) -> Brought {
        let rows = &self.scenario.rows;
        while rows.get(self.row + 1).is_some_and(|next| next.after < tick) {
            self.row += 1;
        }
        let standing = &rows[self.row].standing;
        let brought = standing.brought;
        match self.drive.as_mut() {
            None => brought,
            Some(drive) => {
                let shown = drive.tick(&standing.nature, seen(before, &brought));
                drive.answer(brought, self.given, &standing.nature, &shown)
            }
        }
    }
}

fn seen(before: &[u32; FIELDS], brought: &Brought) -> Seen {
    let command = match (before[RAISE], before[LOWER]) {
        (1, _) => Some(Way::Raise),
        (_, 1) => Some(Way::Lower),
        _ => None,
    };
    let on = |bit| is_on(brought.contacts, bit);
    Seen { command, trip: before[SUPPLY_TRIP] == 1, reset: on(RESET), supply_off: on(SUPPLY_OFF) }
}

/// The voltage with what the taps add, to the mV.
fn shifted(sample: Sample, volts: f64) -> Sample {
    if sample.quality == INVALID || volts == 0.0 {
        return sample;
    }
    let value = ((f64::from(sample.value) + volts) * 1000.0).round() / 1000.0;
    Sample { value: value as f32, ..sample }
}
