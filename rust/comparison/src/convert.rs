//! Between the second program's types and the boundary's.

use library::{Brought, DriveImage, Image, KeyImage, Outlook, Outputs, Sample, WaitImage, GOOD, HELD, INVALID, ORGANS};
use reference::ahead;
use reference::dice::Dice;
use reference::input::Input;
use reference::reading::Reading;
use reference::record::{Direction, Drive, Fault, Organ, Record, Side, Wait};

/// The image of a record.
pub fn image_of(record: &Record) -> Image {
    Image {
        settings: record.settings,
        organ_marks: record.organs.map(|organ| u32::from(organ.marked)),
        organ_counts: record.organs.map(|organ| organ.count),
        drive: drive_image(record.drive),
        fault: match record.fault {
            Fault::None => 0,
            Fault::RunAway => 1,
            Fault::NotStarted => 2,
            Fault::Long => 3,
            Fault::Fast => 4,
        },
        fault_age: record.fault_age,
        wait: match record.wait {
            Wait::None => WaitImage { side: 0, ticks: 0 },
            Wait::ToLow(ticks) => WaitImage { side: 1, ticks },
            Wait::ToHigh(ticks) => WaitImage { side: 2, ticks },
        },
        repeat: way(record.repeat.map(Side::remedy)),
        last: way(record.last_direction),
        counted_tap: record.counted_tap,
        operations: record.operations,
        keys: key_image(record),
        remembered: way(record.remembered),
    }
}

fn key_image(record: &Record) -> KeyImage {
    KeyImage {
        raise_button: u32::from(record.raise_button),
        lower_button: u32::from(record.lower_button),
        remote_raise: u32::from(record.remote_raise),
        remote_lower: u32::from(record.remote_lower),
        remote: u32::from(record.remote),
    }
}

fn drive_image(drive: Drive) -> DriveImage {
    let (kind, direction, ticks) = match drive {
        Drive::Rest => (0, Direction::Raise, 0),
        Drive::Asked { direction, age, automatic } => (if automatic { 1 } else { 4 }, direction, age),
        Drive::Moving { direction, length, commanded } => (if commanded { 2 } else { 3 }, direction, length),
    };
    DriveImage { kind, direction: u32::from(direction == Direction::Lower), ticks }
}

fn way(direction: Option<Direction>) -> u32 {
    match direction {
        None => 0,
        Some(Direction::Raise) => 1,
        Some(Direction::Lower) => 2,
    }
}

/// The record of an image; nothing if it is no record's.
pub fn record_of(image: &Image) -> Option<Record> {
    let mut organs = [Organ::default(); ORGANS];
    for (i, organ) in organs.iter_mut().enumerate() {
        organ.marked = flag(image.organ_marks[i])?;
        organ.count = image.organ_counts[i];
    }
    Some(Record {
        settings: image.settings,
        organs,
        drive: drive_of(image.drive)?,
        fault: fault_of(image.fault)?,
        fault_age: image.fault_age,
        wait: wait_of(image.wait)?,
        repeat: way_of(image.repeat)?.map(side_of),
        last_direction: way_of(image.last)?,
        counted_tap: image.counted_tap,
        operations: image.operations,
        raise_button: flag(image.keys.raise_button)?,
        lower_button: flag(image.keys.lower_button)?,
        remembered: way_of(image.remembered)?,
        remote_raise: flag(image.keys.remote_raise)?,
        remote_lower: flag(image.keys.remote_lower)?,
        remote: flag(image.keys.remote)?,
    })
}

fn flag(number: u32) -> Option<bool> {
    match number {
        0 => Some(false),
        1 => Some(true),
        _ => None,
    }
}

fn drive_of(image: DriveImage) -> Option<Drive> {
    let direction = match image.direction {
        0 => Direction::Raise,
        1 => Direction::Lower,
        _ => return None,
    };
    let ticks = image.ticks;
    match image.kind {
        0 if image.direction == 0 && ticks == 0 => Some(Drive::Rest),
        1 | 4 => Some(Drive::Asked { direction, age: ticks, automatic: image.kind == 1 }),
        2 | 3 => Some(Drive::Moving { direction, length: ticks, commanded: image.kind == 2 }),
        _ => None,
    }
}

fn fault_of(number: u32) -> Option<Fault> {
    match number {
        0 => Some(Fault::None),
        1 => Some(Fault::RunAway),
        2 => Some(Fault::NotStarted),
        3 => Some(Fault::Long),
        4 => Some(Fault::Fast),
        _ => None,
    }
}

fn wait_of(image: WaitImage) -> Option<Wait> {
    match (image.side, image.ticks) {
        (0, 0) => Some(Wait::None),
        (1, ticks) => Some(Wait::ToLow(ticks)),
        (2, ticks) => Some(Wait::ToHigh(ticks)),
        _ => None,
    }
}

fn way_of(number: u32) -> Option<Option<Direction>> {
    match number {
        0 => Some(None),
        1 => Some(Some(Direction::Raise)),
        2 => Some(Some(Direction::Lower)),
        _ => None,
    }
}

fn side_of(direction: Direction) -> Side {
    match direction {
        Direction::Raise => Side::Low,
        Direction::Lower => Side::High,
    }
}

/// What a tick brings. An Invalid reading has any other quality and any value.
pub fn brought(input: &Input, dice: &mut Dice) -> Brought {
    let sample = |reading: Reading| match reading {
        Reading::Good(value) => Sample { quality: GOOD, value },
        Reading::Held(value) => Sample { quality: HELD, value },
        Reading::Invalid => {
            Sample { quality: (dice.bits() >> dice.between(0, 31)).max(INVALID), value: f32::from_bits(dice.bits()) }
        }
    };
    Brought { readings: input.readings().map(sample), contacts: input.contacts.0, bcd: input.bcd, sensor: input.sensor }
}

/// The answer to a look ahead.
pub fn outlook_of(outlook: &ahead::Outlook) -> Outlook {
    Outlook {
        refusal: outlook.refusal,
        tick: outlook.tick,
        way: way(outlook.way),
        outputs: Outputs { fields: outlook.outputs },
        next: image_of(&outlook.next),
    }
}
