//! `reference make`: a chance sheet and a recording in which much happens.

use std::fs::{self, File};
use std::io::{self, BufWriter, Write};
use std::path::Path;

use crate::dice::Dice;
use crate::recording::{sheet_to_bytes, tick_to_bytes, SHEET_BYTES};
use crate::scene::Scene;
use crate::sheet::{slot, Settings, SLOTS};
use crate::tap::source;

/// Writes a sheet and a recording of `ticks` ticks.
pub fn make(seed: u64, ticks: u64, sheet: &Path, recording: &Path) -> Result<(), String> {
    let mut scene = Scene::new(seed);
    fs::write(sheet, sheet_file(seed, &scene.record.settings)).map_err(|error| format!("{}: {error}", sheet.display()))?;
    write_ticks(&mut scene, ticks, recording).map_err(|error| format!("{}: {error}", recording.display()))
}

/// The scene's own sheet; for every 25th seed it is spoiled, and for every 100th
/// the file is cut short too.
fn sheet_file(seed: u64, settings: &Settings) -> Vec<u8> {
    let mut dice = Dice::new(!seed);
    let mut settings = *settings;
    if seed % 25 == 24 {
        spoil(&mut dice, &mut settings);
    }
    let mut bytes = sheet_to_bytes(&settings);
    if seed % 100 == 99 {
        bytes.truncate(dice.between(0, SHEET_BYTES as u32 - 1) as usize);
    }
    bytes
}

/// Anything in one slot, or counted taps where no contact tells of moves.
fn spoil(dice: &mut Dice, settings: &mut Settings) {
    if dice.one_in(4) {
        settings[slot::CONTINUOUS] = 1;
        settings[slot::TAP_SOURCE] = dice.pick(&[source::COUNTED, source::COUNTED_REVERSED]);
    } else {
        let slot = dice.between(0, SLOTS as u32 - 1) as usize;
        settings[slot] = dice.bits() >> dice.between(0, 31);
    }
}

fn write_ticks(scene: &mut Scene, ticks: u64, recording: &Path) -> io::Result<()> {
    let mut out = BufWriter::new(File::create(recording)?);
    for _ in 0..ticks {
        let (input, _) = scene.next_tick();
        out.write_all(&tick_to_bytes(&input))?;
    }
    out.flush()
}
