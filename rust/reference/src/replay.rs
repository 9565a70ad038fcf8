//! `reference replay`: a sheet and a recording in, one line per tick out.

use std::fs::{self, File};
use std::io::{self, BufReader, BufWriter, Read, Write};
use std::path::Path;

use crate::record::Record;
use crate::recording::{sheet_from_bytes, tick_from_bytes, TICK_BYTES};
use crate::tick::{tick, OUTPUTS};

/// Replays the files and writes the lines; an error is one clear line.
pub fn replay(sheet: &Path, recording: &Path, out: impl Write) -> Result<(), String> {
    let mut out = BufWriter::new(out);
    let replayed = replay_files(sheet, recording, &mut out);
    // What was replayed before an error is still shown.
    out.flush().map_err(|error| unwritten(&error))?;
    replayed
}

fn replay_files(sheet: &Path, recording: &Path, out: &mut impl Write) -> Result<(), String> {
    let bytes = fs::read(sheet).map_err(|error| unread(sheet, &error))?;
    match Record::start(&sheet_from_bytes(&bytes)) {
        Err(refusal) => writeln!(out, "{} {}", refusal.number, refusal.slot).map_err(|error| unwritten(&error)),
        Ok(record) => {
            let file = File::open(recording).map_err(|error| unread(recording, &error))?;
            writeln!(out, "0 0").map_err(|error| unwritten(&error))?;
            run(record, BufReader::new(file), recording, out)
        }
    }
}

/// Every tick of the recording in turn.
fn run(mut record: Record, mut file: impl Read, name: &Path, out: &mut impl Write) -> Result<(), String> {
    let mut offset: u64 = 0;
    loop {
        let mut bytes = [0; TICK_BYTES];
        let got = fill(&mut file, &mut bytes).map_err(|error| unread(name, &error))?;
        if got == 0 {
            return Ok(());
        }
        if got < TICK_BYTES {
            return Err(cut_short(name, offset, got));
        }
        let input = tick_from_bytes(&bytes).map_err(|bad| {
            let at = offset + bad.at as u64;
            let byte = bad.byte;
            format!("{}: bad quality byte {byte} at offset {at}", name.display())
        })?;
        let ticked = tick(&record, &input);
        print_line(out, &ticked.outputs).map_err(|error| unwritten(&error))?;
        record = ticked.next;
        offset += TICK_BYTES as u64;
    }
}

/// Reads until the buffer is full or the file ends; says how far it came.
fn fill(file: &mut impl Read, buffer: &mut [u8]) -> io::Result<usize> {
    let mut got = 0;
    while got < buffer.len() {
        match file.read(&mut buffer[got..]) {
            Ok(0) => break,
            Ok(more) => got += more,
            Err(error) if error.kind() == io::ErrorKind::Interrupted => {}
            Err(error) => return Err(error),
        }
    }
    Ok(got)
}

fn print_line(out: &mut impl Write, outputs: &[u32; OUTPUTS]) -> io::Result<()> {
    let words: Vec<String> = outputs.iter().map(u32::to_string).collect();
    writeln!(out, "{}", words.join(" "))
}

fn cut_short(name: &Path, offset: u64, got: usize) -> String {
    let end = offset + got as u64;
    let name = name.display();
    format!("{name}: last tick cut short, it starts at {offset} and the file ends at offset {end}")
}

fn unread(name: &Path, error: &io::Error) -> String {
    format!("{}: {error}", name.display())
}

fn unwritten(error: &io::Error) -> String {
    format!("standard output: {error}")
}
