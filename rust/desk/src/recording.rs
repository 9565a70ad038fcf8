//! RECORDINGs: the same number of bytes for each tick, read and written one by one.

use std::fs;
use std::io::{self, BufReader, ErrorKind, Read};

use library::{Brought, Sample};

use crate::cells::{self, LONGEST};
use crate::file::{self, Errors, STANDARD};
use crate::inputs::READINGS;
use crate::stream::UNFINISHED;

/// Bytes of a reading: its quality and its float.
pub const READING_BYTES: usize = 5;

/// Where the contacts stand in a tick, the BCD byte and the sensor byte.
const CONTACTS_AT: usize = READINGS.len() * READING_BYTES;
const BCD_AT: usize = CONTACTS_AT + 4;
const SENSOR_AT: usize = BCD_AT + 1;

/// Bytes of a tick.
pub const BYTES: usize = SENSOR_AT + 1;

/// The largest quality byte.
const LAST_QUALITY: u8 = 2;

/// A RECORDING, read tick by tick.
pub struct Recording<'a> {
    name: String,
    input: BufReader<Box<dyn Read + 'a>>,
    /// Ticks that were read.
    read: u32,
    /// Ticks that are in it, where that is known beforehand.
    pub ticks: Option<u32>,
}

impl<'a> Recording<'a> {
    /// Opens a file or standard input. The length of a file is looked at first.
    pub fn open(path: &str) -> Result<Recording<'a>, Errors> {
        let input = file::open(path).map_err(|error| vec![format!("{}: {}", file::input_name(path), file::why(&error))])?;
        let length = fs::metadata(path).ok().filter(|data| data.is_file() && path != STANDARD).map(|data| data.len());
        let mut recording = Recording::of(file::input_name(path), input);
        recording.ticks = length.map(|length| recording.whole_ticks(length)).transpose()?;
        Ok(recording)
    }

    /// What comes from elsewhere, under this name.
    pub fn of(name: String, input: Box<dyn Read + 'a>) -> Recording<'a> {
        Recording { name, input: BufReader::with_capacity(BYTES << 10, input), read: 0, ticks: None }
    }

    /// The ticks in so many bytes.
    fn whole_ticks(&self, length: u64) -> Result<u32, Errors> {
        let (whole, rest) = (length / BYTES as u64, length % BYTES as u64);
        match u32::try_from(whole) {
            Ok(ticks @ 1..=LONGEST) if rest == 0 => Ok(ticks),
            Ok(0..LONGEST) if rest > 0 => Err(self.cut_short(whole, rest)),
            Ok(0) => Err(self.empty()),
            _ => Err(self.too_long()),
        }
    }

    fn says(&self, words: &str) -> Errors {
        vec![format!("{}: {words}", self.name)]
    }

    fn empty(&self) -> Errors {
        self.says("no tick is recorded in it")
    }

    fn cut_short(&self, whole: u64, rest: u64) -> Errors {
        self.says(&format!("tick {} is cut short: {rest} of {BYTES} bytes", whole + 1))
    }

    fn too_long(&self) -> Errors {
        self.says(&format!("it goes on {}", cells::beyond_longest()))
    }

    /// The next tick, if there is one.
    fn bring(&mut self) -> Result<Option<Brought>, Errors> {
        let mut bytes = [0; BYTES];
        let got = fill(&mut self.input, &mut bytes).map_err(|error| self.says(&file::why(&error)))?;
        match got {
            0 if self.read == 0 => return Err(self.empty()),
            0 => return Ok(None),
            BYTES if self.read == LONGEST => return Err(self.too_long()),
            BYTES => (),
            _ => return Err(self.cut_short(u64::from(self.read), got as u64)),
        }
        if self.read == 0 && bytes[0] == UNFINISHED {
            return Err(self.says("its writing was broken off: write it again"));
        }
        self.read += 1;
        tick(&bytes).map(Some).map_err(|words| self.says(&format!("tick {}: {words}", self.read)))
    }
}

impl Iterator for Recording<'_> {
    type Item = Result<Brought, Errors>;

    fn next(&mut self) -> Option<Self::Item> {
        self.bring().transpose()
    }

    /// As many as its file has.
    fn size_hint(&self) -> (usize, Option<usize>) {
        (0, self.ticks.map(|ticks| ticks as usize))
    }
}

/// Reads until the place is full or the input ends: how many bytes there were.
fn fill(input: &mut impl Read, place: &mut [u8]) -> io::Result<usize> {
    let mut got = 0;
    while got < place.len() {
        match input.read(&mut place[got..]) {
            Ok(0) => break,
            Ok(more) => got += more,
            Err(error) if error.kind() == ErrorKind::Interrupted => (),
            Err(error) => return Err(error),
        }
    }
    Ok(got)
}

fn tick(bytes: &[u8]) -> Result<Brought, String> {
    let mut brought = Brought::default();
    for (at, name) in READINGS.iter().map(|reading| reading.name).enumerate() {
        let place = &bytes[at * READING_BYTES..][..READING_BYTES];
        if place[0] > LAST_QUALITY {
            return Err(format!("{name} has the quality byte {}: 0 Good, 1 Held, 2 Invalid", place[0]));
        }
        brought.readings[at] = Sample { quality: u32::from(place[0]), value: f32::from_bits(number(&place[1..])) };
    }
    brought.contacts = number(&bytes[CONTACTS_AT..BCD_AT]);
    brought.bcd = bytes[BCD_AT];
    brought.sensor = bytes[SENSOR_AT];
    Ok(brought)
}

fn number(bytes: &[u8]) -> u32 {
    u32::from_le_bytes([bytes[0], bytes[1], bytes[2], bytes[3]])
}

/// The bytes of a tick.
pub fn bytes(brought: &Brought) -> [u8; BYTES] {
    let mut bytes = [0; BYTES];
    for (sample, place) in brought.readings.iter().zip(bytes.chunks_exact_mut(READING_BYTES)) {
        place[0] = sample.quality as u8;
        place[1..].copy_from_slice(&sample.value.to_bits().to_le_bytes());
    }
    bytes[CONTACTS_AT..BCD_AT].copy_from_slice(&brought.contacts.to_le_bytes());
    bytes[BCD_AT] = brought.bcd;
    bytes[SENSOR_AT] = brought.sensor;
    bytes
}
