//! The layout of `rust/library` beside the bytes that the library reads and writes: canaries around what is lent, and a known
//! sheet and known ticks that give each place a number of its own.

use std::marker::PhantomData;
use std::mem::size_of;

use library::{
    start, tick, Brought, DriveImage, Image, KeyImage, Outlook, Outputs, Sample, Started, Ticked, WaitImage, FIELDS, INVALID,
    LONGEST_HORIZON, READINGS, WORDS,
};
use reference::dice::Dice;
use reference::input::bit;
use reference::make_sheet;
use reference::record::ORGANS;
use reference::sheet::slot;
use reference::values::BASE;

const CANARY: u32 = 0xA5A5_A5A5;

/// Room on both sides of what is lent, in numbers of 32 bits.
const ROOM: usize = 32;

/// The same functions as they are called on x86-64, the only machine that the archive links on: an answer in memory is written
/// where a first, hidden argument points. So the library writes into memory of the test's, and not of the declarations'.
mod boundary {
    use library::{Brought, Image};

    extern "C" {
        pub fn avr_start(answer: *mut u32, list: *const u32, length: usize) -> *mut u32;
        pub fn avr_tick(image: *mut u32, brought: *const Brought, outputs: *mut u32) -> u32;
        pub fn avr_tick_by_value(answer: *mut u32, image: Image, brought: Brought) -> *mut u32;
        pub fn avr_ahead(answer: *mut u32, image: Image, brought: Brought, horizon: u32) -> *mut u32;
    }
}

/// Memory for a `T`, which is numbers of 32 bits, between canaries.
struct Lent<T> {
    words: Vec<u32>,
    of: PhantomData<T>,
}

impl<T: Copy> Lent<T> {
    fn new() -> Lent<T> {
        Lent { words: vec![CANARY; ROOM + size_of::<T>() / size_of::<u32>() + ROOM], of: PhantomData }
    }

    fn of(value: T) -> Lent<T> {
        let mut lent = Lent::new();
        // SAFETY: there is room, aligned for numbers of 32 bits.
        unsafe { lent.place().cast::<T>().write(value) };
        lent
    }

    fn place(&mut self) -> *mut u32 {
        self.words[ROOM..].as_mut_ptr()
    }

    /// The value, if nothing is written beside it.
    fn value(&self) -> T {
        let after = self.words.len() - ROOM;
        let beside = self.words[..ROOM].iter().chain(&self.words[after..]);
        assert!(beside.into_iter().all(|&word| word == CANARY), "written beside what was lent");
        // SAFETY: the types here have a value for any numbers.
        unsafe { self.words[ROOM..].as_ptr().cast::<T>().read() }
    }
}

/// All readings Invalid, breaker closed, automatic.
fn idle() -> Brought {
    let readings = [Sample { quality: INVALID, value: 0.0 }; READINGS];
    Brought { readings, contacts: 1 << bit::BREAKER_CLOSED | 1 << bit::AUTOMATIC, ..Brought::default() }
}

fn fresh(changes: &[(usize, u32)]) -> Image {
    let mut sheet = BASE;
    changes.iter().for_each(|&(slot, number)| sheet[slot] = number);
    let started = start(&sheet);
    assert_eq!(started.number, 0);
    started.image
}

/// The image with remote mode on the previous tick.
fn remote(image: Image) -> Image {
    Image { keys: KeyImage { remote: 1, ..image.keys }, ..image }
}

#[test]
fn a_started_image_is_written_whole() {
    let sheet = make_sheet::sheet(&mut Dice::new(1));
    let mut lent = Lent::<Started>::new();
    // SAFETY: memory for the answer, and a slice.
    unsafe { boundary::avr_start(lent.place(), sheet.as_ptr(), sheet.len()) };
    let started = lent.value();
    assert_eq!((started.number, started.slot), (0, 0));
    let image = started.image;
    assert_eq!(image.settings, sheet);
    let words = image.words();
    let memory = [sheet[slot::N_POS], sheet[slot::N_START], 1, 1, 1, 1, 0, 0];
    let (idle, end) = words[sheet.len()..].split_at(WORDS - sheet.len() - memory.len());
    assert!(idle.iter().all(|&n| n == 0));
    assert_eq!(end, memory);
    let KeyImage { raise_button, lower_button, remote_raise, remote_lower, remote } = image.keys;
    let keys = [raise_button, lower_button, remote_raise, remote_lower, remote];
    assert_eq!([&[image.counted_tap, image.operations], &keys[..], &[image.remembered]].concat(), memory);
}

/// The last numbers of the image are the dispatcher's lower, 1 when fresh and 0 after a tick without it, the mode, which is that
/// of the tick, and the remembered press, which a tick in automatic mode drops.
#[test]
fn a_lent_image_is_written_to_its_end() {
    let mut image = Lent::of(remote(Image { remembered: 2, ..fresh(&[]) }));
    let mut outputs = Lent::<Outputs>::new();
    // SAFETY: three places that do not overlap.
    let answer = unsafe { boundary::avr_tick(image.place(), &idle(), outputs.place()) };
    assert_eq!(answer, 0);
    let words = image.value().words();
    assert_eq!(words[WORDS - 3..], [0, 0, 0]);
    assert_eq!(outputs.value().fields[FIELDS - 1], 1, "automatic is the last output");
}

#[test]
fn a_refused_tick_writes_each_output_and_no_more() {
    let refused = Image { remembered: 3, ..fresh(&[]) };
    let mut image = Lent::of(refused);
    let mut outputs = Lent::<Outputs>::new();
    // SAFETY: three places that do not overlap.
    let answer = unsafe { boundary::avr_tick(image.place(), &idle(), outputs.place()) };
    assert_eq!((answer, outputs.value().fields), (4, [0; FIELDS]));
    assert_eq!(image.value(), refused);
}

#[test]
fn a_tick_by_value_is_written_whole() {
    let mut ticked = Lent::<Ticked>::new();
    // SAFETY: memory for the answer, and plain values.
    unsafe { boundary::avr_tick_by_value(ticked.place(), remote(Image { remembered: 1, ..fresh(&[]) }), idle()) };
    let Ticked { refusal, outputs, next } = ticked.value();
    assert_eq!(
        (refusal, outputs.fields[FIELDS - 1], next.keys.remote_lower, next.keys.remote, next.remembered),
        (0, 1, 0, 0, 0)
    );
    assert_eq!(next.settings, BASE);
}

/// The answer to a look ahead, and its numbers as they stand.
fn outlook(image: Image, brought: Brought, horizon: u32) -> (Outlook, Vec<u32>) {
    let mut lent = Lent::<Outlook>::new();
    // SAFETY: memory for the answer, and plain values.
    unsafe { boundary::avr_ahead(lent.place(), image, brought, horizon) };
    (lent.value(), lent.words[ROOM..lent.words.len() - ROOM].to_vec())
}

/// A lower after 13 ticks more, with the sensor's tap 29. The places are counted by hand: three numbers, the outputs, the image.
#[test]
fn an_outlook_is_written_whole() {
    let image = fresh(&[(slot::T1, 33), (slot::TAP_SOURCE, 2), (slot::N_START, 41)]);
    let image = Image { wait: WaitImage { side: 2, ticks: 20 }, ..image };
    let mut high = Brought { sensor: 29, ..idle() };
    high.readings[0] = Sample { quality: 0, value: 102.0 };
    let (found, words) = outlook(image, high, 50);
    assert_eq!((found.refusal, found.tick, found.way), (0, 13, 2));
    assert_eq!((found.outputs.fields[1], found.outputs.fields[3], found.outputs.fields[25]), (1, 29, 41));
    assert_eq!((found.next.settings, found.next.operations, found.next.repeat), (image.settings, 41, 2));
    assert_eq!((found.next.drive.kind, found.next.drive.direction, found.next.drive.ticks), (1, 1, 0));
    assert_eq!(words[..3], [0, 13, 2]);
    assert_eq!(words[3..3 + FIELDS], found.outputs.fields);
    assert_eq!(words[3 + FIELDS..], found.next.words());
}

/// The last number of the image is the remembered press: one that the manual tick keeps while the command is asked.
#[test]
fn an_outlook_without_a_command_is_written_to_its_end() {
    let manual = Brought { contacts: 1 << bit::BREAKER_CLOSED, ..idle() };
    let image = Image { drive: DriveImage { kind: 4, direction: 1, ticks: 5 }, remembered: 2, ..fresh(&[(slot::T5, 70)]) };
    let (none, words) = outlook(image, manual, 60);
    assert_eq!((none.refusal, none.tick, none.way), (0, 0, 0));
    assert_eq!((none.outputs.fields[1], none.outputs.fields[24], none.next.drive.ticks), (1, 1, 65));
    assert_eq!(words.last(), Some(&2));
}

/// Refused with the image as it was handed in, each number of which is its own.
#[test]
fn a_refused_outlook_is_written_whole() {
    let image = Image::from_words(std::array::from_fn(|at| 1_000 + at as u32));
    for horizon in [0, 1, u32::MAX] {
        let (refused, words) = outlook(image, idle(), horizon);
        assert_eq!((refused.refusal, refused.next), (4, image));
        assert_eq!(words, [&[4][..], &[0; 2 + FIELDS], &image.words()].concat());
    }
    let image = Image { remembered: 1, ..fresh(&[]) };
    for horizon in [0, LONGEST_HORIZON + 1] {
        let (refused, words) = outlook(image, idle(), horizon);
        assert_eq!((refused.refusal, refused.next), (6, image));
        assert_eq!(words, [&[6][..], &[0; 2 + FIELDS], &image.words()].concat());
    }
}

/// Each number of an image goes there and back in its place.
#[test]
fn words_are_the_image() {
    let image = Image::from_words(std::array::from_fn(|at| at as u32));
    assert_eq!(image.words(), std::array::from_fn(|at| at as u32));
    assert_eq!(image.settings[0], 0);
    assert_eq!(image.remembered as usize, WORDS - 1);
}

/// The trips of a tick with this one reading, in V or A, and no delay.
fn trips(reading: usize, value: f32) -> [u32; ORGANS] {
    let no_delay: Vec<_> = (0..ORGANS).map(|organ| (slot::T9 + organ, 0)).collect();
    let mut image = fresh(&no_delay);
    let mut brought = idle();
    brought.readings[reading] = Sample { quality: 0, value };
    let mut outputs = Outputs { fields: [9; FIELDS] };
    assert_eq!(tick(&mut image, &brought, &mut outputs), 0);
    outputs.fields[6..6 + ORGANS].try_into().expect("seven trips")
}

/// Each reading is read from its own place.
#[test]
fn readings_stand_in_their_places() {
    assert_eq!(trips(0, 130.0), [0, 0, 0, 1, 0, 0, 0], "U_AB");
    assert_eq!(trips(0, 80.0), [0, 0, 0, 0, 1, 0, 0], "U_AB");
    assert_eq!(trips(1, 20.0), [0, 0, 0, 0, 0, 1, 0], "3U0");
    assert_eq!(trips(2, 20.0), [0, 0, 0, 0, 0, 0, 1], "U2");
    assert_eq!(trips(3, 2.0), [1, 0, 0, 0, 0, 0, 0], "I_high");
    assert_eq!(trips(4, 2.0), [0, 1, 0, 0, 0, 0, 0], "I_bus");
    assert_eq!(trips(5, 2.0), [0; ORGANS], "I_coupler has no organ");
    let mut image = fresh(&[(slot::COMPENSATION, 1), (slot::COMPENSATION_CURRENT, 1)]);
    let mut brought = idle();
    (brought.readings[0], brought.readings[5]) = (Sample { quality: 0, value: 100.0 }, Sample { quality: 0, value: 1.0 });
    let mut outputs = Outputs { fields: [9; FIELDS] };
    tick(&mut image, &brought, &mut outputs);
    assert_eq!(outputs.fields[17], 1, "I_coupler takes U_comp off U_AB");
}

/// Low and high on a tick with 100 V in one part of U_AB's pair and 1 A in one part of a current's, all other readings that slot 4
/// does not name Invalid. The line is R or X alone, 1 ohm.
fn judged(impedance: usize, current: u32, volts: usize, amps: usize) -> [u32; 2] {
    let line = [(slot::R, 0), (slot::X, 0), (impedance, 1_000)];
    let way = [(slot::COMPENSATION, 2), (slot::COMPENSATION_CURRENT, current)];
    let mut image = fresh(&[&line[..], &way[..]].concat());
    let mut brought = idle();
    let named = 8 + 2 * current as usize;
    for part in [6, 7, named, named + 1] {
        brought.readings[part] = Sample { quality: 0, value: 0.0 };
    }
    (brought.readings[volts].value, brought.readings[amps].value) = (100.0, 1.0);
    let mut outputs = Outputs { fields: [9; FIELDS] };
    assert_eq!(tick(&mut image, &brought, &mut outputs), 0);
    [outputs.fields[17], outputs.fields[18]]
}

/// Each part of a pair, R and X are read from their own places: along R a current takes 1.7 V off the part of its own kind, along X
/// it turns by a quarter.
#[test]
fn parts_stand_in_their_places() {
    let (low, high, neither) = ([1, 0], [0, 1], [0, 0]);
    for (current, [re, im]) in [(0, [8, 9]), (1, [10, 11])] {
        let places = [(6, re), (6, im), (7, re), (7, im)];
        let along = |impedance: usize| places.map(|(volts, amps)| judged(impedance, current, volts, amps));
        assert_eq!(along(slot::R), [low, neither, neither, low], "R, slot 4 is {current}");
        assert_eq!(along(slot::X), [neither, high, low, neither], "X, slot 4 is {current}");
    }
}

#[test]
fn the_taps_bytes_stand_in_their_places() {
    for (source, tap) in [(1, 24), (2, 13)] {
        let mut image = fresh(&[(slot::TAP_SOURCE, source)]);
        let mut outputs = Outputs { fields: [9; FIELDS] };
        tick(&mut image, &Brought { bcd: 0x24, sensor: 13, ..idle() }, &mut outputs);
        assert_eq!(outputs.fields[3], tap);
    }
}
