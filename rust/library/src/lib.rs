//! The proved library for a host in Rust: what `c/avr.h` declares for C, and five safe functions over it. `service` has what
//! `c/avr_service.h` declares.
//!
//! Nothing checks these declarations while they are compiled. The tests of `rust/comparison` hold them to the sources in `crates/`
//! and to what the library reads and writes.

use std::mem::{size_of, transmute};

pub mod service;

/// Numbers of a setting sheet.
pub const SLOTS: usize = 68;

/// Measuring organs.
pub const ORGANS: usize = 7;

/// Readings of a tick, each part of a pair being one.
pub const READINGS: usize = 12;

/// Outputs of a tick.
pub const FIELDS: usize = 28;

/// Ticks of the longest look ahead.
pub const LONGEST_HORIZON: u32 = 36_000;

/// Numbers of one change in a journal: stamp, field, value.
pub const CHANGE: usize = 3;

/// The most numbers that one tick adds to a journal.
pub const MOST_CHANGES: usize = CHANGE * FIELDS;

/// Numbers of an image.
pub const WORDS: usize = size_of::<Image>() / size_of::<u32>();

/// The qualities of a reading; any other number is Invalid too.
pub const GOOD: u32 = 0;
pub const HELD: u32 = 1;
pub const INVALID: u32 = 2;

#[repr(C)]
#[derive(Clone, Copy, Debug, PartialEq, Eq)]
pub struct DriveImage {
    pub kind: u32,
    pub direction: u32,
    pub ticks: u32,
}

#[repr(C)]
#[derive(Clone, Copy, Debug, PartialEq, Eq)]
pub struct WaitImage {
    pub side: u32,
    pub ticks: u32,
}

/// The keys of the previous tick.
#[repr(C)]
#[derive(Clone, Copy, Debug, PartialEq, Eq)]
pub struct KeyImage {
    pub raise_button: u32,
    pub lower_button: u32,
    pub remote_raise: u32,
    pub remote_lower: u32,
    pub remote: u32,
}

/// The image of a record.
#[repr(C)]
#[derive(Clone, Copy, Debug, PartialEq, Eq)]
pub struct Image {
    pub settings: [u32; SLOTS],
    pub organ_marks: [u32; ORGANS],
    pub organ_counts: [u32; ORGANS],
    pub drive: DriveImage,
    pub fault: u32,
    pub fault_age: u32,
    pub wait: WaitImage,
    pub repeat: u32,
    pub last: u32,
    pub counted_tap: u32,
    pub operations: u32,
    pub keys: KeyImage,
    pub remembered: u32,
}

/// A reading: its quality, and a number in V or A, which counts as the nearest whole mV or mA, a half going up; a part of a pair
/// counts as its magnitude does, with its sign.
#[repr(C)]
#[derive(Clone, Copy, Debug, Default)]
pub struct Sample {
    pub quality: u32,
    pub value: f32,
}

impl PartialEq for Sample {
    /// By bits, so that a NaN equals itself.
    fn eq(&self, other: &Sample) -> bool {
        self.quality == other.quality && self.value.to_bits() == other.value.to_bits()
    }
}

/// What a tick brings. The readings are U_AB, 3U0, U2, I_high, I_bus and I_coupler, and then real and imaginary part of U_AB, I_bus
/// and I_coupler.
#[repr(C)]
#[derive(Clone, Copy, Debug, Default, PartialEq)]
pub struct Brought {
    pub readings: [Sample; READINGS],
    pub contacts: u32,
    pub bcd: u8,
    pub sensor: u8,
}

/// The outputs of a tick, by field.
#[repr(C)]
#[derive(Clone, Copy, Debug, PartialEq, Eq)]
pub struct Outputs {
    pub fields: [u32; FIELDS],
}

/// The answer to a sheet: 0, or a refusal's number and slot; the image of its record.
#[repr(C)]
#[derive(Clone, Copy, Debug, PartialEq, Eq)]
pub struct Started {
    pub number: u32,
    pub slot: u32,
    pub image: Image,
}

/// What a tick by value gives: 0 or 4, the outputs, the next image.
#[repr(C)]
#[derive(Clone, Copy, Debug, PartialEq, Eq)]
pub struct Ticked {
    pub refusal: u32,
    pub outputs: Outputs,
    pub next: Image,
}

/// What a look ahead gives: 0, 4 or 6; the tick, counted from 1, on which the first command begins, or 0, and its way; the outputs
/// and the image after that tick, or after the last one.
#[repr(C)]
#[derive(Clone, Copy, Debug, PartialEq, Eq)]
pub struct Outlook {
    pub refusal: u32,
    pub tick: u32,
    pub way: u32,
    pub outputs: Outputs,
    pub next: Image,
}

/// What a tick adds to a journal: 0 or 7; how many numbers were written at the list's front; the next tick's stamp, or with 7 the stamp
/// as given.
#[repr(C)]
#[derive(Clone, Copy, Debug, PartialEq, Eq)]
pub struct ChangesAdded {
    pub refusal: u32,
    pub count: u32,
    pub stamp: u32,
}

mod boundary {
    use super::{Brought, ChangesAdded, Image, Outlook, Outputs, Started, Ticked};

    extern "C" {
        pub fn avr_start(list: *const u32, length: usize) -> Started;
        pub fn avr_tick(image: *mut Image, brought: *const Brought, outputs: *mut Outputs) -> u32;
        pub fn avr_tick_by_value(image: Image, brought: Brought) -> Ticked;
        pub fn avr_ahead(image: Image, brought: Brought, horizon: u32) -> Outlook;
        pub fn avr_changes(before: Outputs, after: Outputs, stamp: u32, list: *mut u32, length: usize) -> ChangesAdded;
    }
}

/// Starts a regulator from a list of any length.
pub fn start(list: &[u32]) -> Started {
    // SAFETY: the pointer and the length are those of a slice, which the library only reads.
    unsafe { boundary::avr_start(list.as_ptr(), list.len()) }
}

/// One tick of the lent image: 0, or the refusal 4.
pub fn tick(image: &mut Image, brought: &Brought, outputs: &mut Outputs) -> u32 {
    // SAFETY: three references, two of them exclusive, do not overlap.
    unsafe { boundary::avr_tick(image, brought, outputs) }
}

/// The same with everything by value.
pub fn tick_by_value(image: Image, brought: Brought) -> Ticked {
    // SAFETY: plain values.
    unsafe { boundary::avr_tick_by_value(image, brought) }
}

/// On which of up to `horizon` ticks, each of which brings the same, the first command would begin.
pub fn ahead(image: Image, brought: Brought, horizon: u32) -> Outlook {
    // SAFETY: plain values.
    unsafe { boundary::avr_ahead(image, brought, horizon) }
}

/// What the tick of this stamp adds to a journal, at the front of the lent list: stamp, field and new value of each output that is not what
/// it was before.
pub fn changes(before: Outputs, after: Outputs, stamp: u32, list: &mut [u32]) -> ChangesAdded {
    // SAFETY: plain values, and the pointer and the length of an exclusive slice.
    unsafe { boundary::avr_changes(before, after, stamp, list.as_mut_ptr(), list.len()) }
}

impl Image {
    /// The image of these numbers, in the order of its fields.
    pub fn from_words(words: [u32; WORDS]) -> Image {
        // SAFETY: an image is 32-bit numbers alone, any of them, without padding.
        unsafe { transmute(words) }
    }

    /// Its numbers, in the order of its fields.
    pub fn words(self) -> [u32; WORDS] {
        // SAFETY: as above.
        unsafe { transmute(self) }
    }
}
