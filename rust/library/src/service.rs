//! What the sealed unit does not run: the journal as text. `c/avr_service.h` declares the same for C.

/// What the writer answers: 0, 7 or 8; with 8 the place of the first broken number in the list, from 0; with 0 the text's length.
#[repr(C)]
#[derive(Clone, Copy, Debug, PartialEq, Eq)]
pub struct TextWritten {
    pub refusal: u32,
    pub place: usize,
    pub length: usize,
}

/// What the reader answers: 0, 7 or 8; with 8 the offset of the first broken number's first byte; with 0 how many numbers were read.
#[repr(C)]
#[derive(Clone, Copy, Debug, PartialEq, Eq)]
pub struct NumbersRead {
    pub refusal: u32,
    pub offset: usize,
    pub count: usize,
}

mod archive {
    use super::{NumbersRead, TextWritten};

    extern "C" {
        pub fn avr_journal_write(list: *const u32, length: usize, buffer: *mut u8, room: usize) -> TextWritten;
        pub fn avr_journal_read(text: *const u8, length: usize, list: *mut u32, room: usize) -> NumbersRead;
    }
}

/// Writes the one text of a journal, given as its numbers, at the front of the lent buffer.
pub fn journal_write(list: &[u32], buffer: &mut [u8]) -> TextWritten {
    // SAFETY: pointers and lengths of two slices, the written one exclusive.
    unsafe { archive::avr_journal_write(list.as_ptr(), list.len(), buffer.as_mut_ptr(), buffer.len()) }
}

/// Reads the numbers of a journal's text to the front of the lent list.
pub fn journal_read(text: &[u8], list: &mut [u32]) -> NumbersRead {
    // SAFETY: as above.
    unsafe { archive::avr_journal_read(text.as_ptr(), text.len(), list.as_mut_ptr(), list.len()) }
}
