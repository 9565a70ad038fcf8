//! Ticket 9, "A journal of changes": refusals 7 and 8 of the writer and the reader,
//! and the memory lent to them.

mod common;

use common::journals::{taken, written};
use reference::journal::{read, write, NumbersRead, TextWritten};

const MAX: u32 = u32::MAX;

/// A journal with numbers of one, two, three and five groups, and its text.
const LIST: [u32; 6] = [300, 25, 999_999, MAX / 2 + 300, 24, 1];
const TEXT: [u8; 13] = [0xAC, 0x02, 0x19, 0xBF, 0x84, 0x3D, 0xAB, 0x82, 0x80, 0x80, 0x08, 0x18, 0x01];

fn wrote(refusal: u32, place: usize, length: usize) -> TextWritten {
    TextWritten { refusal, place, length }
}

fn got(refusal: u32, offset: usize, count: usize) -> NumbersRead {
    NumbersRead { refusal, offset, count }
}

// "7 when the lent buffer is shorter than the text, or a reader's lent list than its
// numbers."

#[test]
fn a_buffer_as_long_as_the_text_is_enough() {
    for lent in 0..20 {
        let mut buffer = vec![0xEE; lent];
        let answer = write(&LIST, &mut buffer);
        if lent < TEXT.len() {
            assert_eq!((answer, buffer), (wrote(7, 0, 0), vec![0xEE; lent]));
        } else {
            assert_eq!(answer, wrote(0, 0, TEXT.len()));
            assert_eq!(buffer, [&TEXT[..], &vec![0xEE; lent - TEXT.len()]].concat());
        }
    }
}

#[test]
fn a_list_as_long_as_the_numbers_is_enough() {
    for lent in 0..12 {
        let mut list = vec![77; lent];
        let answer = read(&TEXT, &mut list);
        if lent < LIST.len() {
            assert_eq!((answer, list), (got(7, 0, 0), vec![77; lent]));
        } else {
            assert_eq!(answer, got(0, 0, LIST.len()));
            assert_eq!(list, [&LIST[..], &vec![77; lent - LIST.len()]].concat());
        }
    }
}

#[test]
fn an_empty_journal_fits_everywhere() {
    assert_eq!(write(&[], &mut []), wrote(0, 0, 0));
    assert_eq!(read(&[], &mut []), got(0, 0, 0));
    let (mut buffer, mut list) = ([9; 3], [9; 3]);
    assert_eq!((write(&[], &mut buffer), buffer), (wrote(0, 0, 0), [9; 3]));
    assert_eq!((read(&[], &mut list), list), (got(0, 0, 0), [9; 3]));
}

// "8 is tested before 7, and neither writes anything."

#[test]
fn a_broken_list_is_refused_whatever_is_lent() {
    // The last number is broken: what is before it could be written.
    let list = [1, 0, 1, 2, 1, 1, 3, 1, 1];
    for lent in [0, 1, 6, 8, 9, 100] {
        let mut buffer = vec![0xEE; lent];
        assert_eq!((write(&list, &mut buffer), buffer), (wrote(8, 8, 0), vec![0xEE; lent]));
    }
}

#[test]
fn a_broken_text_is_refused_whatever_is_lent() {
    let text = [1, 0, 1, 2, 1, 1, 3, 1, 1];
    for lent in [0, 1, 6, 8, 9, 100] {
        let mut list = vec![77; lent];
        assert_eq!((read(&text, &mut list), list), (got(8, 8, 0), vec![77; lent]));
    }
}

// "... with the offset of the first byte of the first broken number, or the length if
// that number is missing; a list to be written is refused alike."

#[test]
fn a_missing_number_is_broken_at_the_length() {
    for whole in [&[][..], &[5, 24, 1], &[5, 24, 1, 9, 24, 0]] {
        assert_eq!(written(whole).err(), None);
        for begun in [&[300][..], &[300, 25]] {
            let list = [whole, begun].concat();
            assert_eq!(written(&list), Err(list.len()));
        }
    }
    assert_eq!(taken(&[0x05]), Err(1));
    assert_eq!(taken(&[0x05, 0x18]), Err(2));
    assert_eq!(taken(&[0x05, 0x18, 0x01]), Ok(vec![5, 24, 1]));
    assert_eq!(taken(&[0x05, 0x18, 0x01, 0xAC, 0x02]), Err(5));
    assert_eq!(taken(&[0x05, 0x18, 0x01, 0xAC, 0x02, 0x19]), Err(6));
}

#[test]
fn what_is_broken_before_a_missing_number_is_the_first() {
    assert_eq!(written(&[5, 28]), Err(1));
    assert_eq!(written(&[5, 24, 1, 4]), Err(3));
    assert_eq!(written(&[5, 24, 1, 5, 24]), Err(4));
    assert_eq!(written(&[5, 24, 0, 6]), Err(2));
    assert_eq!(taken(&[0x05, 0x1C]), Err(1));
    assert_eq!(taken(&[0x05, 0x18, 0x01, 0x04]), Err(3));
    assert_eq!(taken(&[0x05, 0x18, 0x01, 0x05, 0x18]), Err(4));
    assert_eq!(taken(&[0x05, 0x18, 0x00, 0x06]), Err(2));
}

#[test]
fn a_number_that_breaks_off_is_broken_at_its_first_byte() {
    for cut in 1..5 {
        assert_eq!(taken(&[0x80; 4][..cut]), Err(0));
        assert_eq!(taken(&TEXT[..6 + cut]), Err(6));
    }
    assert_eq!(taken(&TEXT[..1]), Err(0));
    assert_eq!(taken(&TEXT[..4]), Err(3));
    assert_eq!(taken(&TEXT[..5]), Err(3));
    assert_eq!(taken(&[0x05, 0x98]), Err(1));
    assert_eq!(taken(&[0x05, 0x18, 0x81]), Err(2));
    assert_eq!(taken(&[0xFF; 300]), Err(0));
}

#[test]
fn of_several_broken_numbers_the_first_counts() {
    assert_eq!(written(&[1, 28, 2, 0, 99, 99]), Err(1));
    assert_eq!(written(&[9, 4, 1, 8, 28, 2]), Err(3));
    assert_eq!(written(&[9, 4, 1, 9, 4, 1]), Err(4));
    assert_eq!(taken(&[0x01, 0x1C, 0x02, 0x80, 0x00]), Err(1));
    assert_eq!(taken(&[0x80, 0x00, 0x1C, 0x02]), Err(0));
    assert_eq!(taken(&[0x09, 0x04, 0x01, 0x08, 0x80, 0x00]), Err(3));
}

#[test]
fn an_offset_counts_bytes_and_a_place_numbers() {
    let mut list = LIST;
    list[4] = 28;
    assert_eq!(written(&list), Err(4));
    let mut text = TEXT;
    text[11] = 28;
    assert_eq!(taken(&text), Err(11));
    list = LIST;
    list[3] = MAX / 2 + 301;
    assert_eq!(written(&list), Err(3));
    text = TEXT;
    text[6] += 1;
    assert_eq!(taken(&text), Err(6));
    list = LIST;
    list[2] = 1_000_000;
    assert_eq!(written(&list), Err(2));
    text = TEXT;
    text[3] += 1;
    assert_eq!(taken(&text), Err(3));
}
