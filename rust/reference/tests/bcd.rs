//! The 40 codes of source document 002, table 2.2.1.6.3.1.

mod common;

use common::*;
use reference::sheet::slot;

/// The lines BCD01, 02, 04, 08, 10, 20, 40 of taps 1 to 40.
#[rustfmt::skip]
const TABLE: [[u8; 7]; 40] = [
    [1, 0, 0, 0, 0, 0, 0],
    [0, 1, 0, 0, 0, 0, 0],
    [1, 1, 0, 0, 0, 0, 0],
    [0, 0, 1, 0, 0, 0, 0],
    [1, 0, 1, 0, 0, 0, 0],
    [0, 1, 1, 0, 0, 0, 0],
    [1, 1, 1, 0, 0, 0, 0],
    [0, 0, 0, 1, 0, 0, 0],
    [1, 0, 0, 1, 0, 0, 0],
    [0, 0, 0, 0, 1, 0, 0],
    [1, 0, 0, 0, 1, 0, 0],
    [0, 1, 0, 0, 1, 0, 0],
    [1, 1, 0, 0, 1, 0, 0],
    [0, 0, 1, 0, 1, 0, 0],
    [1, 0, 1, 0, 1, 0, 0],
    [0, 1, 1, 0, 1, 0, 0],
    [1, 1, 1, 0, 1, 0, 0],
    [0, 0, 0, 1, 1, 0, 0],
    [1, 0, 0, 1, 1, 0, 0],
    [0, 0, 0, 0, 0, 1, 0],
    [1, 0, 0, 0, 0, 1, 0],
    [0, 1, 0, 0, 0, 1, 0],
    [1, 1, 0, 0, 0, 1, 0],
    [0, 0, 1, 0, 0, 1, 0],
    [1, 0, 1, 0, 0, 1, 0],
    [0, 1, 1, 0, 0, 1, 0],
    [1, 1, 1, 0, 0, 1, 0],
    [0, 0, 0, 1, 0, 1, 0],
    [1, 0, 0, 1, 0, 1, 0],
    [0, 0, 0, 0, 1, 1, 0],
    [1, 0, 0, 0, 1, 1, 0],
    [0, 1, 0, 0, 1, 1, 0],
    [1, 1, 0, 0, 1, 1, 0],
    [0, 0, 1, 0, 1, 1, 0],
    [1, 0, 1, 0, 1, 1, 0],
    [0, 1, 1, 0, 1, 1, 0],
    [1, 1, 1, 0, 1, 1, 0],
    [0, 0, 0, 1, 1, 1, 0],
    [1, 0, 0, 1, 1, 1, 0],
    [0, 0, 0, 0, 0, 0, 1],
];

/// Line BCD01 is bit 0, BCD40 is bit 6.
fn byte(lines: &[u8; 7]) -> u8 {
    lines.iter().rev().fold(0, |sum, line| 2 * sum + line)
}

fn read(bcd: u8) -> [u32; 3] {
    let mut input = calm();
    input.bcd = bcd;
    let outputs = step(&mut fresh(&[(slot::TAP_SOURCE, 1)]), &input);
    [outputs[3], outputs[4], outputs[5]]
}

#[test]
fn the_table_of_the_source() {
    for (lines, tap) in TABLE.iter().zip(1..) {
        assert_eq!(read(byte(lines)), [tap, 0, 0]);
        assert_eq!(read(byte(lines) | 0x80), [tap, 0, 0]);
    }
}

#[test]
fn codes_outside_the_table() {
    let codes: Vec<u8> = TABLE.iter().map(byte).collect();
    for bcd in (0..0x80).filter(|bcd| !codes.contains(bcd)) {
        let expected = match bcd & 0x0F {
            0..=9 => [0, 0, 1],
            _ => [0, 1, 0],
        };
        assert_eq!(read(bcd), expected, "code {bcd:#x}");
    }
}
