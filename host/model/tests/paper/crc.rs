//! Document 01, CRC.

use crate::build::long_crc;
use model::crc;

#[test]
fn agrees_with_the_long_division() {
    for byte in 0..=255 {
        assert_eq!(crc(&[byte]), long_crc(&[byte]));
        assert_eq!(crc(&[0x5A, byte, 0x01]), long_crc(&[0x5A, byte, 0x01]));
    }
}

#[test]
fn of_nothing_is_zero() {
    assert_eq!(crc(&[]), 0);
    assert_eq!(crc(&[0, 0, 0]), 0);
}

#[test]
fn bytes_with_their_own_crc_give_zero() {
    let bytes: Vec<u8> = (0..200).map(|n| (n * 7 + 3) as u8).collect();
    for size in 0..bytes.len() {
        let mut sealed = bytes[..size].to_vec();
        sealed.push(crc(&bytes[..size]));
        assert_eq!(crc(&sealed), 0);
        // One wrong bit is seen.
        sealed[size / 2] ^= 1 << (size % 8);
        assert_ne!(crc(&sealed), 0);
    }
}

#[test]
fn single_bytes_as_worked_by_hand() {
    // 01: the register is E0, 70, 38, 1C, 0E, 07, E3, 91 after each of its eight steps.
    assert_eq!(crc(&[0x01]), 0x91);
    // 80: 40, 20, 10, 08, 04, 02, 01, E0.
    assert_eq!(crc(&[0x80]), 0xE0);
    // 81 is 01 exclusive-or 80, so 91 exclusive-or E0.
    assert_eq!(crc(&[0x81]), 0x71);
}

/// A byte's CRC is its entry in the table printed in 001, A.3: rows 80 and F8.
#[test]
fn rows_of_the_printed_table() {
    let row_80 = [0xE0, 0x71, 0x03, 0x92, 0xE7, 0x76, 0x04, 0x95];
    let row_f8 = [0xBA, 0x2B, 0x59, 0xC8, 0xBD, 0x2C, 0x5E, 0xCF];
    for column in 0..8u8 {
        assert_eq!(crc(&[0x80 + column]), row_80[usize::from(column)]);
        assert_eq!(crc(&[0xF8 + column]), row_f8[usize::from(column)]);
    }
}
