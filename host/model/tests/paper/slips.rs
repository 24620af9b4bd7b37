//! Document 01, Slips we have seen: one test to catch each.

use crate::build::{Build, RMW, Stage, WRITE, WRITE_QUIETLY, command, field_read, reply_to, with_data};
use model::{End, crc};

#[test]
fn the_data_crc_stays_out_of_memory() {
    let mut stage = Stage::new();
    stage.memory.fill(0x77);
    let data = [1, 2, 3, 4];
    stage.expect(&with_data(WRITE, 10, &data), 0, &[]);
    assert_eq!(stage.memory[9..15], [0x77, 1, 2, 3, 4, 0x77]);
    // Nor does anything after it come in: too much data, and an EEP after all of it.
    let long = Build { rest: vec![5, 6, 7, 8, 9, 10], ..command(WRITE_QUIETLY, 10, 4) };
    assert_eq!(stage.send(&long).status, Some(6));
    assert_eq!(stage.memory[9..16], [0x77, 5, 6, 7, 8, 0x77, 0x77]);
    stage.send_all(&with_data(WRITE, 20, &data).packet(), End::Eep, 1);
    assert_eq!(stage.memory[19..25], [0x77, 1, 2, 3, 4, 0x77]);
}

#[test]
fn only_leading_zeros_of_a_path_are_cut() {
    let mut stage = Stage::new();
    let build = Build { reply_address: vec![0, 7, 0, 8, 0, 0, 9, 0], ..command(0x4E, 0, 0) };
    let answer = stage.send(&build);
    assert_eq!(stage.reply[..7], [7, 0, 8, 0, 0, 9, 0]);
    assert_eq!(stage.reply[7..answer.reply], reply_to(&build, 0, &[]));
}

#[test]
fn the_reply_crc_does_not_cover_the_path() {
    let mut stage = Stage::new();
    let build = Build { reply_address: vec![1, 2, 3, 4], ..command(0x4D, 0, 0) };
    stage.send(&build);
    assert_eq!(crc(&stage.reply[4..16]), 0);
    assert_ne!(crc(&stage.reply[..16]), 0);
}

#[test]
fn an_rmw_reply_has_half_its_length() {
    let mut stage = Stage::new();
    stage.memory[..4].copy_from_slice(&[10, 11, 12, 13]);
    let answer = stage.send(&with_data(RMW, 0, &[0; 8]));
    assert_eq!(answer.reply, 17);
    assert_eq!(stage.reply[7..11], [0, 0, 0, 4]);
    assert_eq!(stage.reply[12..16], [10, 11, 12, 13]);
    // And only half of it must be in a window.
    stage.expect(&with_data(RMW, 4092, &[0; 8]), 0, &[0; 4]);
}

#[test]
fn a_field_that_is_not_there_is_not_read_as_zero() {
    let mut stage = Stage::new();
    stage.expect_refused(&field_read(0, 11, 1), End::Eop, 0xF1);
    stage.expect_refused(&field_read(1, 4, 1), End::Eop, 0xF1);
}
