//! Document 01, Cases by hand.

use crate::build::{
    Build, READ, RMW, Stage, UNTOUCHED, WRITE, WRITE_VERIFIED, command, long_crc, read, reply_to, with_data,
};
use model::{Answer, End, Instruction, Kind, Path, Time, crc};

#[test]
fn crcs() {
    assert_eq!(crc(&[0x01]), 0x91);
    assert_eq!(crc(&[0x80]), 0xE0);
}

#[test]
fn modify_55_by_mask_0f_and_data_aa() {
    // (0F AND AA) OR (F0 AND 55) is 0A OR 50.
    let mut stage = Stage::new();
    stage.memory[7] = 0x55;
    stage.expect(&with_data(RMW, 7, &[0xAA, 0x0F]), 0, &[0x55]);
    assert_eq!(stage.memory[6..9], [0x00, 0x5A, 0x00]);
}

#[test]
fn paths_of_reply_addresses() {
    let cases: [([u8; 4], &[u8]); 3] = [([0, 0, 0, 0], &[0]), ([0, 0, 1, 2], &[1, 2]), ([0, 0, 1, 0], &[1, 0])];
    for (reply_address, path) in cases {
        assert_eq!(Path::of(&reply_address).sent(), path);
        // And on the wire: r = 1, the path in front of the reply.
        let build = Build { reply_address: reply_address.to_vec(), ..command(READ + 1, 0, 1) };
        let mut stage = Stage::new();
        let answer = stage.send(&build);
        assert_eq!(stage.reply[..path.len()], *path);
        assert_eq!(stage.reply[path.len()..answer.reply], reply_to(&build, 0, &[0]));
    }
    assert_eq!(Path::of(&[]).sent(), []);
}

#[test]
fn instructions() {
    for (byte, kind, verifies) in [(0x7C, Kind::Write, true), (0x4C, Kind::Read, false), (0x5C, Kind::Rmw, true)] {
        let instruction = Instruction(byte);
        assert!(instruction.is_command());
        assert_eq!(instruction.kind(), kind);
        assert_eq!(instruction.verifies(), verifies);
        assert!(instruction.is_incrementing() && instruction.wants_reply());
        assert_eq!(instruction.header_size(), 16);
    }
}

#[test]
fn empty_packet_and_extended_protocol() {
    let mut stage = Stage::new();
    assert_eq!(stage.send_packet(&[]), Answer { fate: 11, status: None, reply: 0 });
    assert_eq!(stage.send_packet(&[0xFE, 0x00]), Answer { fate: 13, status: None, reply: 0 });
}

#[test]
fn last_time_and_one_tick() {
    let mut stage = Stage::new();
    stage.unit.elapsed = Time { epoch: 0x9F, t: (1 << 56) - 1 };
    assert_eq!(stage.unit.ticks(1), 0);
    assert_eq!(stage.unit.elapsed, Time { epoch: 0x9F, t: 0 });
}

#[test]
fn verified_writes_of_1024_and_1025() {
    let data: Vec<u8> = (0..1025).map(|n| (n % 251) as u8).collect();
    let mut stage = Stage::new();
    stage.expect(&with_data(WRITE_VERIFIED, 100, &data[..1024]), 0, &[]);
    assert_eq!(stage.memory[100..1124], data[..1024]);
    assert_eq!(stage.memory[1124], 0);

    let mut stage = Stage::new();
    stage.expect_refused(&with_data(WRITE_VERIFIED, 100, &data), End::Eop, 9);
    // Without verify there is no such limit.
    stage.expect(&with_data(WRITE, 100, &data), 0, &[]);
    assert_eq!(stage.memory[100..1125], data);
}

#[test]
fn spans_that_end_at_the_memorys_end_and_one_past() {
    let mut stage = Stage::new();
    stage.memory[4092..].copy_from_slice(&[1, 2, 3, 4]);
    stage.expect(&read(4092, 4), 0, &[1, 2, 3, 4]);
    stage.expect_refused(&read(4092, 5), End::Eop, 10);
    stage.expect_refused(&read(4093, 4), End::Eop, 10);
    stage.expect_refused(&with_data(WRITE, 4093, &[9; 4]), End::Eop, 10);
    stage.expect_refused(&with_data(RMW, 4093, &[9; 8]), End::Eop, 10);
    stage.expect(&with_data(RMW, 4092, &[9; 8]), 0, &[1, 2, 3, 4]);
    stage.expect(&with_data(WRITE, 4092, &[5; 4]), 0, &[]);
    assert_eq!(stage.memory[4091..], [0, 5, 5, 5, 5]);
}

/// L = 0 at each of the sixteen command codes: five unused, two reads, an RMW, eight writes.
/// Nothing but the data CRC, 0 for no data, follows writes and the RMW.
#[test]
fn no_data_at_each_command_code() {
    for code in 0..16u8 {
        let mut stage = Stage::new();
        let rest = if code == 2 || code == 3 { vec![] } else { vec![0] };
        // The span has size 0, so the end of the memory is inside, one past it is not.
        let build = Build { rest, ..command(0x40 | code << 2, 4096, 0) };
        let past = Build { address: 4097, ..build.clone() };
        match code {
            0 | 1 | 4 | 5 | 6 => stage.expect_refused(&build, End::Eop, 2),
            2 | 3 | 7 | 10 | 11 | 14 | 15 => {
                stage.expect(&build, 0, &[]);
                stage.expect_refused(&past, End::Eop, 10);
            }
            _ => {
                let obeyed = Answer { fate: 18, status: Some(0), reply: 0 };
                assert_eq!(stage.send(&build), obeyed);
                stage.expect_refused(&past, End::Eop, 10);
            }
        }
        assert_eq!(stage.memory, [0; 4096]);
        // A data CRC that is not 0 is wrong where one is due.
        if code >= 7 {
            let wrong = Build { rest: vec![1], ..build };
            stage.expect_refused(&wrong, End::Eop, 4);
        }
    }
}

/// The reply buffer exactly as long as the reply, and one byte shorter, which is result 3 and
/// leaves memory, unit and buffer alone.
#[test]
fn reply_buffer_exact_and_one_short() {
    let with_path =
        |build: Build| Build { instruction: build.instruction + 1, reply_address: vec![0, 0x99, 0xAA, 0xBB], ..build };
    let cases = [
        (read(0, 100), 113),
        (with_path(read(0, 100)), 116),
        (with_data(WRITE, 0, &[1, 2, 3]), 8),
        (with_path(with_data(WRITE_VERIFIED, 0, &[1, 2, 3])), 11),
        (with_data(RMW, 0, &[1, 2, 3, 4, 5, 6, 7, 8]), 17),
        // Refused, but with data stored: key right, data CRC wrong.
        (Build { rest: vec![1, 2, 3, long_crc(&[1, 2, 3]) ^ 1], ..command(WRITE, 0, 3) }, 8),
        (Build { key: 0, ..read(0, 100) }, 13),
        (crate::build::field_read(0, 0, 11), 57),
        (crate::build::field_write(1, 0, &[0]), 8),
        (crate::build::swap(8, 5, 0), 17),
    ];
    for (build, size) in cases {
        let mut stage = Stage::new();
        let before = stage.unit.clone();
        stage.reply = vec![UNTOUCHED; size - 1];
        assert_eq!(stage.send(&build), Answer { fate: 3, status: None, reply: 0 });
        assert_eq!(stage.unit, before);
        assert_eq!(stage.memory, [0; 4096]);

        stage.reply = vec![UNTOUCHED; size];
        let answer = stage.send(&build);
        assert_eq!((answer.fate, answer.reply), (20, size));
    }
}
