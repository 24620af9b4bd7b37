//! RMAP: statuses, their order, spans and effects (document 01, Reading a packet).

use crate::build::{
    Build, READ, READ_SINGLE, RMW, Stage, WRITE, WRITE_QUIETLY, WRITE_SINGLE, WRITE_VERIFIED, WRITE_VERIFIED_QUIETLY,
    command, long_crc, read, reply_to, sealed, with_data,
};
use model::{Answer, End, Window};

const EOP: End = End::Eop;
const EEP: End = End::Eep;

fn bare(fate: u8) -> Answer {
    Answer { fate, status: None, reply: 0 }
}

#[test]
fn short_packets_and_replies() {
    let mut stage = Stage::new();
    let whole = read(0, 1).packet();
    for size in 0..16 {
        assert_eq!(stage.send_packet(&whole[..size]), bare(11), "{size} bytes");
    }
    // The header grows by 4 for each r.
    for r in 1..=3usize {
        let reply_address = vec![9; 4 * r];
        let whole = Build { reply_address, ..command(READ + r as u8, 0, 1) }.packet();
        assert_eq!(whole.len(), 16 + 4 * r);
        assert_eq!(stage.send_packet(&whole[..15 + 4 * r]), bare(11));
        assert_eq!(stage.send_packet(&whole).fate, 20);
    }
    // A reply is known by its third byte alone, before its length is looked at.
    assert_eq!(stage.send_packet(&[0x43, 1]), bare(11));
    assert_eq!(stage.send_packet(&[0x43, 1, 0x3F]), bare(14));
    assert_eq!(stage.send_packet(&[0x43, 1, 0x40]), bare(11));
}

#[test]
fn header_crc() {
    let mut stage = Stage::new();
    let packet = with_data(WRITE, 0, &[1]).packet();
    for at in 3..16 {
        let mut wrong = packet.clone();
        wrong[at] ^= 0x10;
        assert_eq!(stage.send_packet(&wrong), bare(15), "byte {at}");
    }
    assert_eq!(stage.memory[0], 0);
}

#[test]
fn unused_types_and_codes() {
    let mut stage = Stage::new();
    for kind in [0x80, 0xC0] {
        for code in 0..16u8 {
            let build = Build { rest: vec![1, 2], ..command(kind | code << 2, 0, 1) };
            stage.expect_refused(&build, EOP, 2);
        }
    }
    for code in [0b0000, 0b0001, 0b0100, 0b0101, 0b0110u8] {
        stage.expect_refused(&command(0x40 | code << 2, 0, 0), EOP, 2);
    }
}

/// The reply's form follows the write bit: 8 bytes with it, 13 without, here with status 2.
/// Type 10 becomes 00 in both.
#[test]
fn forms_of_refusals() {
    let mut stage = Stage::new();
    let answer = stage.send(&command(0xAC, 0, 0));
    // Initiator, protocol, instruction AC without its type, status, target, transaction.
    let head = [0x67, 0x01, 0x2C, 0x02, 0x43, 0x12, 0x34];
    assert_eq!(stage.reply[..answer.reply], sealed(&head));
    let answer = stage.send(&command(0x8C, 0, 5));
    let head = [0x67, 0x01, 0x0C, 0x02, 0x43, 0x12, 0x34, 0, 0, 0, 0];
    assert_eq!(stage.reply[..12], sealed(&head));
    assert_eq!(stage.reply[12], 0);
    assert_eq!(answer.reply, 13);
}

#[test]
fn logical_address() {
    let mut stage = Stage::new();
    for target in 0..=255 {
        let build = Build { target, ..read(0, 1) };
        if target == 0x43 || target == 0xFE {
            stage.expect(&build, 0, &[0]);
        } else {
            stage.expect_refused(&build, EOP, 12);
        }
    }
}

#[test]
fn rmw_lengths() {
    for length in 0..=10u32 {
        let mut stage = Stage::new();
        let build = with_data(RMW, 0, &vec![0xFF; length as usize]);
        if length <= 8 && length % 2 == 0 {
            stage.expect(&build, 0, &vec![0; length as usize / 2]);
        } else {
            stage.expect_refused(&build, EOP, 11);
        }
    }
    Stage::new().expect_refused(&command(RMW, 0, 0x01_0000), EOP, 11);
}

/// Each line adds a fault that goes before all those above it, so that its status wins.
#[test]
fn order_of_statuses() {
    let mut stage = Stage::new();
    stage.memory.resize(4096, 0);
    let good = with_data(WRITE_VERIFIED, 0, &[7; 1025]);
    let good = Build { length: 1024, rest: sealed(&[7; 1024]), ..good };

    let mut wrong_data_crc = good.clone();
    wrong_data_crc.rest[1024] ^= 1;
    stage.expect_refused(&wrong_data_crc, EOP, 4);
    let mut too_much = wrong_data_crc.clone();
    too_much.rest.push(0);
    stage.expect_refused(&too_much, EOP, 6);
    let mut early = wrong_data_crc;
    early.rest.truncate(1024);
    stage.expect_refused(&early, EOP, 5);
    stage.expect_refused(&too_much, EEP, 7);
    stage.expect_refused(&early, EEP, 7);
    let build = Build { length: 1025, ..early };
    stage.expect_refused(&build, EEP, 9);
    let build = Build { extended_address: 1, ..build };
    stage.expect_refused(&build, EEP, 10);
    let build = Build { instruction: RMW, ..build };
    stage.expect_refused(&build, EEP, 11);
    let build = Build { target: 0x42, ..build };
    stage.expect_refused(&build, EEP, 12);
    let build = Build { key: 0x2B, ..build };
    stage.expect_refused(&build, EEP, 3);
    stage.expect_refused(&Build { instruction: 0x58, ..build.clone() }, EEP, 2);
    stage.expect_refused(&Build { instruction: 0x9C, ..build.clone() }, EEP, 2);
    // 15 before all statuses, 14 before 15.
    let mut packet = Build { instruction: 0x9C, ..build }.packet();
    packet[15] ^= 1;
    assert_eq!(stage.send_all(&packet, EEP, 1), bare(15));
    packet[2] = 0x1C;
    assert_eq!(stage.send_all(&packet, EEP, 1), bare(14));
}

#[test]
fn reads_want_nothing_after_the_header() {
    let mut stage = Stage::new();
    stage.expect_refused(&Build { rest: vec![0], ..read(0, 1) }, EOP, 6);
    stage.expect_refused(&Build { rest: vec![0], ..read(0, 0) }, EOP, 6);
    stage.expect_refused(&read(0, 1), EEP, 7);
}

#[test]
fn extended_address() {
    let mut stage = Stage::new();
    stage.expect_refused(&Build { extended_address: 1, ..read(0, 0) }, EOP, 10);
    stage.expect_refused(&Build { extended_address: 0x80, ..read(0, 1) }, EOP, 10);
}

#[test]
fn spans_do_not_wrap() {
    let mut stage = Stage::new();
    stage.expect_refused(&read(0xFFFF_FFFF, 1), EOP, 10);
    stage.expect_refused(&read(0xFFFF_FFFF, 2), EOP, 10);
    stage.expect_refused(&read(0xFFFF_F000, 0x2000), EOP, 10);
    stage.expect_refused(&read(0, 0xFF_FFFF), EOP, 10);
}

#[test]
fn single_reads_and_writes() {
    let mut stage = Stage::new();
    stage.memory[4095] = 0x3E;
    // Only one byte is in the span, however many are read.
    stage.expect(&command(READ_SINGLE, 4095, 5), 0, &[0x3E; 5]);
    stage.expect(&with_data(WRITE_SINGLE, 4095, &[1, 2, 3]), 0, &[]);
    assert_eq!(stage.memory[4094..], [0, 3]);
    stage.expect_refused(&command(READ_SINGLE, 4096, 1), EOP, 10);
    // No data change nothing, even at the memory's end.
    stage.expect(&with_data(WRITE_SINGLE, 4096, &[]), 0, &[]);
    stage.expect(&with_data(WRITE_SINGLE, 4095, &[]), 0, &[]);
    assert_eq!(stage.memory[4095], 3);
    // 8,192 bytes of reply hold 8,179 of data.
    let answer = stage.send(&command(READ_SINGLE, 4095, 8179));
    assert_eq!(answer, Answer { fate: 20, status: Some(0), reply: 8192 });
    assert_eq!(stage.send(&command(READ_SINGLE, 4095, 8180)), bare(3));
    assert_eq!(stage.send(&command(READ_SINGLE, 4095, 0xFF_FFFF)), bare(3));
}

#[test]
fn rights_and_windows() {
    let window = |start, size, read, write| Window { start, size, read, write };
    let mut stage = Stage::new();
    stage.unit.windows = vec![
        window(0, 16, true, false),
        window(16, 16, false, true),
        window(32, 16, true, true),
        window(48, 16, true, false),
        window(48, 16, false, true),
        window(100, 0, true, true),
    ];
    // Not across two windows, though both grant the right.
    stage.expect(&read(0, 16), 0, &[0; 16]);
    stage.expect_refused(&read(15, 2), EOP, 10);
    stage.expect_refused(&read(32, 17), EOP, 10);
    stage.expect(&read(48, 16), 0, &[0; 16]);
    stage.expect_refused(&with_data(WRITE, 0, &[1]), EOP, 10);
    stage.expect(&with_data(WRITE, 16, &[1]), 0, &[]);
    stage.expect_refused(&read(16, 1), EOP, 10);
    // An RMW wants both rights in one window.
    stage.expect_refused(&with_data(RMW, 0, &[1, 1]), EOP, 10);
    stage.expect_refused(&with_data(RMW, 16, &[1, 1]), EOP, 10);
    stage.expect_refused(&with_data(RMW, 48, &[1, 1]), EOP, 10);
    stage.expect(&with_data(RMW, 47, &[1, 1]), 0, &[0]);
    // A span of size 0 needs a window too, and may lie at its end or in one of size 0.
    stage.expect(&read(16, 0), 0, &[]);
    stage.expect_refused(&read(17, 0), EOP, 10);
    stage.expect(&read(100, 0), 0, &[]);
    stage.expect_refused(&read(99, 0), EOP, 10);
    stage.expect_refused(&read(100, 1), EOP, 10);
    stage.unit.windows.clear();
    stage.expect_refused(&read(0, 0), EOP, 10);
}

/// A write of 5 bytes without verify, with what it leaves at address 1 for each fault; verified,
/// it leaves nothing.
#[test]
fn faulty_writes_store_what_came_unless_verified() {
    let data = [1, 2, 3, 4, 5];
    let crc = long_crc(&data);
    let cases: [(&[u8], End, u8, [u8; 5]); 9] = [
        (&[1, 2, 3, 4, 5, crc ^ 1], EOP, 4, [1, 2, 3, 4, 5]),
        (&[], EOP, 5, [0, 0, 0, 0, 0]),
        (&[1, 2, 3], EOP, 5, [1, 2, 3, 0, 0]),
        (&[1, 2, 3, 4, 5], EOP, 5, [1, 2, 3, 4, 5]),
        (&[1, 2, 3, 4, 5, crc, 0], EOP, 6, [1, 2, 3, 4, 5]),
        (&[1, 2, 3, 4, 5, crc], EEP, 7, [1, 2, 3, 4, 5]),
        (&[1, 2], EEP, 7, [1, 2, 0, 0, 0]),
        (&[], EEP, 7, [0, 0, 0, 0, 0]),
        (&[1, 2, 3, 4, 5, 6, 7, 8], EEP, 7, [1, 2, 3, 4, 5]),
    ];
    for (rest, end, status, stored) in cases {
        let build = Build { rest: rest.to_vec(), ..command(WRITE, 1, 5) };
        let mut stage = Stage::new();
        stage.expect_on(1, &build, end, status, &[]);
        assert_eq!(stage.memory[1..6], stored);
        assert_eq!((stage.memory[0], stage.memory[6]), (0, 0));

        let mut stage = Stage::new();
        let quiet = Build { instruction: WRITE_QUIETLY, ..build.clone() };
        let answer = stage.send_all(&quiet.packet(), end, 1);
        assert_eq!(answer, Answer { fate: 17, status: Some(status), reply: 0 });
        assert_eq!(stage.memory[1..6], stored);

        // All of it goes to one byte if single.
        let mut stage = Stage::new();
        let single = Build { instruction: WRITE_SINGLE, ..build.clone() };
        stage.expect_on(1, &single, end, status, &[]);
        let last = rest[..rest.len().min(5)].last().copied().unwrap_or(0);
        assert_eq!(stage.memory[..3], [0, last, 0]);

        for instruction in [WRITE_VERIFIED, WRITE_VERIFIED_QUIETLY] {
            Stage::new().expect_refused(&Build { instruction, ..build.clone() }, end, status);
        }
    }
}

#[test]
fn faulty_rmws_store_nothing() {
    let good = with_data(RMW, 0, &[1, 2, 0xFF, 0xFF]);
    let rest = |rest: &[u8]| Build { rest: rest.to_vec(), ..good.clone() };
    let crc = good.rest[4];
    let mut stage = Stage::new();
    stage.expect_refused(&rest(&[1, 2, 0xFF, 0xFF, crc ^ 0x80]), EOP, 4);
    stage.expect_refused(&rest(&[1, 2, 0xFF, 0xFF]), EOP, 5);
    stage.expect_refused(&rest(&[1, 2, 0xFF, 0xFF, crc, 0]), EOP, 6);
    stage.expect_refused(&good, EEP, 7);
    stage.expect(&good, 0, &[0, 0]);
    assert_eq!(stage.memory[..3], [1, 2, 0]);
}

/// Four data bytes, then four masks; a set mask bit takes its bit from the data.
#[test]
fn rmw_of_four_bytes() {
    let mut stage = Stage::new();
    stage.memory[8..12].copy_from_slice(&[0x55, 0x55, 0x12, 0xF0]);
    let build = with_data(RMW, 8, &[0xAA, 0xAA, 0xFF, 0x3C, 0x0F, 0xF0, 0x00, 0xFF]);
    stage.expect(&build, 0, &[0x55, 0x55, 0x12, 0xF0]);
    // 0A|50, A0|05, 00|12, 3C|00.
    assert_eq!(stage.memory[7..13], [0x00, 0x5A, 0xA5, 0x12, 0x3C, 0x00]);
}

/// A verified write obeyed without a reply: result 18, and memory changed.
#[test]
fn quiet_writes() {
    for (instruction, address) in [(WRITE_QUIETLY, 4), (WRITE_VERIFIED_QUIETLY, 8)] {
        let mut stage = Stage::new();
        let answer = stage.send(&with_data(instruction, address, &[6, 7]));
        assert_eq!(answer, Answer { fate: 18, status: Some(0), reply: 0 });
        assert_eq!(stage.memory[address as usize..][..2], [6, 7]);
    }
}

/// The reply keeps target address and initiator as received, for each r.
#[test]
fn replies_by_path() {
    let cases: [(Vec<u8>, &[u8]); 6] = [
        (vec![0; 8], &[0]),
        (vec![0; 12], &[0]),
        (vec![0, 0, 0, 1, 0, 0, 0, 0], &[1, 0, 0, 0, 0]),
        ((1..=12).collect(), &[1, 2, 3, 4, 5, 6, 7, 8, 9, 10, 11, 12]),
        (vec![0, 0, 0, 0, 0, 0, 0, 0, 0, 0, 0, 9], &[9]),
        (vec![0, 0xFF, 0, 1], &[0xFF, 0, 1]),
    ];
    for (reply_address, path) in cases {
        let r = (reply_address.len() / 4) as u8;
        for (base, data) in [(READ, &[8u8, 9][..]), (WRITE, &[])] {
            let mut stage = Stage::new();
            stage.memory[..2].copy_from_slice(&[8, 9]);
            let build = Build {
                target: 0xFE,
                initiator: 0x21,
                transaction: [0xFF, 0x01],
                reply_address: reply_address.clone(),
                rest: if base == WRITE { sealed(&[8, 9]) } else { vec![] },
                ..command(base + r, 0, 2)
            };
            let answer = stage.send(&build);
            assert_eq!(answer.fate, 20);
            let expected = [path, &reply_to(&build, 0, data)].concat();
            assert_eq!(stage.reply[..answer.reply], expected);
        }
    }
}
