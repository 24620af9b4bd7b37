//! A zero in front of plug-and-play packets (request 2 of document 02; 000, 5.2.3.2c).

use crate::build::{
    Build, READ, Stage, WRITE_QUIETLY, command, field_command, field_read, field_write, read, reply_to, sealed, swap,
    with_data,
};
use crate::wrong_zeros::WRONG;
use model::{Answer, End};

/// The bench's time number, another, and the one that is FE.
const TIME_NUMBERS: [u8; 3] = [0xF0, 0xFD, 0xFE];

fn stage(time_number: u8) -> Stage {
    let mut stage = Stage::new();
    stage.unit.time_number = time_number;
    stage.unit.fields.version = 0x0102_0304;
    stage.unit.fields.rate_range = 0x0010_0004;
    stage.unit.last_time_code = 0x2A;
    stage
}

/// Owned by the sender of the builds, on link 1.
fn owned(time_number: u8) -> Stage {
    let mut stage = stage(time_number);
    stage.expect(&swap(8, 0xCAFE, 0), 0, &[0; 4]);
    stage
}

fn zero(packet: &[u8]) -> Vec<u8> {
    [&[0], packet].concat()
}

/// `build` with a path for its reply.
fn by_path(build: Build) -> Build {
    Build { instruction: build.instruction + 1, reply_address: vec![0, 0, 7, 0], ..build }
}

/// Each command that fields take, and one of each kind that they refuse.
fn commands() -> Vec<Build> {
    let right = [
        field_read(0, 1, 1),
        field_read(0, 0, 11),
        field_write(1, 0, &[0]),
        field_write(1, 3, &[7]),
        swap(8, 5, 0),
        swap(8, 5, 0xCAFE),
        swap(8, 0, 0xCAFE),
    ];
    let wrong = [
        field_read(0, 11, 1),
        field_write(0, 1, &[1]),
        field_write(0, 8, &[1]),
        field_write(1, 4, &[1]),
        Build { key: 0x2A, ..field_read(0, 1, 1) },
        Build { extended_address: 1, ..field_read(0, 1, 1) },
        Build { length: 5, ..field_read(0, 1, 1) },
        Build { initiator: 0x68, ..field_write(1, 3, &[7]) },
        Build { instruction: 0x80, ..field_read(0, 1, 1) },
        Build { instruction: 0x40, ..field_read(0, 1, 1) },
        Build { instruction: WRITE_QUIETLY, ..field_write(1, 3, &[7]) },
    ];
    let all = right.into_iter().chain(wrong);
    all.flat_map(|build| [build.clone(), by_path(build)]).collect()
}

/// The packet of a command, and what can become of it on its way.
fn arrivals(build: &Build) -> Vec<Vec<u8>> {
    let packet = build.packet();
    let changed = |at: usize| {
        let mut packet = packet.clone();
        packet[at] ^= 0x10;
        packet
    };
    let header = build.header().len();
    let mut all: Vec<Vec<u8>> = (2..packet.len()).map(|size| packet[..size].to_vec()).collect();
    all.extend([changed(2), changed(header - 1), changed(packet.len() - 1)]);
    all.extend([[&packet[..], &[0]].concat(), packet]);
    all
}

/// With the zero and without it: the same answer, reply, unit and memory.
#[test]
fn the_zero_changes_nothing() {
    for time_number in TIME_NUMBERS {
        for packet in commands().iter().flat_map(arrivals) {
            for (end, link) in [(End::Eop, 1), (End::Eop, 3), (End::Eep, 1), (End::Eop, 0), (End::Eop, 5)] {
                for size in [8192, 16, 7] {
                    let [mut with, mut without] = [owned(time_number), owned(time_number)];
                    with.reply.truncate(size);
                    without.reply.truncate(size);
                    let answers = [with.send_all(&zero(&packet), end, link), without.send_all(&packet, end, link)];
                    assert_eq!(answers[0], answers[1], "{packet:02X?}");
                    assert_eq!(with.reply, without.reply, "{packet:02X?}");
                    assert_eq!(with.unit, without.unit, "{packet:02X?}");
                    assert_eq!(with.memory, without.memory);
                }
            }
        }
    }
}

/// Right commands with the zero, and what comes of them.
#[test]
fn commands_are_obeyed() {
    for time_number in TIME_NUMBERS {
        let mut stage = stage(time_number);
        let mut expect = |build: &Build, data: &[u8]| {
            let answer = stage.send_packet(&zero(&build.packet()));
            assert_eq!((answer.fate, answer.status), (20, Some(0)));
            // The target address in the reply is FE, not the zero.
            assert_eq!(stage.reply[4], 0xFE);
            assert_eq!(stage.reply[..answer.reply], reply_to(build, 0, data));
            stage.unit.clone()
        };
        expect(&field_read(0, 1, 1), &[1, 2, 3, 4]);
        let unit = expect(&swap(8, 0xCAFE, 0), &[0; 4]);
        assert_eq!((unit.fields.device_id, unit.owner.initiator, unit.owner.link), (0xCAFE, 0x67, 1));
        let unit = expect(&field_write(1, 3, &[7]), &[]);
        assert_eq!(unit.fields.divider, 7);
        let unit = expect(&field_write(1, 0, &[0]), &[]);
        assert_eq!(unit.last_time_code, 0);
        let unit = expect(&swap(8, 0, 0xCAFE), &[0, 0, 0xCA, 0xFE]);
        assert_eq!((unit.fields.device_id, unit.owner.initiator), (0, 0));
        assert_eq!((unit.counters.fates[9], unit.counters.total), (5, 5));
    }
}

/// A header of 000 written out, with its CRC by long division: a zero in front does not change that, since the CRC starts with 0.
#[test]
fn byte_by_byte() {
    let packet = [0x00, 0xFE, 0x03, 0x4C, 0x00, 0x67, 0x12, 0x34, 0x00, 0x00, 0x00, 0x00, 0x04, 0x00, 0x00, 0x04];
    assert_eq!(sealed(&packet)[1..], sealed(&packet[1..]));
    let mut stage = Stage::new();
    let answer = stage.send_packet(&sealed(&packet));
    assert_eq!(answer, Answer { fate: 20, status: Some(0), reply: 17 });
    let head = sealed(&[0x67, 0x03, 0x0C, 0x00, 0xFE, 0x12, 0x34, 0x00, 0x00, 0x00, 0x04]);
    // Link Information without an owner: return link 1 of four.
    let data = sealed(&[0x00, 0x00, 0x01, 0x04]);
    assert_eq!(stage.reply[..17], [head, data].concat());
}

/// Packets, with fate and status where the time number is not FE, and where it is.
type Case = (Vec<u8>, (u8, Option<u8>), (u8, Option<u8>));

fn cases() -> Vec<Case> {
    let same = |packet: Vec<u8>, fate| (packet, (fate, None), (fate, None));
    let told = |packet: Vec<u8>, status| (packet, (20, Some(status)), (20, Some(status)));
    // The second byte is FE: unknown, or a time packet to be thrown away.
    let second = |packet: Vec<u8>| (packet, (12, None), (16, None));
    let right = field_read(0, 1, 1);
    let write = field_write(1, 3, &[7]);
    let mut header_crc = right.packet();
    header_crc[15] ^= 1;
    let mut data_crc = write.packet();
    data_crc[20] ^= 1;
    let time = |address, number| sealed(&[address, number, 0x9F, 1, 1, 2, 3, 4, 5, 6, 7]);
    vec![
        // What stands behind the zero is read.
        told(zero(&right.packet()), 0),
        told(zero(&write.packet()), 0),
        told(zero(&swap(8, 5, 0xCAFE).packet()), 0),
        told(zero(&Build { key: 1, ..right.clone() }.packet()), 3),
        told(zero(&Build { instruction: 0xCC, ..right.clone() }.packet()), 2),
        told(zero(&Build { rest: vec![0], ..right.clone() }.packet()), 6),
        told(zero(&data_crc), 4),
        told(zero(&write.packet()[..20]), 5),
        told(zero(&[&write.packet()[..], &[0]].concat()), 6),
        (zero(&field_command(0x60, 0, 1, 4).packet()), (17, Some(10)), (17, Some(10))),
        same(zero(&header_crc), 15),
        // Incomplete, as FE 03, FE 03 4C and a header without its last byte are.
        same(vec![0x00, 0xFE, 0x03], 11),
        same(vec![0x00, 0xFE, 0x03, 0x4C], 11),
        same(zero(&right.packet()[..15]), 11),
        same(vec![0x00, 0xFE, 0x03, 0x0C], 14),
        same(zero(&reply_to(&Build { initiator: 0xFE, ..right.clone() }, 0, &[1, 2, 3, 4])), 14),
        // One zero and no more.
        same(vec![0x00, 0x00, 0xFE, 0x03], 13),
        same(zero(&zero(&right.packet())), 13),
        same(zero(&zero(&zero(&right.packet()))), 13),
        // Cut before the protocol shows.
        same(vec![0x00], 11),
        second(vec![0x00, 0xFE]),
        // Another byte.
        second([&[0x01], &right.packet()[..]].concat()),
        second([&[0xFE], &right.packet()[..]].concat()),
        second([&[0x80], &right.packet()[..]].concat()),
        // Another address.
        same(zero(&Build { target: 0x43, ..right.clone() }.packet()), 12),
        same(zero(&Build { target: 0xFF, ..right.clone() }.packet()), 12),
        same(vec![0x00, 0x7E, 0x03], 12),
        // Another protocol.
        second(zero(&Build { target: 0xFE, ..read(0, 1) }.packet())),
        second(zero(&Build { target: 0xFE, ..with_data(WRITE_QUIETLY, 0, &[1]) }.packet())),
        second(vec![0x00, 0xFE, 0x01]),
        second(vec![0x00, 0xFE, 0x01, 0x0C]),
        same(zero(&read(0, 1).packet()), 12),
        same(zero(&command(READ, 0, 0).packet()), 12),
        second(vec![0x00, 0xFE, 0x02, 0x4C]),
        second(vec![0x00, 0xFE, 0x00, 0x4C]),
        second(vec![0x00, 0xFE, 0x83, 0x4C]),
        second(zero(&time(0xFE, 0xF0))),
        second(zero(&time(0xFE, 0xFE))),
        same(zero(&time(0x43, 0xF0)), 12),
        same(zero(&time(0x43, 0xFE)), 12),
        // As they were: 00 is a target address that is not ours.
        told(Build { target: 0, ..right.clone() }.packet(), 12),
        told(Build { target: 0, ..read(0, 1) }.packet(), 12),
    ]
}

fn fate_and_status(stage: &mut Stage, packet: &[u8]) -> (u8, Option<u8>) {
    let answer = stage.send_packet(packet);
    (answer.fate, answer.status)
}

#[test]
fn what_is_ignored_and_what_is_not() {
    for (packet, elsewhere, at_fe) in cases() {
        for (time_number, expected) in [(0xF1, elsewhere), (0xFE, at_fe)] {
            let mut stage = owned(time_number);
            let before = stage.unit.clone();
            assert_eq!(fate_and_status(&mut stage, &packet), expected, "{time_number:02X}: {packet:02X?}");
            if let (11..=16, None) = expected {
                // Nothing is left of it but its count.
                let mut after = stage.unit.clone();
                assert_eq!(after.counters.total, before.counters.total + 1);
                after.counters = before.counters.clone();
                assert_eq!(after, before);
                assert_eq!(stage.memory, [0; 4096]);
            }
        }
    }
}

/// Where the second byte is the time number, FD here, it stays a time packet.
#[test]
fn another_address_that_is_the_time_number() {
    let packet = zero(&Build { target: 0xFD, ..field_read(0, 1, 1) }.packet());
    assert_eq!(fate_and_status(&mut stage(0xFD), &packet), (16, None));
    assert_eq!(fate_and_status(&mut stage(0xF0), &packet), (12, None));
}

/// Results 1 and 2 go first, and 3 leaves no trace.
#[test]
fn refused_before_it_is_read() {
    let bare = |fate| Answer { fate, status: None, reply: 0 };
    let packet = zero(&swap(8, 5, 0).packet());
    for time_number in TIME_NUMBERS {
        let mut stage = stage(time_number);
        let before = stage.unit.clone();
        for link in [0, 5, 255] {
            assert_eq!(stage.send_all(&packet, End::Eop, link), bare(2));
        }
        stage.reply.truncate(16);
        assert_eq!(stage.send_packet(&packet), bare(3));
        assert_eq!(stage.unit, before);
        stage.unit.last_time_code = 64;
        assert_eq!(stage.send_all(&packet, End::Eop, 0), bare(1));
    }
}

/// Each wrong rule differs in one of the cases.
#[test]
fn wrong_rules() {
    for (name, rule) in WRONG {
        let differs = cases().into_iter().any(|(packet, elsewhere, at_fe)| {
            [(0xF1, elsewhere), (0xFE, at_fe)].into_iter().any(|(time_number, expected)| {
                fate_and_status(&mut owned(time_number), &rule(&packet, time_number)) != expected
            })
        });
        assert!(differs, "{name}");
    }
}
