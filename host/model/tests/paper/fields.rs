//! Plug-and-play: fields, statuses and their order (document 01, Fields; 000, 5.3).

use crate::build::{
    Build, READ, RMW, Stage, WRITE_VERIFIED, field_command, field_read, field_write, reply_to, sealed, swap,
};
use model::{Answer, End, Path};

const EOP: End = End::Eop;
const EEP: End = End::Eep;

fn bytes(words: &[u32]) -> Vec<u8> {
    words.iter().flat_map(|word| word.to_be_bytes()).collect()
}

/// A stage with a different value in each field, owned by initiator 67, without a path, on
/// link 1: the sender of the builds here.
fn owned() -> Stage {
    let mut stage = Stage::new();
    let fields = &mut stage.unit.fields;
    fields.vendor_and_product = 0x0102_0304;
    fields.version = 0x1112_1314;
    fields.status = 0x2122_2324;
    fields.active_links = 0x0000_001E;
    fields.link_information = 0;
    fields.device_id = 0x8182_8384;
    fields.unit_vendor_and_product = 0x9192_9394;
    fields.unit_serial = 0xA1A2_A3A4;
    fields.base_rate = 0x0000_00C8;
    fields.rate_range = 0x0010_0004;
    fields.divider = 0xBEEF_0005;
    stage.unit.owner.initiator = 0x67;
    stage.unit.owner.link = 1;
    stage.unit.last_time_code = 0x2A;
    stage
}

#[test]
fn each_field_is_read() {
    let mut stage = owned();
    stage.unit.owner.path = Path::of(&[0, 0, 3, 4, 5, 6, 7, 8]);
    // Owner 67; six path bytes take two fields; owner link 1; return link 1; four links:
    // 67 | 10 0 00001 | 000 00001 | 0 0 0 00100.
    let device = [
        0x0102_0304,
        0x1112_1314,
        0x2122_2324,
        0x0000_001E,
        0x6781_0104,
        0x0000_0000,
        0x0000_0304,
        0x0506_0708,
        0x8182_8384,
        0x9192_9394,
        0xA1A2_A3A4,
    ];
    let spacewire = [0x0000_002A, 0x0000_00C8, 0x0010_0004, 0xBEEF_0005];
    for (protocol, values) in [(0, &device[..]), (1, &spacewire[..])] {
        for first in 0..values.len() {
            for count in 1..=values.len() - first {
                let build = field_read(protocol, first as u32, count as u32);
                stage.expect(&build, 0, &bytes(&values[first..first + count]));
            }
        }
    }
}

/// Anyone may read, by any path and on any link; the reply has protocol 03.
#[test]
fn anyone_reads() {
    let mut stage = owned();
    let build =
        Build { instruction: READ + 1, initiator: 0x99, reply_address: vec![0, 0, 0, 2], ..field_read(0, 8, 1) };
    let answer = stage.send_all(&build.packet(), EOP, 3);
    assert_eq!(answer, Answer { fate: 20, status: Some(0), reply: 18 });
    assert_eq!(stage.reply[..3], [2, 0x99, 0x03]);
    assert_eq!(stage.reply[1..18], reply_to(&build, 0, &bytes(&[0x8182_8384])));
}

/// Bits as 000, Table 5-6, places them; those in between are as held.
#[test]
fn link_information() {
    let mut stage = Stage::new();
    // No owner: return link 3, link count 4.
    stage.expect_on(3, &field_read(0, 4, 1), EOP, 0, &bytes(&[0x0000_0304]));
    // All bits held: the reserved ones, T and U show, the others do not.
    stage.unit.fields.link_information = 0xFFFF_FFFF;
    stage.expect_on(3, &field_read(0, 4, 1), EOP, 0, &bytes(&[0x0020_E3E4]));
    stage.unit.link_count = 31;
    stage.unit.owner.initiator = 0xFF;
    stage.unit.owner.link = 31;
    stage.unit.owner.path.count = 12;
    stage.expect_on(31, &field_read(0, 4, 1), EOP, 0, &bytes(&[0xFFFF_FFFF]));
    stage.unit.fields.link_information = 0;
    // FF | 11 0 11111 | 000 11111 | 000 11111.
    stage.expect_on(31, &field_read(0, 4, 1), EOP, 0, &bytes(&[0xFFDF_1F1F]));
    // The address length is the count over 4, rounded up.
    for (count, length) in [(0, 0), (1, 1), (4, 1), (5, 2), (8, 2), (9, 3), (12, 3)] {
        stage.unit.owner.path.count = count;
        let value = 0xFF1F_1F1F | length << 22;
        stage.expect_on(31, &field_read(0, 4, 1), EOP, 0, &bytes(&[value]));
    }
}

#[test]
fn missing_fields() {
    let mut stage = owned();
    for build in [
        field_read(0, 11, 1),
        field_read(0, 0, 12),
        field_read(0, 10, 2),
        field_read(0, 16_383, 1),
        field_read(1, 4, 1),
        field_read(1, 0, 5),
        field_read(2, 0, 1),
        field_read(31, 0, 1),
        // Set 1 and application 1.
        Build { address: 1 << 14, ..field_read(0, 0, 1) },
        Build { address: 1 << 24, ..field_read(0, 0, 1) },
        field_write(1, 4, &[0]),
        swap(11, 1, 0),
    ] {
        stage.expect_refused(&build, EOP, 0xF1);
    }
}

#[test]
fn not_implemented() {
    let mut stage = owned();
    // Lengths: multiples of 4 from 4 to 64, and 8 for a swap.
    for length in [0, 1, 2, 3, 5, 63, 65, 66, 68, 128, 0x01_0004] {
        stage.expect_refused(&field_command(READ, 0, 0, length), EOP, 10);
        stage.expect_refused(&field_command(WRITE_VERIFIED, 1, 0, length), EOP, 10);
    }
    for length in [0, 2, 4, 6, 7, 9, 12, 16, 64] {
        // Not 11, though RMAP would say so of 7 and 9.
        stage.expect_refused(&field_command(RMW, 0, 8, length), EOP, 10);
    }
    stage.expect_refused(&Build { extended_address: 1, ..field_read(0, 0, 1) }, EOP, 10);
    // 16 fields from 16,368 end with 16,383: missing; from 16,369 they pass it.
    stage.expect_refused(&field_read(0, 16_368, 16), EOP, 0xF1);
    stage.expect_refused(&field_read(0, 16_369, 16), EOP, 10);
    stage.expect_refused(&field_read(0, 16_383, 2), EOP, 10);
    // Codes: of those in use only 0011, 0111 and 1111.
    for code in [0b0010, 0b1000, 0b1001, 0b1010, 0b1011, 0b1100, 0b1101, 0b1110u8] {
        let build = Build { instruction: 0x40 | code << 2, ..field_write(1, 0, &[0]) };
        stage.expect_refused(&build, EOP, 10);
    }
    for code in [0b0000, 0b0001, 0b0100, 0b0101, 0b0110u8] {
        let build = Build { instruction: 0x40 | code << 2, ..field_read(0, 0, 1) };
        stage.expect_refused(&build, EOP, 2);
    }
}

#[test]
fn key_and_address() {
    let mut stage = owned();
    // The unit's own key and address are RMAP's.
    stage.expect_refused(&Build { key: 0x2A, ..field_read(0, 0, 1) }, EOP, 3);
    stage.expect_refused(&Build { target: 0x43, ..field_read(0, 0, 1) }, EOP, 12);
    stage.unit.key = 0;
    stage.unit.logical_address = 0xFE;
    stage.expect(&field_read(0, 0, 1), 0, &bytes(&[0x0102_0304]));
}

#[test]
fn fates_before_statuses() {
    let mut stage = owned();
    let bare = |fate| Answer { fate, status: None, reply: 0 };
    let mut packet = field_read(0, 0, 1).packet();
    assert_eq!(stage.send_packet(&packet[..2]), bare(11));
    assert_eq!(stage.send_packet(&packet[..15]), bare(11));
    packet[15] ^= 1;
    assert_eq!(stage.send_packet(&packet), bare(15));
    packet[2] = 0x0C;
    assert_eq!(stage.send_packet(&packet), bare(14));
}

#[test]
fn read_only_fields() {
    let mut stage = owned();
    for field in 0..=10 {
        let status = if field == 8 { 0xF3 } else { 0xF2 };
        stage.expect_refused(&field_write(0, field, &[0]), EOP, status);
        if field != 8 {
            stage.expect_refused(&swap(field, 0, 0), EOP, 0xF2);
        }
    }
    for field in [1, 2] {
        stage.expect_refused(&field_write(1, field, &[0]), EOP, 0xF2);
    }
    // A swap reaches only the Device ID, so not the fields the owner writes.
    for field in 0..4 {
        let build = Build { address: 1 << 19 | field, ..swap(0, 0, 0) };
        stage.expect_refused(&build, EOP, 0xF2);
    }
    // The lowest field that offends decides; in protocol 1 that is never the first, 0.
    stage.expect_refused(&field_write(0, 7, &[0, 0]), EOP, 0xF2);
    stage.expect_refused(&field_write(0, 8, &[0, 0, 0]), EOP, 0xF3);
    stage.expect_refused(&field_write(1, 0, &[0, 0]), EOP, 0xF2);
    stage.expect_refused(&field_write(1, 2, &[0, 5]), EOP, 0xF2);
    // A missing field goes before one that is read-only, wherever it is.
    stage.expect_refused(&field_write(0, 8, &[0, 0, 0, 0]), EOP, 0xF1);
    stage.expect_refused(&field_write(0, 10, &[0, 0]), EOP, 0xF1);
}

/// Each line adds a fault that goes before all those above it, so that its status wins.
#[test]
fn order_of_statuses() {
    let mut stage = owned();
    let good = field_write(1, 0, &[0]);
    let wrong_data_crc = Build { rest: vec![0, 0, 0, 0, 1], ..good.clone() };
    stage.expect_refused(&wrong_data_crc, EOP, 4);
    let too_much = Build { rest: vec![0, 0, 0, 0, 1, 0], ..good.clone() };
    stage.expect_refused(&too_much, EOP, 6);
    let early = Build { rest: vec![0, 0, 0], ..good };
    stage.expect_refused(&early, EOP, 5);
    stage.expect_refused(&too_much, EEP, 7);
    stage.expect_refused(&early, EEP, 7);
    let build = Build { initiator: 0x68, ..early };
    stage.expect_refused(&build, EEP, 0xF0);
    let build = Build { address: 8, ..build };
    stage.expect_refused(&build, EEP, 0xF3);
    let build = Build { address: 7, ..build };
    stage.expect_refused(&build, EEP, 0xF2);
    let build = Build { address: 11, ..build };
    stage.expect_refused(&build, EEP, 0xF1);
    let build = Build { length: 6, ..build };
    stage.expect_refused(&build, EEP, 10);
    let build = Build { target: 0x43, ..build };
    stage.expect_refused(&build, EEP, 12);
    let build = Build { key: 1, ..build };
    stage.expect_refused(&build, EEP, 3);
    let build = Build { instruction: 0xBC, ..build };
    stage.expect_refused(&build, EEP, 2);
}

#[test]
fn faults_of_reads_and_swaps() {
    let mut stage = owned();
    stage.expect_refused(&field_read(0, 0, 1), EEP, 7);
    stage.expect_refused(&Build { rest: vec![0], ..field_read(0, 0, 1) }, EOP, 6);
    let good = swap(8, 1, 0x8182_8384);
    stage.expect_refused(&good, EEP, 7);
    stage.expect_refused(&Build { rest: good.rest[..8].to_vec(), ..good.clone() }, EOP, 5);
    stage.expect_refused(&Build { rest: [&good.rest[..], &[0]].concat(), ..good.clone() }, EOP, 6);
    let mut wrong = good.clone();
    wrong.rest[8] ^= 1;
    stage.expect_refused(&wrong, EOP, 4);
    stage.expect(&good, 0, &bytes(&[0x8182_8384]));
}

#[test]
fn time_code_counter() {
    let mut stage = owned();
    // Anything but a whole word of 0 is ignored, with status 0.
    for value in [1, 0x2A, 0x40, 0x100, 0x8000_0000, 0xFFFF_FFFF] {
        stage.expect(&field_write(1, 0, &[value]), 0, &[]);
        assert_eq!(stage.unit.last_time_code, 0x2A);
    }
    stage.expect(&field_write(1, 0, &[0]), 0, &[]);
    assert_eq!(stage.unit.last_time_code, 0);
    // It shows the Time-Codes that come, without their flags.
    stage.unit.time_code(0xFF);
    stage.expect(&field_read(1, 0, 1), 0, &bytes(&[63]));
}

/// Range 4 to 16, held 5 under a high half of BEEF.
#[test]
fn divider() {
    let cases = [
        (0x0000_0000, 0xBEEF_0005),
        (0x0000_0003, 0xBEEF_0005),
        (0x0000_0004, 0xBEEF_0004),
        (0x0000_000A, 0xBEEF_000A),
        (0x0000_0010, 0xBEEF_0010),
        (0x0000_0011, 0xBEEF_0005),
        (0x0000_FFFF, 0xBEEF_0005),
        // The high half written does not count.
        (0x1234_0006, 0xBEEF_0006),
        (0x0006_0000, 0xBEEF_0005),
    ];
    for (written, left) in cases {
        let mut stage = owned();
        stage.expect(&field_write(1, 3, &[written]), 0, &[]);
        assert_eq!(stage.unit.fields.divider, left);
        stage.expect(&field_read(1, 3, 1), 0, &bytes(&[left]));
    }
    // No value lies in a range whose minimum is above its maximum.
    let mut stage = owned();
    stage.unit.fields.rate_range = 0x0004_0010;
    for value in [4, 10, 16] {
        stage.expect(&field_write(1, 3, &[value]), 0, &[]);
        assert_eq!(stage.unit.fields.divider, 0xBEEF_0005);
    }
}

#[test]
fn sixty_four_bytes_are_not_too_many() {
    // Sixteen fields are a right length, but no set of ours has so many.
    let mut stage = owned();
    let build = Build { rest: sealed(&[0; 64]), ..field_command(WRITE_VERIFIED, 0, 0, 64) };
    stage.expect_refused(&build, EOP, 0xF1);
    stage.expect_refused(&field_read(0, 0, 16), EOP, 0xF1);
    stage.expect_refused(&field_read(0, 0, 17), EOP, 10);
}
