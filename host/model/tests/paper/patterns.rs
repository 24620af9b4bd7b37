//! The patterns of 001, A.4, byte by byte as printed there, without the target SpaceWire
//! addresses, which are gone when a packet arrives.

use crate::build::{Stage, long_crc};
use model::{Answer, End, crc};

const WRITE: [u8; 33] = [
    0xFE, 0x01, 0x6C, 0x00, 0x67, 0x00, 0x00, 0x00, 0xA0, 0x00, 0x00, 0x00, 0x00, 0x00, 0x10, 0x9F, 0x01, 0x23, 0x45,
    0x67, 0x89, 0xAB, 0xCD, 0xEF, 0x10, 0x11, 0x12, 0x13, 0x14, 0x15, 0x16, 0x17, 0x56,
];
const WRITE_REPLY: [u8; 8] = [0x67, 0x01, 0x2C, 0x00, 0xFE, 0x00, 0x00, 0xED];

const READ: [u8; 16] = [0xFE, 0x01, 0x4C, 0x00, 0x67, 0x00, 0x01, 0x00, 0xA0, 0x00, 0x00, 0x00, 0x00, 0x00, 0x10, 0xC9];
const READ_REPLY: [u8; 29] = [
    0x67, 0x01, 0x0C, 0x00, 0xFE, 0x00, 0x01, 0x00, 0x00, 0x00, 0x10, 0x6D, 0x01, 0x23, 0x45, 0x67, 0x89, 0xAB, 0xCD,
    0xEF, 0x10, 0x11, 0x12, 0x13, 0x14, 0x15, 0x16, 0x17, 0x56,
];

const WRITE_BY_PATH: [u8; 41] = [
    0xFE, 0x01, 0x6E, 0x00, 0x00, 0x99, 0xAA, 0xBB, 0xCC, 0xDD, 0xEE, 0x00, 0x67, 0x00, 0x02, 0x00, 0xA0, 0x00, 0x00,
    0x10, 0x00, 0x00, 0x10, 0x7F, 0xA0, 0xA1, 0xA2, 0xA3, 0xA4, 0xA5, 0xA6, 0xA7, 0xA8, 0xA9, 0xAA, 0xAB, 0xAC, 0xAD,
    0xAE, 0xAF, 0xB4,
];
const WRITE_BY_PATH_REPLY: [u8; 15] =
    [0x99, 0xAA, 0xBB, 0xCC, 0xDD, 0xEE, 0x00, 0x67, 0x01, 0x2E, 0x00, 0xFE, 0x00, 0x02, 0x1D];

const READ_BY_PATH: [u8; 20] = [
    0xFE, 0x01, 0x4D, 0x00, 0x99, 0xAA, 0xBB, 0xCC, 0x67, 0x00, 0x03, 0x00, 0xA0, 0x00, 0x00, 0x10, 0x00, 0x00, 0x10,
    0xF7,
];
const READ_BY_PATH_REPLY: [u8; 33] = [
    0x99, 0xAA, 0xBB, 0xCC, 0x67, 0x01, 0x0D, 0x00, 0xFE, 0x00, 0x03, 0x00, 0x00, 0x00, 0x10, 0x52, 0xA0, 0xA1, 0xA2,
    0xA3, 0xA4, 0xA5, 0xA6, 0xA7, 0xA8, 0xA9, 0xAA, 0xAB, 0xAC, 0xAD, 0xAE, 0xAF, 0xB4,
];

#[test]
fn printed_crcs() {
    // Each part is followed by its CRC: headers, then data, then reply headers past their path.
    let parts: [&[u8]; 12] = [
        &WRITE[..16],
        &WRITE[16..],
        &WRITE_REPLY,
        &READ,
        &READ_REPLY[..12],
        &READ_REPLY[12..],
        &WRITE_BY_PATH[..24],
        &WRITE_BY_PATH[24..],
        &WRITE_BY_PATH_REPLY[7..],
        &READ_BY_PATH,
        &READ_BY_PATH_REPLY[4..16],
        &READ_BY_PATH_REPLY[16..],
    ];
    for part in parts {
        let (printed, bytes) = part.split_last().unwrap();
        assert_eq!(crc(bytes), *printed);
        assert_eq!(crc(part), 0);
        assert_eq!(long_crc(bytes), *printed);
    }
}

/// The pattern's memory lies at A0000000, beyond ours; with that byte of the address 0 instead,
/// and the header CRC to suit, the replies are those printed, since none shows the address.
fn moved(pattern: &[u8], address: usize, header: usize) -> Vec<u8> {
    let mut packet = pattern.to_vec();
    packet[address] = 0;
    packet[header - 1] = long_crc(&packet[..header - 1]);
    packet
}

#[test]
fn commands_get_the_printed_replies() {
    let mut stage = Stage::new();
    stage.unit.key = 0;
    let cases: [(Vec<u8>, &[u8]); 4] = [
        (moved(&WRITE, 8, 16), &WRITE_REPLY),
        (moved(&READ, 8, 16), &READ_REPLY),
        (moved(&WRITE_BY_PATH, 16, 24), &WRITE_BY_PATH_REPLY),
        (moved(&READ_BY_PATH, 12, 20), &READ_BY_PATH_REPLY),
    ];
    for (packet, reply) in cases {
        let answer = stage.send_packet(&packet);
        assert_eq!(answer, Answer { fate: 20, status: Some(0), reply: reply.len() });
        assert_eq!(stage.reply[..answer.reply], *reply);
    }
    assert_eq!(stage.memory[..16], WRITE[16..32]);
    assert_eq!(stage.memory[16..32], WRITE_BY_PATH[24..40]);
    assert!(stage.memory[32..].iter().all(|&byte| byte == 0));
}

/// As printed, the address is in no window of ours: status 10.
#[test]
fn commands_as_printed_are_not_authorised() {
    let mut stage = Stage::new();
    stage.unit.key = 0;
    for (packet, size) in [(&WRITE[..], 8), (&READ[..], 13), (&WRITE_BY_PATH[..], 15), (&READ_BY_PATH[..], 17)] {
        let answer = stage.send_packet(packet);
        assert_eq!(answer, Answer { fate: 20, status: Some(10), reply: size });
    }
    assert!(stage.memory.iter().all(|&byte| byte == 0));
}

/// The printed replies are replies: a unit that gets one gives 14. Those with a path have it
/// stripped on their way.
#[test]
fn printed_replies_are_known_as_replies() {
    let mut stage = Stage::new();
    for reply in [&WRITE_REPLY[..], &READ_REPLY, &WRITE_BY_PATH_REPLY[7..], &READ_BY_PATH_REPLY[4..]] {
        let answer = stage.send_all(reply, End::Eop, 1);
        assert_eq!(answer, Answer { fate: 14, status: None, reply: 0 });
    }
}
