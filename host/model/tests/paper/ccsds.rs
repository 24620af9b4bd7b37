//! CCSDS packets, received and sent (request 11 of document 02).

use crate::build::{Build, Stage, UNTOUCHED, read, with_data};
use crate::wrong_ccsds::{self, taken_by};
use crate::wrong_sends::{self, Sending};
use model::{Answer, Carried, Counters, End, send_ccsds};

/// The shortest space packet: version 0 and all other bits of the first byte that can be set, one byte of data, so a length field of 0.
const SPACE: [u8; 7] = [0x1F, 0x01, 0xC0, 0x00, 0x00, 0x00, 0xAA];

/// One with another first byte, another length field and another size.
fn space(first: u8, field: u16, size: usize) -> Vec<u8> {
    let mut space = vec![first, 0x01, 0xC0, 0x00];
    space.extend(field.to_be_bytes());
    space.resize(size, 0xAA);
    space
}

/// What brings it to the user application 5A.
fn packet(address: u8, reserved: u8, space: &[u8]) -> Vec<u8> {
    [&[address, 0x02, reserved, 0x5A], space].concat()
}

/// The packets that are taken: length field plus 7 is the size, up to 65,535 + 7.
fn right() -> Vec<Vec<u8>> {
    vec![
        vec![0x43, 0x02, 0x00, 0x5A, 0x1F, 0x01, 0xC0, 0x00, 0x00, 0x00, 0xAA],
        vec![0xFE, 0x02, 0x00, 0x00, 0x00, 0x00, 0x00, 0x00, 0x00, 0x00, 0x00],
        vec![0x43, 0x02, 0x00, 0xFF, 0x10, 0x01, 0xC0, 0x00, 0x00, 0x01, 0xAA, 0xBB],
        packet(0x43, 0, &space(0x08, 0x00FF, 262)),
        packet(0xFE, 0, &space(0x08, 0x0100, 263)),
        packet(0x43, 0, &space(0x08, 0x03FA, 1025)),
        packet(0x43, 0, &space(0x08, 0x0FF6, 4093)),
        packet(0x43, 0, &space(0x08, 0xFFF8, 65_535)),
        packet(0x43, 0, &space(0x08, 0xFFF9, 65_536)),
        packet(0xFE, 0, &space(0x08, 0xFFFF, 65_542)),
    ]
}

/// Packets of protocol 02 with one flaw, save for their end.
fn wrong() -> Vec<Vec<u8>> {
    let mut wrong = vec![
        packet(0x42, 0, &SPACE),
        packet(0x00, 0, &SPACE),
        packet(0xFF, 0, &SPACE),
        packet(0x43, 0x01, &SPACE),
        packet(0x43, 0x02, &SPACE),
        packet(0x43, 0x80, &SPACE),
        // The reserved byte behind the application byte.
        vec![0x43, 0x02, 0x5A, 0x00, 0x1F, 0x01, 0xC0, 0x00, 0x00, 0x00, 0xAA],
        packet(0x43, 0, &space(0x20, 0, 7)),
        packet(0x43, 0, &space(0x40, 0, 7)),
        packet(0x43, 0, &space(0x80, 0, 7)),
        packet(0x43, 0, &space(0xFF, 0, 7)),
        // One byte more than the field tells of, one less, and others that are near.
        packet(0x43, 0, &space(0, 0, 8)),
        packet(0x43, 0, &space(0, 1, 7)),
        packet(0x43, 0, &space(0, 0, 6)),
        packet(0x43, 0, &space(0, 1, 9)),
        packet(0x43, 0, &space(0, 3, 7)),
        packet(0x43, 0, &space(0, 4, 7)),
        packet(0x43, 0, &space(0, 6, 7)),
        packet(0x43, 0, &space(0, 7, 7)),
        // Low byte first, and one byte of the two.
        packet(0x43, 0, &space(0, 0x0100, 8)),
        packet(0x43, 0, &space(0, 0x0001, 263)),
        packet(0x43, 0, &space(0, 0x0100, 7)),
        packet(0x43, 0, &space(0, 0x0000, 263)),
        // 65,535 + 7 is not 6, and 65,543 - 7 is not 0.
        packet(0x43, 0, &space(0, 0xFFFF, 6)),
        packet(0x43, 0, &space(0, 0xFFFF, 65_541)),
        packet(0x43, 0, &space(0, 0xFFFF, 65_543)),
        packet(0x43, 0, &space(0, 0x0000, 65_543)),
    ];
    // Too short to tell: up to the header of the space packet, and that without the byte of data.
    wrong.extend((2..=10).map(|size| right()[0][..size].to_vec()));
    wrong
}

/// All of them with their fates.
fn cases() -> Vec<(Vec<u8>, End, u8)> {
    let by_eep = right().into_iter().map(|packet| (packet, End::Eep, 22));
    let taken = right().into_iter().map(|packet| (packet, End::Eop, 21));
    let thrown_away = wrong().into_iter().map(|packet| (packet, End::Eop, 22));
    taken.chain(by_eep).chain(thrown_away).collect()
}

fn bare(fate: u8) -> Answer {
    Answer { fate, status: None, reply: 0 }
}

/// Counters that start with `start`, once this fate is counted.
fn counted(start: u32, fate: u8) -> Counters {
    let mut counters = Counters { fates: [start; 12], total: start };
    counters.fates[usize::from(fate) - 11] = start.wrapping_add(1);
    counters.total = start.wrapping_add(1);
    counters
}

/// Taken or thrown away: nothing is left but the count, whatever the reply buffer, and only what is taken is handed on.
#[test]
fn taken_and_thrown_away() {
    for (packet, end, fate) in cases() {
        for (start, room) in [(0, 8192), (7, 0), (u32::MAX, 1)] {
            let mut stage = Stage::new();
            stage.unit.counters = Counters { fates: [start; 12], total: start };
            stage.reply.truncate(room);
            let mut expected = stage.unit.clone();
            expected.counters = counted(start, fate);
            let (answer, carried) = stage.take(&packet, end, 4);
            assert_eq!(answer, bare(fate), "{:02X?}", &packet[..packet.len().min(20)]);
            let parts = || Carried { application: packet[3], space_packet: &packet[4..] };
            assert_eq!(carried, (fate == 21).then(parts));
            assert_eq!(stage.unit, expected);
            assert_eq!(stage.memory, [0; 4096]);
            assert!(stage.reply.iter().all(|byte| *byte == UNTOUCHED));
        }
    }
}

/// What is handed on is a part of what was received, and no copy of it.
#[test]
fn a_part_of_what_was_received() {
    let packet = &right()[2];
    let mut stage = Stage::new();
    let (_, carried) = stage.take(packet, End::Eop, 1);
    let space_packet = carried.expect("it is taken").space_packet;
    assert_eq!(space_packet, [0x10, 0x01, 0xC0, 0x00, 0x00, 0x01, 0xAA, 0xBB]);
    assert!(std::ptr::eq(space_packet, &packet[4..]));
}

/// Whether a packet that ended by EOP is taken; no reply needs room.
fn is_taken(stage: &mut Stage, packet: &[u8]) -> bool {
    stage.reply.clear();
    let fate = stage.send_packet(packet).fate;
    assert!([21, 22].contains(&fate));
    fate == 21
}

/// Every value of the bytes in front and of the space packet's first byte.
#[test]
fn every_byte() {
    let mut stage = Stage::new();
    let mut is_taken = |packet: &[u8]| is_taken(&mut stage, packet);
    let with = |at: usize, byte: u8| {
        let mut packet = packet(0x43, 0, &SPACE);
        packet[at] = byte;
        packet
    };
    for byte in 0..=255 {
        assert_eq!(is_taken(&with(0, byte)), byte == 0x43 || byte == 0xFE);
        assert_eq!(is_taken(&with(2, byte)), byte == 0);
        assert!(is_taken(&with(3, byte)));
        assert_eq!(is_taken(&with(4, byte)), byte <= 0b0001_1111);
        // Application process, sequence and data tell nothing.
        assert!([5, 6, 7, 10].iter().all(|at| is_taken(&with(*at, byte))));
    }
}

/// Every length field at some sizes.
#[test]
fn every_length_field() {
    for size in [6, 7, 8, 262, 263, 264] {
        let mut stage = Stage::new();
        let taken = |field: &u16| is_taken(&mut stage, &packet(0xFE, 0, &space(0, *field, size)));
        let fields: Vec<u16> = (0..=u16::MAX).filter(taken).collect();
        let one = match size {
            6 => vec![],
            7 => vec![0x0000],
            8 => vec![0x0001],
            262 => vec![0x00FF],
            263 => vec![0x0100],
            _ => vec![0x0101],
        };
        assert_eq!(fields, one, "{size} bytes");
    }
}

/// A unit with another address.
#[test]
fn to_us_or_to_all() {
    let mut stage = Stage::new();
    stage.unit.logical_address = 0x20;
    for (address, fate) in [(0x20, 21), (0xFE, 21), (0x43, 22), (0x21, 22)] {
        assert_eq!(stage.send_packet(&packet(address, 0, &SPACE)), bare(fate));
    }
    assert_eq!((stage.unit.counters.fates[10], stage.unit.counters.fates[11]), (2, 2));
    assert_eq!(stage.unit.counters.total, 4);
}

/// The second byte tells the protocol: a zero in front is left out before FE 03 alone.
#[test]
fn the_protocol_comes_first() {
    let zero = |packet: &[u8]| [&[0x00], packet].concat();
    let of_protocol = |protocol: u8| [&[0x43, protocol, 0x00, 0x5A], &SPACE[..]].concat();
    let to_all = packet(0xFE, 0, &SPACE);
    let cases = [
        (vec![], 11, 11),
        (vec![0x43], 11, 11),
        (vec![0x02], 11, 11),
        (of_protocol(0x00), 13, 13),
        (of_protocol(0x06), 12, 12),
        (of_protocol(0x12), 12, 12),
        (of_protocol(0x82), 12, 12),
        // The reserved byte is an instruction there, that of a reply.
        (of_protocol(0x01), 14, 14),
        (of_protocol(0x03), 14, 14),
        (zero(&to_all), 12, 16),
        (zero(&to_all[..2]), 12, 16),
        (zero(&packet(0x43, 0, &SPACE)), 12, 12),
        (vec![0x00, 0x00, 0xFE, 0x02], 13, 13),
        // An address 00 or 02 that is not ours.
        (packet(0x00, 0, &SPACE), 22, 22),
        (packet(0x02, 0, &SPACE), 22, 22),
        (vec![0x02, 0x02], 22, 22),
        (vec![0xFE, 0x02], 22, 22),
        // A zero, and what would then be the protocol: 02 comes before it.
        (vec![0x00, 0x02, 0xFE, 0x03], 22, 22),
        (vec![0xFE, 0x02, 0x03], 22, 22),
    ];
    for (packet, elsewhere, at_fe) in cases {
        for (time_number, fate) in [(0xF0, elsewhere), (0xFE, at_fe)] {
            let mut stage = Stage::new();
            stage.unit.time_number = time_number;
            assert_eq!(stage.send_packet(&packet), bare(fate), "{packet:02X?}");
            assert_eq!(stage.unit.counters, counted(0, fate));
        }
    }
}

/// 1 and 2 go before it: nothing is counted, nothing handed on.
#[test]
fn refused_before_it_is_read() {
    for (packet, end, _) in cases() {
        let mut stage = Stage::new();
        for link in [0, 5, 255] {
            assert_eq!(stage.take(&packet, end, link), (bare(2), None));
        }
        stage.unit.time_number = 0xEF;
        assert_eq!(stage.take(&packet, end, 0), (bare(1), None));
        assert_eq!(stage.unit.counters, Counters::default());
    }
}

/// The commands around them are obeyed as ever.
#[test]
fn between_commands() {
    let mut stage = Stage::new();
    stage.expect(&with_data(0x6C, 9, &[1, 2]), 0, &[]);
    assert_eq!(stage.send_packet(&packet(0x43, 0, &SPACE)), bare(21));
    assert_eq!(stage.send_packet(&packet(0x43, 1, &SPACE)), bare(22));
    stage.expect(&read(9, 2), 0, &[1, 2]);
    stage.expect(&Build { target: 0xFE, ..read(9, 2) }, 0, &[1, 2]);
    let counters = &stage.unit.counters;
    assert_eq!((counters.fates, counters.total), ([0, 0, 0, 0, 0, 0, 0, 0, 0, 3, 1, 1], 5));
}

/// Each wrong rule differs in one of the cases.
#[test]
fn wrong_rules() {
    for (name, rule) in wrong_ccsds::WRONG.into_iter().chain(wrong_ccsds::LONG) {
        let differs = cases().into_iter().any(|(packet, end, fate)| {
            let (packet, eep) = taken_by(rule, &packet, end == End::Eep);
            let end = if eep { End::Eep } else { End::Eop };
            Stage::new().send_all(&packet, end, 1) != bare(fate)
        });
        assert!(differs, "{name}");
    }
}

/// Sends to the user application 5A: what is given, and what the output holds then.
fn sent(address: u8, space_packet: &[u8], room: usize) -> (Result<usize, u8>, Vec<u8>) {
    sent_by(|it| send_ccsds(it.address, it.carried, it.output), address, space_packet, room)
}

fn sent_by(send: wrong_sends::Rule, address: u8, space_packet: &[u8], room: usize) -> (Result<usize, u8>, Vec<u8>) {
    let mut output = vec![UNTOUCHED; room];
    let carried = Carried { application: 0x5A, space_packet };
    let given = send(Sending { address, carried, output: &mut output });
    (given, output)
}

/// An address, a space packet, the room for it, and the refusal of it if it is refused.
type Sent = (u8, Vec<u8>, usize, Option<u8>);

fn sends() -> Vec<Sent> {
    let mut sends = Vec::new();
    for address in [0x43, 0xFE, 0x00, 0x20] {
        for packet in right() {
            let size = packet.len();
            let rooms = [(size, None), (size + 1, None), (size + 9, None), (size - 1, Some(42)), (size - 4, Some(42))];
            let short = [(0, Some(42)), (3, Some(42)), (4, Some(42))];
            let rooms = rooms.into_iter().chain(short);
            sends.extend(rooms.map(|(room, refusal)| (address, packet[4..].to_vec(), room, refusal)));
        }
    }
    // From the version on, in which the flaw is the space packet's. 41 goes before 42.
    let wrong = wrong().into_iter().skip(7).filter(|packet| packet.len() >= 4);
    for packet in wrong {
        let rooms = [70_000, packet.len(), packet.len() - 1, 0];
        sends.extend(rooms.map(|room| (0x43, packet[4..].to_vec(), room, Some(41))));
    }
    sends
}

/// What was sent, or refused, leaves the rest of the output as it was.
#[test]
fn sent_and_refused() {
    for (address, space_packet, room, refusal) in sends() {
        let packet = packet(address, 0, &space_packet);
        let (given, output) = sent(address, &space_packet, room);
        assert_eq!(given, refusal.map_or(Ok(packet.len()), Err), "{room}");
        let written = if refusal.is_none() { &packet[..] } else { &[] };
        assert_eq!(output[..written.len()], *written);
        assert!(output[written.len()..].iter().all(|byte| *byte == UNTOUCHED));
    }
}

/// Byte by byte, into an output that is exactly long enough, and into one that is a byte short.
#[test]
fn a_packet_that_is_sent() {
    let bytes = vec![0x20, 0x02, 0x00, 0x5A, 0x1F, 0x01, 0xC0, 0x00, 0x00, 0x00, 0xAA];
    assert_eq!(sent(0x20, &SPACE, 11), (Ok(11), bytes));
    assert_eq!(sent(0x20, &SPACE, 10), (Err(42), vec![UNTOUCHED; 10]));
    assert_eq!(sent(0x20, &SPACE[..6], 11), (Err(41), vec![UNTOUCHED; 11]));
    assert_eq!(sent(0x20, &SPACE[..6], 9), (Err(41), vec![UNTOUCHED; 9]));
    assert_eq!(sent(0x20, &[], 0), (Err(41), vec![]));
}

/// What we send to ourselves or to FE we receive with the same parts; what we send to others is not for us.
#[test]
fn sent_and_received() {
    for space_packet in right().iter().map(|packet| &packet[4..]) {
        for application in 0..=255 {
            let carried = Carried { application, space_packet };
            for (address, fate) in [(0x43, 21), (0xFE, 21), (0x42, 22)] {
                let mut output = vec![UNTOUCHED; 4 + space_packet.len()];
                let size = send_ccsds(address, carried, &mut output).expect("it is right, and there is room");
                let received = Stage::new().take(&output[..size], End::Eop, 1);
                assert_eq!(received, (bare(fate), (fate == 21).then_some(carried)));
            }
        }
    }
}

/// Each wrong way to send differs in one of the cases.
#[test]
fn wrong_sends() {
    for (name, rule) in wrong_sends::WRONG {
        let differs = sends().into_iter().any(|(address, space_packet, room, _)| {
            sent_by(rule, address, &space_packet, room) != sent(address, &space_packet, room)
        });
        assert!(differs, "{name}");
    }
}
