//! The numbers a caller gets, the counters, and unusable units (document 01, first table).

use crate::build::{Build, READ, Stage, WRITE_QUIETLY, command, read, swap, with_data};
use model::{Answer, End, Time, Unit, Window, fate};

fn bare(fate: u8) -> Answer {
    Answer { fate, status: None, reply: 0 }
}

/// One packet for each number from 11 to 20.
fn packets() -> [(u8, Vec<u8>); 10] {
    let mut wrong_header = read(0, 1).packet();
    wrong_header[15] ^= 1;
    let time = crate::build::sealed(&[0xFE, 0xF0, 0xAF, 0, 1, 2, 3, 4, 5, 6, 7]);
    [
        (11, vec![0x43]),
        (12, vec![0x43, 0x02, 0x00]),
        (13, vec![0x43, 0x00, 0x12, 0x34]),
        (14, vec![0x43, 0x03, 0x2C]),
        (15, wrong_header),
        (16, time[..11].to_vec()),
        (17, Build { key: 9, ..with_data(WRITE_QUIETLY, 0, &[1]) }.packet()),
        (18, with_data(WRITE_QUIETLY, 0, &[1]).packet()),
        (19, time),
        (20, read(0, 1).packet()),
    ]
}

#[test]
fn each_fate_is_counted_under_its_number() {
    let mut stage = Stage::new();
    stage.unit.counters.fates = [100; 10];
    stage.unit.counters.total = 7;
    for (number, packet) in packets() {
        let before = stage.unit.counters.clone();
        let answer = stage.send_packet(&packet);
        assert_eq!(answer.fate, number);
        assert_eq!(answer.status.is_some(), matches!(number, 17 | 18 | 20));
        assert_eq!(answer.reply != 0, number == 20);
        let mut expected = before;
        expected.fates[usize::from(number) - 11] += 1;
        expected.total += 1;
        assert_eq!(stage.unit.counters, expected);
    }
    assert_eq!(stage.unit.counters.fates, [101; 10]);
    assert_eq!(stage.unit.counters.total, 17);
}

#[test]
fn counters_roll_over() {
    let mut stage = Stage::new();
    stage.unit.counters.fates = [u32::MAX; 10];
    stage.unit.counters.total = u32::MAX - 9;
    for (_, packet) in packets() {
        stage.send_packet(&packet);
    }
    assert_eq!(stage.unit.counters.fates, [0; 10]);
    assert_eq!(stage.unit.counters.total, 0);
}

#[test]
fn protocol_numbers() {
    for time_number in [0xF0, 0xF7, 0xFE] {
        for protocol in 0..=255 {
            let mut stage = Stage::new();
            stage.unit.time_number = time_number;
            let expected = match protocol {
                0 => 13,
                1 | 3 => 11,
                _ if protocol == time_number => 16,
                _ => 12,
            };
            assert_eq!(stage.send_packet(&[0x43, protocol]), bare(expected));
        }
    }
}

type Spoiler = fn(&mut Unit);

/// The ways to make a unit unusable that lie in the unit itself; the flag tells those that need
/// the memory to be seen.
fn spoilers() -> Vec<(bool, Spoiler)> {
    fn window(start: u32, size: u32) -> Window {
        Window { start, size, read: true, write: true }
    }
    vec![
        (false, |unit| unit.windows = vec![window(0, 1); 17]),
        (true, |unit| unit.windows.push(window(0, 4097))),
        (true, |unit| unit.windows.push(window(4096, 1))),
        (true, |unit| unit.windows.push(window(u32::MAX, 1))),
        (true, |unit| unit.windows.push(window(1, u32::MAX))),
        (true, |unit| unit.windows.push(window(4097, 0))),
        (false, |unit| unit.time_number = 0xEF),
        (false, |unit| unit.time_number = 0xFF),
        (false, |unit| unit.time_number = 0x00),
        (false, |unit| unit.link_count = 0),
        (false, |unit| unit.link_count = 32),
        (false, |unit| unit.elapsed.t = 1 << 56),
        (false, |unit| unit.waiting = Some(Time { epoch: 0x9F, t: 1 << 56 })),
        (false, |unit| unit.last_time_code = 64),
        (false, |unit| unit.owner.path.count = 13),
        (false, |unit| unit.owner.link = 32),
    ]
}

#[test]
fn unusable_units() {
    for (in_memory, spoil) in spoilers() {
        let mut stage = Stage::new();
        spoil(&mut stage.unit);
        let before = stage.unit.clone();
        // 1 goes before 2 and all else.
        for link in [0, 1, 255] {
            for packet in [vec![], read(0, 1).packet(), with_data(0x64, 0, &[1]).packet()] {
                assert_eq!(stage.send_all(&packet, End::Eop, link), bare(1));
            }
        }
        assert_eq!(stage.unit, before);
        assert_eq!(stage.memory, [0; 4096]);

        let small = if in_memory { 0 } else { 1 };
        assert_eq!(stage.unit.time_code(1), small);
        assert_eq!(stage.unit.ticks(1), small);
        assert_eq!(stage.unit == before, !in_memory);
    }
}

#[test]
fn memory_lengths() {
    for (size, usable) in [(0, false), (1, true), (65_536, true), (65_537, false)] {
        let mut stage = Stage::new();
        stage.unit.windows.clear();
        stage.memory = vec![0; size];
        let before = stage.unit.clone();
        let answer = stage.send_packet(&[0xFE, 0x00]);
        assert_eq!(answer.fate, if usable { 13 } else { 1 });
        if !usable {
            assert_eq!(stage.unit, before);
        }
        // The small calls see no memory.
        assert_eq!(stage.unit.time_code(0), 0);
    }
}

/// The last values that are still usable, all at once.
#[test]
fn usable_to_the_limit() {
    let mut stage = Stage::new();
    let unit = &mut stage.unit;
    unit.windows = vec![Window { start: 4096, size: 0, read: true, write: true }; 16];
    unit.time_number = 0xFE;
    unit.link_count = 31;
    unit.elapsed.t = (1 << 56) - 1;
    unit.waiting = Some(Time { epoch: 0xAF, t: (1 << 56) - 1 });
    unit.last_time_code = 63;
    unit.owner.path.count = 12;
    unit.owner.link = 31;
    assert_eq!(stage.send_all(&[], End::Eop, 31), bare(11));
    assert_eq!(stage.unit.ticks(0), 0);
}

#[test]
fn links() {
    let mut stage = Stage::new();
    let before = stage.unit.clone();
    for link in [0, 5, 32, 255] {
        // 2 goes before all that a packet may be, a reply that does not fit too.
        for packet in [vec![], read(0, 1).packet(), command(0x48, 0, 0xFF_FFFF).packet()] {
            assert_eq!(stage.send_all(&packet, End::Eop, link), bare(2));
        }
    }
    assert_eq!(stage.unit, before);
    for link in 1..=4 {
        assert_eq!(stage.send_all(&[], End::Eop, link), bare(11));
    }
}

/// Result 3 counts nothing and does nothing, for RMAP and for a swap.
#[test]
fn a_reply_that_does_not_fit() {
    let mut stage = Stage::new();
    let before = stage.unit.clone();
    stage.reply = vec![];
    for build in [read(0, 0), with_data(0x6C, 0, &[1]), swap(8, 1, 0), command(READ, 9999, 1)] {
        assert_eq!(stage.send(&build), bare(3));
    }
    assert_eq!(stage.unit, before);
    assert_eq!(stage.memory[0], 0);
    // Without a reply due there is nothing that must fit.
    assert_eq!(stage.send(&with_data(WRITE_QUIETLY, 0, &[1])).fate, 18);
    assert_eq!(stage.memory[0], 1);
}

#[test]
fn numbers_by_name() {
    let named = [
        fate::TAKEN,
        fate::UNUSABLE,
        fate::NO_SUCH_LINK,
        fate::REPLY_TOO_LONG,
        fate::INCOMPLETE,
        fate::UNKNOWN_PROTOCOL,
        fate::EXTENDED_PROTOCOL,
        fate::IS_A_REPLY,
        fate::HEADER_CRC,
        fate::TIME_THROWN_AWAY,
        fate::REFUSED,
        fate::OBEYED,
        fate::TIME_TAKEN,
        fate::REPLIED,
    ];
    assert_eq!(named, [0, 1, 2, 3, 11, 12, 13, 14, 15, 16, 17, 18, 19, 20]);
}
