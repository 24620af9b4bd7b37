//! Time (document 01, Time, as changed by request 3 of document 02; 004).

use crate::build::{Stage, sealed};
use model::{Answer, End, Time};

const TAKEN: Answer = Answer { fate: 19, status: None, reply: 0 };
const THROWN_AWAY: Answer = Answer { fate: 16, status: None, reply: 0 };

const T: [u8; 7] = [0x01, 0x02, 0x03, 0x04, 0x05, 0x06, 0x07];
const T_VALUE: u64 = 0x01_0203_0405_0607;

fn packet(address: u8, epoch: u8, mode: u8) -> Vec<u8> {
    sealed(&[&[address, 0xF0, epoch, mode], &T[..]].concat())
}

fn time(epoch: u8, t: u64) -> Time {
    Time { epoch, t }
}

#[test]
fn initialize_sets_the_time_at_once() {
    for (address, epoch) in [(0x43, 0x9F), (0x43, 0xAF), (0xFE, 0x9F), (0xFE, 0xAF)] {
        let mut stage = Stage::new();
        stage.unit.waiting = Some(time(0x9F, 5));
        assert_eq!(stage.send_packet(&packet(address, epoch, 1)), TAKEN);
        assert_eq!(stage.unit.elapsed, time(epoch, T_VALUE));
        assert_eq!(stage.unit.waiting, None);
    }
}

#[test]
fn synchronize_waits_for_the_wrap_and_replaces() {
    let mut stage = Stage::new();
    stage.unit.elapsed = time(0x9F, 77);
    stage.unit.waiting = Some(time(0x9F, 5));
    assert_eq!(stage.send_packet(&packet(0xFE, 0xAF, 0)), TAKEN);
    assert_eq!(stage.unit.elapsed, time(0x9F, 77));
    assert_eq!(stage.unit.waiting, Some(time(0xAF, T_VALUE)));

    // Ticks and other Time-Codes leave it waiting: 5 after 0 is no step.
    stage.unit.ticks(3);
    stage.unit.time_code(5);
    assert_eq!(stage.unit.elapsed, time(0x9F, 80));
    assert_eq!(stage.unit.waiting, Some(time(0xAF, T_VALUE)));
    stage.unit.time_code(63);
    assert_eq!(stage.unit.waiting, Some(time(0xAF, T_VALUE)));
    // The wrap: the epoch goes with the time.
    assert_eq!(stage.unit.time_code(0), 0);
    assert_eq!(stage.unit.elapsed, time(0xAF, T_VALUE));
    assert_eq!(stage.unit.waiting, None);
    // The next wrap finds none. The fraction, 050607, is below one half: seconds 01020304 stay.
    stage.unit.time_code(63);
    stage.unit.time_code(0);
    assert_eq!(stage.unit.elapsed, time(0xAF, 0x01_0203_0400_0000));
}

#[test]
fn time_packets_thrown_away() {
    let good = packet(0x43, 0x9F, 1);
    let with = |at: usize, byte: u8| {
        let mut bytes = good[..11].to_vec();
        bytes[at] = byte;
        sealed(&bytes)
    };
    let mut stage = Stage::new();
    let mut wrong = vec![
        good[..2].to_vec(),
        good[..11].to_vec(),
        [&good[..], &[0]].concat(),
        with(0, 0x42),
        with(0, 0xFF),
        with(3, 2),
        with(3, 0x80),
        with(3, 0xFF),
    ];
    // Of the first P-field bytes only 9F and AF: extended, epoch 001 or 010, four and three.
    wrong.extend((0..=255).filter(|byte| ![0x9F, 0xAF].contains(byte)).map(|byte| with(2, byte)));
    let mut wrong_crc = good.clone();
    wrong_crc[11] ^= 1;
    wrong.push(wrong_crc);
    let mut wrong_t = good.clone();
    wrong_t[7] ^= 1;
    wrong.push(wrong_t);
    let count = wrong.len() as u32;
    for packet in wrong {
        assert_eq!(stage.send_packet(&packet), THROWN_AWAY);
    }
    assert_eq!(stage.send_all(&good, End::Eep, 1), THROWN_AWAY);
    let mut expected = Stage::new().unit;
    expected.counters.fates[5] = count + 1;
    expected.counters.total = count + 1;
    assert_eq!(stage.unit, expected);
}

#[test]
fn the_unit_answers_only_to_its_time_number() {
    let mut stage = Stage::new();
    stage.unit.time_number = 0xF1;
    assert_eq!(stage.send_packet(&packet(0x43, 0x9F, 1)).fate, 12);
    let packet = sealed(&[&[0x43, 0xF1, 0x9F, 1], &T[..]].concat());
    assert_eq!(stage.send_packet(&packet), TAKEN);
}

/// Every last Time-Code with every new one, against the rules told case by case.
#[test]
fn time_codes() {
    // Seconds 10 above 24 bits of fraction.
    let second = 1 << 24;
    let start = 0x10 * second + 0xAB_CDEF;
    for last in 0..=63u8 {
        for code in 0..=255u8 {
            let mut unit = Stage::new().unit;
            unit.elapsed = time(0x9F, start);
            unit.last_time_code = last;
            assert_eq!(unit.time_code(code), 0);
            // The two control flags do not matter.
            let new = code % 64;
            assert_eq!(unit.last_time_code, new);
            let expected = match (last, new) {
                // ABCDEF is above one half.
                (63, 0) => 0x11 * second,
                // Six bits at the top of 24: a step of the Time-Code is 2^18.
                _ if new == last + 1 => 0x10 * second + u64::from(new) * 0x4_0000,
                _ => start,
            };
            assert_eq!(unit.elapsed, time(0x9F, expected));
        }
    }
}

/// Times, and what the wrap with nothing waiting makes of them. One half of a second is 800000 in 24 bits of fraction.
const WRAPS: [(u64, u64); 15] = [
    // Seconds 7: up from one half on,
    (0x07_80_0000, 0x08_00_0000),
    (0x07_80_0001, 0x08_00_0000),
    (0x07_FC_0000, 0x08_00_0000),
    (0x07_FF_FFFF, 0x08_00_0000),
    // and not a tick before it.
    (0x07_7F_FFFF, 0x07_00_0000),
    (0x07_00_0001, 0x07_00_0000),
    (0x07_00_0000, 0x07_00_0000),
    // The lower bits alone make no half.
    (0x07_40_FFFF, 0x07_00_0000),
    // The first second.
    (0x00_7F_FFFF, 0x00_00_0000),
    (0x00_80_0000, 0x01_00_0000),
    // The last second of all: it is followed by the first.
    (0xFF_FFFF_FF80_0000, 0),
    (0xFF_FFFF_FFFF_FFFF, 0),
    (0xFF_FFFF_FF7F_FFFF, 0xFF_FFFF_FF00_0000),
    (0xFF_FFFF_FF12_3456, 0xFF_FFFF_FF00_0000),
    (0xFF_FFFF_FF00_0000, 0xFF_FFFF_FF00_0000),
];

#[test]
fn the_wrap_rounds_to_a_second() {
    for (start, end) in WRAPS {
        for epoch in [0x9F, 0xAF] {
            let mut unit = Stage::new().unit;
            unit.elapsed = time(epoch, start);
            unit.last_time_code = 63;
            let before = unit.clone();
            // The two control flags do not matter.
            assert_eq!(unit.time_code(0xC0), 0);
            assert_eq!(unit.elapsed, time(epoch, end), "{start:014x}");
            assert_eq!((unit.last_time_code, unit.waiting), (0, None));
            // Nothing else changes, and nothing is counted.
            (unit.elapsed, unit.last_time_code) = (before.elapsed, 63);
            assert_eq!(unit, before);
        }
    }
}

#[test]
fn a_waiting_value_wins_on_both_sides_of_the_half() {
    for (start, _) in WRAPS {
        for value in [time(0xAF, T_VALUE), time(0x9F, 0), time(0xAF, (1 << 56) - 1)] {
            let mut unit = Stage::new().unit;
            unit.elapsed = time(0x9F, start);
            unit.waiting = Some(value);
            unit.last_time_code = 63;
            unit.time_code(0);
            assert_eq!((unit.elapsed, unit.waiting, unit.last_time_code), (value, None, 0));
        }
    }
}

/// What request 3 is about: seconds told by wraps are right where the ticks between two of them are less than half a second wrong.
#[test]
fn seconds_go_up_by_one_from_wrap_to_wrap() {
    let half = 1 << 23;
    let second = 1 << 24;
    let cases = [
        (half - 1, 0),
        (half, 1),
        (half + 1, 1),
        (second - 1, 1),
        (second, 1),
        (second + 1, 1),
        (second + half - 1, 1),
        (second + half, 2),
        (2 * second, 2),
    ];
    let between = (half..second + half).step_by(99_991).map(|ticks| (ticks, 1));
    for (ticks, up) in cases.into_iter().chain(between) {
        // The last, and the one before it, go on from the first.
        for seconds in [0, 5, 0x7FFF_FFFF, 0xFFFF_FFFE, 0xFFFF_FFFFu32] {
            let mut unit = Stage::new().unit;
            unit.elapsed = time(0x9F, u64::from(seconds) * u64::from(second));
            unit.last_time_code = 63;
            unit.time_code(0);
            // In two parts, as a clock may tell them; 63 behind 0 is no step.
            unit.ticks(ticks / 3);
            unit.time_code(63);
            unit.ticks(ticks - ticks / 3);
            unit.time_code(0);
            let expected = u64::from(seconds.wrapping_add(up)) * u64::from(second);
            assert_eq!(unit.elapsed, time(0x9F, expected), "{ticks} ticks from second {seconds}");
        }
    }
}

/// With all Time-Codes taken, 63 sets the fraction to FC0000. A fast oscillator then passes the second by itself, a slow one does not:
/// both are in the same second behind the wrap.
#[test]
fn a_second_that_was_passed_is_not_added_again() {
    for (ticks, at_wrap) in [(0x3_FFFF, 0x07_FF_FFFF), (0x4_0000, 0x08_00_0000), (0x4_0000 + 0x7F_FFFF, 0x08_7F_FFFF)] {
        let mut unit = Stage::new().unit;
        unit.elapsed = time(0x9F, 0x07_F8_0000);
        unit.last_time_code = 62;
        unit.time_code(63);
        unit.ticks(ticks);
        assert_eq!(unit.elapsed.t, at_wrap);
        unit.time_code(0);
        assert_eq!(unit.elapsed.t, 0x08_00_0000);
    }
}

/// The wrap never moves ET by more than half a second, either way round the 2^56.
#[test]
fn the_wrap_moves_time_by_half_a_second_at_most() {
    let end = 1 << 56;
    let spread = (0..end).step_by((end / 50_000) as usize);
    let edges = WRAPS.iter().flat_map(|(start, _)| (0..5).map(move |more| (start + end + more - 2) % end));
    for start in spread.chain(edges) {
        let mut unit = Stage::new().unit;
        unit.elapsed = time(0x9F, start);
        unit.last_time_code = 63;
        unit.time_code(0);
        let moved = (unit.elapsed.t + end - start) % end;
        assert!(moved.min(end - moved) <= 1 << 23, "{start:014x}");
        assert_eq!(unit.elapsed.t % (1 << 24), 0);
    }
}

#[test]
fn a_waiting_value_waits_through_steps() {
    let mut unit = Stage::new().unit;
    unit.waiting = Some(time(0xAF, 9));
    unit.last_time_code = 61;
    unit.time_code(62);
    // 62 is F8 in the top six of eight bits.
    assert_eq!(unit.elapsed.t, 0xF8_0000);
    assert_eq!(unit.waiting, Some(time(0xAF, 9)));
    unit.time_code(63);
    unit.time_code(1);
    assert_eq!(unit.waiting, Some(time(0xAF, 9)));
    // 1 after 63 is no step: 63 is FC.
    assert_eq!(unit.elapsed.t, 0xFC_0000);
}

#[test]
fn ticks_are_modulo_2_to_the_56() {
    let cases = [
        (0, 0, 0),
        (5, 7, 12),
        (0xFF_FFFF, 1, 0x100_0000),
        ((1 << 56) - 1, 1, 0),
        ((1 << 56) - 1, u32::MAX, 0xFFFF_FFFE),
        ((1 << 56) - 10, 9, (1 << 56) - 1),
    ];
    for (start, ticks, end) in cases {
        let mut unit = Stage::new().unit;
        unit.elapsed = time(0x9F, start);
        unit.waiting = Some(time(0xAF, 1));
        unit.last_time_code = 63;
        let before = unit.clone();
        assert_eq!(unit.ticks(ticks), 0);
        assert_eq!(unit.elapsed, time(0x9F, end));
        // Nothing else changes, and nothing is counted.
        unit.elapsed = before.elapsed;
        assert_eq!(unit, before);
    }
}
