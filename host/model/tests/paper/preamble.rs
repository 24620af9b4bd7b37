//! The newer preamble of a time packet (document 01, Time, as changed by request 12 of document 02; 004, Draft P-Field format).

use crate::build::{Stage, long_crc, sealed};
use crate::wrong_preambles::{WRONG, taken_by};
use model::{Answer, End, Time};

const TIME_NUMBER: u8 = 0xF0;
const LAST: [u8; 7] = [0xFF; 7];

/// A time packet to be built; the CRC is added.
#[derive(Clone)]
struct Sent {
    address: u8,
    first: u8,
    second: u8,
    extra_seconds: Vec<u8>,
    t: [u8; 7],
    extra_fraction: Vec<u8>,
}

impl Sent {
    /// Octets of the packet, less its CRC.
    fn octets(&self) -> Vec<u8> {
        let head = [self.address, TIME_NUMBER, self.first, self.second];
        [&head[..], &self.extra_seconds, &self.t, &self.extra_fraction].concat()
    }

    fn packet(&self) -> Vec<u8> {
        sealed(&self.octets())
    }

    fn time(&self) -> Time {
        let [a, b, c, d, e, f, g] = self.t;
        Time { epoch: self.first, t: u64::from_be_bytes([0, a, b, c, d, e, f, g]) }
    }

    /// What it leaves where it is taken: bit 7, the last, sets at once.
    fn taken(&self) -> Left {
        let mut left = before();
        left.fate = 19;
        (left.elapsed, left.waiting) =
            if self.second % 2 == 1 { (self.time(), None) } else { (left.elapsed, Some(self.time())) };
        left
    }
}

/// A right packet with so many extra octets. Bits 1-2 are 64 and 32, bits 3-5 are 16, 8 and 4.
fn sent(seconds: u8, fraction: u8, mode: u8) -> Sent {
    Sent {
        address: 0x43,
        first: 0x9F,
        second: 32 * seconds + 4 * fraction + mode,
        extra_seconds: vec![0; seconds.into()],
        t: [0x01, 0x02, 0x03, 0x04, 0x05, 0x06, 0x07],
        extra_fraction: (0..fraction).map(|at| 0xA0 + at).collect(),
    }
}

/// One with each pair of counts, in both modes.
fn all_counts() -> impl Iterator<Item = Sent> {
    let counts = (0..4).flat_map(|seconds| (0..8).map(move |fraction| (seconds, fraction)));
    counts.flat_map(|(seconds, fraction)| [0, 1].map(|mode| sent(seconds, fraction, mode)))
}

/// The fate of a packet, and the times that the unit holds then.
#[derive(Clone, Debug, PartialEq, Eq)]
struct Left {
    fate: u8,
    elapsed: Time,
    waiting: Option<Time>,
}

/// The times before each packet, with the fate of one that is thrown away.
fn before() -> Left {
    Left { fate: 16, elapsed: Time { epoch: 0xAF, t: 77 }, waiting: Some(Time { epoch: 0xAF, t: 5 }) }
}

/// What a packet leaves. Nothing but the times and the counters may change.
fn left(packet: &[u8], end: End) -> Left {
    let mut stage = Stage::new();
    let Left { elapsed, waiting, .. } = before();
    (stage.unit.elapsed, stage.unit.waiting, stage.unit.last_time_code) = (elapsed, waiting, 9);
    let mut expected = stage.unit.clone();
    let Answer { fate, status, reply } = stage.send_all(packet, end, 1);
    assert_eq!((status, reply), (None, 0));
    let left = Left { fate, elapsed: stage.unit.elapsed, waiting: stage.unit.waiting };
    (expected.elapsed, expected.waiting) = (left.elapsed, left.waiting);
    expected.counters.fates[usize::from(fate) - 11] = 1;
    expected.counters.total = 1;
    assert_eq!(stage.unit, expected);
    left
}

#[track_caller]
fn assert_thrown_away(packet: &[u8]) {
    assert_eq!(left(packet, End::Eop), before(), "{packet:02X?}");
}

/// Packets written out, with their CRCs by long division.
#[test]
fn byte_by_byte() {
    let cases: [(&[u8], u64); 5] = [
        // 00100101: one octet of seconds, one of fraction, at once.
        (&[0x43, 0xF0, 0x9F, 0x25, 0x00, 0x12, 0x34, 0x56, 0x78, 0x9A, 0xBC, 0xDE, 0xFF], 0x12_3456_789A_BCDE),
        // 01000001: two of seconds.
        (&[0xFE, 0xF0, 0x9F, 0x41, 0x00, 0x00, 0x12, 0x34, 0x56, 0x78, 0x9A, 0xBC, 0xDE], 0x12_3456_789A_BCDE),
        // 00001001: two of fraction.
        (&[0xFE, 0xF0, 0x9F, 0x09, 0x00, 0x12, 0x34, 0x56, 0x78, 0x9A, 0xBC, 0xDE, 0x00], 0x00_1234_5678_9ABC),
        // 00010001: four of fraction.
        (&[0x43, 0xF0, 0x9F, 0x11, 0, 0, 0, 7, 0x7F, 0xFF, 0xFF, 0xFF, 0xFF, 0xFF, 0xFF], 0x07_7F_FFFF),
        // 01111101: all of them, and twenty-two octets with the CRC.
        (&[0x43, 0xF0, 0x9F, 0x7D, 0, 0, 0, 0, 0, 0, 8, 1, 2, 3, 0x80, 0, 0, 0, 0, 0, 0], 0x08_01_0203),
    ];
    for (octets, t) in cases {
        let expected = Left { fate: 19, elapsed: Time { epoch: 0x9F, t }, waiting: None };
        assert_eq!(left(&sealed(octets), End::Eop), expected, "{octets:02X?}");
    }
}

/// All counts, modes, epochs and addresses, and whatever stands below a tick.
#[test]
fn every_count_of_extra_octets() {
    let mut sizes = [0; 23];
    for right in all_counts() {
        for (address, first) in [(0x43, 0x9F), (0x43, 0xAF), (0xFE, 0x9F), (0xFE, 0xAF)] {
            for octet in [0x00, 0x01, 0x7F, 0x80, 0xFF] {
                let extra_fraction = vec![octet; right.extra_fraction.len()];
                let right = Sent { address, first, extra_fraction, ..right.clone() };
                assert_eq!(left(&right.packet(), End::Eop), right.taken());
            }
        }
        sizes[right.packet().len()] += 1;
    }
    // Both modes: of 12 octets one pair, of 13 two, and so on.
    assert_eq!(sizes[12..], [2, 4, 6, 8, 8, 8, 8, 8, 6, 4, 2]);
}

/// ET is the greatest tick not after the time sent: both as whole numbers of the last extra octet's lowest bit.
#[test]
fn the_greatest_tick_not_after_the_time_sent() {
    for t in [[0; 7], [0, 0, 0, 7, 0x7F, 0xFF, 0xFF], [0, 0, 0, 7, 0xFF, 0xFF, 0xFF], LAST] {
        for right in all_counts() {
            // The first extra octet, and the others.
            for edge in [[0x00, 0x00], [0x00, 0x01], [0x7F, 0xFF], [0x80, 0x00], [0x80, 0x01], [0xFF, 0xFF]] {
                let mut extra_fraction = vec![edge[1]; right.extra_fraction.len()];
                if let [first, ..] = &mut extra_fraction[..] {
                    *first = edge[0];
                }
                let right = Sent { t, extra_fraction, ..right.clone() };
                let left = left(&right.packet(), End::Eop);
                let kept = left.waiting.unwrap_or(left.elapsed);
                let whole = right.t.iter().chain(&right.extra_fraction);
                let time_sent = whole.fold(0, |all, octet| all << 8 | u128::from(*octet));
                let tick = 1u128 << (8 * right.extra_fraction.len());
                let kept = u128::from(kept.t) * tick;
                assert!(kept <= time_sent && time_sent < kept + tick, "{:02X?}", right.packet());
            }
        }
    }
}

#[test]
fn extra_seconds_must_be_zero() {
    for right in all_counts() {
        for place in 0..right.extra_seconds.len() {
            for octet in 1..=255 {
                let mut wrong = right.clone();
                wrong.extra_seconds[place] = octet;
                assert_thrown_away(&wrong.packet());
            }
        }
        if !right.extra_seconds.is_empty() {
            let extra_seconds = vec![0xFF; right.extra_seconds.len()];
            assert_thrown_away(&Sent { extra_seconds, ..right.clone() }.packet());
        }
    }
}

/// All second octets, each with as many octets as it tells of: bits 0 and 6 must be 0.
#[test]
fn bits_that_must_be_zero() {
    for right in all_counts() {
        assert_eq!(left(&right.packet(), End::Eop).fate, 19);
        for wrong in [128, 2, 128 + 2] {
            let second = right.second + wrong;
            assert_thrown_away(&Sent { second, ..right.clone() }.packet());
            // Nor is another octet awaited where bit 0 is set.
            for third in [0, 1, 0x9F] {
                let octets = Sent { second, ..right.clone() }.octets();
                assert_thrown_away(&sealed(&[&octets[..4], &[third], &octets[4..]].concat()));
            }
        }
    }
}

/// Of the old kind are those of 12 octets: of all second octets they may have only 00 and 01.
#[test]
fn packets_of_the_old_kind() {
    for t in [[0; 7], [1, 2, 3, 4, 5, 6, 7], LAST] {
        for second in 0..=255 {
            for first in [0x9F, 0xAF] {
                let old = Sent { second, first, t, ..sent(0, 0, 0) };
                let expected = if second < 2 { old.taken() } else { before() };
                assert_eq!(left(&old.packet(), End::Eop), expected, "{second:02X}");
            }
        }
    }
}

/// Exactly as long as told: any other length is wrong, also under a right CRC.
#[test]
fn the_length_is_exact() {
    for right in all_counts() {
        let octets = [right.octets(), vec![0; 30]].concat();
        let size = right.octets().len();
        for other in (2..octets.len()).filter(|other| *other != size) {
            assert_thrown_away(&sealed(&octets[..other]));
        }
        // Cut, or with more behind the CRC.
        let packet = right.packet();
        (2..packet.len()).for_each(|size| assert_thrown_away(&packet[..size]));
        for more in [&[0][..], &[0xFF], &[0, 0], &[0; 30]] {
            assert_thrown_away(&[&packet[..], more].concat());
        }
    }
}

/// The CRC covers all that stands before it.
#[test]
fn the_crc_covers_extra_octets() {
    for right in all_counts() {
        let packet = right.packet();
        for at in (0..packet.len()).filter(|at| *at != 1) {
            for bit in 0..8 {
                let mut wrong = packet.clone();
                wrong[at] ^= 1 << bit;
                assert_thrown_away(&wrong);
            }
        }
        // The CRC of less: of the first eleven, of all but the extra octets, of one octet less.
        let octets = right.octets();
        let less = [octets[..11].to_vec(), [&octets[..4], &right.t].concat(), octets[..octets.len() - 1].to_vec()];
        for crc in less.map(|part| long_crc(&part)) {
            let same = crc == long_crc(&octets);
            let packet = [&octets[..], &[crc]].concat();
            let expected = if same { right.taken() } else { before() };
            assert_eq!(left(&packet, End::Eop), expected, "{packet:02X?}");
        }
    }
}

/// All else is as before: the end, the address and the first octet.
#[test]
fn all_else_of_a_time_packet() {
    for right in all_counts() {
        assert_eq!(left(&right.packet(), End::Eep), before());
        for address in (0..=255).filter(|address| ![0x43, 0xFE].contains(address)) {
            assert_thrown_away(&Sent { address, ..right.clone() }.packet());
        }
        for first in (0..=255).filter(|first| ![0x9F, 0xAF].contains(first)) {
            assert_thrown_away(&Sent { first, ..right.clone() }.packet());
        }
    }
}

/// A value with extra octets waits like any other, and the wrap makes it ET.
#[test]
fn a_value_with_extra_octets_waits() {
    let mut stage = Stage::new();
    stage.unit.last_time_code = 63;
    stage.send_packet(&sent(0, 0, 0).packet());
    let later = Sent { first: 0xAF, t: LAST, extra_fraction: vec![0xFF; 7], ..sent(3, 7, 0) };
    assert_eq!(stage.send_packet(&later.packet()).fate, 19);
    assert_eq!((stage.unit.elapsed, stage.unit.waiting), (Time::default(), Some(later.time())));
    stage.unit.time_code(0);
    assert_eq!((stage.unit.elapsed, stage.unit.waiting), (Time { epoch: 0xAF, t: (1 << 56) - 1 }, None));
}

/// Document 01's receiver, as it was before the request.
fn left_by_the_old_receiver(packet: &[u8], end: End) -> Left {
    match *packet {
        [address @ (0x43 | 0xFE), TIME_NUMBER, first @ (0x9F | 0xAF), second @ (0 | 1), a, b, c, d, e, f, g, crc]
            if end == End::Eop && crc == long_crc(&packet[..11]) =>
        {
            Sent { address, first, second, t: [a, b, c, d, e, f, g], ..sent(0, 0, 0) }.taken()
        }
        _ => before(),
    }
}

/// Packets of the old kind have the fate and the time that they had. With extra octets the old receiver throws each away.
#[test]
fn the_old_receiver() {
    for (packet, now) in cases() {
        let then = left_by_the_old_receiver(&packet, End::Eop);
        assert_eq!(then, if packet.len() == 12 { now } else { before() }, "{packet:02X?}");
    }
}

/// Packets, and what they leave.
fn cases() -> Vec<(Vec<u8>, Left)> {
    let mut cases = Vec::new();
    for right in all_counts() {
        let mut add = |sent: Sent, taken: bool| {
            let expected = if taken { sent.taken() } else { before() };
            cases.push((sent.packet(), expected));
        };
        for octet in [0x00, 0x01, 0x7F, 0x80, 0xFF] {
            let extra_fraction = vec![octet; right.extra_fraction.len()];
            add(Sent { extra_fraction: extra_fraction.clone(), ..right.clone() }, true);
            add(Sent { t: LAST, extra_fraction: extra_fraction.clone(), first: 0xAF, ..right.clone() }, true);
            // Seconds that begin and end with zeros.
            add(Sent { t: [0, 0, 0, 7, 0, 0, 9], extra_fraction, address: 0xFE, ..right.clone() }, true);
        }
        for place in 0..right.extra_seconds.len() {
            let mut wrong = right.clone();
            wrong.extra_seconds[place] = 0xFF;
            add(wrong, false);
        }
        for bits in [128, 2] {
            add(Sent { second: right.second + bits, ..right.clone() }, false);
        }
        // Octets too many, with zeros for the time: also in front of all, and behind the CRC.
        let zeros = Sent { t: [0; 7], extra_fraction: vec![0; right.extra_fraction.len()], ..right.clone() };
        add(Sent { extra_fraction: [&zeros.extra_fraction[..], &[0]].concat(), ..zeros.clone() }, false);
        add(
            Sent { second: zeros.second + 128, extra_seconds: [&zeros.extra_seconds[..], &[0]].concat(), ..zeros },
            false,
        );
        let packet = right.packet();
        cases.push(([&packet[..], &[0x55]].concat(), before()));
        // One too few, and a CRC of the wrong octets.
        cases.push((sealed(&packet[..packet.len() - 2]), before()));
        cases.push(([&packet[..packet.len() - 1], &[!packet[packet.len() - 1]]].concat(), before()));
    }
    // Twelve octets that tell of more.
    for second in 2..=255 {
        cases.push((Sent { second, ..sent(0, 0, 0) }.packet(), before()));
    }
    cases
}

#[test]
fn what_is_taken_and_what_is_not() {
    for (packet, expected) in cases() {
        assert_eq!(left(&packet, End::Eop), expected, "{packet:02X?}");
    }
}

/// Each wrong rule differs in one of the cases.
#[test]
fn wrong_rules() {
    for (name, rule) in WRONG {
        let differs = cases()
            .into_iter()
            .any(|(packet, expected)| left(&taken_by(rule, &packet, TIME_NUMBER), End::Eop) != expected);
        assert!(differs, "{name}");
    }
}
