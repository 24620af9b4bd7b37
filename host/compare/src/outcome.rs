//! What can come of a packet, a Time-Code, ticks or a bad record, and what came of those that ran.
//!
//! The outcome of a packet is what stands in front of it, its protocol and its kind, as its bytes show them, with the fate and the status
//! that were printed. The kind of a time packet that has the unit's number is what its second preamble octet shows. A wrap of the
//! Time-Codes, where the unit was shown before it and behind it, has one more outcome: what it found, and what became of the time.
//! `of_bench` and `of_units` say from document 01, with requests 2, 3 and 12 of document 02, which there are; what a run reaches has to be
//! all of them, and no other.
use crate::preamble::{self, Preamble};
use std::collections::BTreeSet;
use std::fmt;
use stories::Flaw;

#[derive(Clone, Copy, Debug, PartialEq, Eq, PartialOrd, Ord)]
pub enum Outcome {
    Packet(Front, Protocol, Kind, u8, Option<u8>),
    TimeCode(u8),
    Ticks(u8),
    /// With the kind of the record, where the flaw goes with one, else 0.
    Bad(Flaw, u8),
    /// A wrap of the Time-Codes: the fraction it found, whether that was in the last second of all, and what became of ET.
    Wrap(Fraction, bool, Became),
}

/// A fraction of ET.
#[derive(Clone, Copy, Debug, PartialEq, Eq, PartialOrd, Ord)]
pub enum Fraction {
    Less,
    /// One tick less than a half.
    TickLess,
    Half,
    More,
}

/// What became of ET.
#[derive(Clone, Copy, Debug, PartialEq, Eq, PartialOrd, Ord)]
pub enum Became {
    /// The value that waited.
    Waiting,
    /// Its own second, with no fraction, or the next one.
    Same,
    Next,
    Other,
}

/// What stands in front of the address and the protocol (request 2 of document 02).
#[derive(Clone, Copy, Debug, PartialEq, Eq, PartialOrd, Ord)]
pub enum Front {
    Nothing,
    /// One zero, with FE behind it: it is ignored before plug-and-play, and only there.
    Zero,
    /// Before FE 03, and not ignored.
    TwoZeros,
    AnotherByte,
    /// One zero before plug-and-play to another address than FE, one that is no protocol's number: also not ignored.
    AnotherAddress,
}

#[derive(Clone, Copy, Debug, PartialEq, Eq, PartialOrd, Ord)]
pub enum Protocol {
    /// Under two bytes.
    None,
    Extended,
    Rmap,
    PlugAndPlay,
    /// A number that the time protocol may have: F0 to FE.
    Time,
    Unknown,
}

#[derive(Clone, Copy, Debug, PartialEq, Eq, PartialOrd, Ord)]
pub enum Kind {
    /// No instruction is there, or the protocol has none.
    None,
    Reply,
    UnusedType,
    /// A command with this code, bits 5 to 2 of the instruction.
    Code(u8),
    /// A time packet that was taken or thrown away.
    Time(Preamble),
}

/// Fate and status, the second and the third word of the line that is printed of a call.
fn told(line: &str) -> Option<(u8, Option<u8>)> {
    let mut words = line.split(' ').skip(1);
    let fate = words.next()?.parse().ok()?;
    match words.next()? {
        "-" => Some((fate, None)),
        digits => Some((fate, Some(u8::from_str_radix(digits, 16).ok()?))),
    }
}

impl Outcome {
    pub fn packet(packet: &[u8], line: &str) -> Option<Self> {
        let (front, behind) = behind_front(packet);
        let protocol = protocol(behind);
        told(line).map(|(fate, status)| {
            let kind = match (front, fate) {
                (Front::Nothing, 16 | 19) => Kind::Time(Preamble::of(packet, fate == 19)),
                _ => kind(front, behind),
            };
            Outcome::Packet(front, protocol, kind, fate, status)
        })
    }

    pub fn time_code(line: &str) -> Option<Self> {
        told(line).map(|(fate, _)| Outcome::TimeCode(fate))
    }

    pub fn ticks(line: &str) -> Option<Self> {
        told(line).map(|(fate, _)| Outcome::Ticks(fate))
    }

    pub fn bad(flaw: Flaw, record: &[u8], line: &str) -> Option<Self> {
        line.strip_prefix("bad ")?;
        let kind = match flaw {
            Flaw::Mark | Flaw::Kind | Flaw::CutHead => 0,
            Flaw::Link | Flaw::End | Flaw::Length | Flaw::CutBody => *record.get(2)?,
        };
        Some(Outcome::Bad(flaw, kind))
    }

    /// From the clock of a unit, as shown before a Time-Code and behind it: the last Time-Code, ET and what waits, each with its epoch.
    pub fn wrap(before: &str, behind: &str) -> Option<Self> {
        let (elapsed, rest) = before.strip_prefix(" clock 3f ")?.split_once(' ')?;
        let (epoch, waiting) = rest.split_once(' ')?;
        let now = behind.strip_prefix(" clock 00 ")?.strip_suffix(" none");
        let elapsed = u64::from_str_radix(elapsed, 16).ok()?;
        let second = elapsed >> 24;
        let fraction = match elapsed & 0xFF_FFFF {
            ..0x7F_FFFF => Fraction::Less,
            0x7F_FFFF => Fraction::TickLess,
            0x80_0000 => Fraction::Half,
            _ => Fraction::More,
        };
        let full = |second: u64| format!("{:014x} {epoch}", (second % (1 << 32)) << 24);
        let became = match (waiting, now) {
            ("none", Some(now)) if now == full(second) => Became::Same,
            ("none", Some(now)) if now == full(second + 1) => Became::Next,
            (value, Some(now)) if now == value => Became::Waiting,
            _ => Became::Other,
        };
        Some(Outcome::Wrap(fraction, second == 0xFFFF_FFFF, became))
    }
}

/// What stands in front of a packet, and what follows.
fn behind_front(packet: &[u8]) -> (Front, &[u8]) {
    match packet {
        [0, rest @ ..] if rest.starts_with(&[0xFE]) => (Front::Zero, rest),
        [0, 0, rest @ ..] if rest.starts_with(&[0xFE, 3]) => (Front::TwoZeros, rest),
        [_, rest @ ..] if rest.starts_with(&[0xFE, 3]) => (Front::AnotherByte, rest),
        [0, rest @ ..] if rest.get(1) == Some(&3) && protocol(packet) == Protocol::Unknown => {
            (Front::AnotherAddress, rest)
        }
        _ => (Front::Nothing, packet),
    }
}

fn protocol(packet: &[u8]) -> Protocol {
    match packet {
        [] | [_] => Protocol::None,
        [_, 0x00, ..] => Protocol::Extended,
        [_, 0x01, ..] => Protocol::Rmap,
        [_, 0x03, ..] => Protocol::PlugAndPlay,
        [_, 0xF0..=0xFE, ..] => Protocol::Time,
        _ => Protocol::Unknown,
    }
}

fn kind(front: Front, behind: &[u8]) -> Kind {
    match behind {
        [_, _, instruction, ..] if COMMANDS.contains(&(front, protocol(behind))) => match instruction >> 6 {
            0 => Kind::Reply,
            1 => Kind::Code(instruction >> 2 & 15),
            _ => Kind::UnusedType,
        },
        _ => Kind::None,
    }
}

/// What is read as a command or a reply.
const COMMANDS: [(Front, Protocol); 3] =
    [(Front::Nothing, Protocol::Rmap), (Front::Nothing, Protocol::PlugAndPlay), (Front::Zero, Protocol::PlugAndPlay)];

/// What is not, and the fates that it can have in any unit, save those of time packets with its number. Fate 2, a link that the unit does
/// not have, is one of every packet's.
const NO_COMMANDS: [(Front, Protocol, &[u8]); 12] = [
    (Front::Nothing, Protocol::None, &[11]),
    (Front::Nothing, Protocol::Extended, &[13]),
    (Front::Nothing, Protocol::Unknown, &[12]),
    (Front::Nothing, Protocol::Time, &[12]),
    // The second byte stays the protocol. Where it is FE, that is never the bench's time number.
    (Front::Zero, Protocol::None, &[12]),
    (Front::Zero, Protocol::Extended, &[12]),
    (Front::Zero, Protocol::Unknown, &[12]),
    (Front::Zero, Protocol::Time, &[12]),
    (Front::Zero, Protocol::Rmap, &[12]),
    (Front::TwoZeros, Protocol::PlugAndPlay, &[13]),
    (Front::AnotherByte, Protocol::PlugAndPlay, &[12]),
    (Front::AnotherAddress, Protocol::PlugAndPlay, &[12]),
];

/// All packets, by what their bytes show.
fn packets() -> impl Iterator<Item = (Front, Protocol, Kind)> {
    let kinds = || [Kind::None, Kind::Reply, Kind::UnusedType].into_iter().chain((0..16).map(Kind::Code));
    let commands =
        COMMANDS.into_iter().flat_map(move |(front, protocol)| kinds().map(move |kind| (front, protocol, kind)));
    NO_COMMANDS.into_iter().map(|(front, protocol, _)| (front, protocol, Kind::None)).chain(commands)
}

/// What packets come to, whatever the unit: the fates without a status, then those with one.
fn of_packets() -> BTreeSet<Outcome> {
    let mut all: BTreeSet<_> =
        packets().map(|(front, protocol, kind)| Outcome::Packet(front, protocol, kind, 2, None)).collect();
    for (front, protocol, fates) in NO_COMMANDS {
        all.extend(fates.iter().map(|fate| Outcome::Packet(front, protocol, Kind::None, *fate, None)));
    }
    let time = |preamble, fate| Outcome::Packet(Front::Nothing, Protocol::Time, Kind::Time(preamble), fate, None);
    all.extend(preamble::taken().map(|preamble| time(preamble, 19)));
    all.extend(preamble::THROWN_AWAY.map(|preamble| time(preamble, 16)));
    for (front, protocol) in COMMANDS {
        let outcome = |kind, fate, status| Outcome::Packet(front, protocol, kind, fate, status);
        all.extend([outcome(Kind::None, 11, None), outcome(Kind::Reply, 14, None)]);
        all.extend([11, 15].map(|fate| outcome(Kind::UnusedType, fate, None)));
        all.extend([17, 20].map(|fate| outcome(Kind::UnusedType, fate, Some(2))));
        for code in 0..16 {
            all.extend([11, 15].map(|fate| outcome(Kind::Code(code), fate, None)));
            // What stands behind the zero is addressed to FE.
            let statuses = statuses(protocol, code).iter().filter(|status| front == Front::Nothing || **status != 12);
            all.extend(statuses.map(|status| {
                let fate = match (wants_reply(code), status) {
                    (true, _) => 20,
                    (false, 0) => 18,
                    (false, _) => 17,
                };
                outcome(Kind::Code(code), fate, Some(*status))
            }));
        }
    }
    all
}

fn wants_reply(code: u8) -> bool {
    code & 0b0010 != 0
}

/// All outcomes at the bench. Its unit can always be used, its one window is all of memory with both rights, and only a read
/// from a single address can ask for more than the reply buffer holds.
pub fn of_bench() -> BTreeSet<Outcome> {
    let mut all = of_packets();
    all.insert(Outcome::Packet(Front::Nothing, Protocol::Rmap, Kind::Code(0b0010), 3, None));
    all.extend([Outcome::TimeCode(0), Outcome::Ticks(0)]);
    all.extend([Flaw::Mark, Flaw::Kind, Flaw::CutHead].map(|flaw| Outcome::Bad(flaw, 0)));
    // A packet may have any link.
    all.extend([2, 3].map(|kind| Outcome::Bad(Flaw::Link, kind)));
    for flaw in [Flaw::End, Flaw::Length, Flaw::CutBody] {
        all.extend([1, 2, 3].map(|kind| Outcome::Bad(flaw, kind)));
    }
    all
}

/// All outcomes of units of every kind: any call may find its unit unusable, any reply its buffer too short, and FE may be the time number.
/// What comes of a wrap shows here alone, since the bench does not print its time.
pub fn of_units() -> BTreeSet<Outcome> {
    let mut all = of_packets();
    all.extend([0, 1].map(Outcome::TimeCode));
    all.extend([0, 1].map(Outcome::Ticks));
    for (front, protocol, kind) in packets() {
        let outcome = |fate| Outcome::Packet(front, protocol, kind, fate, None);
        all.insert(outcome(1));
        let may_reply = match kind {
            Kind::None | Kind::Reply | Kind::Time(_) => false,
            Kind::UnusedType => true,
            Kind::Code(code) => wants_reply(code),
        };
        if may_reply {
            all.insert(outcome(3));
        }
        // With FE behind a byte that is not ignored.
        if matches!(front, Front::Zero | Front::AnotherByte) && !COMMANDS.contains(&(front, protocol)) {
            all.insert(outcome(16));
        }
    }
    for last in [false, true] {
        for (fraction, became) in WRAPS {
            all.extend([became, Became::Waiting].map(|became| Outcome::Wrap(fraction, last, became)));
        }
    }
    all
}

/// What becomes of ET at a wrap where no value waits (document 01, 'Time', as changed by request 3 of document 02).
const WRAPS: [(Fraction, Became); 4] = [
    (Fraction::Less, Became::Same),
    (Fraction::TickLess, Became::Same),
    (Fraction::Half, Became::Next),
    (Fraction::More, Became::Next),
];

/// The statuses of a command (document 01, 'Reading a packet' and 'Fields').
fn statuses(protocol: Protocol, code: u8) -> &'static [u8] {
    match (protocol, code) {
        // A read wants no data, so that none can be missing or have a wrong CRC.
        (Protocol::Rmap, 0b0010 | 0b0011) => &[0, 3, 12, 10, 7, 6],
        (Protocol::Rmap, 0b0111) => &[0, 3, 12, 11, 10, 7, 5, 6, 4],
        (Protocol::Rmap, 0b1000..=0b1011) => &[0, 3, 12, 10, 7, 5, 6, 4],
        (Protocol::Rmap, 0b1100..=0b1111) => &[0, 3, 12, 10, 9, 7, 5, 6, 4],
        (Protocol::PlugAndPlay, 0b0011) => &[0, 3, 12, 10, 0xF1, 7, 6],
        (Protocol::PlugAndPlay, 0b0111) => &[0, 3, 12, 10, 0xF1, 0xF2, 0xF0, 7, 5, 6, 4],
        (Protocol::PlugAndPlay, 0b1111) => &[0, 3, 12, 10, 0xF1, 0xF2, 0xF3, 0xF0, 7, 5, 6, 4],
        // Codes that RMAP uses and fields do not take.
        (Protocol::PlugAndPlay, 0b0010 | 0b1000..=0b1110) => &[3, 12, 10],
        _ => &[2],
    }
}

impl fmt::Display for Outcome {
    fn fmt(&self, f: &mut fmt::Formatter<'_>) -> fmt::Result {
        match self {
            Outcome::Packet(front, protocol, kind, fate, status) => {
                if *front != Front::Nothing {
                    write!(f, "{front:?} before ")?;
                }
                write!(f, "{protocol:?}, ")?;
                match kind {
                    Kind::Code(code) => write!(f, "code {code:04b}")?,
                    Kind::Time(preamble) => write!(f, "{preamble:?}")?,
                    other => write!(f, "{other:?}")?,
                }
                write!(f, ", fate {fate}")?;
                status.map_or(Ok(()), |status| write!(f, ", status {status:02x}"))
            }
            other => write!(f, "{other:?}"),
        }
    }
}

#[cfg(test)]
mod tests {
    use super::*;

    /// Counted by hand, code by code. RMAP: no instruction 2, replies 2, unused types 5, five unused codes with 4 each, the reads 9
    /// each, read-modify-write 12, four writes with 11 each, four verified writes with 12 each: 151. Plug-and-play: 2, 2, 5, 20, reads
    /// 6 and 10, read-modify-write 14, the seven other writes with 6 each, the one that fields take 15: 116. Behind the zero the same less
    /// status 12, which each of the eleven used codes has: 105. No protocol, extended, unknown and time 2 each. Fronts that are not
    /// ignored, with 2 each: the zero before no protocol and before four others, two zeros, another byte, another address. Time packets
    /// with the unit's number: taken with four counts of extra seconds, eight of extra fraction and two mission bits, and thrown away for
    /// no second octet, two bits, two lengths, three extra octets of seconds, and another flaw with extra octets or without them.
    const PACKETS: usize = 151 + 116 + 105 + 8 + 8 * 2 + 4 * 8 * 2 + 10;

    /// A reply too long, a Time-Code, ticks; three flaws of any record, one of two kinds, and three of each kind.
    #[test]
    fn of_bench_as_counted_by_hand() {
        assert_eq!(of_bench().len(), PACKETS + 1 + 2 + 3 + 2 + 9);
    }

    /// Unusable: four without an instruction and eight with a front that is not ignored; RMAP, plug-and-play and that behind the zero, each
    /// three without a code and sixteen with one. A reply too long: for each of the three, an unused type and the eight codes that want one.
    /// Time number FE: the zero before no protocol and before four others, and another byte. Time-Code and ticks, taken or not. Wraps: four
    /// fractions, in the last second or another, with a value that waits or none.
    #[test]
    fn of_units_as_counted_by_hand() {
        assert_eq!(of_units().len(), PACKETS + 4 + 8 + 3 * 19 + 3 * 9 + 6 + 4 + 4 * 2 * 2);
    }

    #[test]
    fn a_line_is_read() {
        let read = |packet: &[u8]| match Outcome::packet(packet, "7 20 f1 13 00") {
            Some(Outcome::Packet(front, protocol, kind, 20, Some(0xF1))) => (front, protocol, kind),
            other => panic!("{other:?}"),
        };
        use {Front::*, Kind::Code, Protocol::*};
        let cases: [(&[u8], Front, Protocol, Kind); 22] = [
            (&[0xFE, 3, 0x4C, 0], Nothing, PlugAndPlay, Code(3)),
            (&[0x43, 1, 0x4C, 0], Nothing, Rmap, Code(3)),
            (&[0, 0xFE, 3, 0x4C, 0], Zero, PlugAndPlay, Code(3)),
            (&[0, 0xFE, 3, 0x0C], Zero, PlugAndPlay, Kind::Reply),
            (&[0, 0xFE, 3, 0x8C], Zero, PlugAndPlay, Kind::UnusedType),
            (&[0, 0xFE, 3], Zero, PlugAndPlay, Kind::None),
            (&[0, 0xFE], Zero, Protocol::None, Kind::None),
            (&[0, 0xFE, 0, 0x4C], Zero, Extended, Kind::None),
            (&[0, 0xFE, 1, 0x4C], Zero, Rmap, Kind::None),
            (&[0, 0xFE, 2, 0x4C], Zero, Unknown, Kind::None),
            (&[0, 0xFE, 0xF0, 0x9F], Zero, Time, Kind::None),
            (&[0, 0, 0xFE, 3, 0x4C], TwoZeros, PlugAndPlay, Kind::None),
            (&[0, 0, 0xFE, 1, 0x4C], Nothing, Extended, Kind::None),
            (&[1, 0xFE, 3, 0x4C], AnotherByte, PlugAndPlay, Kind::None),
            (&[1, 0xFE, 0x9F, 1], Nothing, Time, Kind::None),
            (&[0, 0x43, 3, 0x4C], AnotherAddress, PlugAndPlay, Kind::None),
            (&[1, 0x43, 3, 0x4C], Nothing, Unknown, Kind::None),
            // The second byte is a protocol's number.
            (&[0, 0, 3, 0x4C], Nothing, Extended, Kind::None),
            (&[0, 1, 3, 0x4C], Nothing, Rmap, Kind::Reply),
            (&[0, 3, 3, 0x4C], Nothing, PlugAndPlay, Kind::Reply),
            (&[0, 0xFD, 3, 0x4C], Nothing, Time, Kind::None),
            (&[0], Nothing, Protocol::None, Kind::None),
        ];
        for (packet, front, protocol, kind) in cases {
            assert_eq!(read(packet), (front, protocol, kind), "{packet:02X?}");
        }
        let short = Outcome::packet(&[0xFE], "packet: 11 - 0 buffer 00:");
        assert_eq!(short, Some(Outcome::Packet(Nothing, Protocol::None, Kind::None, 11, Option::None)));
        assert_eq!(Outcome::packet(&[], "bad 7"), Option::None);
        // Only a packet that the unit reads as a time packet has a preamble; 00 FE has none where FE is the time number.
        let time = |packet: &[u8], line: &str| match Outcome::packet(packet, line) {
            Some(Outcome::Packet(_, _, kind, ..)) => kind,
            other => panic!("{other:?}"),
        };
        assert_eq!(time(&[0x43, 0xF0, 0x9F, 0x80], "7 16 - 0"), Kind::Time(Preamble::Bit(0)));
        assert_eq!(time(&[0x43, 0xF0, 0x9F, 0x80], "7 12 - 0"), Kind::None);
        assert_eq!(time(&[0x43, 0xF0, 0x9F, 0x80], "7 2 - 0"), Kind::None);
        assert_eq!(time(&[0x00, 0xFE, 0x9F, 0x80], "7 16 - 0"), Kind::None);
    }

    #[test]
    fn an_outcome_is_told() {
        let text = |packet: &[u8], line| Outcome::packet(packet, line).expect("it is a packet's").to_string();
        assert_eq!(text(&[0xFE, 3, 0x4C], "7 11 - 0"), "PlugAndPlay, code 0011, fate 11");
        assert_eq!(
            text(&[0, 0xFE, 3, 0x4C], "7 20 f1 13 00"),
            "Zero before PlugAndPlay, code 0011, fate 20, status f1"
        );
        assert_eq!(text(&[0, 0xFE, 1, 0x4C], "7 12 - 0"), "Zero before Rmap, None, fate 12");
        assert_eq!(
            text(&[0x43, 0xF0, 0x9F, 0x05, 0, 0, 0, 7, 0, 0, 0, 0xFF, 0xA7], "7 19 - 0"),
            "Time, Taken { seconds: 0, fraction: 1, mode: 1 }, fate 19"
        );
    }

    #[test]
    fn a_wrap_is_read() {
        use {Became::*, Fraction::*};
        let wrap = |before: &str, behind: &str| Outcome::wrap(&format!(" clock {before}"), &format!(" clock {behind}"));
        let cases = [
            ("3f 00000007800000 9f none", "00 00000008000000 9f none", Half, false, Next),
            ("3f 000000077fffff 9f none", "00 00000007000000 9f none", TickLess, false, Same),
            ("3f 000000077ffffe 9f none", "00 00000008000000 9f none", Less, false, Next),
            ("3f ffffffff800001 9f none", "00 00000000000000 9f none", More, true, Next),
            ("3f ffffffff000000 af none", "00 ffffffff000000 af none", Less, true, Same),
            ("3f 00000007800000 9f 00000009000001 af", "00 00000009000001 af none", Half, false, Waiting),
            // The fraction or the epoch is another, or the value still waits.
            ("3f 00000007000001 9f none", "00 00000007000001 9f none", Less, false, Other),
            ("3f 00000007000001 9f none", "00 00000007000000 af none", Less, false, Other),
            ("3f 00000007000001 9f 00000009000001 af", "00 00000007000000 9f 00000009000001 af", Less, false, Other),
        ];
        for (before, behind, fraction, last, became) in cases {
            assert_eq!(wrap(before, behind), Some(Outcome::Wrap(fraction, last, became)), "{before}");
        }
        assert_eq!(wrap("3e 00000007800000 9f none", "00 00000007800000 9f none"), None);
        assert_eq!(wrap("3f 00000007800000 9f none", "3f 00000007800000 9f none"), None);
    }
}
