//! What a time packet shows by its second preamble octet, and by the octets that this tells of (document 01, 'Time', with request 12 of
//! document 02).

/// The first thing of these that is wrong, or the counts.
#[derive(Clone, Copy, Debug, PartialEq, Eq, PartialOrd, Ord)]
pub enum Preamble {
    /// The packet ends before it.
    Missing,
    /// This bit is set and must not be.
    Bit(u8),
    /// There are fewer octets than it tells of, or more.
    Short,
    Long,
    /// An extra octet of seconds is not zero: the first such, from 0.
    Seconds(u8),
    /// It is right, and the packet was thrown away for something else: without extra octets, or with some.
    Elsewhere {
        extra: bool,
    },
    /// The packet was taken, with so many extra octets and this mission bit.
    Taken {
        seconds: u8,
        fraction: u8,
        mode: u8,
    },
}

/// All with which a packet is thrown away.
pub const THROWN_AWAY: [Preamble; 10] = [
    Preamble::Missing,
    Preamble::Bit(0),
    Preamble::Bit(6),
    Preamble::Short,
    Preamble::Long,
    Preamble::Seconds(0),
    Preamble::Seconds(1),
    Preamble::Seconds(2),
    Preamble::Elsewhere { extra: false },
    Preamble::Elsewhere { extra: true },
];

/// All with which one is taken.
pub fn taken() -> impl Iterator<Item = Preamble> {
    let of_seconds = |seconds| (0..8).flat_map(move |fraction| of_both(seconds, fraction));
    (0..4).flat_map(of_seconds)
}

fn of_both(seconds: u8, fraction: u8) -> [Preamble; 2] {
    [0, 1].map(|mode| Preamble::Taken { seconds, fraction, mode })
}

impl Preamble {
    pub fn of(packet: &[u8], taken: bool) -> Self {
        let Some((&[_, _, _, second], octets)) = packet.split_first_chunk() else { return Preamble::Missing };
        let (seconds, fraction, mode) = (second >> 5 & 3, second >> 2 & 7, second & 1);
        let extra = usize::from(seconds + fraction);
        let not_zero = octets.iter().take(seconds.into()).position(|octet| *octet != 0);
        match (packet.len().checked_sub(12 + extra), not_zero) {
            _ if second & 0x80 != 0 => Preamble::Bit(0),
            _ if second & 0x02 != 0 => Preamble::Bit(6),
            (None, _) => Preamble::Short,
            (Some(1..), _) => Preamble::Long,
            (_, Some(at)) => Preamble::Seconds(at as u8),
            _ if taken => Preamble::Taken { seconds, fraction, mode },
            _ => Preamble::Elsewhere { extra: extra > 0 },
        }
    }
}

#[cfg(test)]
mod tests {
    use super::{Preamble::*, *};

    #[test]
    fn as_counted_by_hand() {
        assert_eq!(taken().count(), 4 * 8 * 2);
    }

    /// A packet with this second octet, which the others follow.
    fn shown(second: u8, octets: &[u8]) -> [Preamble; 2] {
        let packet = [&[0x43, 0xF0, 0x9F, second], octets].concat();
        [false, true].map(|taken| Preamble::of(&packet, taken))
    }

    #[test]
    fn a_packet_is_read() {
        assert_eq!(Preamble::of(&[0x43, 0xF0, 0x9F], false), Missing);
        let flaws: [(u8, &[u8], Preamble); 15] = [
            // As many octets as told, and the CRC.
            (0x80, &[0; 8], Bit(0)),
            (0x82, &[0; 8], Bit(0)),
            (0x02, &[0; 8], Bit(6)),
            (0x03, &[0; 3], Bit(6)),
            (0x00, &[], Short),
            (0x00, &[0; 7], Short),
            (0x00, &[0; 9], Long),
            (0x04, &[0; 8], Short),
            (0x20, &[9; 8], Short),
            (0x7D, &[0; 17], Short),
            (0x7D, &[0; 19], Long),
            (0x20, &[1, 0, 0, 0, 0, 0, 0, 0, 0], Seconds(0)),
            (0x60, &[1, 1, 1, 0, 0, 0, 0, 0, 0, 0, 0], Seconds(0)),
            (0x41, &[0, 1, 1, 0, 0, 0, 0, 0, 0, 0], Seconds(1)),
            (0x60, &[0, 0, 1, 0, 0, 0, 0, 0, 0, 0, 0], Seconds(2)),
        ];
        for (second, octets, preamble) in flaws {
            assert_eq!(shown(second, octets), [preamble; 2], "{second:02X} {octets:02X?}");
        }
        let right = |extra, seconds, fraction, mode| [Elsewhere { extra }, Taken { seconds, fraction, mode }];
        assert_eq!(shown(0x00, &[9; 8]), right(false, 0, 0, 0));
        assert_eq!(shown(0x01, &[9; 8]), right(false, 0, 0, 1));
        assert_eq!(shown(0x05, &[9; 9]), right(true, 0, 1, 1));
        assert_eq!(shown(0x20, &[0; 9]), right(true, 1, 0, 0));
        assert_eq!(shown(0x7D, &[0; 18]), right(true, 3, 7, 1));
    }
}
