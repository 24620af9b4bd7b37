//! What a CCSDS packet shows by its bytes and by its end (request 11 of document 02).
use std::cmp::Ordering;

/// The first thing of these that is wrong, or, where nothing is, to whom it goes and the size of its space packet.
#[derive(Clone, Copy, Debug, PartialEq, Eq, PartialOrd, Ord)]
pub enum Ccsds {
    /// It ends before the header of the space packet does.
    Short,
    /// It goes to another address than the unit's and FE.
    Address,
    Reserved,
    Eep,
    Version,
    /// The length field tells of more bytes than came, or of fewer.
    More,
    Fewer,
    Right {
        to_all: bool,
        size: Size,
    },
}

#[derive(Clone, Copy, Debug, PartialEq, Eq, PartialOrd, Ord)]
pub enum Size {
    /// Seven bytes.
    Shortest,
    Between,
    /// 65,542 bytes.
    Longest,
}

/// All with which a packet is thrown away.
pub const THROWN_AWAY: [Ccsds; 7] =
    [Ccsds::Short, Ccsds::Address, Ccsds::Reserved, Ccsds::Eep, Ccsds::Version, Ccsds::More, Ccsds::Fewer];

/// Both with which one of this size is taken.
pub fn taken(size: Size) -> [Ccsds; 2] {
    [false, true].map(|to_all| Ccsds::Right { to_all, size })
}

impl Ccsds {
    /// Of a packet to a unit with the address 43.
    pub fn of(packet: &[u8], eep: bool) -> Self {
        let Some((&[address, _, reserved, _, first, _, _, _, high, low], data)) = packet.split_first_chunk() else {
            return Ccsds::Short;
        };
        // Of the seven bytes that are added to the length field, six are the header.
        let told = usize::from(u16::from_be_bytes([high, low])) + 1;
        match told.cmp(&data.len()) {
            _ if ![0x43, 0xFE].contains(&address) => Ccsds::Address,
            _ if reserved != 0 => Ccsds::Reserved,
            _ if eep => Ccsds::Eep,
            _ if first >> 5 != 0 => Ccsds::Version,
            Ordering::Greater => Ccsds::More,
            Ordering::Less => Ccsds::Fewer,
            Ordering::Equal => {
                let size = match told {
                    1 => Size::Shortest,
                    0x1_0000 => Size::Longest,
                    _ => Size::Between,
                };
                Ccsds::Right { to_all: address == 0xFE, size }
            }
        }
    }
}

#[cfg(test)]
mod tests {
    use super::{Ccsds::*, Size::*, *};

    #[test]
    fn a_packet_is_read() {
        let front = [0x43, 2, 0, 0x5A, 0x1F, 9, 9, 9];
        let of = |at: usize, byte: u8, eep: bool, field: u16, data: usize| {
            let mut packet = [&front[..], &field.to_be_bytes()].concat();
            packet[at] = byte;
            packet.resize(10 + data, 0);
            Ccsds::of(&packet, eep)
        };
        let right = |to_all, size| Right { to_all, size };
        assert_eq!(of(0, 0x43, false, 0, 1), right(false, Shortest));
        assert_eq!(of(0, 0xFE, false, 0, 1), right(true, Shortest));
        assert_eq!(of(3, 0xFF, false, 1, 2), right(false, Between));
        assert_eq!(of(0, 0xFE, false, 0x0100, 257), right(true, Between));
        assert_eq!(of(0, 0xFE, false, 0xFFFE, 65_535), right(true, Between));
        assert_eq!(of(0, 0x43, false, 0xFFFF, 65_536), right(false, Longest));
        // Each flaw goes before those behind it.
        assert_eq!(of(0, 0xFF, true, 9, 1), Address);
        assert_eq!(of(2, 0x80, true, 9, 1), Reserved);
        assert_eq!(of(4, 0x20, true, 9, 1), Eep);
        assert_eq!(of(4, 0x20, false, 9, 1), Version);
        assert_eq!(of(4, 0x00, false, 1, 1), More);
        assert_eq!(of(4, 0x00, false, 0xFFFF, 0), More);
        assert_eq!(of(4, 0x00, false, 0, 2), Fewer);
        assert_eq!(of(4, 0x00, false, 0, 65_537), Fewer);
        assert_eq!(of(4, 0x00, false, 0, 0), More);
        assert_eq!(Ccsds::of(&[0xFF, 2], true), Short);
        assert_eq!(Ccsds::of(&[0x43, 2, 0, 0x5A, 0, 0, 0, 0, 0], false), Short);
    }
}
