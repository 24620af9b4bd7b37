//! CCSDS packets, received and sent (request 11 of document 02; ECSS-E-ST-50-53C).

use crate::answer::{End, refusal};
use crate::unit::{ANY_ADDRESS, Unit};

pub(crate) const CCSDS: u8 = 0x02;

/// Logical address, protocol, the reserved byte and the user application byte.
const FRONT_SIZE: usize = 4;

/// What a CCSDS packet brings to its target.
#[derive(Clone, Copy, Debug, PartialEq, Eq)]
pub struct Carried<'a> {
    pub application: u8,
    /// Where it was received, a part of the packet.
    pub space_packet: &'a [u8],
}

/// Whether the bytes are one whole space packet. Its header is six bytes: the version is the top
/// three bits of the first, the length field the last two.
fn is_space_packet(bytes: &[u8]) -> bool {
    match *bytes {
        [first, _, _, _, high, low, ..] => {
            first >> 5 == 0 && usize::from(u16::from_be_bytes([high, low])) + 7 == bytes.len()
        }
        _ => false,
    }
}

impl Unit {
    /// What a packet of protocol 02 carries, or nothing if it is thrown away.
    pub(crate) fn take_ccsds<'a>(&self, packet: &'a [u8], end: End) -> Option<Carried<'a>> {
        let &[address, _, reserved, application, ref space_packet @ ..] = packet else {
            return None;
        };
        let right = [self.logical_address, ANY_ADDRESS].contains(&address)
            && reserved == 0
            && end == End::Eop
            && is_space_packet(space_packet);
        right.then_some(Carried { application, space_packet })
    }
}

/// Writes the packet that brings this to `address` to the front of `output`, and gives its size; or
/// gives the number of its refusal, and writes nothing.
pub fn send_ccsds(address: u8, carried: Carried, output: &mut [u8]) -> Result<usize, u8> {
    let size = FRONT_SIZE + carried.space_packet.len();
    if !is_space_packet(carried.space_packet) {
        return Err(refusal::WRONG_SPACE_PACKET);
    }
    if size > output.len() {
        return Err(refusal::OUTPUT_TOO_SHORT);
    }
    let (front, space_packet) = output[..size].split_at_mut(FRONT_SIZE);
    front.copy_from_slice(&[address, CCSDS, 0, carried.application]);
    space_packet.copy_from_slice(carried.space_packet);
    Ok(size)
}
