//! Commands as RMAP and plug-and-play share them, and their replies (document 01, Reading a
//! packet; 001, 5.3 to 5.5).

use crate::answer::{End, fate, status};
use crate::crc::crc;
use crate::instruction::{Instruction, Kind};

/// A reply path: twelve bytes with zeros first, and how many of the last ones are the path.
#[derive(Clone, Copy, Debug, Default, PartialEq, Eq)]
pub struct Path {
    pub bytes: [u8; 12],
    pub count: u8,
}

impl Path {
    /// The path a reply address of at most twelve bytes names: leading zeros are padding, save
    /// that one stays if there is nothing else (document 01, Reply).
    pub fn of(reply_address: &[u8]) -> Path {
        let size = reply_address.len();
        let mut bytes = [0; 12];
        bytes[12 - size..].copy_from_slice(reply_address);
        let count = match reply_address.iter().position(|&byte| byte != 0) {
            Some(padding) => size - padding,
            None => size.min(1),
        };
        Path { bytes, count: count as u8 }
    }

    /// The bytes that go out in front of a reply.
    pub fn sent(&self) -> &[u8] {
        &self.bytes[12 - usize::from(self.count)..]
    }
}

/// A command whose header is complete and whose header CRC is right.
#[derive(Clone, Debug, PartialEq, Eq)]
pub struct Command<'a> {
    pub target: u8,
    pub protocol: u8,
    pub instruction: Instruction,
    pub key: u8,
    pub path: Path,
    pub initiator: u8,
    pub transaction: [u8; 2],
    pub extended_address: u8,
    pub address: u32,
    pub length: u32,
    /// All k bytes after the header.
    pub rest: &'a [u8],
}

impl<'a> Command<'a> {
    /// Reads a packet of protocol 01 or 03, or gives the fate 11, 14 or 15 that ends it here.
    pub fn read(packet: &'a [u8]) -> Result<Command<'a>, u8> {
        let &[target, protocol, instruction, ..] = packet else {
            return Err(fate::INCOMPLETE);
        };
        let instruction = Instruction(instruction);
        if instruction.is_reply() {
            return Err(fate::IS_A_REPLY);
        }
        let Some((header, rest)) = packet.split_at_checked(instruction.header_size()) else {
            return Err(fate::INCOMPLETE);
        };
        if crc(header) != 0 {
            return Err(fate::HEADER_CRC);
        }
        let (reply_address, tail) = header[4..].split_at(instruction.reply_address_size());
        Ok(Command {
            target,
            protocol,
            instruction,
            key: header[3],
            path: Path::of(reply_address),
            initiator: tail[0],
            transaction: [tail[1], tail[2]],
            extended_address: tail[3],
            address: u32::from_be_bytes([tail[4], tail[5], tail[6], tail[7]]),
            length: u32::from_be_bytes([0, tail[8], tail[9], tail[10]]),
            rest,
        })
    }

    /// Statuses 2, 3 and 12, the first that RMAP and plug-and-play look for, or 0.
    pub(crate) fn header_status(&self, key: u8, addresses: [u8; 2]) -> u8 {
        if !self.instruction.is_command() || self.instruction.kind() == Kind::Unused {
            status::UNUSED
        } else if self.key != key {
            status::KEY
        } else if !addresses.contains(&self.target) {
            status::LOGICAL_ADDRESS
        } else {
            status::OBEYED
        }
    }

    /// Statuses 7, 5, 6 and 4, the last that RMAP and plug-and-play look for, or 0.
    pub(crate) fn data_status(&self, end: End) -> u8 {
        let wanted = match self.instruction.kind() {
            Kind::Write | Kind::Rmw => self.length as usize + 1,
            Kind::Read | Kind::Unused => 0,
        };
        if end == End::Eep {
            status::EEP
        } else if self.rest.len() < wanted {
            status::EARLY_EOP
        } else if self.rest.len() > wanted {
            status::TOO_MUCH_DATA
        } else if crc(self.rest) != 0 {
            // A read has no bytes here, and the CRC of none is 0.
            status::DATA_CRC
        } else {
            status::OBEYED
        }
    }

    /// The data without their CRC, or as many of them as came.
    pub(crate) fn data(&self) -> &'a [u8] {
        &self.rest[..self.rest.len().min(self.length as usize)]
    }

    /// The size of the reply due with so many bytes of data, path included; 0 if none is wanted.
    pub(crate) fn reply_size(&self, data: usize) -> usize {
        if !self.instruction.wants_reply() {
            0
        } else if self.instruction.has_write_bit() {
            self.path.sent().len() + 8
        } else {
            self.path.sent().len() + 13 + data
        }
    }

    /// Writes the reply, if one is wanted, to the front of a buffer that has room for it. `fill`
    /// writes its `size` bytes of data; a reply to a command with the write bit has none.
    pub(crate) fn write_reply(&self, status: u8, size: usize, reply: &mut [u8], fill: impl FnOnce(&mut [u8])) {
        if !self.instruction.wants_reply() {
            return;
        }
        let (path, reply) = reply.split_at_mut(self.path.sent().len());
        path.copy_from_slice(self.path.sent());
        reply[0] = self.initiator;
        reply[1] = self.protocol;
        reply[2] = self.instruction.reply_form();
        reply[3] = status;
        reply[4] = self.target;
        reply[5..7].copy_from_slice(&self.transaction);
        if self.instruction.has_write_bit() {
            reply[7] = crc(&reply[..7]);
            return;
        }
        // A zero byte and the three bytes of the length: a length is below 2^24.
        reply[7..11].copy_from_slice(&(size as u32).to_be_bytes());
        reply[11] = crc(&reply[..11]);
        let data = &mut reply[12..12 + size];
        fill(data);
        reply[12 + size] = crc(data);
    }
}
