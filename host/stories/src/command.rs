//! A command in its parts, its bytes (document 01, 'Reading a packet'), and the one damage that it may come with.
use crate::chance::Chance;
use crate::record::{BODY, Record};
use crate::zero;
use model::crc;

pub const RMAP: u8 = 1;
pub const PLUG_AND_PLAY: u8 = 3;

/// The codes, bits 5 to 2 of an instruction, that document 01 names one by one.
pub const READ_SINGLE: u8 = 0b0010;
pub const READ: u8 = 0b0011;
pub const RMW: u8 = 0b0111;
pub const WRITE_VERIFY_REPLY: u8 = 0b1111;

#[derive(Clone, Debug)]
pub struct Command {
    pub target: u8,
    pub protocol: u8,
    /// Bits 7 and 6 of the instruction: 1 is a command.
    pub kind: u8,
    pub code: u8,
    pub key: u8,
    pub sender: Sender,
    pub transaction: u16,
    pub extended: u8,
    pub address: u32,
    pub length: u32,
    pub data: Vec<u8>,
}

/// Who sends, by which way back, and on which link it comes: what an owner is known by.
#[derive(Clone, Debug, PartialEq, Eq)]
pub struct Sender {
    pub initiator: u8,
    /// 4r bytes, r at most 3.
    pub reply_address: Vec<u8>,
    pub link: u8,
}

impl Sender {
    pub fn path(&self) -> &[u8] {
        path(&self.reply_address)
    }

    /// Whether the unit takes both for one.
    pub fn is(&self, other: &Sender) -> bool {
        (self.initiator, self.link, self.path()) == (other.initiator, other.link, other.path())
    }
}

/// The path that a reply address gives (document 01, 'Reply').
pub fn path(reply_address: &[u8]) -> &[u8] {
    let zeros = reply_address.iter().take_while(|byte| **byte == 0).count();
    &reply_address[zeros.min(reply_address.len().saturating_sub(1))..]
}

impl Command {
    pub fn header_size(&self) -> usize {
        16 + self.sender.reply_address.len()
    }

    /// How many data bytes fit into a record beside the header and the CRC behind them.
    pub fn room(&self) -> usize {
        BODY - self.header_size() - 1
    }

    pub fn has_data(&self) -> bool {
        self.code == RMW || self.code >= 8
    }

    pub fn bytes(&self) -> Vec<u8> {
        let words = self.sender.reply_address.len() / 4;
        let mut packet = vec![self.target, self.protocol, self.kind << 6 | self.code << 2 | words as u8, self.key];
        packet.extend(&self.sender.reply_address);
        packet.push(self.sender.initiator);
        packet.extend(self.transaction.to_be_bytes());
        packet.push(self.extended);
        packet.extend(self.address.to_be_bytes());
        packet.extend(&self.length.to_be_bytes()[1..]);
        packet.push(crc(&packet));
        if self.has_data() {
            packet.extend(&self.data);
            packet.push(crc(&self.data));
        }
        packet
    }

    /// The record of this command, as it is.
    pub fn whole(self) -> Record {
        let bytes = self.bytes();
        Record::Packet { link: self.sender.link, eep: false, bytes }
    }

    /// The record of this command with one damage.
    pub fn damaged(self, chance: &mut Chance) -> Record {
        if chance.one_in(2) { self.with_a_wrong_part(chance).whole() } else { self.with_wrong_bytes(chance) }
    }

    /// One part is wrong, under a CRC that is right.
    fn with_a_wrong_part(mut self, chance: &mut Chance) -> Self {
        match chance.below(12) {
            0 | 1 => self.key ^= 1 << chance.below(8),
            2 => self.target ^= 1 << chance.below(8),
            3 => self.target = 0,
            4 => self.extended = 1 << chance.below(8),
            5 => self.kind = chance.pick(&[0, 2, 3]),
            6 => self.length = self.length.wrapping_add(chance.pick(&[1, 2, u32::MAX])) & 0xFF_FFFF,
            7 => self.length ^= 1 << chance.below(24),
            8 => self.address ^= 1 << chance.below(32),
            9 => self.code = chance.below(16) as u8,
            _ => self.sender.link = chance.pick(&[0, 5, 6, 31, 32, 33, 64, 128, 255]),
        }
        self
    }

    /// Bytes are wrong, missing or too many, also in front, or the packet ended by EEP.
    fn with_wrong_bytes(self, chance: &mut Chance) -> Record {
        let header = self.header_size();
        let mut bytes = self.bytes();
        let mut eep = false;
        let (any, bit) = (chance.below(bytes.len()), 1 << chance.below(8));
        match chance.below(14) {
            0 | 1 => eep = true,
            2 | 3 => bytes[header - 1] ^= bit,
            4 | 5 => *bytes.last_mut().expect("a header is there") ^= bit,
            6 => bytes[any] ^= bit,
            7 => bytes.truncate(any),
            8 => {
                // Behind the reply address: initiator, transaction, extended address, address, length.
                let behind = 4 + self.sender.reply_address.len() + chance.pick(&[0, 1, 3, 4, 8, 11]);
                bytes.truncate(if chance.one_in(2) { chance.below(5) } else { behind });
            }
            9 => bytes.truncate(header + chance.below(3)),
            10 => bytes.truncate(bytes.len() - 1),
            11 => bytes.push(bit),
            12 => drop(bytes.splice(0..0, zero::wrong(chance))),
            _ => bytes.extend(chance.bytes(40).drain(any % 38..)),
        }
        bytes.truncate(BODY);
        Record::Packet { link: self.sender.link, eep, bytes }
    }
}

#[cfg(test)]
mod tests {
    use super::*;

    fn command(reply_address: &[u8], code: u8, transaction: u16, address: u32, data: &[u8]) -> Command {
        Command {
            target: 0xFE,
            protocol: RMAP,
            kind: 1,
            code,
            key: 0,
            sender: Sender { initiator: 0x67, reply_address: reply_address.to_vec(), link: 1 },
            transaction,
            extended: 0,
            address,
            length: 16,
            data: data.to_vec(),
        }
    }

    /// Document 01, 'Cases by hand'.
    #[test]
    fn paths() {
        assert_eq!(path(&[0, 0, 0, 0]), [0]);
        assert_eq!(path(&[0, 0, 1, 2]), [1, 2]);
        assert_eq!(path(&[0, 0, 1, 0]), [1, 0]);
        assert_eq!(path(&[]), []);
    }

    /// 001, Annex A.4: the write, and the read with a reply address.
    #[test]
    fn as_in_annex_a4() {
        let data = [0x01, 0x23, 0x45, 0x67, 0x89, 0xAB, 0xCD, 0xEF, 0x10, 0x11, 0x12, 0x13, 0x14, 0x15, 0x16, 0x17];
        let head = [0xFE, 0x01, 0x6C, 0x00, 0x67, 0x00, 0x00, 0x00, 0xA0, 0x00, 0x00, 0x00, 0x00, 0x00, 0x10, 0x9F];
        let write = command(&[], 0b1011, 0, 0xA000_0000, &data).bytes();
        assert_eq!(write, [&head[..], &data[..], &[0x56][..]].concat());
        let read = command(&[0x99, 0xAA, 0xBB, 0xCC], READ, 3, 0xA000_0010, &[]).bytes();
        let printed = [
            0xFE, 0x01, 0x4D, 0x00, 0x99, 0xAA, 0xBB, 0xCC, 0x67, 0x00, 0x03, 0x00, 0xA0, 0x00, 0x00, 0x10, 0x00, 0x00,
            0x10, 0xF7,
        ];
        assert_eq!(read, printed);
    }
}
