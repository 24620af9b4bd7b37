//! Building packets and expected replies.

use model::{Answer, End, Unit, Window};

/// The CRC bit by bit, from the division in 001, 5.2: the register holds r7 (the highest power)
/// in its top bit, message bits come least significant first, and the result is mirrored.
pub fn long_crc(bytes: &[u8]) -> u8 {
    let mut register: u8 = 0;
    for byte in bytes {
        for bit in 0..8 {
            let out = (register >> 7) ^ ((byte >> bit) & 1);
            register <<= 1;
            if out == 1 {
                register ^= 0b0000_0111; // x^2 + x + 1
            }
        }
    }
    register.reverse_bits()
}

/// `bytes` followed by their CRC.
pub fn sealed(bytes: &[u8]) -> Vec<u8> {
    let mut sealed = bytes.to_vec();
    sealed.push(long_crc(bytes));
    sealed
}

/// A command to be built; the CRCs are added.
#[derive(Clone)]
pub struct Build {
    pub target: u8,
    pub protocol: u8,
    pub instruction: u8,
    pub key: u8,
    pub reply_address: Vec<u8>,
    pub initiator: u8,
    pub transaction: [u8; 2],
    pub extended_address: u8,
    pub address: u32,
    pub length: u32,
    /// All that follows the header, data CRC included.
    pub rest: Vec<u8>,
}

impl Build {
    pub fn header(&self) -> Vec<u8> {
        let mut bytes = vec![self.target, self.protocol, self.instruction, self.key];
        bytes.extend(&self.reply_address);
        bytes.push(self.initiator);
        bytes.extend(self.transaction);
        bytes.push(self.extended_address);
        bytes.extend(self.address.to_be_bytes());
        bytes.extend(&self.length.to_be_bytes()[1..]);
        sealed(&bytes)
    }

    pub fn packet(&self) -> Vec<u8> {
        let mut bytes = self.header();
        bytes.extend(&self.rest);
        bytes
    }
}

pub const READ: u8 = 0x4C;
pub const READ_SINGLE: u8 = 0x48;
pub const RMW: u8 = 0x5C;
pub const WRITE: u8 = 0x6C;
pub const WRITE_SINGLE: u8 = 0x68;
pub const WRITE_QUIETLY: u8 = 0x64;
pub const WRITE_VERIFIED: u8 = 0x7C;
pub const WRITE_VERIFIED_QUIETLY: u8 = 0x74;

/// An RMAP command to the bench's unit: address 43, key 2A.
pub fn command(instruction: u8, address: u32, length: u32) -> Build {
    Build {
        target: 0x43,
        protocol: 1,
        instruction,
        key: 0x2A,
        reply_address: vec![],
        initiator: 0x67,
        transaction: [0x12, 0x34],
        extended_address: 0,
        address,
        length,
        rest: vec![],
    }
}

pub fn read(address: u32, length: u32) -> Build {
    command(READ, address, length)
}

/// A write or a read-modify-write with all its data.
pub fn with_data(instruction: u8, address: u32, data: &[u8]) -> Build {
    Build { rest: sealed(data), ..command(instruction, address, data.len() as u32) }
}

/// A plug-and-play command in application 0, set 0.
pub fn field_command(instruction: u8, protocol: u32, field: u32, length: u32) -> Build {
    Build { target: 0xFE, protocol: 3, key: 0, ..command(instruction, protocol << 19 | field, length) }
}

pub fn field_read(protocol: u32, field: u32, count: u32) -> Build {
    field_command(READ, protocol, field, 4 * count)
}

pub fn field_write(protocol: u32, field: u32, words: &[u32]) -> Build {
    let data: Vec<u8> = words.iter().flat_map(|word| word.to_be_bytes()).collect();
    Build { rest: sealed(&data), ..field_command(WRITE_VERIFIED, protocol, field, 4 * words.len() as u32) }
}

pub fn swap(field: u32, new: u32, expected: u32) -> Build {
    let data = [new.to_be_bytes(), expected.to_be_bytes()].concat();
    Build { rest: sealed(&data), ..field_command(RMW, 0, field, 8) }
}

/// The reply to `build` without its path: what document 01, Reply, lists.
pub fn reply_to(build: &Build, status: u8, data: &[u8]) -> Vec<u8> {
    let mut bytes = vec![build.initiator, build.protocol, build.instruction & 0x3F, status, build.target];
    bytes.extend(build.transaction);
    if build.instruction & 0x20 != 0 {
        return sealed(&bytes);
    }
    bytes.push(0);
    bytes.extend(&(data.len() as u32).to_be_bytes()[1..]);
    let mut reply = sealed(&bytes);
    reply.extend(sealed(data));
    reply
}

/// A unit with its memory and reply buffer, the bench's to begin with.
pub struct Stage {
    pub unit: Unit,
    pub memory: Vec<u8>,
    pub reply: Vec<u8>,
}

/// What the reply buffer holds where nothing was written.
pub const UNTOUCHED: u8 = 0xC3;

impl Stage {
    pub fn new() -> Stage {
        let window = Window { start: 0, size: 4096, read: true, write: true };
        Stage {
            unit: Unit::new(0x43, 0x2A, 0xF0, 4, vec![window]),
            memory: vec![0; 4096],
            reply: vec![UNTOUCHED; 8192],
        }
    }

    pub fn send_all(&mut self, packet: &[u8], end: End, link: u8) -> Answer {
        self.reply.fill(UNTOUCHED);
        let answer = self.unit.take_packet(packet, end, link, &mut self.memory, &mut self.reply);
        assert!(self.reply[answer.reply..].iter().all(|&byte| byte == UNTOUCHED));
        answer
    }

    pub fn send_packet(&mut self, packet: &[u8]) -> Answer {
        self.send_all(packet, End::Eop, 1)
    }

    pub fn send(&mut self, build: &Build) -> Answer {
        self.send_packet(&build.packet())
    }

    /// Sends a command without a path on `link`, and checks that it is replied to with this
    /// status and data.
    #[track_caller]
    pub fn expect_on(&mut self, link: u8, build: &Build, end: End, status: u8, data: &[u8]) {
        let answer = self.send_all(&build.packet(), end, link);
        assert_eq!((answer.fate, answer.status), (20, Some(status)));
        assert_eq!(self.reply[..answer.reply], reply_to(build, status, data));
    }

    #[track_caller]
    pub fn expect(&mut self, build: &Build, status: u8, data: &[u8]) {
        self.expect_on(1, build, End::Eop, status, data);
    }

    /// Checks that a command gets this status and leaves memory, fields, owner and time alone.
    #[track_caller]
    pub fn expect_refused(&mut self, build: &Build, end: End, status: u8) {
        let mut before = self.unit.clone();
        let memory = self.memory.clone();
        let answer = self.send_all(&build.packet(), end, 1);
        let replied = build.instruction & 8 != 0;
        assert_eq!((answer.fate, answer.status), (if replied { 20 } else { 17 }, Some(status)));
        let reply = if replied { reply_to(build, status, &[]) } else { vec![] };
        assert_eq!(self.reply[..answer.reply], reply);
        assert_eq!(self.memory, memory);
        before.counters = self.unit.counters.clone();
        assert_eq!(self.unit, before);
    }
}
