//! The RMAP target (document 01, Reading a packet, Span and Effects).

use crate::answer::{Answer, End, fate, status};
use crate::instruction::Kind;
use crate::packet::Command;
use crate::unit::{ANY_ADDRESS, Unit, Window};

/// The longest write that can be verified before it is stored.
const VERIFY_LIMIT: u32 = 1024;

impl Window {
    fn holds(&self, first: u32, size: u32) -> bool {
        self.start <= first && u64::from(first) + u64::from(size) <= self.end()
    }

    fn grants(&self, kind: Kind) -> bool {
        match kind {
            Kind::Read => self.read,
            Kind::Write => self.write,
            Kind::Rmw => self.read && self.write,
            Kind::Unused => false,
        }
    }
}

impl Unit {
    /// Takes a packet of protocol 01.
    pub(crate) fn take_rmap(&mut self, packet: &[u8], end: End, memory: &mut [u8], reply: &mut [u8]) -> Answer {
        let command = match Command::read(packet) {
            Ok(command) => command,
            Err(fate) => return Answer::bare(fate),
        };
        let status = self.rmap_status(&command, end);
        let data_size = reply_data_size(&command, status);
        let size = command.reply_size(data_size);
        if size > reply.len() {
            return Answer::bare(fate::REPLY_TOO_LONG);
        }
        // The reply first: a read-modify-write gives what it read before it stores.
        command.write_reply(status, data_size, reply, |data| read(&command, memory, data));
        store(&command, status, memory);
        Answer::with_status(status, size)
    }

    fn rmap_status(&self, command: &Command, end: End) -> u8 {
        let header = command.header_status(self.key, [self.logical_address, ANY_ADDRESS]);
        if header != status::OBEYED {
            return header;
        }
        let kind = command.instruction.kind();
        if kind == Kind::Rmw && !matches!(command.length, 0 | 2 | 4 | 6 | 8) {
            status::RMW_LENGTH
        } else if !self.authorises(command) {
            status::NOT_AUTHORISED
        } else if kind == Kind::Write && command.instruction.verifies() && command.length > VERIFY_LIMIT {
            status::VERIFY_OVERRUN
        } else {
            command.data_status(end)
        }
    }

    /// Whether some window, by itself, reaches over the span and grants what the command needs.
    fn authorises(&self, command: &Command) -> bool {
        let size = span_size(command);
        let kind = command.instruction.kind();
        command.extended_address == 0
            && self.windows.iter().any(|window| window.grants(kind) && window.holds(command.address, size))
    }
}

fn span_size(command: &Command) -> u32 {
    if command.instruction.kind() == Kind::Rmw {
        command.length / 2
    } else if command.instruction.is_incrementing() {
        command.length
    } else {
        command.length.min(1)
    }
}

/// How many bytes of data the reply carries: only what was read, and only without an error.
fn reply_data_size(command: &Command, status: u8) -> usize {
    match command.instruction.kind() {
        _ if status != status::OBEYED => 0,
        Kind::Read => command.length as usize,
        Kind::Rmw => command.length as usize / 2,
        Kind::Write | Kind::Unused => 0,
    }
}

/// Fills a reply's data. The address of a command that reads nothing may lie anywhere; that of
/// any other here is inside the memory with its whole span.
fn read(command: &Command, memory: &[u8], data: &mut [u8]) {
    let first = command.address as usize;
    if data.is_empty() {
        return;
    }
    if command.instruction.is_incrementing() {
        data.copy_from_slice(&memory[first..first + data.len()]);
    } else {
        data.fill(memory[first]);
    }
}

/// Stores what the command leaves in memory, given its status.
fn store(command: &Command, status: u8, memory: &mut [u8]) {
    match (command.instruction.kind(), status) {
        (Kind::Rmw, status::OBEYED) => modify(command, memory),
        (Kind::Write, status::OBEYED) => write(command, memory),
        // Data that are not verified are stored as they come, before a fault in them shows.
        (Kind::Write, status::DATA_CRC | status::EARLY_EOP | status::TOO_MUCH_DATA | status::EEP)
            if !command.instruction.verifies() =>
        {
            write(command, memory)
        }
        _ => {}
    }
}

fn write(command: &Command, memory: &mut [u8]) {
    let first = command.address as usize;
    let data = command.data();
    if command.instruction.is_incrementing() {
        memory[first..first + data.len()].copy_from_slice(data);
    } else if let Some(&last) = data.last() {
        memory[first] = last;
    }
}

fn modify(command: &Command, memory: &mut [u8]) {
    let (data, masks) = command.data().split_at(command.length as usize / 2);
    let first = command.address as usize;
    for ((byte, data), mask) in memory[first..].iter_mut().zip(data).zip(masks) {
        *byte = (mask & data) | (!mask & *byte);
    }
}
