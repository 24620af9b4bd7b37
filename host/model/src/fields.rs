//! The plug-and-play target (document 01, Fields and Owner; 000, 5.3).

use crate::answer::{Answer, End, fate, status};
use crate::instruction::Kind;
use crate::packet::Command;
use crate::unit::{ANY_ADDRESS, Owner, Unit};

/// The only key plug-and-play knows (000, 5.2.3.4).
const KEY: u8 = 0;

/// The three codes 000 uses: 5.2.4.4.4, 5.2.5.4.4 and 5.2.6.4.4, each its clause d.
const CODES: [u8; 3] = [0b1111, 0b0011, 0b0111];

/// Field numbers are 14 bits.
const FIELDS: u32 = 1 << 14;

/// Application, protocol and set, as the address holds them above the field number.
const DEVICE: u32 = 0;
const SPACEWIRE: u32 = 1 << 5;

const DEVICE_ID: u32 = 8;
const TIME_CODE_COUNTER: u32 = 0;
const DIVIDER: u32 = 3;

/// The bits of Link Information that are kept and not made up for each read: the two reserved
/// bits 21 and 5, reserved bits 15 to 13, and the T and U bits 7 and 6 (000, Table 5-6).
const LINK_INFORMATION_HELD: u32 = 0x0020_E0E0;

/// How a field may be changed.
#[derive(Clone, Copy, PartialEq, Eq)]
enum Access {
    ReadOnly,
    Swap,
    OwnerWrites,
}

/// Our table of fields; a field that is not in it has no access at all.
fn access(group: u32, field: u32) -> Option<Access> {
    match (group, field) {
        (DEVICE, DEVICE_ID) => Some(Access::Swap),
        (DEVICE, 0..=10) => Some(Access::ReadOnly),
        (SPACEWIRE, TIME_CODE_COUNTER | DIVIDER) => Some(Access::OwnerWrites),
        (SPACEWIRE, 1 | 2) => Some(Access::ReadOnly),
        _ => None,
    }
}

fn group(command: &Command) -> u32 {
    command.address / FIELDS
}

fn first_field(command: &Command) -> u32 {
    command.address % FIELDS
}

/// How many fields the command names; a swap names one, its data being two words for it.
fn field_count(command: &Command) -> u32 {
    match command.instruction.kind() {
        Kind::Rmw => 1,
        _ => command.length / 4,
    }
}

fn named_fields(command: &Command) -> impl Iterator<Item = u32> {
    let first = first_field(command);
    first..first + field_count(command)
}

/// Whether the command is one of plug-and-play's (status 10 if not).
fn is_implemented(command: &Command) -> bool {
    let length = command.length;
    let length_fits = match command.instruction.kind() {
        Kind::Rmw => length == 8,
        _ => length.is_multiple_of(4) && (4..=64).contains(&length),
    };
    command.extended_address == 0
        && CODES.contains(&command.instruction.code())
        && length_fits
        && first_field(command) + field_count(command) <= FIELDS
}

/// F1 if a field is missing; else F2 or F3 for the lowest field that may not be so changed.
fn table_status(command: &Command) -> u8 {
    let kind = command.instruction.kind();
    let mut offence = status::OBEYED;
    for field in named_fields(command) {
        let Some(access) = access(group(command), field) else {
            return status::NO_SUCH_FIELD;
        };
        let found = match (kind, access) {
            (Kind::Write, Access::ReadOnly) => status::READ_ONLY,
            (Kind::Write, Access::Swap) => status::SWAP_ONLY,
            (Kind::Rmw, Access::ReadOnly | Access::OwnerWrites) => status::READ_ONLY,
            _ => status::OBEYED,
        };
        if offence == status::OBEYED {
            offence = found;
        }
    }
    offence
}

/// The words of a write or swap.
fn words(data: &[u8]) -> impl Iterator<Item = u32> {
    data.chunks_exact(4).map(|word| u32::from_be_bytes([word[0], word[1], word[2], word[3]]))
}

/// How many bytes of data the reply carries: a swap gives back the one old value.
fn reply_data_size(command: &Command, status: u8) -> usize {
    match command.instruction.kind() {
        _ if status != status::OBEYED => 0,
        Kind::Read | Kind::Rmw => 4 * field_count(command) as usize,
        Kind::Write | Kind::Unused => 0,
    }
}

impl Unit {
    /// Takes a packet of protocol 03.
    pub(crate) fn take_fields(&mut self, packet: &[u8], end: End, link: u8, reply: &mut [u8]) -> Answer {
        let command = match Command::read(packet) {
            Ok(command) => command,
            Err(fate) => return Answer::bare(fate),
        };
        let status = self.fields_status(&command, end, link);
        let data_size = reply_data_size(&command, status);
        let size = command.reply_size(data_size);
        if size > reply.len() {
            return Answer::bare(fate::REPLY_TOO_LONG);
        }
        // The reply first: a swap gives the value it found.
        command.write_reply(status, data_size, reply, |data| {
            self.read_fields(&command, link, data);
        });
        if status == status::OBEYED {
            self.change_fields(&command, link);
        }
        Answer::with_status(status, size)
    }

    fn fields_status(&self, command: &Command, end: End, link: u8) -> u8 {
        let header = command.header_status(KEY, [ANY_ADDRESS; 2]);
        if header != status::OBEYED {
            return header;
        }
        if !is_implemented(command) {
            return status::NOT_AUTHORISED;
        }
        let table = table_status(command);
        if table != status::OBEYED {
            table
        } else if !self.permits(command, link) {
            status::NOT_THE_OWNER
        } else {
            command.data_status(end)
        }
    }

    /// Who may do what (document 01, Owner): reading is free, and so is a swap while there is no
    /// owner; the rest is the owner's.
    fn permits(&self, command: &Command, link: u8) -> bool {
        match command.instruction.kind() {
            Kind::Write => self.is_owner(command, link),
            Kind::Rmw => self.fields.device_id == 0 || self.is_owner(command, link),
            Kind::Read | Kind::Unused => true,
        }
    }

    fn is_owner(&self, command: &Command, link: u8) -> bool {
        self.fields.device_id != 0 && self.owner == sender(command, link)
    }

    /// Fills a reply's data with the values of the fields the command names.
    fn read_fields(&self, command: &Command, link: u8, data: &mut [u8]) {
        for (field, word) in named_fields(command).zip(data.chunks_exact_mut(4)) {
            let value = self.field(group(command), field, link);
            word.copy_from_slice(&value.to_be_bytes());
        }
    }

    /// The value of a field of our table, as a read on `link` sees it.
    fn field(&self, group: u32, field: u32, link: u8) -> u32 {
        let held = &self.fields;
        match (group, field) {
            (DEVICE, 0) => held.vendor_and_product,
            (DEVICE, 1) => held.version,
            (DEVICE, 2) => held.status,
            (DEVICE, 3) => held.active_links,
            (DEVICE, 4) => self.link_information(link),
            (DEVICE, 5..=7) => self.owner_address(field - 5),
            (DEVICE, DEVICE_ID) => held.device_id,
            (DEVICE, 9) => held.unit_vendor_and_product,
            (DEVICE, 10) => held.unit_serial,
            (SPACEWIRE, TIME_CODE_COUNTER) => u32::from(self.last_time_code),
            (SPACEWIRE, 1) => held.base_rate,
            (SPACEWIRE, 2) => held.rate_range,
            (SPACEWIRE, DIVIDER) => held.divider,
            // Never asked for: status F1 goes before.
            _ => 0,
        }
    }

    /// The places are those of 000, Table 5-6.
    fn link_information(&self, link: u8) -> u32 {
        let owner_address_length = u32::from(self.owner.path.count).div_ceil(4);
        u32::from(self.owner.initiator) << 24
            | owner_address_length << 22
            | u32::from(self.owner.link) << 16
            | u32::from(link) << 8
            | u32::from(self.link_count)
            | self.fields.link_information & LINK_INFORMATION_HELD
    }

    fn owner_address(&self, word: u32) -> u32 {
        words(&self.owner.path.bytes).nth(word as usize).unwrap_or(0)
    }

    /// Does what a write or swap without an error asks for.
    fn change_fields(&mut self, command: &Command, link: u8) {
        match command.instruction.kind() {
            Kind::Write => {
                for (field, value) in named_fields(command).zip(words(command.data())) {
                    self.write_field(field, value);
                }
            }
            Kind::Rmw => self.swap_device_id(command, link),
            Kind::Read | Kind::Unused => {}
        }
    }

    /// Writes a field of the SpaceWire protocol: no other can be written.
    fn write_field(&mut self, field: u32, value: u32) {
        if field == TIME_CODE_COUNTER {
            if value == 0 {
                self.last_time_code = 0;
            }
        } else if field == DIVIDER {
            let (maximum, minimum) = halves(self.fields.rate_range);
            let (kept, _) = halves(self.fields.divider);
            let (_, asked) = halves(value);
            if (minimum..=maximum).contains(&asked) {
                self.fields.divider = kept << 16 | asked;
            }
        }
    }

    /// Compare-and-swap: the new value comes first, then the expected one (000, 5.2.6.4.4).
    fn swap_device_id(&mut self, command: &Command, link: u8) {
        let mut words = words(command.data());
        let (Some(new), Some(expected)) = (words.next(), words.next()) else {
            return;
        };
        let old = self.fields.device_id;
        if old != expected {
            return;
        }
        self.fields.device_id = new;
        if old == 0 && new != 0 {
            self.owner = sender(command, link);
        } else if old != 0 && new == 0 {
            self.owner = Owner::default();
        }
    }
}

/// Who sent a command, as ownership knows it.
fn sender(command: &Command, link: u8) -> Owner {
    Owner { initiator: command.initiator, path: command.path, link }
}

/// The high and the low half of a field.
fn halves(value: u32) -> (u32, u32) {
    (value >> 16, value & 0xFFFF)
}
