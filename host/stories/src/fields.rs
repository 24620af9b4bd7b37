//! Plug-and-play commands: reads of every field and of fields that are not there, and stories of who owns the unit.
use crate::chance::Chance;
use crate::command::{Command, PLUG_AND_PLAY, READ, RMW, Sender, WRITE_VERIFY_REPLY};

const DEVICE_ID: u32 = 8;
/// Protocol 1, set 0: where its fields begin in the address.
const TIME: u32 = 1 << 19;
const LAST_FIELD: u32 = 0x3FFF;

/// What is written to the divider, and what its range is made of.
pub const DIVIDERS: [u32; 8] = [0, 0, 1, 2, 63, 64, 0xFFFE, 0xFFFF];

/// What a story believes of the unit's owner. It can be wrong, as where a damaged packet was obeyed, and nothing rests on it: it
/// makes commands come from the owner, and expect the value that is there.
#[derive(Default)]
pub struct Ownership {
    device: u32,
    owner: Option<Sender>,
}

impl Ownership {
    /// One of the senders: mostly the owner, where there is one.
    pub fn sender(&self, senders: &[Sender], chance: &mut Chance) -> Sender {
        match &self.owner {
            Some(owner) if !chance.one_in(3) => owner.clone(),
            _ => senders[chance.below(senders.len())].clone(),
        }
    }

    /// A swap of the Device ID that this sender sends. What it does is only believed where it arrives `whole`.
    pub fn swap(&mut self, from: &Sender, whole: bool, chance: &mut Chance) -> Command {
        let expected = if chance.one_in(5) { chance.pick(&[0, 1, self.device ^ 1]) } else { self.device };
        // Claims of a unit that is free, releases of one that is owned; now and then the other.
        let any = chance.word() | 1;
        let new = if (self.device == 0) == chance.one_in(4) { 0 } else { chance.pick(&[1, 0xCAFE, 0x8000_0000, any]) };
        let allowed = self.owner.as_ref().is_none_or(|owner| owner.is(from));
        if whole && allowed && expected == self.device {
            self.device = new;
            self.owner = if new == 0 { None } else { self.owner.take().or_else(|| Some(from.clone())) };
        }
        let data = [new.to_be_bytes(), expected.to_be_bytes()].concat();
        command(from, RMW, DEVICE_ID, 8, data, chance)
    }
}

/// A read, a write, or a command that fields do not take.
pub fn other(from: &Sender, chance: &mut Chance) -> Command {
    match chance.below(10) {
        0..=2 => read(from, chance),
        3 | 4 => write(from, chance),
        // Any length under a code that fields take, a swap of any field, and any code.
        5 => {
            let length = chance.pick(&[0, 1, 2, 3, 5, 8, 12, 60, 63, 64, 65, 68, 0x100, 0x80_0004]);
            let code = chance.pick(&[READ, RMW, WRITE_VERIFY_REPLY]);
            any(from, code, length, chance)
        }
        6 => any(from, RMW, 8, chance),
        _ => {
            let code = chance.below(16) as u8;
            any(from, code, 4, chance)
        }
    }
}

/// Every code as often as any other, and many writes of fields that the owner writes.
pub fn every(from: &Sender, chance: &mut Chance) -> Command {
    if chance.one_in(4) {
        return write(from, chance);
    }
    let code = chance.below(16) as u8;
    any(from, code, 4, chance)
}

fn any(from: &Sender, code: u8, length: u32, chance: &mut Chance) -> Command {
    let address = address(chance);
    let data = chance.bytes((length as usize).min(80));
    command(from, code, address, length, data, chance)
}

fn read(from: &Sender, chance: &mut Chance) -> Command {
    // The whole of each set, so that every field is often seen; else anything.
    let (address, fields) = match chance.below(6) {
        0 | 1 => (0, 11),
        2 => (TIME, 4),
        3 => (chance.below(11) as u32, 1),
        _ => (address(chance), chance.pick(&[1, 1, 2, 4, 11, 15, 16])),
    };
    command(from, READ, address, 4 * fields, Vec::new(), chance)
}

fn write(from: &Sender, chance: &mut Chance) -> Command {
    let high = chance.pick(&[0, 0, 1, 0xFFFF]) << 16;
    let value = high | chance.pick(&DIVIDERS);
    let (address, fields) = match chance.below(8) {
        0 | 1 => (TIME, 1),
        2..=4 => (TIME | 3, 1),
        5 => (chance.pick(&[0, 7, DEVICE_ID]), chance.pick(&[1, 2, 3])),
        6 => (TIME, 4),
        _ => (address(chance), chance.pick(&[1, 2, 16])),
    };
    let mut data = value.to_be_bytes().to_vec();
    data.extend(chance.bytes(4 * fields as usize - 4));
    command(from, WRITE_VERIFY_REPLY, address, 4 * fields, data, chance)
}

/// The address of a field: one of ours, one beside ours, one at the end of a set, or anything.
fn address(chance: &mut Chance) -> u32 {
    match chance.below(10) {
        0..=3 => chance.below(12) as u32,
        4 | 5 => TIME + chance.below(5) as u32,
        6 => chance.pick(&[0, TIME]) + LAST_FIELD - chance.below(3) as u32,
        7 => chance.below(11) as u32 ^ 1 << (14 + chance.below(18)),
        8 => chance.below(3) as u32 * TIME + chance.below(2) as u32 * 0x4000 + chance.below(20) as u32,
        _ => chance.word(),
    }
}

fn command(from: &Sender, code: u8, address: u32, length: u32, data: Vec<u8>, chance: &mut Chance) -> Command {
    Command {
        target: 0xFE,
        protocol: PLUG_AND_PLAY,
        kind: 1,
        code,
        key: 0,
        sender: from.clone(),
        transaction: chance.word() as u16,
        extended: 0,
        address,
        length,
        data,
    }
}
