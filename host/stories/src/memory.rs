//! RMAP commands: every code, at spans that begin and end where windows and memory do.
use crate::chance::Chance;
use crate::command::{Command, READ, READ_SINGLE, RMAP, RMW, Sender};
use crate::ground::Ground;

/// What a reply with data has beside its path and its data.
const REPLY_HEAD: u32 = 13;

/// An RMAP command that is right in its form.
pub fn command(sender: &Sender, ground: &Ground, chance: &mut Chance) -> Command {
    let edge = ground.edges[chance.below(ground.edges.len())];
    let mut command = Command {
        target: chance.pick(&[0x43, 0x43, 0x43, 0xFE]),
        protocol: RMAP,
        kind: 1,
        code: code(chance),
        key: 0x2A,
        sender: sender.clone(),
        transaction: chance.word() as u16,
        extended: 0,
        address: 0,
        length: 0,
        data: Vec::new(),
    };
    command.length = length(&command, edge, ground, chance);
    command.address = address(span(&command), edge, chance);
    if command.has_data() {
        command.data = chance.bytes((command.length as usize).min(command.room()));
    }
    command
}

/// Any of the sixteen, the unused ones less often.
fn code(chance: &mut Chance) -> u8 {
    if chance.one_in(6) {
        return chance.below(16) as u8;
    }
    chance.pick(&[READ_SINGLE, READ, READ, RMW, RMW, 8, 9, 10, 11, 12, 13, 14, 15])
}

fn length(command: &Command, edge: u32, ground: &Ground, chance: &mut Chance) -> u32 {
    let room = command.room() as u32;
    let path = command.sender.path().len() as u32;
    match (command.code, chance.below(8)) {
        (RMW, 0) => chance.pick(&[1, 3, 5, 7, 9, 10, 16, 0x100, 0x80_0008]),
        (RMW, _) => chance.pick(&[0, 2, 4, 6, 8, 4, 8]),
        (_, 0) => chance.word() & 0xFF_FFFF,
        (_, 1) => chance.pick(&[0, 0xFF_FFFF, 0x1_0000, edge.saturating_sub(1), edge, edge + 1]),
        // A reply that fills its buffer, and one that does not fit.
        (READ_SINGLE, 2 | 3) => ground.reply - REPLY_HEAD - path + chance.below(5) as u32 - 1,
        (12.., 2 | 3) => chance.pick(&[1023, 1024, 1025, 1026]),
        (8.., 2) => room - chance.below(3) as u32 + 1,
        (_, 4) => chance.below(room as usize + 1) as u32,
        _ => chance.below(20) as u32,
    }
}

/// How many bytes of memory a command is about (document 01, 'Span').
fn span(command: &Command) -> u32 {
    match command.code {
        RMW => command.length / 2,
        code if code & 1 == 1 => command.length,
        _ => command.length.min(1),
    }
}

/// An address for a span: one that ends or begins about an edge, one that comes again and again, or any.
fn address(span: u32, edge: u32, chance: &mut Chance) -> u32 {
    let near = chance.below(3) as u32;
    match chance.below(12) {
        0..=2 => edge.wrapping_sub(span).wrapping_add(near).wrapping_sub(1),
        3 => 0u32.wrapping_sub(span).wrapping_add(near).wrapping_sub(1),
        4 => edge.wrapping_add(near).wrapping_sub(1),
        5 => chance.pick(&[0xFFFF, 0x1_0000, 0x1_0FFF, u32::MAX]),
        6 => chance.word(),
        7 | 8 => chance.below(edge as usize + 1) as u32,
        _ => chance.below(edge.min(48) as usize + 1) as u32,
    }
}
