//! A log for the bench: a story, and perhaps a bad record at its end.
use crate::chance::Chance;
use crate::ground::Ground;
use crate::record::{BODY, Flaw, Record};
use crate::story::Story;

/// How many records logs have, one after the other: some fit into one block of the program, some take many.
pub const SIZES: [usize; 4] = [2, 10, 100, 1000];

/// The log `index` of a seed. It has a few records more than its size where something ends behind that.
pub fn log(seed: u64, index: u64) -> Vec<Record> {
    let mut story = told(seed, index, SIZES[index as usize % SIZES.len()]);
    if story.chance.one_in(2) {
        let (flaw, mut bytes) = bad(&mut story.chance);
        // Behind one that is not cut, a right record follows: it must not be taken.
        if !matches!(flaw, Flaw::CutHead | Flaw::CutBody) {
            Record::TimeCode(1).write(&mut bytes);
        }
        story.records.push(Record::Bad(flaw, bytes));
    }
    story.records
}

/// Records of one story, of which none is bad.
pub fn right_log(seed: u64, size: usize) -> Vec<Record> {
    told(seed, 0, size).records
}

fn told(seed: u64, index: u64, size: usize) -> Story {
    let mut story = Story::new(Chance::new(seed, index), Ground::bench());
    while story.records.len() < size {
        story.go_on();
    }
    story
}

/// A record with one flaw, and the flaw. One that is not cut has as many bytes as its length says.
fn bad(chance: &mut Chance) -> (Flaw, Vec<u8>) {
    let flaw = chance.pick(&Flaw::ALL);
    let size = chance.pick(&[2, 16, BODY]);
    let right = match chance.below(3) {
        0 => Record::TimeCode(1),
        1 => Record::Ticks(1),
        // A packet may have any link.
        _ if flaw == Flaw::Link => Record::TimeCode(2),
        _ => Record::Packet { link: 1, eep: false, bytes: chance.bytes(size) },
    };
    let mut bytes = Vec::new();
    right.write(&mut bytes);
    match flaw {
        Flaw::Mark => bytes[chance.below(2)] ^= 1 << chance.below(8),
        Flaw::Kind => bytes[2] = chance.pick(&[0, 4, 5, 0x81, 0xFF]),
        Flaw::Link => bytes[3] = chance.pick(&[1, 4, 255]),
        Flaw::End if bytes[2] == 1 => bytes[4] = chance.pick(&[2, 3, 0x80, 0xFF]),
        Flaw::End => bytes[4] = chance.pick(&[1, 2, 0xFF]),
        Flaw::Length => {
            let wrong = match bytes[2] {
                1 => chance.pick(&[BODY + 1, 2 * BODY, 0xFFFF]),
                2 => chance.pick(&[0, 2, 4, 0x101]),
                _ => chance.pick(&[0, 1, 3, 5, 0x104]),
            };
            bytes[5..7].copy_from_slice(&(wrong as u16).to_be_bytes());
            bytes.resize(7 + wrong, 0);
        }
        Flaw::CutHead => bytes.truncate(1 + chance.below(6)),
        Flaw::CutBody => bytes.truncate(7 + chance.below(bytes.len() - 7)),
    }
    (flaw, bytes)
}
