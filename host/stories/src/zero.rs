//! The last zero of a path, which some interfaces leave in front of a packet (request 2 of document 02; 000, 5.2.3.2c), and what is easily
//! taken for it.
use crate::chance::Chance;
use crate::record::{BODY, Record};

/// The packet with the zero in front.
pub fn before(mut record: Record) -> Record {
    if let Record::Packet { bytes, .. } = &mut record {
        bytes.insert(0, 0);
        bytes.truncate(BODY);
    }
    record
}

/// What is no such zero: two of them, or another byte.
pub fn wrong(chance: &mut Chance) -> Vec<u8> {
    let any = chance.byte().max(1);
    if chance.one_in(2) { vec![0, 0] } else { vec![chance.pick(&[1, 0x43, 0xFE, any])] }
}

/// Any bytes behind 00 FE 03, or behind a front that misses it by one thing; now and then cut within the front or right behind it.
pub fn noise(link: u8, chance: &mut Chance) -> Record {
    let mut bytes = vec![0, 0xFE, 3];
    match chance.below(8) {
        0 => bytes.insert(0, 0),
        1 => bytes[0] = chance.byte().max(1),
        2 => bytes[1] = chance.pick(&[0x43, 0xFD, 0xFF, 0x7E]),
        3 | 4 => bytes[2] = chance.pick(&[0, 1, 1, 2, 0x83, 0xF0, 0xFE]),
        _ => {}
    }
    let size = chance.pick(&[0, 1, 13, 17, 25]) + chance.below(4);
    bytes.extend(chance.bytes(size));
    if chance.one_in(3) {
        bytes.truncate(chance.pick(&[1, 2, 2, 3, 3, 4]));
    }
    Record::Packet { link, eep: chance.one_in(8), bytes }
}
