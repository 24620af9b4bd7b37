//! CCSDS packets (request 11 of document 02): address, protocol, a reserved zero byte, the user application byte, and a space packet.
use crate::chance::Chance;
use crate::record::Record;

pub const CCSDS: u8 = 2;

/// What stands in front of a space packet.
const FRONT: usize = 4;
/// Where its first byte stands, with the version in the top three bits, and where its length field begins.
const FIRST: usize = FRONT;
const FIELD: usize = FRONT + 4;
/// The sizes that it may have: its length field tells of seven bytes less.
const SHORTEST: usize = 7;
const LONGEST: usize = 0xFFFF + 7;
/// One of more bytes ends in zeros.
const ANY: usize = 1096;

/// A CCSDS packet of at most so many bytes, right or with one damage.
pub fn packet(limit: usize, link: u8, whole: bool, chance: &mut Chance) -> Record {
    let size = size(LONGEST.min(limit - FRONT), chance);
    let mut bytes = vec![chance.pick(&[0x43, 0xFE]), CCSDS, 0, chance.byte()];
    bytes.extend(chance.bytes(if size > ANY { 40 } else { size }));
    bytes.resize(FRONT + size, 0);
    bytes[FIRST] &= 0x1F;
    tell(&mut bytes, size - SHORTEST);
    let mut eep = false;
    if !whole {
        damage(&mut bytes, &mut eep, chance);
    }
    bytes.truncate(limit);
    Record::Packet { link, eep, bytes }
}

/// The shortest, short ones, those where the high byte of the length field begins to tell, any, and the longest.
fn size(most: usize, chance: &mut Chance) -> usize {
    match chance.below(16) {
        0..=5 => SHORTEST,
        6..=9 => SHORTEST + chance.below(20),
        10..=12 => SHORTEST + chance.pick(&[0xFE, 0xFF, 0x100, 0x101, 0x200]),
        13 => ANY - chance.below(ANY - SHORTEST),
        14 => most - chance.below(most - SHORTEST),
        _ => most,
    }
}

/// Sets the length field, which has 16 bits.
fn tell(bytes: &mut [u8], length: usize) {
    bytes[FIELD..FIELD + 2].copy_from_slice(&(length as u16).to_be_bytes());
}

/// Makes one thing wrong.
fn damage(bytes: &mut Vec<u8>, eep: &mut bool, chance: &mut Chance) {
    let (size, bit, any) = (bytes.len() - FRONT, 1 << chance.below(8), chance.byte());
    match chance.below(16) {
        0 => *eep = true,
        1 => bytes[0] ^= bit,
        2 => bytes[0] = chance.pick(&[0, 0x42, 0xFF, any]),
        3 => bytes[1] = chance.pick(&[0, 1, 3, 0xF0, 0xFE, CCSDS ^ bit]),
        4 => bytes[2] = chance.pick(&[bit, any]),
        5 | 6 => bytes[FIRST] |= (1 + chance.below(7) as u8) << 5,
        // One less, one more, nothing added to it or only one, and with the four in front.
        7 | 8 => {
            let right = size - SHORTEST;
            tell(bytes, chance.pick(&[right.wrapping_sub(1), right + 1, size, size - 1, right + FRONT]));
        }
        9 => bytes.swap(FIELD, FIELD + 1),
        10 => bytes[FIELD + chance.below(2)] ^= bit,
        // Right if sizes had 16 bits: a header alone, or more than the field can tell of.
        11 => {
            let more = LONGEST + 1 + chance.below(20);
            let size = chance.pick(&[6, LONGEST + 1, more]);
            bytes.resize(FRONT + size, 0);
            tell(bytes, size.wrapping_sub(SHORTEST));
        }
        12 => bytes.truncate(chance.below(FRONT + SHORTEST)),
        13 => bytes.truncate(chance.below(bytes.len())),
        14 => drop(bytes.pop()),
        _ => bytes.push(chance.pick(&[0, any])),
    }
}
