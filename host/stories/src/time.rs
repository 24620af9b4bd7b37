//! Time packets, runs of Time-Codes round the wrap, and ticks (document 01, 'Time', with requests 3 and 12 of document 02).
use crate::chance::Chance;
use crate::record::Record;
use model::crc;

/// Fractions of ET about one half, on which the wrap turns, and about the ends of a second.
pub const FRACTIONS: [u32; 6] = [0x7F_FFFF, 0x80_0000, 0x80_0001, 0xFF_FFFF, 0, 0xFC_0001];
const SECOND: u32 = 1 << 24;
/// The fraction that Time-Code 63 sets behind 62.
const AT_63: u32 = 63 << 18;

/// A time packet, right or with one damage.
pub fn packet(number: u8, link: u8, whole: bool, chance: &mut Chance) -> Record {
    let (mode, fraction) = (chance.pick(&[0, 1]), chance.pick(&FRACTIONS));
    let time = TimePacket::right(number, mode, fraction, chance);
    match chance.below(2) {
        _ if whole => time.record(link),
        0 => time.with_a_wrong_part(chance).record(link),
        _ => time.with_wrong_bytes(link, chance),
    }
}

/// A time packet in its parts.
struct TimePacket {
    address: u8,
    number: u8,
    /// The first preamble octet.
    epoch: u8,
    /// The second one, less the counts of extra octets: mode 0 or 1 where all is right.
    mode: u8,
    extra_seconds: Vec<u8>,
    seconds: u32,
    fraction: u32,
    extra_fraction: Vec<u8>,
}

impl TimePacket {
    /// Of the old kind, or with any counts of extra octets. Often its seconds are the last of all.
    fn right(number: u8, mode: u8, fraction: u32, chance: &mut Chance) -> Self {
        let (above, below) = if chance.one_in(3) { (0, 0) } else { (chance.below(4), chance.below(8)) };
        let last = u32::MAX;
        TimePacket {
            address: chance.pick(&[0x43, 0xFE]),
            number,
            epoch: chance.pick(&[0x9F, 0xAF]),
            mode,
            extra_seconds: vec![0; above],
            seconds: chance.pick(&[0, 1, 0x7FFF_FFFF, 0x8000_0000, last - 1, last, last, last, last]),
            fraction,
            extra_fraction: below_a_tick(below, chance),
        }
    }

    fn bytes(&self) -> Vec<u8> {
        let counts = self.extra_seconds.len() << 5 | self.extra_fraction.len() << 2;
        let mut bytes = vec![self.address, self.number, self.epoch, counts as u8 ^ self.mode];
        bytes.extend(&self.extra_seconds);
        bytes.extend(self.seconds.to_be_bytes());
        bytes.extend(&self.fraction.to_be_bytes()[1..]);
        bytes.extend(&self.extra_fraction);
        bytes.push(crc(&bytes));
        bytes
    }

    /// The record of this packet, as it is.
    fn record(self, link: u8) -> Record {
        Record::Packet { link, eep: false, bytes: self.bytes() }
    }

    /// One part is wrong, under a CRC that is right.
    fn with_a_wrong_part(mut self, chance: &mut Chance) -> Self {
        let any = 1 + chance.below(31) as u8;
        match chance.below(9) {
            0 => self.address = chance.byte(),
            1 => self.epoch = chance.pick(&[0x1F, 0x9E, 0xBF, 0xAE, 0x2F]),
            // Bits that must be 0. An extra octet of seconds that is not counted may seem to be the third one of which bit 0 tells.
            2 => self.mode ^= chance.pick(&[0x80, 0xA0]),
            3 => self.mode ^= 0x02,
            // Other counts than there are octets: one more or one less of fraction or of seconds, or any.
            4..=6 => self.mode ^= chance.pick(&[1, 1, 8, any]) << 2,
            _ => {
                let at = chance.below(3);
                self.extra_seconds = vec![0; chance.pick(&[at + 1, 3])];
                self.extra_seconds[at] = chance.pick(&[1, 0x80, 0xFF, any]);
                if chance.one_in(4) {
                    // As if the time were one before the first.
                    self.extra_seconds.fill(0xFF);
                }
            }
        }
        self
    }

    /// Bytes are wrong, missing or too many, or the packet ended by EEP.
    fn with_wrong_bytes(self, link: u8, chance: &mut Chance) -> Record {
        let mut bytes = self.bytes();
        let mut eep = false;
        let last = bytes.len() - 1;
        let (any, bit) = (chance.below(last), 1 << chance.below(8));
        match chance.below(8) {
            0 => eep = true,
            1 => bytes[last] ^= bit,
            // What would be right if the extra octets were not covered.
            2 => bytes[last] = crc(&bytes[..11]),
            3 => bytes[any] ^= bit,
            // An extra octet of seconds, where there is one, or one of the last: the extra ones of fraction.
            4 => bytes[chance.pick(&[4, last - 1])] ^= bit,
            5 => bytes.truncate(any),
            6 => bytes.truncate(last),
            _ => bytes.push(chance.byte()),
        }
        Record::Packet { link, eep, bytes }
    }
}

/// So many octets of what lies below a tick: nothing, half of a tick and almost a whole one, where rounding would tell, or any.
fn below_a_tick(count: usize, chance: &mut Chance) -> Vec<u8> {
    let all = (1 << (8 * count)) - 1;
    let any = chance.next() & all;
    let value = chance.pick(&[0, 1, all / 2, all / 2 + 1, all, all, any]);
    value.to_be_bytes()[8 - count..].to_vec()
}

/// Some Time-Codes: most go up by one from the last, and some begin before the wrap.
pub fn codes(last: &mut u8, records: &mut Vec<Record>, chance: &mut Chance) {
    match chance.below(4) {
        0 => *last = 61,
        1 => *last = chance.byte() & 63,
        _ => {}
    }
    for _ in 0..chance.below(6) + 1 {
        let step = chance.pick(&[1, 1, 1, 1, 1, 0, 2, 63]);
        *last = (*last + step) & 63;
        records.push(code(*last, chance));
    }
}

/// A Time-Code, which may carry its two upper bits.
fn code(low: u8, chance: &mut Chance) -> Record {
    Record::TimeCode(chance.pick(&[0, 0, 0, 0x40, 0x80, 0xC0]) | low)
}

/// Time-Codes 62, 63 and 0. Before the 0 a time packet often sets ET at once, ticks often lead on to another fraction, and now and then a
/// value waits.
pub fn wrap(number: u8, link: u8, last: &mut u8, records: &mut Vec<Record>, chance: &mut Chance) {
    records.extend([62, 63].map(|low| code(low, chance)));
    let mut fraction = AT_63;
    if chance.one_in(2) {
        fraction = chance.pick(&FRACTIONS);
        records.push(TimePacket::right(number, 1, fraction, chance).record(link));
    }
    if chance.one_in(2) {
        records.push(Record::Ticks(chance.pick(&FRACTIONS).wrapping_sub(fraction) % SECOND));
    }
    if chance.one_in(3) {
        fraction = chance.pick(&FRACTIONS);
        records.push(TimePacket::right(number, 0, fraction, chance).record(link));
    }
    *last = 0;
    records.push(code(*last, chance));
}

/// Wraps with ticks between them, as an oscillator tells a second: slow or fast by less than half of one, or by more. No other Time-Code
/// comes between, so that the ticks alone make the fraction.
pub fn oscillator(last: &mut u8, records: &mut Vec<Record>, chance: &mut Chance) {
    *last = 0;
    records.extend([63, 0].map(|low| code(low, chance)));
    for _ in 0..chance.below(3) + 1 {
        let half = SECOND / 2;
        let any = chance.word() % half;
        let wrong = chance.pick(&[0, 1, any, half - 1, half, half + 1]);
        records.push(Record::Ticks(chance.pick(&[SECOND - wrong, SECOND + wrong])));
        records.extend([63, 0].map(|low| code(low, chance)));
    }
}

pub fn ticks(chance: &mut Chance) -> Record {
    Record::Ticks(chance.pick(&[0, 1, 2, 0xFF_FFFF, 0x100_0000, u32::MAX, u32::MAX - 1]))
}
