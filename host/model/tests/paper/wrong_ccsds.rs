//! Wrong rules for CCSDS packets that are received (request 11 of document 02). The tests of `compare` try them too.

/// A packet of protocol 02, in which a rule changes what has to be another for a right unit to take it as the wrong rule takes the packet
/// that came.
#[derive(Clone)]
pub struct Packet {
    bytes: Vec<u8>,
    eep: bool,
}

pub type Rule = fn(&mut Packet);

/// What a packet has to be, and whether it has to end by EEP, for a right unit to take it as the wrong rule takes the packet that came.
pub fn taken_by(rule: Rule, bytes: &[u8], eep: bool) -> (Vec<u8>, bool) {
    let came = Packet { bytes: bytes.to_vec(), eep };
    let mut packet = came.clone();
    if bytes.get(1) == Some(&2) {
        rule(&mut packet);
    }
    // What the rule takes as it should stays as it came.
    let packet = if packet.fate() == came.fate() { came } else { packet };
    (packet.bytes, packet.eep)
}

pub const WRONG: [(&str, Rule); 36] = [
    ("there are none, as before the request", |packet| packet.bytes[1] = 7),
    ("one without a space packet is incomplete", |packet| packet.incomplete_if(packet.bytes.len() <= 4)),
    ("one without a whole header is", |packet| packet.incomplete_if(packet.bytes.len() < 10)),
    ("one that ends early is", |packet| {
        packet.incomplete_if(packet.bytes.len() >= 10 && packet.size() < packet.told())
    }),
    ("what is missing is taken for right", |packet| packet.bytes.extend(RIGHT.iter().skip(packet.bytes.len()))),
    ("all are thrown away", |packet| packet.eep = true),
    ("not to FE", |packet| packet.eep |= packet.bytes[0] == 0xFE),
    ("to FE alone", |packet| packet.eep |= packet.bytes[0] == 0x43),
    ("to FF too", |packet| packet.put(0, |address| if address == 0xFF { 0xFE } else { address })),
    ("to any address", |packet| packet.put(0, |_| 0x43)),
    ("the reserved byte is not looked at", |packet| packet.put(2, |_| 0)),
    ("only its lowest bit is", |packet| packet.put(2, |reserved| reserved & 1)),
    ("it stands behind the application byte", |packet| {
        if packet.bytes.len() > 3 {
            packet.bytes.swap(2, 3);
        }
    }),
    ("the application byte is 0", |packet| {
        packet.eep |= packet.bytes.get(3).is_some_and(|application| *application != 0)
    }),
    ("the end is not looked at", |packet| packet.eep = false),
    ("the version is not looked at", |packet| packet.put(4, |first| first & 0x1F)),
    ("it may be 1", |packet| packet.put(4, |first| if first >> 5 == 1 { first & 0x1F } else { first })),
    ("it is the top bit", |packet| packet.put(4, |first| first & 0x9F)),
    ("it is the top two bits", |packet| packet.put(4, |first| first & 0xDF)),
    ("it is the top four bits", |packet| packet.put(4, |first| if first & 0x10 != 0 { 0xFF } else { first })),
    ("it is the low three bits", |packet| packet.put(4, u8::reverse_bits)),
    ("the length field is not looked at", |packet| packet.fits_if(|_, _| true)),
    ("the field is the size", |packet| packet.fits_if(|field, size| field == size)),
    ("the field plus 1 is", |packet| packet.fits_if(|field, size| field + 1 == size)),
    ("the field plus 6 is", |packet| packet.fits_if(|field, size| field + 6 == size)),
    ("the field plus 8 is", |packet| packet.fits_if(|field, size| field + 8 == size)),
    ("the field counts the four in front", |packet| packet.fits_if(|field, size| field + 7 == size + 4)),
    ("it may tell of one more", |packet| packet.fits_if(|field, size| [size, size + 1].contains(&(field + 7)))),
    ("it may tell of more", |packet| packet.fits_if(|field, size| field + 7 >= size)),
    ("it may tell of one fewer", |packet| packet.fits_if(|field, size| [size, size - 1].contains(&(field + 7)))),
    ("it may tell of fewer", |packet| packet.fits_if(|field, size| field + 7 <= size)),
    ("its low byte comes first", |packet| packet.fits_if(|field, size| field % 256 * 256 + field / 256 + 7 == size)),
    ("its high byte is not looked at", |packet| packet.fits_if(|field, size| field % 256 + 7 == size)),
    ("its low byte is not looked at", |packet| {
        packet.fits_if(|field, size| size >= 7 && field / 256 == (size - 7) / 256)
    }),
    ("16 bits hold the field plus 7", |packet| packet.fits_if(|field, size| (field + 7) % 0x1_0000 == size)),
    ("no space packet has more than 1,024 bytes", |packet| {
        packet.fits_if(|field, size| field + 7 == size && size <= 1024)
    }),
];

/// Those that show only in packets which no log has.
pub const LONG: [(&str, Rule); 4] = [
    ("no space packet has more than 4,092 bytes", |packet| {
        packet.fits_if(|field, size| field + 7 == size && size <= 4092)
    }),
    ("none has more than 65,535 bytes", |packet| packet.fits_if(|field, size| field + 7 == size && size < 0x1_0000)),
    ("the longest is one byte too long", |packet| packet.fits_if(|field, size| field + 7 == size && field < 0xFFFF)),
    ("16 bits hold the size", |packet| packet.fits_if(|field, size| size >= 7 && field == (size - 7) % 0x1_0000)),
];

/// A packet that is taken: one byte of data, so that the length field is 0.
const RIGHT: [u8; 11] = [0x43, 2, 0, 0, 0, 0, 0, 0, 0, 0, 0];

impl Packet {
    /// The fate that it should have.
    fn fate(&self) -> u8 {
        match self.bytes[..] {
            [] | [_] => 11,
            [0x43 | 0xFE, 2, 0, _, 0..0x20, _, _, _, _, _, ..] if !self.eep && self.told() == self.size() => 21,
            [_, 2, ..] => 22,
            _ => 12,
        }
    }

    /// The size of the space packet, and the size that it tells of, where its header is whole.
    fn size(&self) -> usize {
        self.bytes.len() - 4
    }

    fn told(&self) -> usize {
        usize::from(self.bytes[8]) * 256 + usize::from(self.bytes[9]) + 7
    }

    fn put(&mut self, at: usize, change: fn(u8) -> u8) {
        if let Some(byte) = self.bytes.get_mut(at) {
            *byte = change(*byte);
        }
    }

    fn incomplete_if(&mut self, incomplete: bool) {
        if incomplete {
            self.bytes.truncate(1);
        }
    }

    /// The length of the space packet is right exactly where `fits`, which is told the length field and the size, holds.
    fn fits_if(&mut self, fits: fn(usize, usize) -> bool) {
        if self.bytes.len() < 10 {
            return;
        }
        if fits(self.told() - 7, self.size()) {
            self.bytes.truncate(8);
            self.bytes.extend([0, 0, 0]);
        } else {
            self.eep = true;
        }
    }
}
