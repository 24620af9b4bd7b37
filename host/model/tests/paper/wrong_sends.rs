//! Wrong ways to send a CCSDS packet (request 11 of document 02). The tests of `compare` try them too.

use model::{Carried, send_ccsds};

/// What is to be sent, and the output for it.
pub struct Sending<'a> {
    pub address: u8,
    pub carried: Carried<'a>,
    pub output: &'a mut [u8],
}

pub type Rule = fn(Sending) -> Result<usize, u8>;

pub const WRONG: [(&str, Rule); 26] = [
    ("42 goes before 41", |mut sending| if sending.size() > sending.output.len() { Err(42) } else { sending.send() }),
    ("it writes before it refuses with 41", |mut sending| sending.send_or(41, |sending| sending.write().and(Err(41)))),
    ("it writes before it refuses with 42", |mut sending| sending.send_or(42, |sending| sending.write().and(Err(42)))),
    ("it clears what it does not write", |mut sending| {
        let sent = sending.send();
        sending.output[sent.unwrap_or(0)..].fill(0);
        sent
    }),
    ("it wants room for one byte more", |sending| {
        let room = sending.output.len().saturating_sub(1);
        send_ccsds(sending.address, sending.carried, &mut sending.output[..room])
    }),
    ("the last byte needs no room", |mut sending| {
        sending
            .send_or(42, |sending| if sending.size() == sending.output.len() + 1 { sending.write() } else { Err(42) })
    }),
    ("the four in front need no room", |mut sending| {
        sending
            .send_or(42, |sending| if sending.size() <= sending.output.len() + 4 { sending.write() } else { Err(42) })
    }),
    ("what has no room is left out", |mut sending| sending.send_or(42, Sending::write)),
    ("it gives the size of the space packet", |mut sending| sending.send().map(|size| size - 4)),
    (
        "it refuses to send to others",
        |mut sending| {
            if [0x43, 0xFE].contains(&sending.address) { sending.send() } else { Err(41) }
        },
    ),
    ("all goes to FE", |mut sending| sending.send_with(|packet| packet[0] = 0xFE)),
    ("the protocol is another", |mut sending| sending.send_with(|packet| packet[1] = 3)),
    ("the reserved byte is not 0", |mut sending| sending.send_with(|packet| packet[2] = 1)),
    ("the reserved byte is not written", |mut sending| {
        let held = sending.output.get(2).copied();
        sending.send().inspect(|_| sending.output[2] = held.expect("it is there"))
    }),
    ("the application byte comes before it", |mut sending| sending.send_with(|packet| packet.swap(2, 3))),
    ("the application byte is 0", |mut sending| sending.send_with(|packet| packet[3] = 0)),
    ("no space packet is wrong", |mut sending| sending.send_or(41, |sending| sending.send_if(|_, _, _| true))),
    ("one without a whole header is right", |mut sending| {
        sending.send_or(41, |sending| if sending.size() < 10 { sending.write() } else { Err(41) })
    }),
    ("the version is not looked at", |mut sending| sending.send_if(|_, field, size| field + 7 == size)),
    ("it is the top two bits", |mut sending| sending.send_if(|first, field, size| first < 0x40 && field + 7 == size)),
    ("it is the top four bits", |mut sending| sending.send_if(|first, field, size| first < 0x10 && field + 7 == size)),
    ("the length field may tell of more", |mut sending| {
        sending.send_if(|first, field, size| first < 0x20 && field + 7 >= size)
    }),
    ("it may tell of fewer", |mut sending| sending.send_if(|first, field, size| first < 0x20 && field + 7 <= size)),
    ("it tells of 6 fewer", |mut sending| sending.send_if(|first, field, size| first < 0x20 && field + 6 == size)),
    ("its low byte comes first", |mut sending| {
        sending.send_if(|first, field, size| first < 0x20 && field % 256 * 256 + field / 256 + 7 == size)
    }),
    ("16 bits hold the field plus 7", |mut sending| {
        sending.send_if(|first, field, size| first < 0x20 && (field + 7) % 0x1_0000 == size)
    }),
];

impl Sending<'_> {
    fn size(&self) -> usize {
        4 + self.carried.space_packet.len()
    }

    /// Sends as it should be done.
    fn send(&mut self) -> Result<usize, u8> {
        send_ccsds(self.address, self.carried, self.output)
    }

    /// The same, with a change in what was written.
    fn send_with(&mut self, change: fn(&mut [u8])) -> Result<usize, u8> {
        self.send().inspect(|size| change(&mut self.output[..*size]))
    }

    /// The same, with something else in place of a refusal.
    fn send_or(&mut self, refusal: u8, other: fn(&mut Self) -> Result<usize, u8>) -> Result<usize, u8> {
        let sent = self.send();
        if sent == Err(refusal) { other(self) } else { sent }
    }

    /// Sends a space packet for which `right`, which is told its first byte, length field and size, holds.
    fn send_if(&mut self, right: fn(u8, usize, usize) -> bool) -> Result<usize, u8> {
        match *self.carried.space_packet {
            [first, _, _, _, high, low, ..]
                if right(first, u16::from_be_bytes([high, low]).into(), self.carried.space_packet.len()) => {}
            _ => return Err(41),
        }
        if self.size() > self.output.len() { Err(42) } else { self.write() }
    }

    /// Writes what there is room for.
    fn write(&mut self) -> Result<usize, u8> {
        let packet = [&[self.address, 2, 0, self.carried.application], self.carried.space_packet].concat();
        let size = packet.len().min(self.output.len());
        self.output[..size].copy_from_slice(&packet[..size]);
        Ok(size)
    }
}
