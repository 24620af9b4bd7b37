//! The call that takes a packet (document 01, The terminal and its neighbours, Numbers a caller
//! gets, and Reading a packet, with request 2 of document 02).

use crate::answer::{Answer, End, fate};
use crate::unit::{ANY_ADDRESS, Unit};

const PLUG_AND_PLAY: u8 = 0x03;

impl Unit {
    /// Takes the bytes of a packet that came on `link` and ended with `end`.
    pub fn take_packet(&mut self, packet: &[u8], end: End, link: u8, memory: &mut [u8], reply: &mut [u8]) -> Answer {
        if !self.is_sound() || !self.suits(memory.len()) {
            return Answer::bare(fate::UNUSABLE);
        }
        if link == 0 || link > self.link_count {
            return Answer::bare(fate::NO_SUCH_LINK);
        }
        let packet = without_path_zero(packet);
        let answer = match packet.get(1) {
            None => Answer::bare(fate::INCOMPLETE),
            Some(0x00) => Answer::bare(fate::EXTENDED_PROTOCOL),
            Some(0x01) => self.take_rmap(packet, end, memory, reply),
            Some(&PLUG_AND_PLAY) => self.take_fields(packet, end, link, reply),
            Some(&number) if number == self.time_number => Answer::bare(self.take_time(packet, end)),
            Some(_) => Answer::bare(fate::UNKNOWN_PROTOCOL),
        };
        self.count(answer.fate);
        answer
    }

    /// Counts a fate from 11 to 20; the lower ones leave no trace.
    fn count(&mut self, fate: u8) {
        if let 11..=20 = fate {
            let counter = &mut self.counters.fates[usize::from(fate - 11)];
            *counter = counter.wrapping_add(1);
            self.counters.total = self.counters.total.wrapping_add(1);
        }
    }
}

/// The packet without the last zero of its path, which an interface may have left in front of it
/// (000, 5.2.3.2c; request 2 of document 02). It is known by what follows: plug-and-play's one
/// logical address, and its protocol.
fn without_path_zero(packet: &[u8]) -> &[u8] {
    match packet {
        [0x00, rest @ ..] if rest.starts_with(&[ANY_ADDRESS, PLUG_AND_PLAY]) => rest,
        _ => packet,
    }
}
