//! The time receiver (document 01, Time, with requests 3 and 12 of document 02; 004).

use crate::answer::{End, fate};
use crate::crc::crc;
use crate::unit::{ANY_ADDRESS, TIME_BOUND, Time, Unit};

/// A second of an elapsed time: its fraction is 24 bits.
const SECOND: u64 = 1 << 24;

/// The second preamble octet (request 12; 004, Draft P-Field format, which numbers the bits from
/// the most significant).
#[derive(Clone, Copy)]
struct Preamble(u8);

impl Preamble {
    /// Bit 0 would announce a third octet; bit 6 has no meaning in our missions.
    fn is_right(self) -> bool {
        self.0 & 0b1000_0010 == 0
    }

    /// Bits 1 and 2.
    fn extra_seconds(self) -> usize {
        usize::from(self.0 >> 5 & 0b11)
    }

    /// Bits 3 to 5.
    fn extra_fraction(self) -> usize {
        usize::from(self.0 >> 2 & 0b111)
    }

    /// Bit 7, our mission's: the time is set at once, and does not wait for the wrap.
    fn initializes(self) -> bool {
        self.0 & 1 == 1
    }
}

/// A whole packet of the time protocol, with its CRC right.
struct TimePacket {
    address: u8,
    preamble: Preamble,
    time: Time,
}

impl TimePacket {
    fn read(packet: &[u8]) -> Option<TimePacket> {
        let &[address, _, epoch, preamble, ref octets @ ..] = packet else {
            return None;
        };
        let preamble = Preamble(preamble);
        let (above, octets) = octets.split_at_checked(preamble.extra_seconds())?;
        let (t, below) = octets.split_first_chunk::<7>()?;
        let right = preamble.is_right()
            && matches!(epoch, 0x9F | 0xAF)
            && above.iter().all(|octet| *octet == 0)
            // What lies below a tick is cut off; the CRC stands behind it.
            && below.len() == preamble.extra_fraction() + 1
            && crc(packet) == 0;
        let t = t.iter().fold(0, |t, octet| t << 8 | u64::from(*octet));
        right.then_some(TimePacket { address, preamble, time: Time { epoch, t } })
    }
}

impl Unit {
    /// Takes a packet of the time protocol and gives its fate.
    pub(crate) fn take_time(&mut self, packet: &[u8], end: End) -> u8 {
        let addresses = [self.logical_address, ANY_ADDRESS];
        match TimePacket::read(packet) {
            Some(sent) if end == End::Eop && addresses.contains(&sent.address) => {
                if sent.preamble.initializes() {
                    self.elapsed = sent.time;
                    self.waiting = None;
                } else {
                    self.waiting = Some(sent.time);
                }
                fate::TIME_TAKEN
            }
            _ => fate::TIME_THROWN_AWAY,
        }
    }

    /// Takes a Time-Code, of which the upper two bits are control flags without meaning here.
    pub fn time_code(&mut self, code: u8) -> u8 {
        if !self.is_sound() {
            return fate::UNUSABLE;
        }
        let new = code & 0x3F;
        let last = self.last_time_code;
        let seconds = self.elapsed.t / SECOND * SECOND;
        if last == 63 && new == 0 {
            // Document 01, Time, as changed by request 3 of document 02.
            match self.waiting.take() {
                Some(time) => self.elapsed = time,
                None if self.elapsed.t - seconds >= SECOND / 2 => self.elapsed.t = (seconds + SECOND) % TIME_BOUND,
                None => self.elapsed.t = seconds,
            }
        } else if new == last + 1 {
            self.elapsed.t = seconds + u64::from(new) * (SECOND / 64);
        }
        self.last_time_code = new;
        fate::TAKEN
    }

    /// Takes clock ticks, each one of the fraction's lowest bit.
    pub fn ticks(&mut self, ticks: u32) -> u8 {
        if !self.is_sound() {
            return fate::UNUSABLE;
        }
        self.elapsed.t = (self.elapsed.t + u64::from(ticks)) % TIME_BOUND;
        fate::TAKEN
    }
}
