//! Wrong rules for the newer preamble of a time packet (request 12 of document 02). The tests of `compare` try them too.

use model::crc;
use std::ops::Range;

/// A packet with the unit's time number, in which a rule changes what has to be another for a right unit to take it as the wrong rule
/// takes the packet that came.
pub struct Packet {
    /// All but the last, which is the CRC.
    octets: Vec<u8>,
    /// What the CRC differs in from the right one.
    slip: u8,
}

pub type Rule = fn(&mut Packet);

/// What a packet has to be for a right unit, with this time number, to take it as the wrong rule takes the packet that came.
pub fn taken_by(rule: Rule, packet: &[u8], time: u8) -> Vec<u8> {
    match packet {
        // Plug-and-play behind a zero, also where the time number is FE.
        [0, 0xFE, 3, ..] => packet.to_vec(),
        [octets @ .., last] if octets.len() >= 4 && octets[1] == time => {
            let mut packet = Packet { octets: octets.to_vec(), slip: crc(octets) ^ last };
            rule(&mut packet);
            packet.bytes()
        }
        _ => packet.to_vec(),
    }
}

pub const WRONG: [(&str, Rule); 52] = [
    ("there is none, as before the request", |packet| packet.throw_away_if(packet.extra() > 0)),
    ("bits are counted from the other end", |packet| *packet.second() = packet.second().reverse_bits()),
    ("all bits but the mission's are", counts_from_the_other_end),
    ("the counts change places", counts_change_places),
    ("bits 1 and 2 are not looked at", |packet| *packet.second() &= !0b0110_0000),
    ("bit 1 is not looked at", |packet| *packet.second() &= !0b0100_0000),
    ("bits 3 to 5 are not looked at", |packet| *packet.second() &= !0b0001_1100),
    ("bit 3 is not looked at", |packet| *packet.second() &= !0b0001_0000),
    ("bit 0 is not looked at", |packet| *packet.second() &= !0b1000_0000),
    ("bit 6 is not looked at", |packet| *packet.second() &= !0b0000_0010),
    ("bit 0 tells of a third octet", third_octet),
    ("bits 6 and 7 change places", |packet| {
        let second = *packet.second();
        *packet.second() = second & !0b11 | (second & 1) << 1 | second >> 1 & 1;
    }),
    ("bit 6 sets at once too", |packet| {
        let second = *packet.second();
        *packet.second() = second & !0b10 | second >> 1 & 1;
    }),
    ("extra octets: all wait", |packet| packet.lay(|octets, s, f| octets[3] &= !u8::from(s + f > 0))),
    ("extra octets: none waits", |packet| packet.lay(|octets, s, f| octets[3] |= u8::from(s + f > 0))),
    ("extra octets: none that waits", |packet| packet.throw_away_if(packet.extra() > 0 && packet.octets[3] & 1 == 0)),
    ("extra octets: none at once", |packet| packet.throw_away_if(packet.extra() > 0 && packet.octets[3] & 1 == 1)),
    ("extra octets: not with 9F", |packet| packet.throw_away_if(packet.extra() > 0 && packet.octets[2] == 0x9F)),
    ("extra octets: not with AF", |packet| packet.throw_away_if(packet.extra() > 0 && packet.octets[2] == 0xAF)),
    ("extra octets: not to all", |packet| packet.throw_away_if(packet.extra() > 0 && packet.octets[0] == 0xFE)),
    ("extra octets: none of seconds", |packet| packet.throw_away_if(packet.counts().0 > 0)),
    ("extra octets: none of fraction", |packet| packet.throw_away_if(packet.counts().1 > 0)),
    ("extra octets: not of both", |packet| packet.throw_away_if(packet.counts().0 > 0 && packet.counts().1 > 0)),
    ("extra octets: one of each at most", |packet| {
        let (s, f) = packet.counts();
        packet.throw_away_if(s > 1 || f > 1);
    }),
    ("extra octets: eight octets of time at most", |packet| packet.throw_away_if(packet.extra() > 1)),
    ("extra octets: sixteen octets of time at most", |packet| packet.throw_away_if(packet.extra() > 9)),
    ("extra seconds are not looked at", |packet| packet.lay(|octets, s, _| octets[4..4 + s].fill(0))),
    ("only the first of them is", |packet| packet.lay(|octets, s, _| octets[4 + s.min(1)..4 + s].fill(0))),
    ("only the last of them is", |packet| packet.lay(|octets, s, _| octets[4..4 + s.saturating_sub(1)].fill(0))),
    ("they may be a sign", |packet| {
        packet.lay(|octets, s, _| {
            if octets[4..4 + s].iter().all(|octet| *octet == 0xFF) {
                octets[4..4 + s].fill(0);
            }
        })
    }),
    ("they make the time the last of all", |packet| {
        packet.lay(|octets, s, _| {
            if !all_zero(&octets[4..4 + s]) {
                octets[4..4 + s].fill(0);
                octets[4 + s..11 + s].fill(0xFF);
            }
        })
    }),
    ("they come behind the other four", |packet| packet.lay(|octets, s, _| octets[4..8 + s].rotate_left(4))),
    ("they come behind the three of fraction", |packet| packet.lay(|octets, s, _| octets[4..11 + s].rotate_left(7))),
    ("they come last", |packet| packet.lay(|octets, _, f| octets[4..].rotate_left(7 + f))),
    ("extra fraction comes first", |packet| packet.lay(|octets, _, f| octets[4..].rotate_left(f))),
    ("it comes before the seconds", |packet| packet.lay(|octets, s, f| octets[4 + s..].rotate_left(f))),
    ("it comes before the other three", |packet| packet.lay(|octets, s, f| octets[8 + s..].rotate_left(f))),
    ("the time stands where it stood", |packet| packet.lay(|octets, s, _| octets.copy_within(4..11, 4 + s))),
    ("the time stands last", |packet| packet.lay(|octets, s, f| octets.copy_within(4 + s + f.., 4 + s))),
    ("extra fraction must be zero", |packet| packet.throw_away_if(!all_zero(packet.extra_fraction()))),
    ("the time goes to the nearest tick", |packet| packet.up_if(matches!(packet.extra_fraction(), [0x80..=0xFF, ..]))),
    ("it goes to the next tick", |packet| packet.up_if(!all_zero(packet.extra_fraction()))),
    ("it goes to the next tick from FF on", |packet| packet.up_if(matches!(packet.extra_fraction(), [0xFF, ..]))),
    ("octets may follow", |packet| packet.octets.truncate(11 + packet.extra())),
    ("octets may follow the CRC", octets_behind_the_crc),
    ("the last octet may be missing", |packet| {
        if packet.octets.len() + 1 == 11 + packet.extra() {
            packet.octets.push(0);
        }
    }),
    ("twelve octets are enough", |packet| {
        if packet.octets.len() == 11 {
            *packet.second() &= !0b0111_1100;
        }
    }),
    ("what follows the time of before is cut off", |packet| {
        *packet.second() &= !0b0111_1100;
        packet.octets.truncate(11);
    }),
    ("the CRC is that of the first eleven", |packet| packet.lay_crc(|_| 11..usize::MAX)),
    ("the CRC leaves extra seconds out", |packet| packet.lay_crc(|s| 4..4 + s)),
    ("the CRC leaves extra fraction out", |packet| packet.lay_crc(|s| 11 + s..usize::MAX)),
    ("the CRC is not looked at with extra octets", |packet| {
        if packet.extra() > 0 {
            packet.slip = 0;
        }
    }),
];

impl Packet {
    fn bytes(&self) -> Vec<u8> {
        [&self.octets[..], &[crc(&self.octets) ^ self.slip]].concat()
    }

    /// The second preamble octet.
    fn second(&mut self) -> &mut u8 {
        &mut self.octets[3]
    }

    /// How many extra octets it tells of: those of seconds, and those of fraction.
    fn counts(&self) -> (usize, usize) {
        (usize::from(self.octets[3] >> 5 & 3), usize::from(self.octets[3] >> 2 & 7))
    }

    fn extra(&self) -> usize {
        self.counts().0 + self.counts().1
    }

    fn extra_fraction(&self) -> &[u8] {
        self.octets.get(11 + self.counts().0..).unwrap_or_default()
    }

    fn throw_away_if(&mut self, thrown_away: bool) {
        if thrown_away {
            self.slip = 1;
        }
    }

    /// Changes the octets of a packet that has as many as it tells of; the counts are told with them.
    fn lay(&mut self, change: fn(&mut [u8], usize, usize)) {
        let (s, f) = self.counts();
        if self.octets.len() == 11 + s + f {
            change(&mut self.octets, s, f);
        }
    }

    /// Where `goes` holds the time is a tick later.
    fn up_if(&mut self, goes: bool) {
        if goes {
            self.lay(|octets, s, _| {
                for octet in octets[4 + s..11 + s].iter_mut().rev() {
                    *octet = octet.wrapping_add(1);
                    if *octet != 0 {
                        break;
                    }
                }
            });
        }
    }

    /// The last octet is to be the CRC of the others less a part of them, which the count of extra seconds gives.
    fn lay_crc(&mut self, left_out: fn(usize) -> Range<usize>) {
        let last = crc(&self.octets) ^ self.slip;
        let part = left_out(self.counts().0);
        let covered = self.octets.iter().enumerate().filter(|(at, _)| !part.contains(at));
        self.slip = last ^ crc(&covered.map(|(_, octet)| *octet).collect::<Vec<u8>>());
    }
}

fn all_zero(octets: &[u8]) -> bool {
    octets.iter().all(|octet| *octet == 0)
}

/// Bits 1 and 2 are 04 and 02, bits 3 to 5 are 20, 10 and 08, and neither 80 nor 40 may be set.
fn counts_from_the_other_end(packet: &mut Packet) {
    let second = *packet.second();
    *packet.second() = (second >> 1 & 3) << 5 | (second >> 3 & 7) << 2 | u8::from(second >> 6 != 0) << 1 | second & 1;
}

/// As many octets of seconds as the fraction should have, and the other way round.
fn counts_change_places(packet: &mut Packet) {
    let (_, f) = packet.counts();
    packet.throw_away_if(packet.octets.get(4..4 + f).is_some_and(|above| !all_zero(above)));
    packet.lay(|octets, s, f| {
        octets.copy_within(4 + f..11 + f, 4 + s);
        octets[4..4 + s].fill(0);
    });
}

fn third_octet(packet: &mut Packet) {
    if packet.octets[3] & 0x80 != 0 && packet.octets.len() > 4 {
        packet.octets.remove(4);
        packet.octets[3] &= 0x7F;
    }
}

fn octets_behind_the_crc(packet: &mut Packet) {
    let all = packet.bytes();
    let size = 11 + packet.extra();
    if let (Some(octets), Some(last)) = (all.get(..size), all.get(size)) {
        *packet = Packet { octets: octets.to_vec(), slip: crc(octets) ^ last };
    }
}
