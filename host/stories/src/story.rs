//! A story: packets, Time-Codes and ticks of all kinds, by a few senders who are easily mistaken for each other.
use crate::chance::Chance;
use crate::command::{Command, Sender};
use crate::fields::Ownership;
use crate::ground::Ground;
use crate::record::{BODY, Record};
use crate::{fields, memory, time, zero};

pub struct Story {
    pub chance: Chance,
    pub ground: Ground,
    senders: Vec<Sender>,
    ownership: Ownership,
    /// The Time-Code that was sent last.
    code: u8,
    /// One in so many packets comes with the last zero of its path.
    zeros: usize,
    pub records: Vec<Record>,
}

impl Story {
    pub fn new(mut chance: Chance, ground: Ground) -> Self {
        let senders = senders(&ground, &mut chance);
        // Most interfaces strip it.
        let zeros = if chance.one_in(8) { 3 } else { 40 };
        Story { chance, ground, senders, ownership: Ownership::default(), code: 0, zeros, records: Vec::new() }
    }

    /// Adds a claim of the unit, if it is free.
    pub fn claim(&mut self) {
        let swap = self.ownership.swap(&self.senders[0], true, &mut self.chance);
        self.send(swap, true);
    }

    /// Adds a record, or a few.
    pub fn go_on(&mut self) {
        let chance = &mut self.chance;
        let whole = chance.one_in(2);
        match chance.below(38) {
            0..=13 => {
                let sender = &self.senders[chance.below(self.senders.len())];
                let command = memory::command(sender, &self.ground, chance);
                self.send(command, whole);
            }
            14..=17 => {
                let sender = self.ownership.sender(&self.senders, chance);
                let swap = self.ownership.swap(&sender, whole, chance);
                self.send(swap, whole);
            }
            18..=28 => {
                let sender = self.ownership.sender(&self.senders, chance);
                let command = fields::other(&sender, chance);
                self.send(command, whole);
            }
            29 | 30 => {
                let link = link(&self.ground, chance);
                let packet = time::packet(self.ground.time, link, whole, chance);
                self.add(packet);
            }
            31 => match chance.below(6) {
                0 | 1 => time::wrap(self.ground.time, self.senders[0].link, &mut self.code, &mut self.records, chance),
                2 => time::oscillator(&mut self.code, &mut self.records, chance),
                _ => time::codes(&mut self.code, &mut self.records, chance),
            },
            32 => self.records.push(time::ticks(chance)),
            33 | 34 => {
                let packet = noise(&self.ground, chance);
                self.add(packet);
            }
            35 => {
                let link = link(&self.ground, chance);
                self.records.push(zero::noise(link, chance));
            }
            _ => {
                let sender = self.ownership.sender(&self.senders, chance);
                let packet = fields::every(&sender, chance).damaged(chance);
                self.records.push(zero::before(packet));
            }
        }
    }

    fn send(&mut self, command: Command, whole: bool) {
        let packet = if whole { command.whole() } else { command.damaged(&mut self.chance) };
        self.add(packet);
    }

    /// Adds a packet, perhaps with the zero in front, which changes nothing for plug-and-play.
    fn add(&mut self, packet: Record) {
        let zero = self.chance.one_in(self.zeros);
        self.records.push(if zero { zero::before(packet) } else { packet });
    }
}

/// Six senders: one, and others who differ from it in one thing that an owner is known by, or only look different.
fn senders(ground: &Ground, chance: &mut Chance) -> Vec<Sender> {
    let one = Sender {
        initiator: chance.pick(&[0x67, 0x20, 0xFE, 0x43, 0]),
        reply_address: reply_address(chance),
        link: 1 + chance.below(usize::from(ground.links)) as u8,
    };
    let mut senders = vec![one.clone(); 6];
    senders[1].initiator ^= 1 << chance.below(8);
    senders[2].link = one.link % ground.links + 1;
    // The same path behind four more zeros, or, for a full address, another path.
    if one.reply_address.is_empty() || one.reply_address.len() == 12 {
        senders[3].reply_address = reply_address(chance);
    } else {
        senders[3].reply_address.splice(0..0, [0; 4]);
    }
    // No path against the path 00.
    senders[4].reply_address =
        if one.reply_address.is_empty() { vec![0; 4 * (1 + chance.below(3))] } else { Vec::new() };
    senders[5].reply_address = reply_address(chance);
    senders
}

fn reply_address(chance: &mut Chance) -> Vec<u8> {
    let mut address = vec![0; 4 * chance.below(4)];
    // None, some or all of its bytes are a path; zeros in it stay.
    let path = chance.below(address.len() + 1);
    let from = address.len() - path;
    for byte in &mut address[from..] {
        *byte = chance.pick(&[0, 1, 2, 3, 0xFE]);
    }
    address
}

fn link(ground: &Ground, chance: &mut Chance) -> u8 {
    if chance.one_in(4) {
        chance.pick(&[0, ground.links + 1, 32, 255])
    } else {
        1 + chance.below(usize::from(ground.links)) as u8
    }
}

/// A packet of any bytes: short ones, all protocols, and now and then one that fills a record.
fn noise(ground: &Ground, chance: &mut Chance) -> Record {
    let size = if chance.one_in(40) { BODY } else { chance.pick(&[0, 1, 2, 3, 4, 16, 17]) + chance.below(8) };
    let mut bytes = chance.bytes(size);
    if size >= 2 {
        bytes[1] = chance.pick(&[0, 1, 2, 3, 0xEF, 0xF0, 0xF1, 0xFE, 0xFF, bytes[1]]);
    }
    bytes.truncate(if chance.one_in(4) { chance.below(4) } else { size });
    Record::Packet { link: link(ground, chance), eep: chance.one_in(8), bytes }
}
