//! Any packet at all gets one of the table's answers, and what the table says of each answer
//! holds (document 01, Numbers a caller gets).

use crate::build::{Build, Stage, command, field_command, sealed};
use model::{Answer, End, crc};

/// A plain generator of numbers without pattern (Knuth's MMIX constants), so that a failure can
/// be had again.
struct Dice(u64);

impl Dice {
    fn below(&mut self, bound: u32) -> u32 {
        self.0 = self.0.wrapping_mul(6_364_136_223_846_793_005).wrapping_add(1);
        ((self.0 >> 32) as u32) % bound
    }

    fn byte(&mut self) -> u8 {
        self.below(256) as u8
    }

    fn one_of<T: Copy>(&mut self, values: &[T]) -> T {
        values[self.below(values.len() as u32) as usize]
    }

    fn command(&mut self) -> Build {
        let instruction = 0x40 | self.below(64) as u8;
        let length = self.one_of(&[0, 1, 2, 4, 6, 8, 8, 8, 64, 1024, 1025, 5000, 0xFF_FFFF]);
        let base = if self.below(2) == 0 {
            let address = self.one_of(&[0, 1, 100, 4088, 4095, 4096, 4097, 0xFFFF_FFFF]);
            command(instruction, address, length)
        } else {
            let (protocol, field) = (self.below(3), self.below(12));
            field_command(instruction, protocol, field, length)
        };
        let reply_address = (0..instruction % 4 * 4).map(|_| self.one_of(&[0, 0, 1])).collect();
        let rest = match self.below(4) {
            0 => vec![],
            1 => (0..self.below(12)).map(|_| self.byte()).collect(),
            _ => sealed(&vec![self.one_of(&[0, 1, 0xFF]); length.min(2000) as usize]),
        };
        Build { reply_address, rest, initiator: 0x66 + self.below(2) as u8, ..base }
    }

    /// Mostly with as many octets as its second preamble octet says, of which all are mostly zero.
    fn time_packet(&mut self) -> Vec<u8> {
        let second = self.byte() & self.one_of(&[0xFF, 0b0111_1101]);
        let mut body = vec![0x43, 0xF0, 0x9F, second];
        let extra = usize::from(second >> 5 & 3) + usize::from(second >> 2 & 7);
        let size = 11 + extra + self.one_of(&[0, 0, 0, 1]);
        body.resize(size, self.one_of(&[0, 0, 1]));
        sealed(&body)
    }

    fn packet(&mut self) -> Vec<u8> {
        let mut packet = match self.below(5) {
            0 => (0..self.below(30)).map(|_| self.byte()).collect(),
            1 => self.time_packet(),
            _ => self.command().packet(),
        };
        if self.below(8) == 0 && !packet.is_empty() {
            let at = self.below(packet.len() as u32) as usize;
            packet[at] ^= 1 << self.below(8);
        }
        packet
    }
}

#[test]
fn every_answer_keeps_the_table() {
    let mut dice = Dice(1);
    let mut stage = Stage::new();
    let mut seen = [0u32; 21];
    for _ in 0..30_000 {
        let packet = dice.packet();
        let end = dice.one_of(&[End::Eop, End::Eop, End::Eop, End::Eep]);
        let link = dice.one_of(&[0, 1, 1, 1, 1, 2, 4, 5]);
        let before = stage.unit.clone();
        let memory = stage.memory.clone();
        let answer = stage.send_all(&packet, end, link);
        seen[usize::from(answer.fate)] += 1;

        let mut unit = stage.unit.clone();
        unit.counters = before.counters.clone();
        let effects_allowed = matches!(answer.fate, 17..=20);
        assert!(effects_allowed || stage.memory == memory);
        assert!(effects_allowed || unit == before);
        if answer.fate <= 3 {
            assert_eq!(stage.unit.counters, before.counters);
        }
        match answer {
            Answer { fate: 2 | 3 | 11..=16 | 19, status: None, reply: 0 } => {}
            Answer { fate: 17, status: Some(1..), reply: 0 } => {}
            Answer { fate: 18, status: Some(0), reply: 0 } => {}
            Answer { fate: 20, status: Some(status), reply: 8.. } => {
                let instruction = packet[2];
                if instruction & 0x20 != 0 {
                    assert_eq!(crc(&stage.reply[answer.reply - 8..answer.reply]), 0);
                } else if status != 0 {
                    assert_eq!(crc(&stage.reply[answer.reply - 13..answer.reply - 1]), 0);
                    assert_eq!(stage.reply[answer.reply - 1], 0);
                }
            }
            other => panic!("{other:?}"),
        }
    }
    // All of them came, and the counters are the history's counts.
    assert!([2, 3, 11, 12, 13, 14, 15, 16, 17, 18, 19, 20].iter().all(|&fate| seen[fate] > 0));
    assert_eq!(stage.unit.counters.fates, seen[11..]);
    assert_eq!(stage.unit.counters.total, seen[11..].iter().sum::<u32>());
}
