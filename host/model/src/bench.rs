//! The bench program (document 01, Bench program).

use crate::answer::{Answer, End};
use crate::unit::{Unit, Window};

const MEMORY_SIZE: u32 = 4096;
const REPLY_SIZE: usize = 8192;

/// Mark, kind, link, end and length.
const HEAD_SIZE: usize = 7;
const BODY_LIMIT: usize = 4096;

/// The longest record; whoever feeds a log in blocks keeps room for one.
pub const RECORD_LIMIT: usize = HEAD_SIZE + BODY_LIMIT;

enum Record<'a> {
    Packet { packet: &'a [u8], end: End, link: u8 },
    TimeCode(u8),
    Ticks(u32),
}

/// A record that is wrong whatever may follow.
struct Wrong;

impl<'a> Record<'a> {
    /// The record at the front of `log` and its size, or nothing if `log` ends within it.
    fn read(log: &'a [u8]) -> Result<Option<(Record<'a>, usize)>, Wrong> {
        let Some((head, rest)) = log.split_first_chunk::<HEAD_SIZE>() else {
            return Ok(None);
        };
        let &[0x5A, 0x57, kind, link, end, high, low] = head else {
            return Err(Wrong);
        };
        let length = usize::from(u16::from_be_bytes([high, low]));
        let right = match (kind, link, end) {
            (1, _, 0 | 1) => length <= BODY_LIMIT,
            (2, 0, 0) => length == 1,
            (3, 0, 0) => length == 4,
            _ => false,
        };
        if !right {
            return Err(Wrong);
        }
        let Some(body) = rest.get(..length) else {
            return Ok(None);
        };
        let record = match (kind, body) {
            (2, &[code]) => Record::TimeCode(code),
            (3, &[a, b, c, d]) => Record::Ticks(u32::from_be_bytes([a, b, c, d])),
            (_, packet) => {
                let end = if end == 0 { End::Eop } else { End::Eep };
                Record::Packet { packet, end, link }
            }
        };
        Ok(Some((record, HEAD_SIZE + length)))
    }
}

/// The bench's unit, memory and reply buffer, and how far the log has come.
pub struct Bench {
    pub unit: Unit,
    pub memory: Vec<u8>,
    pub reply: Vec<u8>,
    items: u64,
    offset: u64,
    bad: bool,
}

impl Default for Bench {
    fn default() -> Bench {
        Bench::new()
    }
}

impl Bench {
    pub fn new() -> Bench {
        let window = Window { start: 0, size: MEMORY_SIZE, read: true, write: true };
        Bench {
            unit: Unit::new(0x43, 0x2A, 0xF0, 4, vec![window]),
            memory: vec![0; MEMORY_SIZE as usize],
            reply: vec![0; REPLY_SIZE],
            items: 0,
            offset: 0,
            bad: false,
        }
    }

    /// Prints the first line.
    pub fn begin(&self, out: &mut Vec<u8>) {
        out.extend_from_slice(b"item fate status reply\n");
    }

    /// Takes the whole records at the front of a piece of the log, prints a line for each, and
    /// gives the bytes taken: the next piece goes on from there.
    pub fn feed(&mut self, log: &[u8], out: &mut Vec<u8>) -> usize {
        let mut taken = 0;
        while !self.bad {
            match Record::read(&log[taken..]) {
                Ok(Some((record, size))) => {
                    self.take(&record, out);
                    taken += size;
                    self.offset += size as u64;
                }
                Ok(None) => break,
                Err(Wrong) => self.print_bad(out),
            }
        }
        taken
    }

    /// Ends the log, of which `rest` was not taken, and prints the last line.
    pub fn finish(&mut self, rest: &[u8], out: &mut Vec<u8>) {
        if self.bad {
            return;
        }
        if rest.is_empty() {
            out.extend_from_slice(b"end ");
            print_number(self.items, out);
            out.push(b'\n');
        } else {
            self.print_bad(out);
        }
    }

    /// Whether a wrong record has ended the run.
    pub fn is_over(&self) -> bool {
        self.bad
    }

    fn take(&mut self, record: &Record, out: &mut Vec<u8>) {
        self.items += 1;
        let answer = match *record {
            Record::Packet { packet, end, link } => {
                self.unit.take_packet(packet, end, link, &mut self.memory, &mut self.reply)
            }
            Record::TimeCode(code) => Answer::bare(self.unit.time_code(code)),
            Record::Ticks(ticks) => Answer::bare(self.unit.ticks(ticks)),
        };
        self.print_item(answer, out);
    }

    fn print_item(&self, answer: Answer, out: &mut Vec<u8>) {
        print_number(self.items, out);
        out.push(b' ');
        print_number(u64::from(answer.fate), out);
        out.push(b' ');
        match answer.status {
            Some(status) => print_hex(&[status], out),
            None => out.push(b'-'),
        }
        out.push(b' ');
        print_number(answer.reply as u64, out);
        if answer.reply != 0 {
            out.push(b' ');
            print_hex(&self.reply[..answer.reply], out);
        }
        out.push(b'\n');
    }

    fn print_bad(&mut self, out: &mut Vec<u8>) {
        self.bad = true;
        out.extend_from_slice(b"bad ");
        print_number(self.offset, out);
        out.push(b'\n');
    }
}

/// Runs a whole log and appends what the bench program prints for it to `out`.
pub fn run(log: &[u8], out: &mut Vec<u8>) {
    let mut bench = Bench::new();
    bench.begin(out);
    let taken = bench.feed(log, out);
    bench.finish(&log[taken..], out);
}

fn print_number(mut number: u64, out: &mut Vec<u8>) {
    // 20 digits are enough for 64 bits.
    let mut digits = [0; 20];
    let mut first = digits.len();
    loop {
        first -= 1;
        digits[first] = b'0' + (number % 10) as u8;
        number /= 10;
        if number == 0 {
            break;
        }
    }
    out.extend_from_slice(&digits[first..]);
}

const HEX: [[u8; 2]; 256] = {
    let digits = b"0123456789abcdef";
    let mut hex = [[0; 2]; 256];
    let mut byte = 0;
    while byte < 256 {
        hex[byte] = [digits[byte / 16], digits[byte % 16]];
        byte += 1;
    }
    hex
};

fn print_hex(bytes: &[u8], out: &mut Vec<u8>) {
    out.reserve(2 * bytes.len());
    for &byte in bytes {
        out.extend_from_slice(&HEX[usize::from(byte)]);
    }
}
