//! A record of a log (document 01, 'Bench program'), its bytes, and the line that `tools/log` makes it from.
use std::fmt;

/// The longest body that a record may have.
pub const BODY: usize = 4096;

#[derive(Clone, Debug, PartialEq, Eq)]
pub enum Record {
    Packet {
        link: u8,
        eep: bool,
        bytes: Vec<u8>,
    },
    TimeCode(u8),
    Ticks(u32),
    /// Bytes that are no right record, and what is wrong with them. They end the run.
    Bad(Flaw, Vec<u8>),
}

/// What is wrong with a record.
#[derive(Clone, Copy, Debug, PartialEq, Eq, PartialOrd, Ord)]
pub enum Flaw {
    Mark,
    Kind,
    Link,
    End,
    Length,
    CutHead,
    CutBody,
}

impl Flaw {
    pub const ALL: [Flaw; 7] =
        [Flaw::Mark, Flaw::Kind, Flaw::Link, Flaw::End, Flaw::Length, Flaw::CutHead, Flaw::CutBody];
}

impl Record {
    /// Appends the record's bytes to a log.
    pub fn write(&self, log: &mut Vec<u8>) {
        let (kind, link, end, body): (u8, u8, u8, &[u8]) = match self {
            Record::Packet { link, eep, bytes } => (1, *link, u8::from(*eep), bytes),
            Record::TimeCode(code) => (2, 0, 0, &[*code]),
            Record::Ticks(ticks) => (3, 0, 0, &ticks.to_be_bytes()),
            Record::Bad(_, bytes) => return log.extend(bytes),
        };
        let length = u16::try_from(body.len()).expect("a body has at most 4,096 bytes");
        log.extend([0x5A, 0x57, kind, link, end]);
        log.extend(length.to_be_bytes());
        log.extend(body);
    }
}

/// The log that has these records.
pub fn bytes(records: &[Record]) -> Vec<u8> {
    let mut log = Vec::new();
    for record in records {
        record.write(&mut log);
    }
    log
}

impl fmt::Display for Record {
    fn fmt(&self, f: &mut fmt::Formatter<'_>) -> fmt::Result {
        let bytes = match self {
            Record::TimeCode(code) => return write!(f, "time-code {code:02X}"),
            Record::Ticks(ticks) => return write!(f, "ticks {ticks}"),
            Record::Packet { link, eep, bytes } => {
                write!(f, "packet {link} {}", if *eep { "eep" } else { "eop" })?;
                bytes
            }
            Record::Bad(_, bytes) => {
                write!(f, "raw")?;
                bytes
            }
        };
        bytes.iter().try_for_each(|byte| write!(f, " {byte:02X}"))
    }
}

#[cfg(test)]
mod tests {
    use super::*;

    /// Document 01's own example, and records of the other kinds as it lays them out.
    #[test]
    fn laid_out_as_the_paper_says() {
        let packet = Record::Packet { link: 3, eep: false, bytes: vec![0xFE, 7] };
        assert_eq!(bytes(&[packet]), [0x5A, 0x57, 1, 3, 0, 0, 2, 0xFE, 7]);
        let damaged = Record::Packet { link: 255, eep: true, bytes: vec![9; 0x102] };
        assert_eq!(bytes(&[damaged])[..8], [0x5A, 0x57, 1, 255, 1, 1, 2, 9]);
        let small = [Record::TimeCode(0x3F), Record::Ticks(0x0102_0304)];
        assert_eq!(bytes(&small), [0x5A, 0x57, 2, 0, 0, 0, 1, 0x3F, 0x5A, 0x57, 3, 0, 0, 0, 4, 1, 2, 3, 4]);
    }
}
