//! A second implementation of the remote terminal of document 01, as requests 2, 3 and 12 of
//! document 02 change it, written from the papers alone.
//!
//! One unit answers RMAP and plug-and-play commands and keeps the time. Each packet is first
//! decided upon and only then acted on, so that a reply that does not fit (result 3) leaves
//! everything as it was. `rmap`, `fields` and `time` have the rules of one protocol each. What they
//! share stands below them; `call`, which tells their packets apart, stands above.

#![forbid(unsafe_code)]

mod answer;
pub mod bench;
mod call;
mod crc;
mod fields;
mod instruction;
mod packet;
mod rmap;
mod time;
mod unit;

pub use answer::{Answer, End, fate, status};
pub use crc::crc;
pub use instruction::{Instruction, Kind};
pub use packet::{Command, Path};
pub use unit::{Counters, Fields, Owner, Time, Unit, Window};
