//! Inputs made from a seed: logs for the bench, and scripts for the program `trials`, which drives units of every kind. Most packets
//! are right commands with one damage or none, so that they get deep into the terminal; they come as stories, in which one packet
//! makes the next one matter.
#![forbid(unsafe_code)]

mod chance;
mod command;
mod fields;
mod ground;
mod log;
mod memory;
mod record;
mod script;
mod story;
mod time;
mod zero;

pub use log::{SIZES, log, right_log};
pub use record::{Flaw, Record, bytes};
pub use script::{LENT, Line, Setting, script};
