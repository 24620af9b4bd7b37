//! The papers' rules, each as a case with its expected bytes worked out by hand.

mod bench;
mod build;
mod crc;
mod fields;
mod hand;
mod numbers;
mod owner;
mod patterns;
mod preamble;
mod rmap;
mod slips;
mod time;
mod total;
mod wrong_preambles;
mod wrong_zeros;
mod zero;
