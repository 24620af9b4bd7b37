//! The two inputs that are compared on: the records of a log, and the lines of a script.
use crate::outcome::{self, Outcome};
use crate::units;
use std::collections::BTreeSet;
use std::fmt::Display;
use stories::{Line, Record};

/// An item of an input; a program reads a row of them.
pub trait Input: Clone + Display {
    /// What an item, and a row of them, is called.
    const NAMES: (&str, &str);
    /// About how many items a row has.
    const SIZE: u64;

    /// The row `index` of a seed.
    fn row(seed: u64, index: u64) -> Vec<Self>;

    /// The row as the program reads it.
    fn bytes(row: &[Self]) -> Vec<u8>;

    /// What the program prints, without what it prints of every row.
    fn own(printed: &[u8]) -> Option<&[u8]>;

    /// What the model prints of the row.
    fn expected(row: &[Self]) -> Vec<u8>;

    /// How many lines are printed of the item.
    fn lines(&self) -> usize;

    /// What came of the last of these items, each with the lines that were printed of it.
    fn outcome(told: &[(&Self, Vec<&str>)]) -> Option<Outcome>;

    fn reachable() -> BTreeSet<Outcome>;

    /// The packet, where the item is one.
    fn packet(&mut self) -> Option<&mut Vec<u8>>;
}

impl Input for Record {
    const NAMES: (&str, &str) = ("records", "logs");
    /// The mean of `stories::SIZES`.
    const SIZE: u64 = 278;

    fn row(seed: u64, index: u64) -> Vec<Self> {
        stories::log(seed, index)
    }

    fn bytes(row: &[Self]) -> Vec<u8> {
        stories::bytes(row)
    }

    fn own(printed: &[u8]) -> Option<&[u8]> {
        printed.strip_prefix(b"item fate status reply\n")
    }

    fn expected(row: &[Self]) -> Vec<u8> {
        let mut out = Vec::new();
        model::bench::run(&stories::bytes(row), &mut out);
        Self::own(&out).expect("the model prints the heading").to_vec()
    }

    fn lines(&self) -> usize {
        1
    }

    fn outcome(told: &[(&Self, Vec<&str>)]) -> Option<Outcome> {
        let (record, lines) = told.last()?;
        let line = lines.first()?;
        match record {
            Record::Packet { bytes, .. } => Outcome::packet(bytes, line),
            Record::TimeCode(_) => Outcome::time_code(line),
            Record::Ticks(_) => Outcome::ticks(line),
            Record::Bad(flaw, bytes) => Outcome::bad(*flaw, bytes, line),
        }
    }

    fn reachable() -> BTreeSet<Outcome> {
        outcome::of_bench()
    }

    fn packet(&mut self) -> Option<&mut Vec<u8>> {
        match self {
            Record::Packet { bytes, .. } => Some(bytes),
            _ => None,
        }
    }
}

impl Input for Line {
    const NAMES: (&str, &str) = ("lines", "scripts");
    /// As many as `stories::script` has room for.
    const SIZE: u64 = 1550;

    fn row(seed: u64, index: u64) -> Vec<Self> {
        stories::script(seed, index)
    }

    fn bytes(row: &[Self]) -> Vec<u8> {
        row.iter().fold("# script\n".to_string(), |text, line| text + &line.to_string() + "\n").into_bytes()
    }

    fn own(printed: &[u8]) -> Option<&[u8]> {
        printed.strip_prefix(b"script\n")
    }

    fn expected(row: &[Self]) -> Vec<u8> {
        units::printed(row)
    }

    fn lines(&self) -> usize {
        match self {
            Line::Fresh(_) | Line::Set(..) | Line::Window { .. } => 0,
            Line::Packet { .. } | Line::TimeCode(_) | Line::Ticks(_) | Line::Memory { .. } => 1,
            Line::Holds => 3,
        }
    }

    fn outcome(told: &[(&Self, Vec<&str>)]) -> Option<Outcome> {
        match told {
            [.., (Line::Packet { bytes, .. }, lines)] => Outcome::packet(bytes, lines.first()?),
            [.., (Line::TimeCode(_), lines)] => Outcome::time_code(lines.first()?),
            [.., (Line::Ticks(_), lines)] => Outcome::ticks(lines.first()?),
            // The clock is the second line of what a unit holds.
            [.., (Line::Holds, before), (Line::TimeCode(_), _), (Line::Holds, behind)] => {
                Outcome::wrap(before.get(1)?, behind.get(1)?)
            }
            _ => None,
        }
    }

    fn reachable() -> BTreeSet<Outcome> {
        outcome::of_units()
    }

    fn packet(&mut self) -> Option<&mut Vec<u8>> {
        match self {
            Line::Packet { bytes, .. } => Some(bytes),
            _ => None,
        }
    }
}
