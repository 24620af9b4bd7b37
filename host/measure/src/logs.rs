//! Whole logs through the bench program and through the model's own bench.
use crate::ROUNDS;
use crate::count::{calls, instructions};
use crate::spread::Spread;
use std::error::Error;
use std::fs::{self, File};
use std::path::Path;
use std::process::{Command, Stdio, id};
use std::time::Instant;
use stories::Record;

const SEED: u64 = 1;

/// Each log with its name.
fn logs() -> [(&'static str, Vec<Record>); 4] {
    [
        ("mixed records", stories::right_log(SEED, 100_000)),
        ("reads of 4 bytes", vec![read(4); 100_000]),
        ("reads of 4,096 bytes", vec![read(4096); 4_000]),
        ("verified writes of 1,024 bytes", vec![verified_write(1024); 10_000]),
    ]
}

/// An RMAP read from address 0 that the bench's unit obeys.
fn read(length: u32) -> Record {
    packet(header(0x4C, length))
}

/// An RMAP write with verify and reply to address 0 that the bench's unit obeys.
fn verified_write(length: u32) -> Record {
    let data: Vec<u8> = (0..length).map(|n| (n % 251) as u8).collect();
    packet([header(0x7C, length), with_crc(data)].concat())
}

/// The header of a command that goes upward from address 0, with its CRC.
fn header(instruction: u8, length: u32) -> Vec<u8> {
    let [_, high, middle, low] = length.to_be_bytes();
    with_crc(vec![0x43, 0x01, instruction, 0x2A, 0x67, 0, 1, 0, 0, 0, 0, 0, high, middle, low])
}

fn with_crc(mut bytes: Vec<u8>) -> Vec<u8> {
    bytes.push(model::crc(&bytes));
    bytes
}

fn packet(bytes: Vec<u8>) -> Record {
    Record::Packet { link: 1, eep: false, bytes }
}

pub fn table(bench: &Path, model: &Path) -> Result<(), Box<dyn Error>> {
    println!("| log | program | µs a record | instructions a record | reads, writes |");
    println!("|---|---|---|---|---|");
    let log = std::env::temp_dir().join(format!("measure-{}", id()));
    let done = logs().into_iter().try_for_each(|(name, records)| {
        fs::write(&log, stories::bytes(&records))?;
        rows(name, &log, records.len(), [bench, model])
    });
    fs::remove_file(log)?;
    done
}

/// A row for each program, and one that compares them.
fn rows(name: &str, log: &Path, records: usize, programs: [&Path; 2]) -> Result<(), Box<dyn Error>> {
    let [printed, expected] = programs.map(|program| printed(program, log));
    let (printed, expected) = (printed?, expected?);
    if printed != expected {
        return Err("program and model differ: see host/soak".into());
    }
    let mut times = [Vec::new(), Vec::new()];
    for _ in 0..ROUNDS {
        for (program, times) in programs.iter().zip(&mut times) {
            times.push(seconds(program, log)?);
        }
    }
    let (read, written) = (fs::metadata(log)?.len() as f64 / 1e6, printed.len() as f64 / 1e6);
    let mut counts = Vec::new();
    for ((program, who), times) in programs.iter().zip(["terminal", "model"]).zip(&times) {
        let each = Spread::of(times.iter().map(|time| time * 1e6 / records as f64));
        let count = instructions(program, &[], Some(log))? as f64 / records as f64;
        let (reads, writes) = calls(program, log)?;
        println!(
            "| {records} {name}, {read:.1} MB in, {written:.1} MB out | {who} | {each} | {count:.0} | {reads}, {writes} |"
        );
        counts.push(count);
    }
    let ratio = Spread::of(times[0].iter().zip(&times[1]).map(|(ours, its)| ours / its));
    println!("| | **ratio** | **{ratio}** | **{:.2}** | |", counts[0] / counts[1]);
    Ok(())
}

fn printed(program: &Path, log: &Path) -> Result<Vec<u8>, Box<dyn Error>> {
    Ok(Command::new(program).stdin(File::open(log)?).output()?.stdout)
}

/// How long a program takes, from its start to its end, with nobody who reads what it writes.
fn seconds(program: &Path, log: &Path) -> Result<f64, Box<dyn Error>> {
    let start = Instant::now();
    let ended = Command::new(program).stdin(File::open(log)?).stdout(Stdio::null()).status()?;
    if ended.success() {
        Ok(start.elapsed().as_secs_f64())
    } else {
        Err(format!("{}: {ended}", program.display()).into())
    }
}

#[cfg(test)]
mod tests {
    use super::*;

    #[test]
    fn reads_and_writes_are_obeyed() {
        for (name, record) in [("read", read(4)), ("long read", read(4096)), ("write", verified_write(1024))] {
            let mut printed = Vec::new();
            model::bench::run(&stories::bytes(&[record]), &mut printed);
            let line = String::from_utf8_lossy(&printed).lines().nth(1).map(String::from);
            assert!(line.is_some_and(|line| line.starts_with("1 20 00 ")), "{name}");
        }
    }
}
