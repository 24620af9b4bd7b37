//! The bench program (document 01, Bench program).

use crate::build::{Build, READ_SINGLE, command, read, reply_to, sealed, with_data};
use model::bench::{Bench, run};
use std::io::Write;
use std::process::{Command, Stdio};

fn record(kind: u8, link: u8, end: u8, body: &[u8]) -> Vec<u8> {
    let mut bytes = vec![0x5A, 0x57, kind, link, end];
    bytes.extend((body.len() as u16).to_be_bytes());
    bytes.extend(body);
    bytes
}

fn printed(log: &[u8]) -> String {
    let mut out = vec![];
    run(log, &mut out);
    String::from_utf8(out).unwrap()
}

fn hex(bytes: &[u8]) -> String {
    bytes.iter().map(|byte| format!("{byte:02x}")).collect()
}

#[test]
fn the_worked_example() {
    let log = [0x5A, 0x57, 0x01, 0x03, 0x00, 0x00, 0x02, 0xFE, 0x07];
    assert_eq!(printed(&log), "item fate status reply\n1 12 - 0\nend 1\n");
}

#[test]
fn an_empty_log() {
    assert_eq!(printed(&[]), "item fate status reply\nend 0\n");
}

#[test]
fn packets_and_their_replies() {
    let write = with_data(0x6C, 0x10, &[0xAB, 0xCD]);
    let read = read(0x10, 2);
    let log = [
        record(1, 1, 0, &[]),
        record(1, 4, 0, &write.packet()),
        record(1, 2, 0, &read.packet()),
        record(1, 2, 1, &read.packet()),
        record(1, 0, 0, &read.packet()),
        record(1, 5, 1, &read.packet()),
        record(1, 1, 0, &command(READ_SINGLE, 0, 8180).packet()),
        record(1, 1, 0, &Build { key: 0, ..with_data(0x64, 0, &[1]) }.packet()),
        record(1, 1, 0, &with_data(0x64, 0, &[1]).packet()),
    ]
    .concat();
    let expected = format!(
        "item fate status reply\n1 11 - 0\n2 20 00 8 {}\n3 20 00 15 {}\n4 20 07 13 {}\n\
         5 2 - 0\n6 2 - 0\n7 3 - 0\n8 17 03 0\n9 18 00 0\nend 9\n",
        hex(&reply_to(&write, 0, &[])),
        hex(&reply_to(&read, 0, &[0xAB, 0xCD])),
        hex(&reply_to(&read, 7, &[])),
    );
    assert_eq!(printed(&log), expected);
}

/// Time set to seconds 1 and waiting for seconds 2; codes and ticks; the bench keeps the unit.
#[test]
fn time_codes_and_ticks() {
    let time = |mode, second| sealed(&[0x43, 0xF0, 0x9F, mode, 0, 0, 0, second, 0, 0, 0]);
    let log = [
        record(1, 1, 0, &time(1, 1)),
        record(3, 0, 0, &[0x00, 0x00, 0x01, 0x02]),
        record(1, 1, 0, &time(0, 2)),
        record(2, 0, 0, &[0xC1]),
        record(1, 1, 1, &time(0, 3)),
    ]
    .concat();
    let expected = "item fate status reply\n1 19 - 0\n2 0 - 0\n3 19 - 0\n4 0 - 0\n5 16 - 0\nend 5\n";
    assert_eq!(printed(&log), expected);

    let mut bench = Bench::new();
    let mut out = vec![];
    // Up to the ticks: 258 of them, high byte first.
    let taken = bench.feed(&log[..30], &mut out);
    assert_eq!(taken, 30);
    assert_eq!(bench.unit.elapsed.t, 0x100_0102);
    bench.feed(&log[30..], &mut out);
    assert_eq!(bench.unit.last_time_code, 1);
    // One step from 0 to 1: 2^18 after the second.
    assert_eq!(bench.unit.elapsed.t, 0x104_0000);
    assert_eq!(bench.unit.waiting.map(|time| time.t), Some(0x200_0000));
}

#[test]
fn the_units_start() {
    let bench = Bench::new();
    assert_eq!(bench.memory, [0; 4096]);
    assert_eq!(bench.reply.len(), 8192);
    assert_eq!((bench.unit.logical_address, bench.unit.key), (0x43, 0x2A));
    assert_eq!((bench.unit.time_number, bench.unit.link_count), (0xF0, 4));
    assert_eq!(bench.unit.windows.len(), 1);
    let window = &bench.unit.windows[0];
    assert_eq!((window.start, window.size, window.read, window.write), (0, 4096, true, true));
    assert_eq!(bench.unit.fields, Default::default());
    assert_eq!(bench.unit.owner, Default::default());
    assert_eq!(bench.unit.elapsed, Default::default());
    assert_eq!(bench.unit.counters, Default::default());
    assert_eq!((bench.unit.last_time_code, bench.unit.waiting), (0, None));
}

#[test]
fn wrong_records() {
    let wrong = [
        vec![0x5B, 0x57, 1, 1, 0, 0, 0],
        vec![0x5A, 0x58, 1, 1, 0, 0, 0],
        record(0, 1, 0, &[]),
        record(4, 1, 0, &[]),
        record(0x81, 1, 0, &[]),
        record(1, 1, 2, &[]),
        record(1, 1, 0xFF, &[]),
        record(1, 1, 0, &[0; 4097]),
        record(2, 1, 0, &[0]),
        record(2, 0, 1, &[0]),
        record(2, 0, 2, &[0]),
        record(2, 0, 0, &[]),
        record(2, 0, 0, &[0, 0]),
        record(3, 1, 0, &[0; 4]),
        record(3, 0, 1, &[0; 4]),
        record(3, 0, 0, &[0; 3]),
        record(3, 0, 0, &[0; 5]),
    ];
    // A good record of 9 bytes in front and one behind, which is not looked at.
    let good = record(1, 1, 0, &[0xFE, 0x00]);
    for record in wrong {
        assert_eq!(printed(&record), "item fate status reply\nbad 0\n");
        let log = [&good[..], &record, &good].concat();
        assert_eq!(printed(&log), "item fate status reply\n1 13 - 0\nbad 9\n");
    }
}

#[test]
fn cut_records() {
    let good = record(1, 1, 0, &[0xFE, 0x00]);
    let last = [record(1, 1, 0, &[7; 20]), record(2, 0, 0, &[1]), record(3, 0, 0, &[1; 4])];
    for record in last {
        for size in 1..record.len() {
            let log = [&good[..], &good, &record[..size]].concat();
            let expected = "item fate status reply\n1 13 - 0\n2 13 - 0\nbad 18\n";
            assert_eq!(printed(&log), expected, "{size} bytes");
        }
    }
}

#[test]
fn the_longest_body() {
    let log = record(1, 1, 0, &[0x43; 4096]);
    assert_eq!(printed(&log), "item fate status reply\n1 12 - 0\nend 1\n");
    let cut = &log[..log.len() - 1];
    assert_eq!(printed(cut), "item fate status reply\nbad 0\n");
}

/// However a log is cut into pieces, the same is printed.
#[test]
fn logs_in_pieces() {
    let good = [
        record(1, 1, 0, &read(0, 3).packet()),
        record(2, 0, 0, &[1]),
        record(1, 1, 0, &with_data(0x7C, 0, &[1, 2, 3]).packet()),
        record(3, 0, 0, &[0, 0, 0, 9]),
    ]
    .concat();
    let wrong = [&good[..], &record(9, 0, 0, &[]), &good].concat();
    let cut = good[..good.len() - 1].to_vec();
    for log in [good, wrong, cut] {
        for piece in 1..log.len() {
            let mut bench = Bench::new();
            let mut out = vec![];
            let mut held = vec![];
            bench.begin(&mut out);
            for bytes in log.chunks(piece) {
                held.extend(bytes);
                let taken = bench.feed(&held, &mut out);
                held.drain(..taken);
            }
            bench.finish(&held, &mut out);
            assert_eq!(String::from_utf8(out).unwrap(), printed(&log));
        }
    }
}

#[test]
fn item_numbers_have_as_many_digits_as_they_need() {
    let log = record(1, 1, 0, &[]).repeat(1001);
    let text = printed(&log);
    let lines: Vec<&str> = text.lines().collect();
    assert_eq!(lines[10], "10 11 - 0");
    assert_eq!(lines[1001], "1001 11 - 0");
    assert_eq!(lines[1002], "end 1001");
}

/// The program itself, on logs longer than any block it may read.
#[test]
fn the_program_prints_what_run_does() {
    let records = [
        record(1, 1, 0, &with_data(0x6C, 5, &[0x5A; 900]).packet()),
        record(1, 2, 0, &read(0, 1000).packet()),
        record(1, 3, 1, &[0x43; 4096]),
        record(2, 0, 0, &[1]),
    ]
    .concat();
    let long = records.repeat(100);
    let cut = long[..long.len() - 1].to_vec();
    let wrong = [&long[..], &record(7, 0, 0, &[])].concat();
    for log in [vec![], long, cut, wrong] {
        let mut program =
            Command::new(env!("CARGO_BIN_EXE_model")).stdin(Stdio::piped()).stdout(Stdio::piped()).spawn().unwrap();
        let mut input = program.stdin.take().unwrap();
        let expected = printed(&log);
        let writer = std::thread::spawn(move || input.write_all(&log));
        let output = program.wait_with_output().unwrap();
        writer.join().unwrap().unwrap();
        assert!(output.status.success());
        assert_eq!(String::from_utf8(output.stdout).unwrap(), expected);
    }
}
