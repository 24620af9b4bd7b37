//! Programs that are the model with one slip: the comparison finds each, and shows it by a log that cannot be shorter. Slips in the time
//! itself show in no log; the tests of `units` try them.
use compare::difference::Printed;
use compare::run::{Tally, run};
use std::sync::atomic::{AtomicBool, Ordering};
use stories::{Line, Record};

const SEED: u64 = 7;

fn quiet(_: &Tally) {}

/// The model, as a program.
fn model(log: &[u8]) -> Printed {
    let mut out = Vec::new();
    model::bench::run(log, &mut out);
    Ok(out)
}

/// A wrong program: it takes each record of the log as `slip` makes it.
fn slipped(log: &[u8], slip: impl Fn(&mut [u8])) -> Printed {
    let mut log = log.to_vec();
    let mut at = 0;
    while at + 7 <= log.len() {
        let size = 7 + usize::from(log[at + 5]) * 256 + usize::from(log[at + 6]);
        let end = log.len().min(at + size);
        slip(&mut log[at..end]);
        at += size;
    }
    model(&log)
}

/// The records by which a wrong program was shown to be wrong.
fn shown(program: impl Fn(&[u8]) -> Printed + Sync) -> Vec<Record> {
    let failure = run::<Record>(SEED, 20_000, &program, &quiet).err().expect("the slip was not found");
    assert!(failure.to_string().contains("of seed 7\nthe fewest records"));
    failure.difference.row
}

#[test]
fn the_model_agrees_with_itself_and_reaches_every_outcome() {
    let tally = run::<Record>(SEED, 100_000, &model, &quiet).ok().expect("the model differs from itself");
    assert_eq!(tally.gaps::<Record>(), (vec![], vec![]));
}

#[test]
fn few_records_do_not_reach_every_outcome() {
    let tally = run::<Record>(SEED, 1, &model, &quiet).ok().expect("the model differs from itself");
    assert!(!tally.gaps::<Record>().0.is_empty());
}

/// A Time-Code 63 that is taken for 62 shows where the counter is read: a Time-Code and a read.
#[test]
fn a_wrong_time_code() {
    let records = shown(|log| {
        slipped(log, |record| {
            if record[2] == 2 && record.len() == 8 && record[7] & 63 == 63 {
                record[7] -= 1;
            }
        })
    });
    assert!(matches!(records[..], [Record::TimeCode(code), Record::Packet { .. }] if code & 63 == 63), "{records:?}");
}

/// A zero that is not ignored shows by the shortest packet that begins with it: any other byte in its place has the fate that it had.
#[test]
fn a_zero_that_is_not_ignored() {
    let records = shown(|log| {
        slipped(log, |record| {
            if record[2] == 1 && record[7..].starts_with(&[0, 0xFE, 3]) {
                record[7] = 1;
            }
        })
    });
    assert!(matches!(&records[..], [Record::Packet { bytes, .. }] if bytes[..] == [0, 0xFE, 3]), "{records:?}");
}

/// A receiver as it was before request 12 shows by one time packet with extra octets, which it throws away.
#[test]
fn a_receiver_without_extra_octets() {
    let records = shown(|log| {
        slipped(log, |record| {
            if record[2] == 1 && record.len() > 7 + 12 && record[8] == 0xF0 {
                record[7 + 2] = 0;
            }
        })
    });
    assert!(
        matches!(&records[..], [Record::Packet { bytes, .. }] if bytes.len() > 12 && bytes[1] == 0xF0),
        "{records:?}"
    );
}

/// EEP taken for EOP shows in one packet.
#[test]
fn an_end_that_is_not_looked_at() {
    let records = shown(|log| {
        slipped(log, |record| {
            if record[2] == 1 && record[4] == 1 {
                record[4] = 0
            }
        })
    });
    assert!(matches!(records[..], [Record::Packet { eep: true, .. }]), "{records:?}");
}

/// Swaps all taken as if they came on link 1: it shows where an owner is told from another by the link, or where a link is read.
#[test]
fn an_owner_known_without_its_link() {
    let records = shown(|log| {
        slipped(log, |record| {
            let is_swap = record.len() > 9 && record[8] == 3 && record[9] & 0xFC == 0x5C;
            if is_swap && (1..=4).contains(&record[3]) {
                record[3] = 1;
            }
        })
    });
    assert!(records.len() == 2, "{records:?}");
}

#[test]
fn a_program_that_fails() {
    assert_eq!(shown(|_| Err("it fell".to_string())), []);
}

/// A program that takes no line of a script shows by one line that prints something.
#[test]
fn a_script_that_is_not_run() {
    let failure = run::<Line>(SEED, 1, &|_| Ok(b"script\n".to_vec()), &quiet).err().expect("not found");
    assert_eq!(failure.difference.row.len(), 1);
}

/// A failure that does not come again is told as it was found.
#[test]
fn a_program_that_fails_once() {
    let failed = AtomicBool::new(false);
    let program = |log: &[u8]| if failed.swap(true, Ordering::Relaxed) { model(log) } else { Err("once".to_string()) };
    let failure = run::<Record>(SEED, 1, &program, &quiet).err().expect("not found");
    assert!(failure.to_string().contains("nothing: once"), "{failure}");
}
