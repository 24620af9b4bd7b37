//! `compare bench|units AMOUNT SEED PROGRAM [WORD ..]`: runs that many records, or lines, of that seed through the program and the
//! model. The last line says what was found; the exit status is 1 where they differ, or where an outcome was not reached that can be.
use compare::input::Input;
use compare::program;
use compare::run::{Tally, run};
use std::process::ExitCode;
use std::sync::Mutex;
use std::time::{Duration, Instant};
use stories::{Line, Record};

fn main() -> ExitCode {
    let words: Vec<String> = std::env::args().skip(1).collect();
    let [what, amount, seed, program @ ..] = &words[..] else { return usage() };
    let (Ok(amount), Ok(seed), false) = (amount.parse(), seed.parse(), program.is_empty()) else { return usage() };
    match &what[..] {
        "bench" => compare::<Record>(amount, seed, program),
        "units" => compare::<Line>(amount, seed, program),
        _ => usage(),
    }
}

fn usage() -> ExitCode {
    eprintln!("usage: compare bench|units AMOUNT SEED PROGRAM [WORD ..]");
    ExitCode::from(2)
}

fn compare<T: Input + Send>(amount: u64, seed: u64, words: &[String]) -> ExitCode {
    let start = Instant::now();
    let last = Mutex::new(start);
    let progress = |tally: &Tally| {
        let mut last = last.lock().expect("no worker panics");
        if last.elapsed() > Duration::from_secs(5) {
            *last = Instant::now();
            let rate = tally.items as f64 / start.elapsed().as_secs_f64();
            let (name, _) = T::NAMES;
            eprintln!("{} of {amount} {name}, {rate:.0} a second, {} outcomes", tally.items, tally.reached.len());
        }
    };
    match run::<T>(seed, amount, &|input| program::printed(words, input), &progress) {
        Ok(tally) => report::<T>(seed, &tally),
        Err(failure) => {
            println!("{failure}");
            ExitCode::FAILURE
        }
    }
}

fn report<T: Input>(seed: u64, tally: &Tally) -> ExitCode {
    let (missed, surprises) = tally.gaps::<T>();
    missed.iter().for_each(|outcome| println!("never reached: {outcome}"));
    surprises.iter().for_each(|outcome| println!("reached, though the papers do not have it: {outcome}"));
    let (items, rows) = T::NAMES;
    let all = T::reachable().len();
    println!(
        "{} {items} in {} {rows} of seed {seed}: no difference; {} of {all} outcomes reached",
        tally.items,
        tally.rows,
        all - missed.len(),
    );
    if missed.is_empty() && surprises.is_empty() { ExitCode::SUCCESS } else { ExitCode::FAILURE }
}
