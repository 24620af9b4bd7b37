//! Many rows, on all processors.
use crate::difference::{Difference, Prints, agreed};
use crate::input::Input;
use crate::outcome::Outcome;
use std::collections::BTreeMap;
use std::sync::Mutex;
use std::sync::atomic::{AtomicU64, Ordering};
use std::{fmt, thread};

/// How many items came to each outcome.
#[derive(Default)]
pub struct Tally {
    pub rows: u64,
    pub items: u64,
    pub reached: BTreeMap<Outcome, u64>,
}

/// A row that differs, by what made it.
pub struct Failure<T> {
    seed: u64,
    index: u64,
    pub difference: Difference<T>,
}

/// Runs rows of a seed until they have about this many items together, or one differs. `progress` is told after each.
pub fn run<T: Input + Send>(
    seed: u64,
    items: u64,
    program: &Prints,
    progress: &(dyn Fn(&Tally) + Sync),
) -> Result<Tally, Failure<T>> {
    let next = AtomicU64::new(0);
    let rows = items.div_ceil(T::SIZE);
    let so_far = Mutex::new(Ok(Tally::default()));
    let worker = || {
        loop {
            let index = next.fetch_add(1, Ordering::Relaxed);
            if index >= rows {
                return;
            }
            let row = T::row(seed, index);
            let result = agreed(&row, program);
            let mut so_far = so_far.lock().expect("no worker panics");
            match (&mut *so_far, result) {
                (Err(_), _) => return,
                (Ok(tally), Ok(printed)) => {
                    tally.add(&row, &printed);
                    progress(tally);
                }
                (Ok(_), Err(difference)) => *so_far = Err(Failure { seed, index, difference }),
            }
        }
    };
    let workers = thread::available_parallelism().map_or(1, usize::from);
    thread::scope(|scope| (0..workers).for_each(|_| drop(scope.spawn(worker))));
    so_far.into_inner().expect("no worker panics")
}

impl Tally {
    /// Counts the items of a row by what was printed of them.
    fn add<T: Input>(&mut self, row: &[T], printed: &[u8]) {
        self.rows += 1;
        self.items += row.len() as u64;
        let text = String::from_utf8_lossy(printed);
        let mut lines = text.lines();
        let mut told = Vec::new();
        for item in row {
            told.push((item, lines.by_ref().take(item.lines()).collect()));
            if let Some(outcome) = T::outcome(&told) {
                *self.reached.entry(outcome).or_default() += 1;
            }
        }
    }

    /// The outcomes that can be reached and never were, and those that were reached and can't be.
    pub fn gaps<T: Input>(&self) -> (Vec<Outcome>, Vec<Outcome>) {
        let reachable = T::reachable();
        let missed = reachable.iter().filter(|outcome| !self.reached.contains_key(outcome));
        let surprises = self.reached.keys().filter(|outcome| !reachable.contains(outcome));
        (missed.copied().collect(), surprises.copied().collect())
    }
}

impl<T: Input> fmt::Display for Failure<T> {
    fn fmt(&self, f: &mut fmt::Formatter<'_>) -> fmt::Result {
        writeln!(f, "program and model differ on row {} of seed {}", self.index, self.seed)?;
        write!(f, "{}", self.difference)
    }
}

#[cfg(test)]
mod tests {
    use super::*;
    use stories::Line;

    /// What the model prints of scripts, counted.
    fn tally(rows: impl Iterator<Item = Vec<Line>>) -> Tally {
        let mut tally = Tally::default();
        rows.for_each(|row| tally.add(&row, &Line::expected(&row)));
        tally
    }

    fn rows(lines: u64) -> impl Iterator<Item = Vec<Line>> {
        (0..lines.div_ceil(Line::SIZE)).map(|index| Line::row(1, index))
    }

    /// As many lines as host/check runs, of the same seed.
    #[test]
    fn scripts_reach_every_outcome() {
        assert_eq!(tally(rows(150_000)).gaps::<Line>(), (vec![], vec![]));
    }

    /// Where nothing shows the time, no wrap is taken for reached.
    #[test]
    fn a_wrap_that_is_not_shown_is_missed() {
        let blind = |row: Vec<Line>| row.into_iter().filter(|line| *line != Line::Holds).collect();
        let (missed, _) = tally(rows(20_000).map(blind)).gaps::<Line>();
        assert_eq!(missed.iter().filter(|outcome| matches!(outcome, Outcome::Wrap(..))).count(), 16);
    }
}
