//! Figures over several rounds: the least, the middle one and the greatest.
use std::fmt;

pub struct Spread {
    least: f64,
    middle: f64,
    greatest: f64,
}

impl Spread {
    /// Of at least one figure.
    pub fn of(figures: impl Iterator<Item = f64>) -> Self {
        let mut figures: Vec<f64> = figures.collect();
        figures.sort_by(f64::total_cmp);
        Spread { least: figures[0], middle: figures[figures.len() / 2], greatest: figures[figures.len() - 1] }
    }
}

impl fmt::Display for Spread {
    fn fmt(&self, f: &mut fmt::Formatter<'_>) -> fmt::Result {
        write!(f, "{:.2} ({:.2} to {:.2})", self.middle, self.least, self.greatest)
    }
}
