//! The comparison of built programs with the model: the same input to both, line by line, with a count of the outcomes reached. The
//! bench program is given logs; `trials` is given scripts, which set units up as no bench can, and show what no bench shows.
#![forbid(unsafe_code)]

pub mod difference;
pub mod input;
pub mod outcome;
pub mod preamble;
pub mod program;
pub mod run;
mod shortest;
mod units;
