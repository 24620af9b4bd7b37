//! `measure BENCH MODEL`: the proved programs beside their peers, on the same input in the same run, as the tables of
//! docs/BENCHMARKS.md.
mod count;
mod crc;
mod logs;
mod spread;
mod ways;

use std::env;
use std::error::Error;

/// How often each thing is timed, turn by turn with its peers.
const ROUNDS: usize = 15;

fn main() -> Result<(), Box<dyn Error>> {
    let words: Vec<String> = env::args().skip(1).collect();
    match &words[..] {
        [bench, model] => {
            crc::table()?;
            logs::table(bench.as_ref(), model.as_ref())
        }
        // What the first table has counted: a CRC, many times over.
        [what, way, size, times] if what == "crc" => {
            println!("{}", crc::repeated(crc::WAYS[way.parse::<usize>()?].1, size.parse()?, times.parse()?));
            Ok(())
        }
        _ => Err("usage: measure BENCH MODEL".into()),
    }
}
