//! The terminal's CRC, proved and compiled by its toolchain, beside peers in Rust.
use crate::ROUNDS;
use crate::count::instructions;
use crate::spread::Spread;
use crate::ways::{eight_tables, words_and_blocks};
use std::env;
use std::error::Error;
use std::hint::black_box;
use std::time::Instant;

unsafe extern "C" {
    /// A Rattle slice is a pointer and a length.
    fn terminal_crc(bytes: *const u8, length: usize) -> u8;
}

pub type Crc = fn(&[u8]) -> u8;

pub const WAYS: [(&str, Crc); 4] = [
    ("terminal", terminal),
    ("the same in Rust", words_and_blocks),
    ("table", model::crc),
    ("eight tables", eight_tables),
];

/// Bytes in a row: a field, a word, a header, small and larger blocks of data, a verified write at its longest, the longest row of a packet at the bench, and all of
/// memory.
const SIZES: [usize; 8] = [4, 8, 16, 64, 256, 1024, 4096, 65_536];
/// Bytes that go through each way in a round.
const ROUND: usize = 1 << 22;

fn terminal(bytes: &[u8]) -> u8 {
    // SAFETY: the function reads these bytes and nothing else, keeps nothing, and asks nothing of its caller.
    unsafe { terminal_crc(bytes.as_ptr(), bytes.len()) }
}

/// The CRC of a row of this size, so many times.
pub fn repeated(crc: Crc, size: usize, times: usize) -> u8 {
    let row: Vec<u8> = (0..size).map(|n| n as u8).collect();
    (0..times).fold(0, |all, _| all ^ crc(black_box(&row)))
}

pub fn table() -> Result<(), Box<dyn Error>> {
    println!("| CRC of | way | ns | times terminal's | instructions |");
    println!("|---|---|---|---|---|");
    for size in SIZES {
        let mut times = WAYS.map(|_| Vec::new());
        for _ in 0..ROUNDS {
            for ((_, way), times) in WAYS.iter().zip(&mut times) {
                let start = Instant::now();
                black_box(repeated(*way, size, ROUND / size));
                times.push(start.elapsed().as_secs_f64());
            }
        }
        for (at, (name, _)) in WAYS.iter().enumerate() {
            let each = Spread::of(times[at].iter().map(|time| time * 1e9 / (ROUND / size) as f64));
            let ratio = Spread::of(times[at].iter().zip(&times[0]).map(|(its, ours)| its / ours));
            println!("| {size} bytes | {name} | {each} | {ratio} | {:.0} |", instructions_a_row(at, size)?);
        }
    }
    println!();
    Ok(())
}

/// What a thousand more rows cost, so that starting and ending do not count.
fn instructions_a_row(way: usize, size: usize) -> Result<f64, Box<dyn Error>> {
    let this = env::current_exe()?;
    let count =
        |times: usize| instructions(&this, &["crc".into(), way.to_string(), size.to_string(), times.to_string()], None);
    Ok((count(1001)? - count(1)?) as f64 / 1000.0)
}

#[cfg(test)]
mod tests {
    use super::*;
    use crate::ways::turned;

    #[test]
    fn all_ways_lead_to_the_same() {
        // Document 01's cases, by every way.
        for (name, crc) in WAYS {
            assert_eq!((crc(&[]), crc(&[0x01]), crc(&[0x80])), (0, 0x91, 0xE0), "{name}");
        }
        let bytes: Vec<u8> = (0..66_000u32).map(|n| (n.wrapping_mul(2_654_435_761) >> 13) as u8).collect();
        for size in (0..2000).chain([4096, 65_535, 65_536, 66_000]) {
            let bit_by_bit = bytes[..size].iter().fold(0, |crc, byte| turned(crc ^ byte));
            for (name, crc) in WAYS {
                assert_eq!(crc(&bytes[..size]), bit_by_bit, "{name}: {size}");
            }
        }
    }
}
