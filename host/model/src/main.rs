//! The bench program (document 01, Bench program), reading its log in blocks.

#![forbid(unsafe_code)]

use std::io::{self, ErrorKind, Read, Write};

use model::bench::{Bench, RECORD_LIMIT};

const BLOCK: usize = 1 << 16;

fn main() -> io::Result<()> {
    let mut input = io::stdin().lock();
    let mut output = io::stdout().lock();
    let mut bench = Bench::new();
    let mut out = Vec::with_capacity(2 * BLOCK);
    // What is left of one block is less than a record, so there is always room to read on.
    let mut log = vec![0; BLOCK + RECORD_LIMIT];
    let mut held = 0;
    bench.begin(&mut out);
    while !bench.is_over() {
        match input.read(&mut log[held..]) {
            Ok(0) => break,
            Ok(got) => held += got,
            Err(error) if error.kind() == ErrorKind::Interrupted => continue,
            Err(error) => return Err(error),
        }
        let taken = bench.feed(&log[..held], &mut out);
        log.copy_within(taken..held, 0);
        held -= taken;
        output.write_all(&out)?;
        out.clear();
    }
    bench.finish(&log[..held], &mut out);
    output.write_all(&out)?;
    output.flush()
}
