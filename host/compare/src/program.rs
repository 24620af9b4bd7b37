//! A program, run on one input.
use crate::difference::Printed;
use std::io::{self, ErrorKind, Write};
use std::process::{Command, Stdio};
use std::thread;

/// What it printed, or why that can't be told. A program that fails, or that writes to its standard error, has not done its work.
pub fn printed(words: &[String], input: &[u8]) -> Printed {
    let (name, rest) = words.split_first().ok_or("no program is named")?;
    run(name, rest, input).map_err(|error| format!("{name}: {error}"))?
}

fn run(name: &str, rest: &[String], input: &[u8]) -> io::Result<Printed> {
    let mut program =
        Command::new(name).args(rest).stdin(Stdio::piped()).stdout(Stdio::piped()).stderr(Stdio::piped()).spawn()?;
    let mut pipe = program.stdin.take().expect("its standard input is a pipe");
    let (fed, output) = thread::scope(|scope| {
        let feeder = scope.spawn(move || pipe.write_all(input));
        let output = program.wait_with_output();
        (feeder.join().expect("the feeder does not panic"), output)
    });
    let output = output?;
    // A program may stop reading behind a bad record.
    fed.or_else(|error| if error.kind() == ErrorKind::BrokenPipe { Ok(()) } else { Err(error) })?;
    if output.status.success() && output.stderr.is_empty() {
        return Ok(Ok(output.stdout));
    }
    Ok(Err(format!("{}, {}", output.status, String::from_utf8_lossy(&output.stderr).trim_end())))
}
