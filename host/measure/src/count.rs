//! Counts that are the same for the same program and input, whatever else the machine does.
use std::error::Error;
use std::fs::File;
use std::io;
use std::path::Path;
use std::process::{Command, Stdio};

/// How many instructions a program takes, as callgrind counts them.
pub fn instructions(program: &Path, words: &[String], input: Option<&Path>) -> Result<u64, Box<dyn Error>> {
    let said = under("valgrind", &["--tool=callgrind", "--callgrind-out-file=/dev/null"], program, words, input)?;
    let counted = said.lines().find_map(|line| line.split_once("Collected :"));
    Ok(counted.ok_or("callgrind did not say what it counted")?.1.trim().parse()?)
}

/// How often a program reads its input and writes its output, as strace counts it.
pub fn calls(program: &Path, input: &Path) -> Result<(usize, usize), Box<dyn Error>> {
    let said = under("strace", &["-e", "trace=read,write"], program, &[], Some(input))?;
    let count = |call| said.lines().filter(|line| line.starts_with(call)).count();
    Ok((count("read(0,"), count("write(1,")))
}

/// What a tool says on standard error of a program that it runs.
fn under(tool: &str, options: &[&str], program: &Path, words: &[String], input: Option<&Path>) -> io::Result<String> {
    let input = match input {
        Some(path) => File::open(path)?.into(),
        None => Stdio::null(),
    };
    let mut command = Command::new(tool);
    command.args(options).arg(program).args(words).stdin(input).stdout(Stdio::null());
    let output = command.output().map_err(|error| io::Error::new(error.kind(), format!("{tool}: {error}")))?;
    Ok(String::from_utf8_lossy(&output.stderr).into_owned())
}
