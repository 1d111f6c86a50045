//! How long programs take, found by turns.

use std::fs::OpenOptions;
use std::path::Path;
use std::process::{Command, Stdio};
use std::time::Instant;

use super::median;
use crate::temp::Temp;

/// A program and its words.
pub type Program<'a> = (&'a Path, &'a [&'a str]);

/// Where what is written goes nowhere.
pub fn null() -> Result<Stdio, String> {
    let null = OpenOptions::new().write(true).open("/dev/null");
    Ok(null.map_err(|error| format!("/dev/null: {error}"))?.into())
}

/// Milliseconds from the program's start to its end.
pub fn time((program, words): Program, source: &Temp, output: Stdio) -> Result<f64, String> {
    let mut command = Command::new(program);
    command.args(words).stdin(source.source()?).stdout(output);
    let start = Instant::now();
    let status = command.status();
    let elapsed = start.elapsed().as_secs_f64() * 1e3;
    match status {
        Ok(status) if status.success() => Ok(elapsed),
        Ok(status) => Err(format!("{}: {status}", program.display())),
        Err(error) => Err(format!("{}: {error}", program.display())),
    }
}

/// Medians of so many runs: the programs by turns, so that a busy spell of the
/// machine meets all of them. `output` is where each of them writes.
pub fn by_turns(
    runs: usize,
    programs: [Program; 3],
    source: &Temp,
    output: impl Fn(usize) -> Result<Stdio, String>,
) -> Result<[f64; 3], String> {
    let mut times = [Vec::new(), Vec::new(), Vec::new()];
    for run in 0..=runs {
        for (which, program) in programs.into_iter().enumerate() {
            let elapsed = time(program, source, output(which)?)?;
            // The first run warms up.
            if run > 0 {
                times[which].push(elapsed);
            }
        }
    }
    Ok(times.map(median))
}
