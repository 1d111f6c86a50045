//! A program under test that reads octets and writes lines, and what the checks
//! of all of them share.

use std::fs::{self, File, OpenOptions};
use std::io::Write;
use std::os::fd::OwnedFd;
use std::os::unix::net::{UnixDatagram, UnixStream};
use std::path::Path;
use std::process::{Command, Stdio};
use std::time::Duration;

use crate::report::{hex, Verdict};
use crate::run::{hand_over, run, run_within, Outcome, LIMIT};
use crate::temp::Temp;

pub struct Subject<'a> {
    pub path: &'a Path,
    /// What its words on standard error begin with.
    pub name: &'static str,
    /// Octets of its input that belong together, and what they are called.
    pub unit: usize,
    pub unit_name: &'static str,
    /// How many lines it writes before those of the units, one for each. None
    /// where it writes nothing before the input has ended.
    pub header: Option<usize>,
    /// What the paper has it write of an input that ends after these octets.
    pub text: fn(&[u8]) -> Vec<u8>,
}

/// Where nothing failed, nothing is told.
fn ended_well(outcome: &Outcome) -> Result<(), String> {
    if outcome.status.success() && outcome.errors.is_empty() {
        Ok(())
    } else {
        Err(format!(
            "{}, standard error {}",
            outcome.status,
            shown(Some(&outcome.errors))
        ))
    }
}

fn lines(text: &[u8]) -> usize {
    text.iter().filter(|&&octet| octet == b'\n').count()
}

fn shown(text: Option<&[u8]>) -> String {
    match text {
        None => "nothing".to_string(),
        Some(text) => format!("\"{}\"", text[..text.len().min(200)].escape_ascii()),
    }
}

impl Subject<'_> {
    fn command(&self) -> Command {
        Command::new(self.path)
    }

    /// What it writes of an input that comes through a pipe, handed over at
    /// once.
    pub fn output(&self, input: &[u8]) -> Result<Vec<u8>, String> {
        let outcome = run(
            self.command(),
            Stdio::piped(),
            Stdio::piped(),
            |stdin, _| hand_over(stdin, input),
        )?;
        ended_well(&outcome)?;
        Ok(outcome.output)
    }

    /// The same of a file, so that every read gives all that it asks for.
    pub fn output_of_file(&self, input: &[u8]) -> Result<Vec<u8>, String> {
        let source = Temp::holding("input", input)?;
        let outcome = run(
            self.command(),
            source.source()?.into(),
            Stdio::piped(),
            |_, _| Ok(()),
        )?;
        ended_well(&outcome)?;
        Ok(outcome.output)
    }

    /// What the line of a number, from 0, belongs to.
    fn place(&self, number: usize, input: &[u8]) -> String {
        let Some(header) = self.header else {
            return format!("line {}", number + 1);
        };
        if number < header {
            return "header".to_string();
        }
        let name = self.unit_name;
        match input.chunks(self.unit).nth(number - header) {
            Some(unit) => format!("{name} {}, {}", number - header + 1, hex(unit)),
            None => format!("after the last {name}"),
        }
    }

    /// Compares two texts of an input and gives the first line that differs.
    pub fn compare(&self, input: &[u8], expected: &[u8], given: &[u8]) -> Result<(), String> {
        if expected == given {
            return Ok(());
        }
        let mut expected = expected.split_inclusive(|&octet| octet == b'\n');
        let mut given = given.split_inclusive(|&octet| octet == b'\n');
        for number in 0.. {
            let (want, got) = (expected.next(), given.next());
            if want != got {
                return Err(format!(
                    "{}: expected {}, given {}",
                    self.place(number, input),
                    shown(want),
                    shown(got)
                ));
            }
        }
        unreachable!("different texts have a different line");
    }

    /// What it writes of an input through a pipe has to be what the paper has.
    pub fn check(&self, input: &[u8]) -> Result<(), String> {
        self.compare(input, &(self.text)(input), &self.output(input)?)
    }

    /// The text of the paper's own cases: of our reading, and of the program.
    pub fn check_worked(&self, input: &[u8], expected: &[u8]) -> Result<(), String> {
        self.compare(input, expected, &(self.text)(input))
            .map_err(|difference| format!("our own reading: {difference}"))?;
        self.compare(input, expected, &self.output(input)?)
    }

    /// What it has written while the input is open.
    fn text_so_far(&self, input: &[u8]) -> Vec<u8> {
        match self.header {
            Some(_) => (self.text)(&input[..input.len() / self.unit * self.unit]),
            None => Vec::new(),
        }
    }

    /// How many lines these are.
    fn lines_so_far(&self, octets: usize) -> usize {
        match self.header {
            Some(header) if octets >= self.unit => header + octets / self.unit,
            _ => 0,
        }
    }

    /// An input in pieces: first as fast as the pipe takes them, then, where
    /// lines come before the end, each only when the program has answered all
    /// before, so that it meets the pieces as they were cut.
    pub fn pieces(
        &self,
        input: &[u8],
        mut size: impl FnMut() -> usize + Send,
    ) -> Result<(), String> {
        let expected = (self.text)(input);
        let ways: &[bool] = match self.header {
            Some(_) => &[false, true],
            None => &[false],
        };
        for &in_step in ways {
            let outcome = run(
                self.command(),
                Stdio::piped(),
                Stdio::piped(),
                |stdin, seen| {
                    let mut handed = 0;
                    while handed < input.len() {
                        let end = input.len().min(handed + size());
                        hand_over(stdin, &input[handed..end])?;
                        handed = end;
                        if in_step {
                            seen.wait_for(self.lines_so_far(handed))?;
                        }
                    }
                    Ok(())
                },
            )?;
            ended_well(&outcome)?;
            self.compare(input, &expected, &outcome.output)?;
        }
        Ok(())
    }

    /// Each line comes as soon as its unit is there, with the input still open.
    /// `steps` are how far the input goes at each step.
    pub fn live_feed(&self, input: &[u8], steps: &[usize]) -> Result<(), String> {
        let outcome = run(
            self.command(),
            Stdio::piped(),
            Stdio::piped(),
            |stdin, seen| {
                let mut handed = 0;
                for &step in steps {
                    hand_over(stdin, &input[handed..step])?;
                    handed = step;
                    seen.wait_for(self.lines_so_far(handed))?;
                    let text = self.text_so_far(&input[..handed]);
                    self.compare(input, &text, &seen.so_far())?;
                }
                hand_over(stdin, &input[handed..])
            },
        )?;
        ended_well(&outcome)?;
        self.compare(input, &(self.text)(input), &outcome.output)
    }

    /// The end of a text that a failed read cut off. Octets of a unit that isn't
    /// whole are not spoken of.
    fn told_read(&self, outcome: &Outcome, input: &[u8], from: &str) -> Result<(), String> {
        let expected = [&self.text_so_far(input)[..], b"read failed\n"].concat();
        self.compare(input, &expected, &outcome.output)
            .and_then(|()| self.told(outcome, "standard input"))
            .map_err(|difference| format!("{from}: {difference}"))
    }

    fn told(&self, outcome: &Outcome, stream: &str) -> Result<(), String> {
        if outcome.status.code().is_none() {
            return Err(outcome.status.to_string());
        }
        let beginning = format!("{}: {stream}", self.name);
        if !outcome.tells(&beginning) {
            return Err(format!(
                "no line \"{beginning}\" on standard error, but {}",
                shown(Some(&outcome.errors))
            ));
        }
        Ok(())
    }

    pub fn failing_reads(&self) -> Verdict {
        let directory = File::open("/").map_err(|error| format!("/: {error}"))?;
        let for_writing = OpenOptions::new()
            .write(true)
            .open("/dev/null")
            .map_err(|error| format!("/dev/null: {error}"))?;
        for (input, from) in [
            (directory, "a directory"),
            (for_writing, "input open for writing only"),
        ] {
            let outcome = run(self.command(), input.into(), Stdio::piped(), |_, _| Ok(()))?;
            self.told_read(&outcome, &[], from)?;
        }
        Ok("a directory and an input open for writing only: told on both outputs".to_string())
    }

    /// Reading fails after an input: a local socket gives an error once its
    /// other end was closed with octets unread.
    pub fn later_read_fails(&self, input: &[u8]) -> Result<(), String> {
        let socket = |error: std::io::Error| format!("socket: {error}");
        let (mut theirs, mut ours) = UnixStream::pair().map_err(socket)?;
        theirs.write_all(b"unread").map_err(socket)?;
        ours.write_all(input).map_err(socket)?;
        drop(ours);
        let outcome = run(
            self.command(),
            OwnedFd::from(theirs).into(),
            Stdio::piped(),
            |_, _| Ok(()),
        )?;
        self.told_read(&outcome, input, "a socket")
    }

    /// Of each input something has to be written.
    pub fn failing_writes(&self, inputs: &[&[u8]]) -> Result<(), String> {
        for input in inputs {
            let full = OpenOptions::new()
                .write(true)
                .open("/dev/full")
                .map_err(|error| format!("/dev/full: {error}"))?;
            let for_reading =
                File::open("/dev/null").map_err(|error| format!("/dev/null: {error}"))?;
            for (output, to) in [
                (full, "/dev/full"),
                (for_reading, "output open for reading only"),
            ] {
                let outcome = run(self.command(), Stdio::piped(), output.into(), |stdin, _| {
                    hand_over(stdin, input)
                })?;
                self.told(&outcome, "standard output")
                    .map_err(|difference| {
                        let first = &input[..input.len().min(self.unit)];
                        let octets = input.len();
                        format!(
                            "{to}, input of {octets} octets, {}: {difference}",
                            hex(first)
                        )
                    })?;
            }
        }
        Ok(())
    }

    /// Writing fails after the first lines went well: a local datagram socket
    /// refuses once its other end is gone, and without the signal of a broken
    /// pipe.
    pub fn later_write_fails(&self, unit: &[u8]) -> Result<(), String> {
        let socket = |error: std::io::Error| format!("socket: {error}");
        let (theirs, ours) = UnixDatagram::pair().map_err(socket)?;
        ours.set_read_timeout(Some(LIMIT)).map_err(socket)?;
        let expected = (self.text)(unit);
        let outcome = run(
            self.command(),
            Stdio::piped(),
            OwnedFd::from(theirs).into(),
            |stdin, _| {
                hand_over(stdin, unit)?;
                let mut given = Vec::new();
                while lines(&given) < lines(&expected) {
                    let mut message = [0; 1000];
                    let length = ours
                        .recv(&mut message)
                        .map_err(|_| "no line came".to_string())?;
                    given.extend_from_slice(&message[..length]);
                }
                self.compare(unit, &expected, &given)?;
                drop(ours);
                hand_over(stdin, unit)
            },
        )?;
        self.told(&outcome, "standard output")
    }

    /// The write calls that it makes of an input from a file to a file, in a
    /// run of at most so long; its text has to be what the paper has.
    pub fn write_calls(&self, input: &[u8], limit: Duration) -> Result<usize, String> {
        const KNOWN: usize = 500;
        let source = Temp::holding("input", input)?;
        let sink = Temp::holding("output", &[])?;

        // First that a child's calls are counted at all: without this a kernel
        // that counts nothing would pass every program. An emulator makes some
        // calls of its own.
        let ourselves = std::env::current_exe().map_err(|error| error.to_string())?;
        let mut known = Command::new(ourselves);
        known.args(["write-singly", &KNOWN.to_string()]);
        let (counted, outcome) = calls_of(known, source.source()?, sink.sink()?, limit)?;
        if outcome.errors.len() != KNOWN || !(KNOWN..KNOWN + 100).contains(&counted) {
            return Err(format!(
                "/proc/self/io cannot be used: {counted} write calls of a child that made {KNOWN}"
            ));
        }

        let (calls, outcome) = calls_of(self.command(), source.source()?, sink.sink()?, limit)?;
        ended_well(&outcome)?;
        self.compare(input, &(self.text)(input), &sink.content()?)?;
        Ok(calls)
    }
}

/// The write calls of this process and of the children it has waited for.
fn calls_so_far() -> Result<usize, String> {
    let counts = fs::read_to_string("/proc/self/io")
        .map_err(|error| format!("/proc/self/io cannot be had: {error}"))?;
    counts
        .lines()
        .find_map(|line| line.strip_prefix("syscw: ")?.parse().ok())
        .ok_or_else(|| format!("/proc/self/io has no syscw: {counts}"))
}

/// The write calls of a child that reads one file and writes another.
fn calls_of(
    command: Command,
    input: File,
    output: File,
    limit: Duration,
) -> Result<(usize, Outcome), String> {
    let before = calls_so_far()?;
    let outcome = run_within(limit, command, input.into(), output.into(), |_, _| Ok(()))?;
    Ok((calls_so_far()? - before, outcome))
}

/// The hidden errand of the count above: a child whose write calls are known.
pub fn write_singly(count: usize) {
    // Standard error, as it has no buffer. The parent counts what came.
    for _ in 0..count {
        let _ = std::io::stderr().write_all(b".");
    }
}
