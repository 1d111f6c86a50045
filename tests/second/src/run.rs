//! Runs a program under test. Its outputs are gathered by threads, so that no
//! full pipe can block it or us, and a program that hangs is ended.

use std::io::{self, ErrorKind, Read, Write};
use std::process::{Child, ChildStdin, Command, ExitStatus, Stdio};
use std::sync::{Condvar, Mutex};
use std::thread;
use std::time::{Duration, Instant};

/// Far longer than an answer takes: only a program that hangs meets it.
pub const LIMIT: Duration = Duration::from_secs(10);

/// A whole run gets thrice the time, so that the wait that failed is told.
pub const RUN_LIMIT: Duration = Duration::from_secs(30);

pub struct Outcome {
    pub output: Vec<u8>,
    pub errors: Vec<u8>,
    pub status: ExitStatus,
}

impl Outcome {
    /// Whether some line of standard error begins so.
    pub fn tells(&self, beginning: &str) -> bool {
        self.errors
            .split(|&octet| octet == b'\n')
            .any(|line| line.starts_with(beginning.as_bytes()))
    }
}

#[derive(Default)]
struct Text {
    octets: Vec<u8>,
    lines: usize,
    ended: bool,
}

/// What a stream has given so far; others can wait for it to grow.
#[derive(Default)]
pub struct Seen {
    text: Mutex<Text>,
    grown: Condvar,
}

impl Seen {
    fn gather(&self, mut stream: impl Read) {
        let mut piece = [0; 65536];
        loop {
            let read = match stream.read(&mut piece) {
                Err(error) if error.kind() == ErrorKind::Interrupted => continue,
                Ok(read) => read,
                Err(_) => 0,
            };
            let mut text = self.text.lock().unwrap();
            text.octets.extend_from_slice(&piece[..read]);
            text.lines += piece[..read].iter().filter(|&&o| o == b'\n').count();
            text.ended = read == 0;
            self.grown.notify_all();
            if read == 0 {
                return;
            }
        }
    }

    /// Waits for that many whole lines.
    pub fn wait_for(&self, lines: usize) -> Result<(), String> {
        let text = self.text.lock().unwrap();
        let (text, _) = self
            .grown
            .wait_timeout_while(text, LIMIT, |text| text.lines < lines && !text.ended)
            .unwrap();
        if text.lines >= lines {
            Ok(())
        } else {
            let why = if text.ended {
                "output ended"
            } else {
                "nothing more came"
            };
            Err(format!("{why} after {} of {lines} lines", text.lines))
        }
    }

    pub fn so_far(&self) -> Vec<u8> {
        self.text.lock().unwrap().octets.clone()
    }

    fn into_octets(self) -> Vec<u8> {
        self.text.into_inner().unwrap().octets
    }
}

/// Waits for the child's end, which comes by force after the limit.
fn wait(child: &mut Child, limit: Duration) -> Result<ExitStatus, String> {
    let start = Instant::now();
    loop {
        match child.try_wait() {
            Ok(Some(status)) => return Ok(status),
            Ok(None) if start.elapsed() < limit => thread::sleep(Duration::from_millis(1)),
            other => {
                let _ = child.kill();
                let _ = child.wait();
                return Err(match other {
                    Err(error) => format!("waiting for the program: {error}"),
                    _ => format!("still running after {} s", start.elapsed().as_secs()),
                });
            }
        }
    }
}

/// Runs a command on standard streams of any kind. With `Stdio::piped()` as
/// standard input `feed` writes it; it ends when `feed` returns. Without a
/// pipe `feed` isn't called.
pub fn run<F>(command: Command, input: Stdio, output: Stdio, feed: F) -> Result<Outcome, String>
where
    F: FnOnce(&mut ChildStdin, &Seen) -> Result<(), String> + Send,
{
    run_within(RUN_LIMIT, command, input, output, feed)
}

/// The same with another limit.
pub fn run_within<F>(
    limit: Duration,
    mut command: Command,
    input: Stdio,
    output: Stdio,
    feed: F,
) -> Result<Outcome, String>
where
    F: FnOnce(&mut ChildStdin, &Seen) -> Result<(), String> + Send,
{
    let mut child = command
        .stdin(input)
        .stdout(output)
        .stderr(Stdio::piped())
        .spawn()
        .map_err(|error| format!("{command:?}: {error}"))?;
    // It holds copies of the streams, which would keep them open.
    drop(command);
    let (stdin, stdout, stderr) = (child.stdin.take(), child.stdout.take(), child.stderr.take());
    let (output, errors) = (Seen::default(), Seen::default());
    let (status, fed) = thread::scope(|scope| {
        if let Some(stdout) = stdout {
            scope.spawn(|| output.gather(stdout));
        }
        if let Some(stderr) = stderr {
            scope.spawn(|| errors.gather(stderr));
        }
        let feeder = stdin.map(|mut stdin| {
            scope.spawn(|| {
                let fed = feed(&mut stdin, &output);
                drop(stdin);
                fed
            })
        });
        let status = wait(&mut child, limit);
        let fed = feeder.map_or(Ok(()), |feeder| feeder.join().unwrap());
        (status, fed)
    });
    fed?;
    let status = status?;
    Ok(Outcome {
        output: output.into_octets(),
        errors: errors.into_octets(),
        status,
    })
}

/// Hands over one piece. A program that no longer reads is no fault of the
/// feeding: what it wrote will be judged.
pub fn hand_over(stdin: &mut ChildStdin, piece: &[u8]) -> Result<(), String> {
    match stdin.write_all(piece).and_then(|()| stdin.flush()) {
        Err(error) if error.kind() != ErrorKind::BrokenPipe => Err(feeding(error)),
        _ => Ok(()),
    }
}

fn feeding(error: io::Error) -> String {
    format!("feeding the program: {error}")
}
