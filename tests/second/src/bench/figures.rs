//! How long the archive and its peer take, found by turns.

use std::fmt;
use std::time::{Duration, Instant};

use super::median;

pub const ROUNDS: usize = 21;

/// Nanoseconds after which a round is long enough.
const ROUND: f64 = 3e6;

/// Where calls are very long, this many rounds must do once `LONGEST` is over.
const FEWEST_ROUNDS: usize = 3;
const LONGEST: Duration = Duration::from_secs(4);

#[derive(Clone, Copy)]
pub enum Side {
    Archive,
    Peer,
}

/// Nanoseconds of one call on both sides, and the ratio of them.
#[derive(Clone, Copy)]
pub struct Figures {
    pub archive: f64,
    pub peer: f64,
    pub ratio: f64,
    /// How many rounds there were.
    pub rounds: usize,
}

/// Nanoseconds that `work` takes.
pub fn time(work: impl FnOnce()) -> f64 {
    let start = Instant::now();
    work();
    start.elapsed().as_nanos() as f64
}

impl Figures {
    /// Times batches of so many calls on both sides by turns, so that a busy
    /// spell of the machine meets both of them; `batch` gives the time of the
    /// batch of a number. Figures are medians over the rounds.
    pub fn by_turns(calls: usize, mut batch: impl FnMut(Side, usize) -> f64) -> Self {
        let nothing = median((0..1001).map(|_| time(|| {})).collect());
        let mut numbers = 0..;
        let mut rounds: Vec<[f64; 3]> = Vec::new();
        let start = Instant::now();
        for round in 0..=ROUNDS {
            if rounds.len() >= FEWEST_ROUNDS && start.elapsed() > LONGEST {
                break;
            }
            let (mut archive, mut peer, mut done) = (0.0, 0.0, 0.0);
            while archive + peer < ROUND {
                let number = numbers.next().unwrap();
                if round % 2 == 0 {
                    archive += batch(Side::Archive, number) - nothing;
                    peer += batch(Side::Peer, number) - nothing;
                } else {
                    peer += batch(Side::Peer, number) - nothing;
                    archive += batch(Side::Archive, number) - nothing;
                }
                done += calls as f64;
            }
            // The first round warms up.
            if round > 0 {
                rounds.push([archive / done, peer / done, archive / peer]);
            }
        }
        let middle = |part: usize| median(rounds.iter().map(|round| round[part]).collect());
        Figures {
            archive: middle(0),
            peer: middle(1),
            ratio: middle(2),
            rounds: rounds.len(),
        }
    }
}

/// Three digits of a number.
pub fn three_digits(number: f64) -> String {
    let decimals = match number {
        n if n < 9.995 => 2,
        n if n < 99.95 => 1,
        _ => 0,
    };
    format!("{number:.decimals$}")
}

/// A time with its unit.
pub fn shown(nanoseconds: f64) -> String {
    let (number, unit) = match nanoseconds {
        n if n < 999.5 => (n, "ns"),
        n if n < 999.5e3 => (n / 1e3, "µs"),
        n => (n / 1e6, "ms"),
    };
    format!("{} {unit}", three_digits(number))
}

/// Three cells of a table.
impl fmt::Display for Figures {
    fn fmt(&self, f: &mut fmt::Formatter) -> fmt::Result {
        let (archive, peer) = (shown(self.archive), shown(self.peer));
        let ratio = three_digits(self.ratio);
        write!(f, "{archive:>8} | {peer:>8} | {ratio:>5}")
    }
}
