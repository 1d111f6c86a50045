//! Times, not checks: what was built beside peers written by hand.

mod archive;
mod calls;
mod codec;
mod figures;
mod listing;
mod load;
mod programs;
mod replay;
mod sides;
mod tables;

use std::path::Path;
use std::process::ExitCode;

fn median(mut numbers: Vec<f64>) -> f64 {
    numbers.sort_by(f64::total_cmp);
    numbers[numbers.len() / 2]
}

fn close(done: Result<(), String>) -> ExitCode {
    match done {
        Ok(()) => ExitCode::SUCCESS,
        Err(error) => {
            eprintln!("second: {error}");
            ExitCode::FAILURE
        }
    }
}

/// The listing beside its peers.
pub fn listing(listing: &Path, peer: &Path) -> ExitCode {
    close(listing::table(listing, peer))
}

/// The replay beside its peers.
pub fn replay(replay: &Path, peer: &Path) -> ExitCode {
    close(replay::table(replay, peer))
}

/// How many channels one core serves, with the archive and with its peer.
pub fn load() -> ExitCode {
    close(load::table())
}

/// Each call of the archive whose name has a word in it, beside its peer.
pub fn calls(word: &str) -> ExitCode {
    close(codec::table(word).and_then(|()| calls::table(word)))
}
