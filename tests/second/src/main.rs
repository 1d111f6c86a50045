//! An independent second program: it tests others against its own reading of
//! the paper.

mod archive;
mod bench;
mod calls;
mod draw;
mod gemthatch;
mod groups;
mod listing;
mod logs;
mod paper;
mod plain;
mod replay;
mod report;
mod run;
mod subject;
mod temp;

use std::path::PathBuf;
use std::process::ExitCode;

use report::Report;

const USAGE: &str = "usage: second archive | second listing PATH | second replay REPLAY MOMENT | \
                     second bench-calls [WORD] (the calls with WORD in their name) | \
                     second bench-load | second bench-listing PATH PEER | \
                     second bench-replay REPLAY PEER";

/// A path that names the same file whatever the search path says.
fn program(path: &str) -> PathBuf {
    std::fs::canonicalize(path).unwrap_or_else(|_| path.into())
}

fn main() -> ExitCode {
    let words: Vec<String> = std::env::args().skip(1).collect();
    let words: Vec<&str> = words.iter().map(String::as_str).collect();
    match words[..] {
        ["listing", path] => {
            let mut report = Report::default();
            listing::check(&program(path), &mut report);
            report.close()
        }
        ["replay", replay, moment] => {
            let mut report = Report::default();
            replay::check(&program(replay), &program(moment), &mut report);
            report.close()
        }
        ["archive"] => {
            let mut report = Report::default();
            calls::check(&mut report);
            report.close()
        }
        ["bench-calls"] => bench::calls(""),
        ["bench-calls", word] => bench::calls(word),
        ["bench-load"] => bench::load(),
        ["bench-listing", path, peer] => bench::listing(&program(path), &program(peer)),
        ["bench-replay", replay, peer] => bench::replay(&program(replay), &program(peer)),
        ["write-singly", count] => {
            subject::write_singly(count.parse().unwrap_or(0));
            ExitCode::SUCCESS
        }
        _ => {
            eprintln!("{USAGE}");
            ExitCode::from(2)
        }
    }
}
