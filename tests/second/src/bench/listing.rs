//! The listing beside its peers, a plain program and a tuned one.

use std::path::Path;
use std::process::Stdio;

use super::programs::{by_turns, null, Program};
use crate::draw::Draw;
use crate::groups;
use crate::temp::Temp;

const GROUPS: usize = 1_000_000;
const RUNS: usize = 11;

/// Mostly accepted groups; one in ten is refused, for any of the reasons.
fn input() -> Vec<u8> {
    let mut draw = Draw::from_seed(8);
    groups::many(GROUPS, || {
        let mut group = groups::accepted(&mut draw);
        if draw.below(10) == 0 {
            let refusal = 2 + draw.below(5);
            groups::spoil(&mut group, refusal, &mut draw);
        }
        group
    })
}

/// One row of the table.
fn row(
    name: &str,
    programs: [Program; 3],
    source: &Temp,
    output: impl Fn(usize) -> Result<Stdio, String>,
) -> Result<(), String> {
    let [listing, plain, tuned] = by_turns(RUNS, programs, source, output)?;
    println!(
        "{name:<10} {listing:>9.2} {plain:>9.2} {tuned:>9.2} {:>16.2} {:>16.2}",
        listing / plain,
        listing / tuned
    );
    Ok(())
}

pub fn table(listing: &Path, peer: &Path) -> Result<(), String> {
    let source = Temp::holding("bench-groups", &input())?;
    let sinks = [
        Temp::holding("bench-listing", &[])?,
        Temp::holding("bench-plain", &[])?,
        Temp::holding("bench-tuned", &[])?,
    ];
    let programs: [Program; 3] = [(listing, &[]), (peer, &["plain"]), (peer, &["tuned"])];
    println!("{GROUPS} groups, median of {RUNS} runs each, in ms");
    println!(
        "{:<10} {:>9} {:>9} {:>9} {:>16} {:>16}",
        "output", "listing", "plain", "tuned", "listing / plain", "listing / tuned"
    );
    row("file", programs, &source, |which| {
        Ok(sinks[which].sink()?.into())
    })?;
    for sink in &sinks[1..] {
        if sinks[0].content()? != sink.content()? {
            return Err("the outputs differ".to_string());
        }
    }
    row("/dev/null", programs, &source, |_| null())
}
