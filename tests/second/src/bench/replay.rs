//! The replay beside its peers: a plain program that tests the whole table at
//! each log record, and one that trusts it, which shows what that test costs.

use std::path::Path;

use super::programs::{by_turns, null, time, Program};
use super::tables::any_bo;
use crate::draw::Draw;
use crate::logs;
use crate::paper::log::{Day, Entry, ENTRY};
use crate::paper::table::MOST_RECORDS;
use crate::temp::Temp;

const RECORDS: usize = 1_000_000;

/// A run on full tables takes its time.
const RUNS: usize = 5;

/// Stations of a full table, which hold some sixteen records each.
const STATIONS: u32 = 128;

/// A log that keeps a table full, or nearly so: whenever a record went, another
/// is reserved.
fn full() -> Vec<u8> {
    let mut draw = Draw::from_seed(9);
    let mut day = Day::default();
    let mut log = Vec::with_capacity(RECORDS * ENTRY);
    for _ in 0..RECORDS {
        let station = draw.below(STATIONS);
        let has_room = day.table.records.len() < MOST_RECORDS;
        let entry = match draw.below(16) {
            _ if has_room => Entry {
                rate: 1 + draw.below(60) as u8,
                superframes: 3,
                length: 1 + draw.below(32) as u8,
                bo: any_bo(&mut draw) as i8,
                ..logs::reserve(station, 2 + draw.below(254))
            },
            // Refused, as the table is full.
            0 => logs::reserve(station, 2 + draw.below(254)),
            1 => logs::wipe(station),
            2..=8 => logs::distance(station, draw.below(300), 150),
            _ => logs::clock(day.table.now + draw.below(3)),
        };
        let entry = entry.octets();
        let _ = day.step(&entry);
        log.extend(entry);
    }
    log
}

/// One that keeps it nearly empty.
fn nearly_empty() -> Vec<u8> {
    logs::day(&mut Draw::from_seed(10), RECORDS, &logs::IDLE)
}

/// The outputs have to be the same before anything is timed.
fn same(programs: [Program; 3], source: &Temp) -> Result<(), String> {
    let mut texts = Vec::new();
    for program in programs {
        let sink = Temp::holding("bench-replay", &[])?;
        time(program, source, sink.sink()?.into())?;
        texts.push(sink.content()?);
    }
    if texts.iter().any(|text| text != &texts[0]) {
        return Err("the outputs differ".to_string());
    }
    Ok(())
}

pub fn table(replay: &Path, peer: &Path) -> Result<(), String> {
    let programs: [Program; 3] = [
        (replay, &[]),
        (peer, &["replay"]),
        (peer, &["replay-trusting"]),
    ];
    println!("{RECORDS} log records to /dev/null, median of {RUNS} runs each, in ms");
    println!(
        "{:<12} {:>9} {:>9} {:>9} {:>15} {:>18}",
        "table", "replay", "plain", "trusting", "replay / plain", "replay / trusting"
    );
    for (name, log) in [
        ("full", full as fn() -> Vec<u8>),
        ("nearly empty", nearly_empty),
    ] {
        let source = Temp::holding("bench-log", &log())?;
        same(programs, &source)?;
        let [replay, plain, trusting] = by_turns(RUNS, programs, &source, |_| null())?;
        println!(
            "{name:<12} {replay:>9.2} {plain:>9.2} {trusting:>9.2} {:>15.2} {:>18.2}",
            replay / plain,
            replay / trusting
        );
    }
    Ok(())
}
