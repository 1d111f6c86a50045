//! The checks of the C archive.

mod codec;
mod damage;
mod demand_3;
mod distances;
mod edges;
mod histories;
mod maps;
mod marked;
pub mod near;
mod order;
mod pair;
mod replay;
mod searches;
mod soundness;
mod sweep;
mod tallies;
mod walks;
mod windows;

use std::fmt::Debug;

use crate::report::{Report, Verdict};
use pair::{Call, Counts, Pair};

/// How many calls have to be compared at least.
const ENOUGH: u64 = 2_000_000;

/// How often each call has to give each of its answers at least.
const OFTEN: u64 = 1_000;

pub fn check(report: &mut Report) {
    let mut pair = Pair::default();
    let mut add = |name: &str, check: fn(&mut Pair) -> Verdict| {
        report.add("archive", name, check(&mut pair));
    };
    add("worked cases", marked::check);
    add("reading", codec::reading);
    add("writing", codec::writing);
    add("destinations", codec::destinations);
    add("rates", codec::rates);
    add("parameters", codec::parameters);
    add("picks", codec::picks);
    add("distances", distances::check);
    add("distances near the limit", distances::near_limit);
    add("edges of the calls", edges::check);
    add("edges of soundness", soundness::check);
    add("order of refusals", order::check);
    add("damaged tables", damage::spoilt);
    add("octets at random", damage::random);
    add("small histories", histories::small);
    add("histories of 64 records", histories::middling);
    add("histories of 2048 records", histories::large);
    add("histories of any size", histories::of_any_size);
    add("sound tables", searches::tables);
    add("large sound tables", searches::large);
    add("windows at the ends of time", windows::at_the_ends_of_time);
    add("windows of each size", windows::of_each_size);
    add(
        "windows with one record that matters",
        windows::with_one_record_that_matters,
    );
    add(
        "windows all far but for one record",
        windows::all_far_but_one,
    );
    add(
        "windows at the ends of blocks",
        windows::at_the_ends_of_blocks,
    );
    add("windows where blocks touch", windows::where_blocks_touch);
    add("windows between held slots", windows::between_held_slots);
    add(
        "windows in small superframes",
        windows::in_small_superframes,
    );
    add("every M1 and rate", sweep::check);
    add("demand 3", demand_3::check);
    add("demand 3's premise", demand_3::premise);
    add("worked maps", maps::worked);
    add("maps with an octet wrong", maps::octets);
    add("sizes of maps", maps::sizes);
    add("maps of another time or channel", maps::stale);
    add("clocks and maps", maps::clocks);
    add("searches and the map's end", maps::searches);
    add("stations and maps", maps::stations);
    add("the walk", walks::check);
    add("log records by hand", replay::by_hand);
    add("each octet of a log record", replay::every_octet);
    add("block offsets of a log record", replay::block_offsets);
    add("operations of a log record", replay::operations);
    add("lengths of a log record", replay::lengths);
    add("whole miles", replay::whole_miles);
    add("steps on damaged tables", replay::damaged);
    add("log records at random", replay::random);
    add("steps beside calls by hand", replay::twins);
    add("demand 3 over logs", demand_3::over_logs);
    add("the tally", tallies::check);
    for (call, name, _) in Call::ALL {
        let verdict = often(&pair, &Counts::default(), call, OFTEN);
        report.add("archive", &format!("answers of {name}"), verdict);
    }
    report.add("archive", "calls compared", enough(&pair));
}

/// How often a call gave each answer since a count; a failure where one came
/// up too seldom.
fn often(pair: &Pair, since: &Counts, call: Call, least: u64) -> Verdict {
    let counts = pair.counts.since(since);
    let accepted = call.accepts().then_some(&0);
    let mut answers = accepted.into_iter().chain(call.order());
    let name = |answer| match answer {
        0 => "accepted".to_string(),
        refusal => refusal.to_string(),
    };
    let seen: Vec<String> = answers
        .clone()
        .map(|&answer| format!("{} × {}", name(answer), counts.of(call, answer)))
        .collect();
    match answers.find(|&&answer| counts.of(call, answer) < least) {
        None => Ok(seen.join(", ")),
        Some(answer) => Err(format!(
            "{}: answer {answer} less than {least} times: {}",
            call.name(),
            seen.join(", ")
        )),
    }
}

fn enough(pair: &Pair) -> Verdict {
    let by_call: Vec<String> = Call::ALL
        .iter()
        .map(|&(call, name, _)| format!("{name} {}", pair.counts.calls(call)))
        .collect();
    let all = format!("{} in all: {}", pair.counts.all(), by_call.join(", "));
    if pair.counts.all() < ENOUGH {
        Err(format!("too few, {all}"))
    } else {
        Ok(all)
    }
}

fn expect<T: PartialEq + Debug>(what: &str, expected: T, given: T) -> Result<(), String> {
    if expected == given {
        Ok(())
    } else {
        Err(format!("{what}: expected {expected:?}, given {given:?}"))
    }
}
