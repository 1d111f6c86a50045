//! The tally: from any counts, by any refusal number, and of all calls that
//! were compared.

use super::expect;
use super::near::once_in;
use super::pair::Pair;
use crate::archive::{self, LentTally};
use crate::draw::Draw;
use crate::paper::tally::Tally;
use crate::report::Verdict;

/// Rows of calls at random.
const ROWS: u32 = 20_000;

/// Where the paper has each count stop.
const END: u32 = 4_294_967_295;

/// Accepted and refused, a refusal number, and the two after it, as the paper
/// has them.
const EDGES: [([u32; 2], u32, [u32; 2]); 19] = [
    ([0, 0], 0, [1, 0]),
    ([0, 0], 1, [0, 1]),
    ([7, 9], 0, [8, 9]),
    ([7, 9], 1, [7, 10]),
    ([7, 9], 22, [7, 10]),
    ([7, 9], 23, [7, 10]),
    ([7, 9], 256, [7, 10]),
    ([7, 9], 1 << 16, [7, 10]),
    ([7, 9], 2_000_000_000, [7, 10]),
    ([7, 9], 1 << 31, [7, 10]),
    ([7, 9], u32::MAX, [7, 10]),
    ([END - 1, 9], 0, [END, 9]),
    ([END, 9], 0, [END, 9]),
    ([END, 9], 5, [END, 10]),
    ([7, END - 1], 5, [7, END]),
    ([7, END], 5, [7, END]),
    ([7, END], 0, [8, END]),
    ([END, END], 0, [END, END]),
    ([END, END], u32::MAX, [END, END]),
];

#[derive(Default)]
struct Seen {
    /// Accepted and refused calls that raised their count.
    rose: [u64; 2],
    /// Those that found it at its end.
    stopped: [u64; 2],
}

/// Counts by both, which have to agree.
fn count(lent: &mut LentTally, refusal: u32, seen: &mut Seen) -> Result<Tally, String> {
    let before = lent.tally()?;
    let mut after = before;
    after.count(refusal);
    archive::count(lent, refusal);
    let what = format!("{before:?}, refusal {refusal}");
    expect(&what, after, lent.tally()?)?;
    let kind = match before == after {
        true => &mut seen.stopped,
        false => &mut seen.rose,
    };
    kind[usize::from(refusal != 0)] += 1;
    Ok(after)
}

/// A count to begin with: often near the end.
fn start(draw: &mut Draw) -> u32 {
    match draw.below(4) {
        0 => draw.number() as u32,
        1 => draw.one_of(&[0, 1, 255, 65_535, (1 << 31) - 1, END - 1, END]),
        _ => END - draw.below(40),
    }
}

fn refusal(draw: &mut Draw) -> u32 {
    match draw.below(8) {
        0..=3 => 0,
        4..=5 => 1 + draw.below(22),
        6 => draw.one_of(&[1, 23, 256, 1 << 16, 1 << 24, 1 << 31, u32::MAX]),
        _ => draw.number() as u32,
    }
}

/// The archive's tally of the calls compared so far, against our own counts.
fn all_calls(pair: &Pair) -> Result<Tally, String> {
    let tally = pair.tally.tally()?;
    let accepted = pair.counts.of_all(0);
    let expected = [accepted, pair.counts.all() - accepted];
    let given = [tally.accepted, tally.refused].map(u64::from);
    expect("all calls", expected, given)?;
    Ok(tally)
}

pub fn check(pair: &mut Pair) -> Verdict {
    for ([accepted, refused], refusal, after) in EDGES {
        let mut lent = LentTally::holding(Tally { accepted, refused });
        let given = count(&mut lent, refusal, &mut Seen::default())?;
        let what = format!("{accepted}, {refused}, refusal {refusal}");
        expect(&what, after, [given.accepted, given.refused])?;
    }
    let mut draw = Draw::from_seed(901);
    let mut seen = Seen::default();
    for _ in 0..ROWS {
        let (accepted, refused) = (start(&mut draw), start(&mut draw));
        let mut lent = LentTally::holding(Tally { accepted, refused });
        let length = if once_in(&mut draw, 4) { 100 } else { 10 };
        for _ in 0..length {
            count(&mut lent, refusal(&mut draw), &mut seen)?;
        }
    }
    let all = all_calls(pair)?;
    let Seen {
        rose: [accepted, refused],
        stopped: [accepted_stopped, refused_stopped],
    } = seen;
    let told = format!(
        "{} edges as the paper has them; {ROWS} rows, {accepted} accepted and {refused} refused \
         counted, {accepted_stopped} and {refused_stopped} stopped at {END}; of the calls \
         compared {} accepted, {} refused",
        EDGES.len(),
        all.accepted,
        all.refused
    );
    let least = accepted
        .min(refused)
        .min(accepted_stopped)
        .min(refused_stopped);
    if least < 10_000 {
        return Err(format!("too little of something: {told}"));
    }
    Ok(told)
}
