//! One record at every M1 and every rate: its slots around the ends of each of
//! its blocks and of each of its superframes, and the clock that it goes at.

use super::edges;
use super::expect;
use super::near;
use super::pair::Pair;
use crate::draw::Draw;
use crate::paper::slots;
use crate::paper::table::{Record, State};
use crate::paper::LATEST;
use crate::report::Verdict;

const LONGEST: u32 = 32;

/// Lengths that tell: the shortest, the longest, any, or one at which blocks
/// leave a slot between them or touch; and one at which they overlap, where
/// they can.
fn lengths(draw: &mut Draw, spacing: u32) -> Vec<u32> {
    let any = 1 + draw.below(LONGEST);
    let telling = draw.one_of(&[1, LONGEST, any, spacing - 1, spacing]);
    let mut lengths = vec![telling.clamp(1, LONGEST)];
    if spacing < LONGEST {
        let any = spacing + 1 + draw.below(LONGEST - spacing);
        lengths.push(draw.one_of(&[spacing + 1, LONGEST, any]));
    }
    lengths
}

/// The slots on both sides of where a block or a superframe begins or ends,
/// in order, each once.
fn around_ends(record: &Record, m1: u32) -> Vec<u32> {
    let superframe = i64::from(m1);
    let superframes =
        (0..=i64::from(record.superframes)).map(|k| i64::from(record.first) + k * superframe);
    let further = record.further(m1).map(|start| start + superframe);
    let mut slots: Vec<u32> = slots::blocks(record, m1)
        .flat_map(|block| [block.start, block.end])
        .chain(superframes)
        .chain(further)
        .flat_map(|end| [end as u32 - 1, end as u32])
        .collect();
    slots.sort_unstable();
    slots.dedup();
    slots
}

#[derive(Default)]
struct Seen {
    records: u64,
    /// Of these, those whose rate leaves a remainder, and whose blocks overlap.
    undivided: u64,
    overlapping: u64,
    /// Those with a further series, and how it lies.
    further: [u64; 3],
    /// Slots by their state.
    slots: [u64; 3],
}

fn run(pair: &mut Pair, record: &Record, m1: u32, seen: &mut Seen) -> Result<(), String> {
    let slots = around_ends(record, m1);
    let state = State {
        m1,
        now: slots[0],
        count: 1,
    };
    let mut channel = edges::table(*record, state, 1);
    for slot in slots {
        let number = pair
            .slot_state(&mut channel, slot)?
            .map_err(|refusal| format!("slot {slot} of {record:?} at M1 {m1} refused {refusal}"))?;
        seen.slots[number as usize] += 1;
    }
    let last = record.last_slot(m1) as u32;
    for (clock, gone) in [(last, 0), (last + 1, 1)] {
        let what = format!("{record:?} at M1 {m1}, clock {clock}");
        let given = pair.clock(&mut channel.clone(), clock)?;
        expect(&what, Ok(gone), given)?;
    }
    for (times, is) in seen.further.iter_mut().zip(near::further(record, m1)) {
        *times += u64::from(is);
    }
    let rate = u32::from(record.rate);
    seen.records += 1;
    seen.undivided += u64::from(!m1.is_multiple_of(rate));
    seen.overlapping += u64::from(u32::from(record.length) > m1 / rate);
    Ok(())
}

pub fn check(pair: &mut Pair) -> Verdict {
    let mut draw = Draw::from_seed(403);
    let mut seen = Seen::default();
    // More often where a further series can begin and end before the first.
    let short = [60, 120].into_iter().cycle().take(16);
    for m1 in short.chain((180..=15_360).step_by(60)) {
        for rate in 1..=60 {
            for length in lengths(&mut draw, m1 / rate) {
                let record = Record {
                    station: draw.below(1 << 27),
                    // Both series, and a slot on either side, can be asked for.
                    first: 128 + draw.below(LATEST - 5 * m1 - 400),
                    rate: rate as u8,
                    superframes: 1 + draw.below(3) as u8,
                    length: length as u8,
                    far: draw.below(2) as u8,
                    bo: near::bo(&mut draw) as i8,
                    zeros: [0; 3],
                };
                run(pair, &record, m1, &mut seen)?;
            }
        }
    }
    let Seen {
        records,
        undivided,
        overlapping,
        further: [further, earlier, within],
        slots: [free, reusable, taken],
    } = seen;
    let told = format!(
        "{records} records, {undivided} whose rate leaves a remainder, {overlapping} whose blocks \
         overlap, {further} with a further series, of which {earlier} begin before the first and \
         {within} end before it does; slots {free} free, {reusable} reusable, {taken} taken; kept \
         at the last slot and gone at the next"
    );
    let seldom = [undivided, overlapping, further, free, reusable, taken]
        .iter()
        .any(|&times| times < 900);
    if seldom || earlier < 50 || within < 100 {
        return Err(format!("too little of something: {told}"));
    }
    Ok(told)
}
