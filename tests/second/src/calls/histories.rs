//! Channels from their opening on: calls of every kind, mixed, each on what
//! the last one left.

use std::collections::BTreeSet;

use super::maps::never_wrong;
use super::near::{self, once_in};
use super::pair::{Call, Channel, Pair};
use crate::draw::Draw;
use crate::paper::table::{Reservation, Table, RECORD};
use crate::paper::LATEST;
use crate::report::Verdict;

/// What came up in the histories.
#[derive(Default)]
struct Seen {
    /// M1 of channels with an accepted reserve.
    m1s: BTreeSet<u32>,
    /// Slots that were free, reusable and taken.
    slots: [u64; 3],
    /// Searches by the number found.
    found: [u64; 17],
    /// Records dropped, rewritten and removed.
    dropped: u64,
    rewritten: u64,
    removed: u64,
    /// Clocks that dropped some records and kept others.
    sifted: u64,
    /// Accepted calls at the earliest and at the latest slot.
    at_start: u64,
    at_end: u64,
    /// Tables that were full.
    full: u64,
    /// Walks that handed out a record, and that had no more.
    handed: u64,
    no_more: u64,
}

impl Seen {
    fn told(&self) -> String {
        let [free, reusable, taken] = self.slots;
        let found: u64 = self.found.iter().sum();
        format!(
            "{} M1; slots {free} free, {reusable} reusable, {taken} taken; {found} searches found \
             1 to 16; records {} dropped, {} rewritten, {} removed; {} clocks dropped some and \
             kept some; {} calls at slot 0, {} at 1000000000; {} on a full table; {} records \
             handed out, {} times no more",
            self.m1s.len(),
            self.dropped,
            self.rewritten,
            self.removed,
            self.sifted,
            self.at_start,
            self.at_end,
            self.full,
            self.handed,
            self.no_more
        )
    }

    /// Fails where something came up too seldom; `found` is for each number
    /// found.
    fn enough(&self, m1s: usize, least: u64, found: u64) -> Verdict {
        let seldom = self
            .slots
            .iter()
            .chain([&self.dropped, &self.rewritten, &self.removed, &self.sifted])
            .chain([&self.at_start, &self.at_end, &self.full])
            .chain([&self.handed, &self.no_more])
            .any(|&times| times < least);
        let few = self.found[1..].iter().any(|&times| times < found);
        if seldom || few || self.m1s.len() < m1s {
            Err(format!(
                "too little of something: {}, found {:?}",
                self.told(),
                self.found
            ))
        } else {
            Ok(self.told())
        }
    }
}

fn reserve(
    pair: &mut Pair,
    draw: &mut Draw,
    channel: &mut Channel,
    last: &mut Reservation,
    sparse: bool,
) -> Result<(), String> {
    let mut asked = near::reservation(draw);
    if sparse {
        asked.rate = 1 + asked.rate % 3;
        asked.length = 1 + asked.length % 2;
        if !once_in(draw, 50) {
            asked.distance = near::FAR;
        }
    }
    if once_in(draw, 8) {
        // The same again, perhaps at another distance.
        asked = Reservation {
            distance: asked.distance,
            limit: asked.limit,
            ..*last
        };
    }
    *last = asked;
    if once_in(draw, 8) {
        near::spoil_reservation(draw, &mut asked, channel.state);
    }
    pair.reserve(channel, &asked).map(drop)
}

/// One call of any kind but open and reserve.
fn step(
    pair: &mut Pair,
    draw: &mut Draw,
    channel: &mut Channel,
    seen: &mut Seen,
) -> Result<(), String> {
    let state = channel.state;
    match draw.below(14) {
        0..=2 => {
            let slot = near::clock(draw, channel);
            let dropped = pair.clock(channel, slot)?.unwrap_or(0);
            seen.dropped += u64::from(dropped);
            seen.sifted += u64::from(dropped > 0 && channel.state.count > 0);
        }
        3..=4 => {
            let mut told = near::measure(draw);
            if once_in(draw, 8) {
                near::spoil_measure(draw, &mut told, state);
            }
            seen.rewritten += u64::from(pair.distance(channel, &told)?.unwrap_or(0));
        }
        5 => {
            let mut station = near::station(draw);
            if once_in(draw, 8) {
                station = near::number(draw, state);
            }
            seen.removed += u64::from(pair.wipe(channel, station)?.unwrap_or(0));
        }
        6..=8 => {
            let slot = near::slot(draw, channel);
            if let Ok(number) = pair.slot_state(channel, slot)? {
                seen.slots[number as usize] += 1;
            }
        }
        9..=10 => match pair.record_at(channel, near::place(draw, state))? {
            Ok(Some(_)) => seen.handed += 1,
            Ok(None) => seen.no_more += 1,
            Err(refusal) => return Err(format!("a walk is refused {refusal}")),
        },
        _ => {
            let (wish, mut list) = near::wish(draw, channel);
            if let Ok(found) = pair.search(channel, &wish, &mut list)? {
                seen.found[found as usize] += 1;
                let _ = pair.pick(found, draw.number() as u32)?;
            }
        }
    }
    Ok(())
}

/// What kind of history it is.
struct Plot {
    capacity: usize,
    m1: u32,
    /// Slots between the first clock and the latest slot, if it is put there.
    before_end: Option<u32>,
    /// Of so many calls one is a reserve.
    reserves: u32,
    /// Whether a table less than half full is filled again.
    refilled: bool,
    /// Whether records reserve few slots and are mostly far, so that even
    /// many of them don't take every slot.
    sparse: bool,
    steps: u32,
}

fn play(pair: &mut Pair, draw: &mut Draw, plot: &Plot, seen: &mut Seen) -> Result<(), String> {
    let rubbish: Vec<u8> = (0..plot.capacity * RECORD).map(|_| draw.octet()).collect();
    let mut channel = Channel::unopened(&rubbish, plot.m1);
    let before = pair.counts.clone();
    if pair.open(&mut channel, plot.m1)? != Ok(0) {
        return Err(format!("open refused M1 {}", plot.m1));
    }
    if let Some(slots) = plot.before_end {
        let _ = pair.clock(&mut channel, LATEST - slots)?;
    }
    let mut last = near::reservation(draw);
    // First some reserves, or more than enough, then calls of all kinds.
    let enough = plot.capacity + plot.capacity / 2;
    let mut fill = draw.one_of(&[1, plot.capacity / 2, enough]);
    for _ in 0..plot.steps {
        let filled = channel.state.count as usize;
        if plot.refilled && filled < plot.capacity / 2 {
            fill = enough - filled;
        }
        for _ in 0..std::mem::take(&mut fill) {
            reserve(pair, draw, &mut channel, &mut last, plot.sparse)?;
        }
        seen.at_start += u64::from(channel.state.now == 0);
        seen.at_end += u64::from(channel.state.now == LATEST);
        seen.full += u64::from(channel.state.count as usize == plot.capacity);
        if once_in(draw, plot.reserves) {
            reserve(pair, draw, &mut channel, &mut last, plot.sparse)?;
        } else {
            step(pair, draw, &mut channel, seen)?;
        }
    }
    if pair.counts.of(Call::Reserve, 0) > before.of(Call::Reserve, 0) {
        seen.m1s.insert(plot.m1);
    }
    // What the calls left is sound and has its map, whatever they were.
    never_wrong(pair, &before)?;
    match Table::held(channel.memory.octets(), channel.state) {
        Ok(_) => Ok(()),
        Err(refusal) => Err(format!("a history left a table refused {refusal}")),
    }
}

/// Near the end of the slots in one history of three.
fn before_end(draw: &mut Draw, m1: u32) -> Option<u32> {
    once_in(draw, 3).then(|| match draw.below(3) {
        0 => 0,
        1 => draw.below(20),
        _ => draw.below(4 * m1),
    })
}

/// Every M1 so many times, and 60 and 120 more often: there a further series can
/// begin and end before the first.
fn m1s(times: u32, more: u32) -> impl Iterator<Item = u32> {
    let every = (0..256 * times).map(|round| 60 * (1 + round % 256));
    every.chain((0..2 * more).map(|round| 60 * (1 + round % 2)))
}

pub fn small(pair: &mut Pair) -> Verdict {
    let mut draw = Draw::from_seed(301);
    let mut seen = Seen::default();
    for m1 in m1s(60, 1_000) {
        let plot = Plot {
            capacity: draw.one_of(&[1, 1, 2, 3, 5, 8]),
            m1,
            before_end: before_end(&mut draw, m1),
            reserves: 3,
            refilled: false,
            sparse: false,
            steps: 60,
        };
        play(pair, &mut draw, &plot, &mut seen)?;
    }
    seen.enough(256, 100, 100)
}

pub fn middling(pair: &mut Pair) -> Verdict {
    let mut draw = Draw::from_seed(302);
    let mut seen = Seen::default();
    for m1 in m1s(2, 32) {
        let plot = Plot {
            capacity: 64,
            m1,
            before_end: before_end(&mut draw, m1),
            reserves: 2,
            refilled: true,
            sparse: once_in(&mut draw, 2),
            steps: 200,
        };
        play(pair, &mut draw, &plot, &mut seen)?;
    }
    seen.enough(256, 20, 20)
}

/// Every number of records that the paper allows may come up, small ones more
/// often.
pub fn of_any_size(pair: &mut Pair) -> Verdict {
    let mut draw = Draw::from_seed(304);
    let mut seen = Seen::default();
    let mut sizes = BTreeSet::new();
    for _ in 0..400 {
        let width = draw.below(12);
        let capacity = 1 + draw.below(1 << width) as usize;
        let m1 = near::m1(&mut draw);
        let plot = Plot {
            capacity,
            m1,
            before_end: before_end(&mut draw, m1),
            reserves: 2,
            refilled: true,
            sparse: once_in(&mut draw, 2),
            steps: 60,
        };
        play(pair, &mut draw, &plot, &mut seen)?;
        sizes.insert(capacity);
    }
    let (Some(least), Some(most)) = (sizes.first(), sizes.last()) else {
        return Err("no history was played".to_string());
    };
    if *least > 1 || *most < 1_800 || sizes.len() < 150 {
        return Err(format!("only {} sizes from {least} to {most}", sizes.len()));
    }
    let told = seen.enough(100, 20, 0)?;
    Ok(format!(
        "{} sizes from {least} to {most} records; {told}",
        sizes.len()
    ))
}

pub fn large(pair: &mut Pair) -> Verdict {
    let mut draw = Draw::from_seed(303);
    let mut seen = Seen::default();
    // Half of them in small superframes: every call works a map out.
    let plots = [
        (60, None, true),
        (120, Some(0), true),
        (180, None, false),
        (240, Some(240), true),
        (4_500, None, false),
        (4_500, Some(4_500), true),
        (15_360, None, true),
        (15_360, Some(100), true),
    ];
    for (m1, before_end, sparse) in plots {
        let plot = Plot {
            capacity: 2_048,
            m1,
            before_end,
            reserves: 3,
            refilled: true,
            sparse,
            steps: 200,
        };
        play(pair, &mut draw, &plot, &mut seen)?;
    }
    seen.enough(6, 15, 0)
}
