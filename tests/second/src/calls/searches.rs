//! Searches and slot states on sound tables made directly, such as no
//! sequence of calls needs to leave.

use super::near;
use super::pair::{Channel, Pair};
use crate::draw::Draw;
use crate::paper::slots::{self, Slot};
use crate::paper::table::{Record, Table};
use crate::paper::LATEST;
use crate::report::Verdict;

#[derive(Default)]
struct Seen {
    slots: [u64; 3],
    /// Starts by their level.
    levels: [u64; 2],
    /// Searches that gave starts of both levels.
    both: u64,
    /// Searches in which reserved slots past the latest were judged.
    past: u64,
    /// Searches without a start.
    none: u64,
    /// Records of each of the kinds below.
    kinds: [u64; 4],
    /// Those with a further series of each kind.
    further: [u64; 5],
}

impl Seen {
    /// Fails where something came up too seldom.
    fn enough(&self, least: u64) -> Verdict {
        let [free, reusable, taken] = self.slots;
        let [level_0, level_1] = self.levels;
        let [earlier, late, undivided, overlapping] = self.kinds;
        let [further, before_first, before_end, before_now, alone] = self.further;
        let told = format!(
            "slots {free} free, {reusable} reusable, {taken} taken; starts {level_0} of level 0, \
             {level_1} of level 1; {} searches gave both, {} none; {} judged reserved slots past \
             1000000000; records {earlier} made earlier, {late} beginning past 1000000000, \
             {undivided} whose rate leaves a remainder, {overlapping} whose blocks overlap, \
             {further} with a further series; {before_first} of these begin before the first, \
             {before_end} end before it does, {before_now} begin before now, {alone} are all that \
             is left",
            self.both, self.none, self.past
        );
        let seldom = self
            .slots
            .iter()
            .chain(&self.levels)
            .chain([&self.both, &self.none, &self.past])
            .chain(&self.kinds)
            .any(|&times| times < least);
        // Only small superframes have some of these.
        if seldom || self.further.iter().any(|&times| times < least / 2) {
            Err(format!("too little of something: {told}"))
        } else {
            Ok(told)
        }
    }
}

/// The marking form of our own reading against its plain form.
fn marking(draw: &mut Draw, table: &Table) -> Result<(), String> {
    let start = i64::from(table.now) + i64::from(draw.below(2 * table.m1));
    let marked = slots::judge_all(table, start..start + 40);
    for (slot, &marked) in (start..).zip(&marked) {
        if marked != slots::judge(table, slot) {
            return Err(format!("our own reading marks slot {slot} as {marked:?}"));
        }
    }
    Ok(())
}

fn starts(list: &[u8], found: u32) -> impl Iterator<Item = u32> + '_ {
    list.chunks_exact(4)
        .take(found as usize)
        .map(|entry| u32::from_le_bytes([entry[0], entry[1], entry[2], entry[3]]))
}

fn ask(
    pair: &mut Pair,
    draw: &mut Draw,
    channel: &mut Channel,
    table: &Table,
    seen: &mut Seen,
) -> Result<(), String> {
    let slot = near::slot(draw, channel);
    if let Ok(number) = pair.slot_state(channel, slot)? {
        seen.slots[number as usize] += 1;
    }
    let (wish, mut list) = near::wish(draw, channel);
    let answer = pair.search(channel, &wish, &mut list)?;
    if matches!(answer, Ok(_) | Err(21)) {
        let end = i64::from(wish.hi) + i64::from(wish.length);
        let past = slots::judge_all(table, end.min(i64::from(LATEST) + 1)..end);
        seen.past += u64::from(past.iter().any(|&slot| slot != Slot::Free));
    }
    seen.none += u64::from(answer == Err(21));
    let found = answer.unwrap_or(0);
    // Each start found, judged by itself.
    let mut levels = [0; 2];
    for start in starts(list.octets(), found) {
        let start_slot = i64::from(start);
        let judged = slots::judge_all(table, start_slot..start_slot + i64::from(wish.length));
        if judged.contains(&Slot::Taken) {
            return Err(format!("start {start} of {wish:?} has a taken slot"));
        }
        let level = usize::from(judged.contains(&Slot::Reusable));
        if level == 0 && levels[1] > 0 {
            return Err(format!("start {start} of {wish:?} stands after level 1"));
        }
        levels[level] += 1;
        seen.levels[level] += 1;
    }
    seen.both += u64::from(levels[0] > 0 && levels[1] > 0);
    Ok(())
}

/// Calls that change such a table, each on a copy.
fn change(pair: &mut Pair, draw: &mut Draw, channel: &Channel) -> Result<(), String> {
    let slot = near::clock(draw, channel);
    let _ = pair.clock(&mut channel.clone(), slot)?;
    let _ = pair.reserve(&mut channel.clone(), &near::reservation(draw))?;
    let _ = pair.distance(&mut channel.clone(), &near::measure(draw))?;
    let _ = pair.wipe(&mut channel.clone(), near::station(draw))?;
    Ok(())
}

fn run(
    pair: &mut Pair,
    draw: &mut Draw,
    channel: &mut Channel,
    asked: u32,
    seen: &mut Seen,
) -> Result<(), String> {
    let table = Table::held(channel.memory.octets(), channel.state)
        .map_err(|refusal| format!("our own table is refused {refusal}"))?;
    marking(draw, &table)?;
    for record in &table.records {
        for (times, is) in seen.kinds.iter_mut().zip(kinds(record, &table)) {
            *times += u64::from(is);
        }
        for (times, is) in seen.further.iter_mut().zip(further(record, &table)) {
            *times += u64::from(is);
        }
    }
    for _ in 0..asked {
        ask(pair, draw, channel, &table, seen)?;
    }
    change(pair, draw, channel)
}

/// Whether no reserve at this clock could have made it, whether it begins past
/// the latest slot, its rate leaves a remainder, its blocks overlap.
fn kinds(record: &Record, table: &Table) -> [bool; 4] {
    let (now, rate) = (table.now, u32::from(record.rate));
    [
        !(now + 2..=now + 255).contains(&record.first),
        record.first > LATEST,
        !table.m1.is_multiple_of(rate),
        u32::from(record.length) > table.m1 / rate,
    ]
}

/// Whether it has a further series, whether that begins before the first, ends
/// before it does, begins before now, or is all that is left of the record.
fn further(record: &Record, table: &Table) -> [bool; 5] {
    let now = i64::from(table.now);
    let [further, before_first, before_end] = near::further(record, table.m1);
    [
        further,
        before_first,
        before_end,
        record.further(table.m1).is_some_and(|start| start < now),
        Record { bo: 0, ..*record }.last_slot(table.m1) < now,
    ]
}

pub fn tables(pair: &mut Pair) -> Verdict {
    let mut draw = Draw::from_seed(401);
    let mut seen = Seen::default();
    for _ in 0..20_000 {
        let count = draw.below(9);
        let capacity = (count + draw.below(3)).max(1);
        let mut channel = near::table(&mut draw, capacity, count);
        run(pair, &mut draw, &mut channel, 8, &mut seen)?;
    }
    seen.enough(1_000)
}

pub fn large(pair: &mut Pair) -> Verdict {
    let mut draw = Draw::from_seed(402);
    let mut seen = Seen::default();
    for count in [0, 1, 30, 100, 1_000, 2_047, 2_048] {
        for _ in 0..40 {
            let mut channel = near::table(&mut draw, 2_048, count);
            run(pair, &mut draw, &mut channel, 15, &mut seen)?;
        }
    }
    seen.enough(30)
}
