//! Free, reusable and taken slots.

use std::ops::Range;

use super::table::{Record, State, Table};
use super::{Answer, LATEST};

/// In the order of their numbers over C: 0, 1, 2.
#[derive(Clone, Copy, Debug, PartialEq, Eq)]
pub enum Slot {
    Free,
    Reusable,
    Taken,
}

/// Where a record's superframes of blocks begin: its own, then the further one,
/// if there is one. They needn't stand in the order of slots.
fn superframes(record: &Record, m1: u32) -> impl Iterator<Item = i64> {
    let further = record.further(m1);
    let [first, m1] = [record.first, m1].map(i64::from);
    let own = (0..i64::from(record.superframes)).map(move |k| first + k * m1);
    own.chain(further)
}

/// The blocks of the superframe that begins at a slot.
fn blocks_of(record: &Record, m1: u32, superframe: i64) -> impl Iterator<Item = Range<i64>> {
    let [rate, length, m1] = [record.rate.into(), record.length.into(), m1].map(i64::from);
    (0..rate).map(move |j| {
        let start = superframe + j * (m1 / rate);
        start..start + length
    })
}

/// All blocks that a record reserves.
pub fn blocks(record: &Record, m1: u32) -> impl Iterator<Item = Range<i64>> + '_ {
    superframes(record, m1).flat_map(move |superframe| blocks_of(record, m1, superframe))
}

/// The state of any slot, asked record by record and block by block.
pub fn judge(table: &Table, slot: i64) -> Slot {
    let mut reserving = table
        .records
        .iter()
        .filter(|record| blocks(record, table.m1).any(|block| block.contains(&slot)))
        .peekable();
    if reserving.peek().is_none() {
        Slot::Free
    } else if reserving.all(|record| record.far == 1) {
        Slot::Reusable
    } else {
        Slot::Taken
    }
}

/// The states of all slots of a range, marked block by block: the same as
/// `judge` of each, and quicker for many.
pub fn judge_all(table: &Table, range: Range<i64>) -> Vec<Slot> {
    let mut slots = vec![Slot::Free; (range.end - range.start) as usize];
    for record in &table.records {
        for superframe in superframes(record, table.m1) {
            // None of its blocks ends later.
            let end = superframe + i64::from(table.m1) + i64::from(record.length);
            if superframe >= range.end || end <= range.start {
                continue;
            }
            for block in blocks_of(record, table.m1, superframe) {
                mark(&mut slots, record, block, range.start);
            }
        }
    }
    slots
}

/// Marks what there is of a record's block among slots from a start on.
fn mark(slots: &mut [Slot], record: &Record, block: Range<i64>, start: i64) {
    let from = (block.start - start).max(0);
    let to = (block.end - start).min(slots.len() as i64);
    if from >= to {
        return;
    }
    let held = &mut slots[from as usize..to as usize];
    if record.far == 0 {
        held.fill(Slot::Taken);
        return;
    }
    for slot in held {
        if *slot == Slot::Free {
            *slot = Slot::Reusable;
        }
    }
}

/// Refusals in the order 11, 12, 13.
pub fn state(memory: &[u8], state: State, slot: u32) -> Answer {
    let table = Table::held(memory, state)?;
    if slot < table.now {
        return Err(12);
    }
    if slot > LATEST {
        return Err(13);
    }
    Ok(judge(&table, slot.into()) as u32)
}
