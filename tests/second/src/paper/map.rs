//! The map beside a table: a lent octet for each slot of the superframe from
//! now on. The calls that change a table demand a right one and leave one.

use super::slots;
use super::table::{self, Measure, Reservation, State, Table};
use super::{Answer, Refusal};

/// The map worked out afresh: the slots' states by their numbers, from now to
/// now + M1 - 1. These may lie past the latest slot that can be asked about.
pub fn fresh(table: &Table) -> Vec<u8> {
    let now = i64::from(table.now);
    let slots = slots::judge_all(table, now..now + i64::from(table.m1));
    slots.iter().map(|&slot| slot as u8).collect()
}

/// The table that octets and state hold; 11 where it isn't sound, 25 where the
/// map isn't its own. One of another length than M1 isn't either.
pub fn held(memory: &[u8], map: &[u8], state: State) -> Result<Table, Refusal> {
    let table = Table::held(memory, state)?;
    if map == fresh(&table) {
        Ok(table)
    } else {
        Err(25)
    }
}

/// What a call leaves.
#[derive(Debug)]
pub struct After {
    pub answer: Answer,
    pub memory: Vec<u8>,
    pub map: Vec<u8>,
    pub state: State,
}

/// What is left where a table was accepted with a number reported.
fn accepted(number: u32, table: &Table) -> After {
    After {
        answer: Ok(number),
        memory: table.octets(),
        map: fresh(table),
        state: table.state(),
    }
}

/// A refusal leaves every octet as it was.
pub fn refused(refusal: Refusal, memory: &[u8], map: &[u8], state: State) -> After {
    After {
        answer: Err(refusal),
        memory: memory.to_vec(),
        map: map.to_vec(),
        state,
    }
}

/// Makes a change in a table; 11, 25, then what the change is refused for.
pub fn change(
    memory: &[u8],
    map: &[u8],
    state: State,
    change: impl FnOnce(&mut Table) -> Answer,
) -> After {
    let changed = held(memory, map, state).and_then(|mut table| {
        let number = change(&mut table)?;
        Ok((number, table))
    });
    match changed {
        Ok((number, table)) => accepted(number, &table),
        Err(refusal) => refused(refusal, memory, map, state),
    }
}

/// Refusals in the order 10, 1, 25. What memory and map hold is no matter, but
/// the map has to be of the right size.
pub fn open(memory: &[u8], map: &[u8], m1: u32) -> After {
    match table::open(memory.len(), m1) {
        Ok(table) if map.len() == m1 as usize => accepted(0, &table),
        Ok(_) => refused(25, memory, map, State::default()),
        Err(refusal) => refused(refusal, memory, map, State::default()),
    }
}

/// Refusals in the order 11, 25, 12, 13.
pub fn clock(memory: &[u8], map: &[u8], state: State, slot: u32) -> After {
    change(memory, map, state, |table| table.clock(slot))
}

/// Refusals in the order 11, 25, 8, 14, 15, 9, 5, 6, 24, 18, 16, 17.
pub fn reserve(memory: &[u8], map: &[u8], state: State, asked: &Reservation) -> After {
    change(memory, map, state, |table| table.reserve(asked))
}

/// Refusals in the order 11, 25, 8, 18.
pub fn distance(memory: &[u8], map: &[u8], state: State, told: &Measure) -> After {
    change(memory, map, state, |table| table.distance(told))
}

/// Refusals in the order 11, 25, 8.
pub fn wipe(memory: &[u8], map: &[u8], state: State, station: u32) -> After {
    change(memory, map, state, |table| table.wipe(station))
}
