//! Log records to feed to a step or to a program.

use crate::calls::near::{self, once_in};
use crate::draw::Draw;
use crate::paper::log::{Day, Entry, ENTRY, UNKNOWN_MILES};
use crate::paper::table::{Reservation, State, Table};
use crate::paper::LATEST;

/// The operations in about the parts in which a day has them.
pub const BUSY: [u8; 10] = [1, 1, 1, 2, 2, 2, 2, 3, 3, 4];

/// The same with so many wipes that a table stays nearly empty.
pub const IDLE: [u8; 10] = [1, 1, 1, 1, 1, 2, 3, 4, 4, 4];

/// The same with so many reserves that small tables fill.
pub const FILLING: [u8; 10] = [1, 2, 2, 2, 2, 2, 2, 2, 3, 4];

pub fn clock(slot: u32) -> Entry {
    Entry {
        operation: 1,
        slot,
        ..Entry::default()
    }
}

/// A near record of one slot, which a table holds for a little while.
pub fn reserve(station: u32, bs: u32) -> Entry {
    Entry {
        operation: 2,
        rate: 1,
        superframes: 1,
        length: 1,
        station,
        slot: bs,
        distance: UNKNOWN_MILES,
        limit: 150,
        ..Entry::default()
    }
}

/// What a reserve asks for, at a distance in whole miles. Numbers too wide for
/// an octet are cut.
pub fn reserve_as(asked: &Reservation, distance: u32, limit: u32) -> Entry {
    Entry {
        operation: 2,
        rate: asked.rate as u8,
        superframes: asked.superframes as u8,
        length: asked.length as u8,
        station: asked.station,
        slot: asked.bs,
        distance,
        limit,
        bo: asked.bo as i8,
        zeros: [0; 3],
    }
}

pub fn distance(station: u32, distance: u32, limit: u32) -> Entry {
    Entry {
        operation: 3,
        station,
        distance,
        limit,
        ..Entry::default()
    }
}

pub fn wipe(station: u32) -> Entry {
    Entry {
        operation: 4,
        station,
        ..Entry::default()
    }
}

/// Whether an operation uses the octet at a place, as the paper lays them out.
pub fn uses(operation: u8, place: usize) -> bool {
    match operation {
        1 => matches!(place, 0 | 8..=11),
        2 => place <= 20,
        3 => matches!(place, 0 | 4..=7 | 12..=19),
        4 => matches!(place, 0 | 4..=7),
        _ => false,
    }
}

/// The station that a log record names. A clock names none, and neither does
/// what is no record of a log.
pub fn station(entry: &[u8]) -> Option<u32> {
    let fields = Entry::of_octets(entry)?;
    let mut unused = (0..ENTRY).filter(|&place| !uses(fields.operation, place));
    let names = matches!(fields.operation, 2..=4) && unused.all(|place| entry[place] == 0);
    names.then_some(fields.station)
}

/// Distance and limit, unknown, far or not.
pub fn whole_miles(draw: &mut Draw) -> (u32, u32) {
    let limit: u32 = draw.one_of(&[0, 1, 149, 150, 4_096]);
    let below = limit.saturating_sub(1);
    let edges = [0, below, limit, 4_096, 4_097, u32::MAX - 1, UNKNOWN_MILES];
    (draw.one_of(&edges), limit)
}

/// Often one that is held, once more.
fn any_reserve(draw: &mut Draw, table: &Table) -> Entry {
    let asked = near::reservation(draw);
    let (distance, limit) = whole_miles(draw);
    let mut entry = reserve_as(&asked, distance, limit);
    if once_in(draw, 6) {
        if let Some(held) = near::held(draw, table) {
            entry.station = held.station;
            entry.rate = held.rate;
            entry.superframes = held.superframes;
            entry.length = held.length;
            entry.slot = held.first.saturating_sub(table.now);
            entry.bo = held.bo;
        }
    }
    entry
}

/// A log record that is mostly accepted; its operation is one of these.
pub fn entry(draw: &mut Draw, table: &Table, operations: &[u8]) -> Entry {
    match draw.one_of(operations) {
        1 => clock(near::clock_of(draw, table.state(), Some(table))),
        2 => any_reserve(draw, table),
        3 => {
            let (miles, limit) = whole_miles(draw);
            distance(near::station(draw), miles, limit)
        }
        _ => wipe(near::station(draw)),
    }
}

/// Gives one of the numbers that its operation uses a value near some edge.
pub fn spoil(draw: &mut Draw, entry: &mut Entry, state: State) {
    let number = near::number(draw, state);
    let limit = draw.one_of(&[4_097, 1 << 31, u32::MAX, number]);
    match (entry.operation, draw.below(7)) {
        (1, _) | (2, 0) => entry.slot = number,
        (2, 1) => entry.rate = number as u8,
        (2, 2) => entry.superframes = number as u8,
        (2, 3) => entry.length = number as u8,
        (2, 4) | (3, 0..=2) => entry.limit = limit,
        (2, 5) => entry.bo = draw.one_of(&[-128, -128, -127, 127, number as i8]),
        _ => entry.station = number,
    }
}

/// Makes it no record of a log: its operation is another, or something that
/// its operation doesn't use isn't 0.
pub fn damaged(draw: &mut Draw, entry: &Entry) -> Vec<u8> {
    let mut octets = entry.octets();
    match draw.below(8) {
        0..=1 => octets[0] = draw.one_of(&[0, 5, 6, 8, 128, 129, 255]),
        // A distance that is unknown, where none is used.
        2 if !uses(entry.operation, 12) => octets[12..16].fill(0xFF),
        _ => loop {
            let place = draw.below(ENTRY as u32) as usize;
            if !uses(entry.operation, place) {
                octets[place] = draw.one_of(&[1, 2, 128, 255]);
                if !once_in(draw, 3) {
                    break;
                }
            }
        },
    }
    octets
}

/// A log record of a table: mostly accepted, else refused for any reason. A
/// clock that leaps far ahead comes once in so many times: near the end of all
/// slots it leaves the other clocks of a log little to do.
fn mixed(draw: &mut Draw, table: &Table, operations: &[u8], leaps: u32) -> Vec<u8> {
    let mut entry = entry(draw, table, operations);
    if once_in(draw, 6) {
        spoil(draw, &mut entry, table.state());
    }
    let leap = table.now.saturating_add(4 * table.m1)..=LATEST;
    if entry.operation == 1 && leap.contains(&entry.slot) && !once_in(draw, leaps) {
        entry.slot = table.now + draw.below(9);
    }
    if once_in(draw, 10) {
        damaged(draw, &entry)
    } else {
        entry.octets()
    }
}

/// A log of so many records, each for the table that those before it leave.
pub fn day(draw: &mut Draw, records: usize, operations: &[u8]) -> Vec<u8> {
    let mut day = Day::default();
    let mut log = Vec::with_capacity(records * ENTRY);
    for _ in 0..records {
        let entry = mixed(draw, &day.table, operations, records as u32);
        let _ = day.step(&entry);
        log.extend(entry);
    }
    log
}

/// Octets written out, each in two digits.
pub fn octets(hex: &str) -> Vec<u8> {
    let octet = |digits| u8::from_str_radix(digits, 16).expect("two digits of base 16");
    hex.split_whitespace().map(octet).collect()
}
