//! Numbers and tables to ask about, drawn near the edges of the paper.

use std::ops::Range;

use super::pair::Channel;
use crate::archive::Lent;
use crate::draw::Draw;
use crate::paper::distance::Distance;
use crate::paper::search::Wish;
use crate::paper::slots;
use crate::paper::table::{Measure, Record, Reservation, State, Table, LATEST_FIRST, RECORD};
use crate::paper::{LATEST, STATIONS};

/// A range that is far at its limits.
pub const FAR: Distance = Distance {
    kind: 1,
    a: 4096.0,
    b: 0.0,
};

/// Whether it happens, once in so many times.
pub fn once_in(draw: &mut Draw, times: u32) -> bool {
    draw.below(times) == 0
}

/// A number at either side of some edge, or any number.
pub fn number(draw: &mut Draw, state: State) -> u32 {
    let edge = draw.one_of(&[
        0,
        1,
        2,
        3,
        16,
        32,
        60,
        255,
        256,
        STATIONS,
        state.m1,
        state.now,
        state.now.wrapping_add(state.m1),
        state.count,
        LATEST,
        LATEST_FIRST,
        2_000_000_000,
        1 << 31,
        u32::MAX,
    ]);
    match draw.below(16) {
        0 => draw.number() as u32,
        1 => draw.number() as u32 >> draw.below(32),
        _ => edge.wrapping_add(draw.below(3)).wrapping_sub(1),
    }
}

/// One of the 256 figures that fit M1; often a low one, where blocks lie close
/// and overlap, and of 60 and 120 slots, where a further series can begin and
/// end before the first.
pub fn m1(draw: &mut Draw) -> u32 {
    let figures = draw.one_of(&[2, 4, 256, 256]);
    60 * (1 + draw.below(figures))
}

/// Few stations, so that calls meet the records of others.
pub fn station(draw: &mut Draw) -> u32 {
    draw.one_of(&[0, 1, 2, 255, 256, STATIONS / 2, STATIONS - 1])
}

fn rate(draw: &mut Draw) -> u32 {
    match draw.below(3) {
        0 => 1 + draw.below(60),
        // 7 and 8 divide few M1.
        1 => draw.one_of(&[1, 2, 7, 8, 59, 60]),
        _ => 1 + draw.below(5),
    }
}

fn length(draw: &mut Draw) -> u32 {
    match draw.below(3) {
        0 => 1 + draw.below(32),
        _ => 1 + draw.below(5),
    }
}

/// None, the least, the largest, or any of the 255.
pub fn bo(draw: &mut Draw) -> i32 {
    match draw.below(8) {
        0..=1 => 0,
        2 => draw.one_of(&[-127, -1, 1, 127]),
        _ => draw.below(255) as i32 - 127,
    }
}

/// Known or not, far or not, in about equal parts.
pub fn distance(draw: &mut Draw) -> (Distance, f64) {
    let limit = draw.one_of(&[0.0, 1.0, 149.5, 150.0, 4096.0]);
    let miles = |draw: &mut Draw| {
        let miles = draw.one_of(&[0.0, limit, limit / 2.0, 4096.0, 4097.0]);
        draw.one_of(&[miles, miles, -miles])
    };
    let distance = Distance {
        kind: draw.one_of(&[0, 1, 1, 1, 2, 2, 2, 3]),
        a: miles(draw),
        b: miles(draw),
    };
    (distance, limit)
}

/// An acceptable reservation, unless the table is full or holds it already, or
/// in a small superframe the further series begins before now.
pub fn reservation(draw: &mut Draw) -> Reservation {
    let (distance, limit) = distance(draw);
    Reservation {
        station: station(draw),
        rate: rate(draw),
        superframes: 1 + draw.below(3),
        bs: match draw.below(3) {
            0 => draw.one_of(&[2, 3, 254, 255]),
            _ => 2 + draw.below(254),
        },
        length: length(draw),
        bo: bo(draw),
        distance,
        limit,
    }
}

/// An offset outside its range, about that with which the further series begins
/// at now, or any number.
fn odd_bo(draw: &mut Draw, asked: &Reservation, state: State) -> i32 {
    let ahead = asked
        .superframes
        .wrapping_mul(state.m1)
        .wrapping_add(asked.bs);
    match draw.below(4) {
        0 => draw.number() as i32,
        1 => 1_u32.wrapping_sub(ahead.wrapping_add(draw.below(3))) as i32,
        _ => draw.one_of(&[-128, 128, -127, 127, i32::MIN, i32::MAX]),
    }
}

/// A limit that is refused, or any number of floating point.
fn odd_limit(draw: &mut Draw) -> f64 {
    match draw.below(2) {
        0 => f64::from_bits(draw.number()),
        _ => draw.one_of(&[f64::NAN, -1.0, 4096.5, f64::INFINITY, -f64::INFINITY]),
    }
}

/// Gives one or more of the numbers a value near some edge.
pub fn spoil_reservation(draw: &mut Draw, asked: &mut Reservation, state: State) {
    loop {
        match draw.below(7) {
            0 => asked.station = number(draw, state),
            1 => asked.rate = number(draw, state),
            2 => asked.superframes = number(draw, state),
            3 => asked.bs = number(draw, state),
            4 => asked.length = number(draw, state),
            5 => asked.bo = odd_bo(draw, asked, state),
            _ => asked.limit = odd_limit(draw),
        }
        if !once_in(draw, 4) {
            return;
        }
    }
}

pub fn measure(draw: &mut Draw) -> Measure {
    let (distance, limit) = distance(draw);
    Measure {
        station: station(draw),
        distance,
        limit,
    }
}

pub fn spoil_measure(draw: &mut Draw, told: &mut Measure, state: State) {
    if once_in(draw, 2) {
        told.station = number(draw, state);
    } else {
        told.limit = odd_limit(draw);
    }
}

/// Some record that is held.
pub fn held(draw: &mut Draw, table: &Table) -> Option<Record> {
    let count = table.records.len() as u32;
    (count > 0).then(|| table.records[draw.below(count) as usize])
}

/// Narrows a slot of the paper's sums to the width of a call.
fn narrow(slot: i64) -> u32 {
    slot.clamp(0, u32::MAX.into()) as u32
}

/// Mostly the slot itself if it may be asked about, else one that may.
fn inside(draw: &mut Draw, slot: u32, state: State) -> u32 {
    if once_in(draw, 8) {
        slot
    } else if slot < state.now {
        state.now.wrapping_add(draw.below(60))
    } else if slot > LATEST {
        state.now.max(LATEST - draw.below(60))
    } else {
        slot
    }
}

/// A slot to ask about: beside the ends of some block, or near now.
pub fn slot(draw: &mut Draw, channel: &Channel) -> u32 {
    let state = channel.state;
    let table = Table::held(channel.memory.octets(), state).ok();
    let record = table.as_ref().and_then(|table| held(draw, table));
    let slot = match (record, draw.below(8)) {
        (_, 0) => number(draw, state),
        (Some(record), 1..=5) => {
            let blocks: Vec<Range<i64>> = slots::blocks(&record, state.m1).collect();
            let block = &blocks[draw.below(blocks.len() as u32) as usize];
            let end = draw.one_of(&[block.start, block.end]);
            narrow(end + i64::from(draw.below(3)) - 1)
        }
        _ => state.now.wrapping_add(draw.below(state.m1.max(1))),
    };
    inside(draw, slot, state)
}

/// A slot to put the clock to: mostly a little later, often at the edge of
/// some record's life.
pub fn clock(draw: &mut Draw, channel: &Channel) -> u32 {
    let table = Table::held(channel.memory.octets(), channel.state).ok();
    clock_of(draw, channel.state, table.as_ref())
}

/// The same, of a state and the table, where it is one.
pub fn clock_of(draw: &mut Draw, state: State, table: Option<&Table>) -> u32 {
    let record = table.and_then(|table| held(draw, table));
    match (record, draw.below(16)) {
        (_, 0) => number(draw, state),
        (_, 1) => state.now.wrapping_add(draw.below(3 * state.m1.max(1))),
        (_, 2) => state.now,
        (Some(record), 3..=6) => narrow(record.last_slot(state.m1) + i64::from(draw.below(3)) - 1),
        _ => state.now.wrapping_add(draw.below(9)),
    }
}

/// A search that is mostly acceptable, and a list for it full of rubbish.
pub fn wish(draw: &mut Draw, channel: &Channel) -> (Wish, Lent) {
    let state = channel.state;
    let lo = match draw.below(4) {
        0 => state.now,
        _ => slot(draw, channel),
    };
    let width = match draw.below(16) {
        0 => state.m1.wrapping_sub(1),
        1 => state.m1,
        2 => draw.below(state.m1.max(1)),
        3 => number(draw, state),
        4..=6 => draw.below(3),
        _ => draw.below(60),
    };
    let hi = lo.wrapping_add(width);
    let wish = Wish {
        lo,
        hi: if once_in(draw, 8) { hi } else { hi.min(LATEST) },
        length: match draw.below(16) {
            0 => number(draw, state),
            _ => length(draw),
        },
        wanted: match draw.below(16) {
            0 => number(draw, state),
            _ => 1 + draw.below(16),
        },
    };
    // About as long as wanted, and not always a whole number of entries.
    let entries = (wish.wanted % 32 + draw.one_of(&[0, 0, 0, 0, 1, 2, 9])) as usize;
    let entries = if once_in(draw, 8) {
        entries.saturating_sub(1)
    } else {
        entries
    };
    let octets = 4 * entries + draw.below(4) as usize;
    let rubbish: Vec<u8> = (0..octets).map(|_| draw.octet()).collect();
    (wish, Lent::holding(&rubbish))
}

/// A place of a walk: of some record, at either side of the last, or any.
pub fn place(draw: &mut Draw, state: State) -> u32 {
    match draw.below(4) {
        0 => number(draw, state),
        1 => state.count.wrapping_add(draw.below(3)).wrapping_sub(1),
        _ => draw.below(state.count.max(1)),
    }
}

/// A record that a sound table can hold, whether a reserve could have made it
/// or not; one in so many is near.
fn record(draw: &mut Draw, m1: u32, now: u32, nears: u32) -> Record {
    loop {
        let any = draw.below(LATEST_FIRST + 1);
        let near_now = now.saturating_sub(draw.below(4 * m1)) + draw.below(300);
        let record = Record {
            station: station(draw),
            first: match draw.below(16) {
                0 => any,
                1 => draw.one_of(&[LATEST_FIRST, LATEST_FIRST - 1, LATEST]),
                2..=7 => near_now.min(LATEST_FIRST),
                _ => now + draw.below(256),
            },
            rate: rate(draw) as u8,
            superframes: 1 + draw.below(3) as u8,
            length: length(draw) as u8,
            far: u8::from(!once_in(draw, nears)),
            bo: bo(draw) as i8,
            zeros: [0; 3],
        };
        if record.is_sound(m1, now) {
            return record;
        }
    }
}

/// Whether it has a further series, whether that begins before the first one,
/// and whether it ends before that one does.
pub fn further(record: &Record, m1: u32) -> [bool; 3] {
    let start = record.further(m1);
    let last_block = slots::blocks(record, m1).last();
    [
        start.is_some(),
        start.is_some_and(|start| start < record.first.into()),
        last_block.is_some_and(|block| block.end <= record.last_slot(m1)),
    ]
}

/// A slot for a table's clock: at the start, near the end, or between.
pub fn now(draw: &mut Draw) -> u32 {
    match draw.below(4) {
        0 => draw.below(300),
        1 => LATEST - draw.below(300),
        2 => draw.one_of(&[0, LATEST]),
        _ => draw.below(LATEST + 1),
    }
}

/// A sound table made directly.
pub fn table(draw: &mut Draw, capacity: u32, count: u32) -> Channel {
    let (m1, now) = (m1(draw), now(draw));
    table_of(draw, m1, now, capacity, count)
}

/// The same of an M1, at a slot.
pub fn table_of(draw: &mut Draw, m1: u32, now: u32, capacity: u32, count: u32) -> Channel {
    let nears = draw.one_of(&[2, 4, 4, 10_000]);
    let mut octets = Vec::with_capacity(capacity as usize * RECORD);
    for place in 0..count {
        // Soundness doesn't forbid the same record twice.
        if place > 0 && once_in(draw, 16) {
            octets.extend_from_within(octets.len() - RECORD..);
        } else {
            octets.extend(record(draw, m1, now, nears).octets());
        }
    }
    octets.resize(capacity as usize * RECORD, 0);
    Channel::holding(&octets, State { m1, now, count })
}
