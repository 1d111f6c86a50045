//! The calls that change a table, once it is known to be sound: for the peers
//! that replay a log. They keep no map.

use super::table::{
    check_slot, is_superframe, records, size_is_right, Answer, Record, State, ADDRESSES, MOST_BS,
    RECORD,
};

const FARTHEST: f64 = 4096.0;

/// Keeps some of the records in order, zeros the tail, and tells how many went.
fn retain(memory: &mut [u8], state: State, keeps: impl Fn(&Record) -> bool) -> u32 {
    let end = state.count as usize * RECORD;
    let mut kept = 0;
    for at in (0..end).step_by(RECORD) {
        if keeps(&Record::read(&memory[at..at + RECORD])) {
            if kept < at {
                memory.copy_within(at..at + RECORD, kept);
            }
            kept += RECORD;
        }
    }
    memory[kept..end].fill(0);
    ((end - kept) / RECORD) as u32
}

#[inline(never)]
pub fn open(memory: &mut [u8], m1: u32) -> Answer {
    if !is_superframe(m1) {
        return Err(10);
    }
    if !size_is_right(memory) {
        return Err(1);
    }
    memory.fill(0);
    Ok(0)
}

#[inline(always)]
pub fn clock(memory: &mut [u8], state: State, slot: u32) -> Answer {
    check_slot(state, slot)?;
    Ok(retain(memory, state, |record| {
        record.last(state.m1) >= slot
    }))
}

/// A distance as it comes over C.
#[derive(Clone, Copy, Debug)]
pub struct Distance {
    pub kind: u32,
    pub a: f64,
    pub b: f64,
}

impl Distance {
    fn is_far(&self, limit: f64) -> bool {
        let within = -FARTHEST..=FARTHEST;
        match self.kind {
            1 => limit <= self.a && self.a <= FARTHEST,
            2 => {
                within.contains(&self.a)
                    && within.contains(&self.b)
                    && self.a * self.a + self.b * self.b >= limit * limit
            }
            _ => false,
        }
    }
}

/// What a reserve asks for.
#[derive(Clone, Copy, Debug)]
pub struct Wish {
    pub station: u32,
    pub rate: u32,
    pub superframes: u32,
    pub bs: u32,
    pub length: u32,
    pub bo: i32,
    pub distance: Distance,
    pub limit: f64,
}

#[inline(always)]
pub fn reserve(memory: &mut [u8], state: State, wish: &Wish) -> Answer {
    if wish.station >= ADDRESSES {
        return Err(8);
    }
    if !(1..=60).contains(&wish.rate) {
        return Err(14);
    }
    if wish.superframes == 0 {
        return Err(15);
    }
    if wish.superframes > 3 || !(1..=32).contains(&wish.length) {
        return Err(9);
    }
    if !(2..=MOST_BS).contains(&wish.bs) {
        return Err(5);
    }
    if !(-127..=127).contains(&wish.bo) {
        return Err(6);
    }
    // Where the further series would start, from now on; without a bo it is never before.
    if (wish.bs + wish.superframes * state.m1) as i32 + wish.bo < 0 {
        return Err(24);
    }
    if !(0.0..=FARTHEST).contains(&wish.limit) {
        return Err(18);
    }
    let new = Record {
        station: wish.station,
        first: state.now + wish.bs,
        rate: wish.rate,
        superframes: wish.superframes,
        length: wish.length,
        far: wish.distance.is_far(wish.limit).into(),
        bo: wish.bo,
    };
    let held = |record: Record| {
        record.station == new.station
            && record.first == new.first
            && record.rate == new.rate
            && record.superframes == new.superframes
            && record.length == new.length
            && record.bo == new.bo
    };
    if records(memory, state).any(held) {
        return Err(16);
    }
    let at = state.count as usize * RECORD;
    if at == memory.len() {
        return Err(17);
    }
    new.write(&mut memory[at..at + RECORD]);
    Ok(0)
}

#[inline(always)]
pub fn distance(
    memory: &mut [u8],
    state: State,
    station: u32,
    distance: Distance,
    limit: f64,
) -> Answer {
    if station >= ADDRESSES {
        return Err(8);
    }
    if !(0.0..=FARTHEST).contains(&limit) {
        return Err(18);
    }
    let far = distance.is_far(limit).into();
    let mut held = 0;
    for octets in memory[..state.count as usize * RECORD].chunks_exact_mut(RECORD) {
        if Record::read(octets).station == station {
            octets[11] = far;
            held += 1;
        }
    }
    Ok(held)
}

#[inline(always)]
pub fn wipe(memory: &mut [u8], state: State, station: u32) -> Answer {
    if station >= ADDRESSES {
        return Err(8);
    }
    Ok(retain(memory, state, |record| record.station != station))
}
