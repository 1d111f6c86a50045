//! Sound tables of several kinds for the calls.

use crate::draw::Draw;
use crate::paper::{map, table};
use crate::plain::{self, Record, State, RECORD};

#[derive(Clone, Copy, PartialEq)]
pub enum Kind {
    /// Any rate, superframes and length, all near.
    Near,
    /// The same, all far.
    Far,
    /// The same, half of them far.
    Mixed,
    /// One slot each, all near.
    Sparse,
    /// As many blocks as there can be, all near and of one slot, on the same
    /// few slots: nearly all others are free.
    Comb,
    /// The same on so many slots that no longest block is free.
    Staggered,
}

impl Kind {
    pub const ALL: [Kind; 6] = [
        Kind::Near,
        Kind::Far,
        Kind::Mixed,
        Kind::Sparse,
        Kind::Comb,
        Kind::Staggered,
    ];

    pub fn name(self) -> &'static str {
        match self {
            Kind::Near => "near",
            Kind::Far => "far",
            Kind::Mixed => "mixed",
            Kind::Sparse => "sparse",
            Kind::Comb => "comb",
            Kind::Staggered => "staggered",
        }
    }
}

/// What the tables of a row have in common.
#[derive(Clone, Copy)]
pub struct Setting {
    pub kind: Kind,
    pub capacity: usize,
    pub m1: u32,
}

/// Slots in a block at most.
const LONGEST_BLOCK: u32 = 32;

/// Of half of the records 0, else any other.
pub fn any_bo(draw: &mut Draw) -> i32 {
    match draw.below(2) {
        0 => 0,
        _ => (1 + draw.below(127) as i32) * draw.one_of(&[-1, 1]),
    }
}

pub struct Table {
    pub setting: Setting,
    pub now: u32,
    pub stations: [u32; Table::STATIONS],
    pub records: Vec<Record>,
}

impl Table {
    /// Stations in a table, each with its share of the records.
    pub const STATIONS: usize = 16;

    /// A full table.
    pub fn full(setting: Setting, draw: &mut Draw) -> Self {
        let mut table = Table {
            setting,
            now: 1_000_000 + draw.below(900_000_000),
            stations: std::array::from_fn(|_| draw.below(1 << 27)),
            records: Vec::new(),
        };
        for _ in 0..setting.capacity {
            let record = table.record(draw);
            table.records.push(record);
        }
        table
    }

    /// A record that is held now, with a bo or without one.
    fn record(&self, draw: &mut Draw) -> Record {
        let Setting { kind, m1, .. } = self.setting;
        let mut record = Record {
            station: draw.one_of(&self.stations),
            first: 0,
            rate: 1 + draw.below(60),
            superframes: 1 + draw.below(3),
            length: 1 + draw.below(LONGEST_BLOCK),
            far: u8::from(kind == Kind::Far || kind == Kind::Mixed && draw.below(2) == 0),
            bo: any_bo(draw),
        };
        if kind == Kind::Sparse {
            (record.rate, record.superframes, record.length) = (1, 1, 1);
        }
        if kind == Kind::Comb || kind == Kind::Staggered {
            (record.rate, record.superframes, record.length) = (60, 3, 1);
            // Then the others' blocks are over once the further ones begin.
            record.bo = record.bo.abs();
        }
        let spacing = m1 / record.rate;
        let start = match kind {
            Kind::Sparse => self.now + draw.below(m1),
            Kind::Comb => self.now - spacing * draw.below(60),
            Kind::Staggered => {
                let offsets = spacing.div_ceil(LONGEST_BLOCK);
                self.now - spacing * draw.below(60) + spacing / offsets * draw.below(offsets)
            }
            _ => self.now + 255 - draw.below(256 + record.last(m1)),
        };
        // Of those that lie there by their kind, half begin with the further
        // blocks, where there are such.
        let by_kind = matches!(kind, Kind::Sparse | Kind::Comb | Kind::Staggered);
        let further = by_kind && record.bo != 0 && draw.below(2) == 0;
        record.first = start - if further { record.further(m1) } else { 0 };
        record
    }

    pub fn state(&self) -> State {
        State {
            m1: self.setting.m1,
            now: self.now,
            count: self.records.len() as u32,
        }
    }

    pub fn memory(&self) -> Vec<u8> {
        let mut memory = vec![0; self.setting.capacity * RECORD];
        for (record, octets) in self.records.iter().zip(memory.chunks_exact_mut(RECORD)) {
            record.write(octets);
        }
        memory
    }

    pub fn map(&self) -> Vec<u8> {
        plain::map(&self.memory(), self.state())
    }

    /// The same as the paper has it.
    pub fn map_on_paper(&self) -> Vec<u8> {
        let State { m1, now, count } = self.state();
        let held = table::Table::held(&self.memory(), table::State { m1, now, count });
        map::fresh(&held.expect("the tables made here are sound"))
    }

    /// The last slots of all records, ascending.
    pub fn last_slots(&self) -> Vec<u32> {
        let last = |record: &Record| record.last(self.setting.m1);
        let mut slots: Vec<u32> = self.records.iter().map(last).collect();
        slots.sort_unstable();
        slots
    }
}
