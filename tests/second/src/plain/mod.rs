//! Calls of the archive as one would write them by hand, without proofs and
//! with the same checks: the peers for the benchmark of those that take no map.
//! Nothing is inlined into the caller, as nothing of an archive can be.

mod table;

use crate::gemthatch::{self, Block, Place, Reading, Tally, Writing};
use table::{check_slot, is_sound, records, ADDRESSES};

pub use table::{Answer, Record, State, RECORD};

fn code_is_invalid(code: u32) -> bool {
    matches!(code, 7 | 14 | 15)
}

fn block_of(octets: &[u8]) -> Result<Block, u32> {
    let &[o1, o2, o3, o4, roff, o6, bs, bo, o9] = octets else {
        return Err(1);
    };
    let br = u32::from(o6 & 15);
    if o9 >> 3 != 0b00010 {
        return Err(2);
    }
    if code_is_invalid(br) {
        return Err(3);
    }
    if roff < 2 {
        return Err(4);
    }
    if bs < 2 {
        return Err(5);
    }
    if bo == 0x80 {
        return Err(6);
    }
    let (destination, d, information) = if roff == bs {
        (1, 0, [o1, o2, o3])
    } else {
        (0, u32::from_be_bytes([o4 & 7, o1, o2, o3]), [0; 3])
    };
    Ok(Block {
        destination,
        d,
        information,
        blg: (o4 >> 3).into(),
        roff: roff.into(),
        br,
        bs: bs.into(),
        bo: (bo as i8).into(),
        bt: (o9 & 3).into(),
    })
}

#[inline(never)]
pub fn read(octets: &[u8]) -> Reading {
    match block_of(octets) {
        Ok(block) => Reading { refusal: 0, block },
        Err(refusal) => Reading {
            refusal,
            block: Block::default(),
        },
    }
}

fn octets_of(block: Block) -> Result<[u8; 9], u32> {
    let not_rebroadcast = block.destination == 1;
    if !not_rebroadcast && block.d >= ADDRESSES {
        return Err(8);
    }
    if block.blg > 31 || block.bt > 3 {
        return Err(9);
    }
    if block.br > 15 || code_is_invalid(block.br) {
        return Err(3);
    }
    if !(2..=255).contains(&block.roff) {
        return Err(4);
    }
    if !(2..=255).contains(&block.bs) {
        return Err(5);
    }
    if !(-127..=127).contains(&block.bo) {
        return Err(6);
    }
    if not_rebroadcast != (block.roff == block.bs) {
        return Err(34);
    }
    let [top, o1, o2, o3] = if not_rebroadcast {
        let [o1, o2, o3] = block.information;
        [0, o1, o2, o3]
    } else {
        block.d.to_be_bytes()
    };
    Ok([
        o1,
        o2,
        o3,
        (block.blg as u8) << 3 | top,
        block.roff as u8,
        block.br as u8,
        block.bs as u8,
        block.bo as u8,
        0b00010 << 3 | block.bt as u8,
    ])
}

/// Structs by value travel in other ways in Rust than in C.
#[inline(never)]
pub extern "C" fn write(block: Block) -> Writing {
    match octets_of(block) {
        Ok(octets) => Writing { refusal: 0, octets },
        Err(refusal) => Writing {
            refusal,
            octets: [0; 9],
        },
    }
}

#[inline(never)]
pub fn rate(rates: &[u8], code: u32) -> Answer {
    let Ok(rates) = <&[u8; 16]>::try_from(rates) else {
        return Err(7);
    };
    if rates.iter().any(|&rate| rate > 60) || rates[7] != 0 || rates[14] != 0 || rates[15] != 0 {
        return Err(7);
    }
    match rates.get(code as usize) {
        None | Some(0) => Err(3),
        Some(&rate) => Ok(rate.into()),
    }
}

struct Row {
    min: u32,
    max: u32,
    step: u32,
}

const ROWS: [Row; 3] = [
    Row {
        min: 60,
        max: 15360,
        step: 60,
    },
    Row {
        min: 1,
        max: 256,
        step: 1,
    },
    Row {
        min: 1,
        max: 65536,
        step: 1,
    },
];

#[inline(never)]
pub fn parameter(number: u32, figure: u32) -> Answer {
    let Some(row) = ROWS.get(number.wrapping_sub(1) as usize) else {
        return Err(22);
    };
    if figure < row.min || figure > row.max || !(figure - row.min).is_multiple_of(row.step) {
        return Err(10);
    }
    Ok(0)
}

/// How a record's blocks are tried for a slot.
impl Record {
    /// The paper's sentences as they stand.
    fn reserves_in_turn(&self, m1: u32, slot: u32) -> bool {
        let spacing = m1 / self.rate;
        let reserves = |superframe: u32| {
            (0..self.rate).any(|j| {
                let start = superframe + j * spacing;
                start <= slot && slot < start + self.length
            })
        };
        (0..self.superframes).any(|k| reserves(self.first + k * m1))
            || self.bo != 0 && reserves(self.further(m1))
    }

    /// By the last block of each series that starts at or before the slot: all
    /// are as long, so no other reaches further.
    fn reserves_dividing(&self, m1: u32, slot: u32) -> bool {
        let spacing = m1 / self.rate;
        let reserves = |superframe: u32| {
            // Before the superframe it is larger than any block is ahead.
            let off = slot.wrapping_sub(superframe);
            let j = (off / spacing).min(self.rate - 1);
            off - j * spacing < self.length
        };
        let mut superframe = self.first;
        for _ in 1..self.superframes {
            if superframe + m1 <= slot {
                superframe += m1;
            }
        }
        reserves(superframe) | ((self.bo != 0) & reserves(self.further(m1)))
    }
}

const FREE: u8 = 0;
const REUSABLE: u8 = 1;
const TAKEN: u8 = 2;

fn slot_state(
    memory: &[u8],
    state: State,
    slot: u32,
    reserves: impl Fn(&Record) -> bool,
) -> Answer {
    if !is_sound(memory, state) {
        return Err(11);
    }
    check_slot(state, slot)?;
    let mut found = FREE;
    for record in records(memory, state) {
        if reserves(&record) {
            if record.far == 0 {
                return Ok(TAKEN.into());
            }
            found = REUSABLE;
        }
    }
    Ok(found.into())
}

#[inline(never)]
pub fn slot_state_in_turn(memory: &[u8], state: State, slot: u32) -> Answer {
    slot_state(memory, state, slot, |record| {
        record.reserves_in_turn(state.m1, slot)
    })
}

#[inline(never)]
pub fn slot_state_dividing(memory: &[u8], state: State, slot: u32) -> Answer {
    slot_state(memory, state, slot, |record| {
        record.reserves_dividing(state.m1, slot)
    })
}

/// The map of a sound table: the state of each slot from now on, for so many
/// slots as a superframe has, marked record by record.
pub fn map(memory: &[u8], state: State) -> Vec<u8> {
    let (lo, end) = (state.now, state.now + state.m1);
    let mut marks = vec![FREE; state.m1 as usize];
    for record in records(memory, state) {
        let mark = if record.far == 0 { TAKEN } else { REUSABLE };
        let spacing = state.m1 / record.rate;
        let mut mark_superframe = |superframe: u32| {
            for j in 0..record.rate {
                let start = superframe + j * spacing;
                let (from, to) = (start.max(lo), (start + record.length).min(end));
                if from < to {
                    for slot in &mut marks[(from - lo) as usize..(to - lo) as usize] {
                        *slot = mark.max(*slot);
                    }
                }
            }
        };
        for k in 0..record.superframes {
            mark_superframe(record.first + k * state.m1);
        }
        if record.bo != 0 {
            mark_superframe(record.further(state.m1));
        }
    }
    marks
}

#[inline(never)]
pub fn pick(n: u32, r: u32) -> Answer {
    if !(1..=16).contains(&n) {
        return Err(20);
    }
    Ok(r % n)
}

#[inline(never)]
pub fn record_at(memory: &[u8], state: State, i: u32) -> Place {
    if !is_sound(memory, state) {
        return Place {
            refusal: 11,
            ..Place::default()
        };
    }
    if i >= state.count {
        return Place::default();
    }
    let at = i as usize * RECORD;
    let record = Record::read(&memory[at..at + RECORD]);
    Place {
        refusal: 0,
        handed: 1,
        record: gemthatch::Record {
            station: record.station,
            first: record.first,
            rate: record.rate as u8,
            superframes: record.superframes as u8,
            length: record.length as u8,
            far: record.far,
            bo: record.bo as i8,
        },
    }
}

#[inline(never)]
pub fn count(tally: &mut Tally, refusal: u32) {
    if refusal == 0 {
        tally.accepted = tally.accepted.saturating_add(1);
    } else {
        tally.refused = tally.refused.saturating_add(1);
    }
}
