//! The calls of the archive that take no map, as bare as they are: nothing is
//! added to what is timed.

use crate::gemthatch::{self, Block, Place, Reading, Tally, Writing, REFUSED};
use crate::plain::{Answer, State};

/// An answer of the peer in the archive's form.
pub fn number(answer: Answer) -> u32 {
    answer.unwrap_or_else(|refusal| REFUSED + refusal)
}

// Each wrapper lends what it was lent, so it is there for the call.

pub fn read(octets: &[u8]) -> Reading {
    unsafe { gemthatch::gemthatch_read(octets.as_ptr(), octets.len()) }
}

pub fn write(block: Block) -> Writing {
    unsafe { gemthatch::gemthatch_write(block) }
}

pub fn rate(rates: &[u8], code: u32) -> u32 {
    unsafe { gemthatch::gemthatch_rate(rates.as_ptr(), rates.len(), code) }
}

pub fn parameter(number: u32, figure: u32) -> u32 {
    unsafe { gemthatch::gemthatch_parameter(number, figure) }
}

pub fn slot_state(memory: &[u8], state: State, slot: u32) -> u32 {
    let State { m1, now, count } = state;
    unsafe { gemthatch::gemthatch_slot_state(memory.as_ptr(), memory.len(), m1, now, count, slot) }
}

pub fn pick(n: u32, r: u32) -> u32 {
    unsafe { gemthatch::gemthatch_pick(n, r) }
}

pub fn record_at(memory: &[u8], state: State, i: u32) -> Place {
    let State { m1, now, count } = state;
    unsafe { gemthatch::gemthatch_record_at(memory.as_ptr(), memory.len(), m1, now, count, i) }
}

pub fn count(tally: &mut Tally, refusal: u32) {
    unsafe { gemthatch::gemthatch_count(tally, refusal) }
}
