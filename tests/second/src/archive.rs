//! The archive's calls. Each wrapper lends octets inside guards and tells when
//! a guard, or octets lent for reading alone, have changed.

use std::ptr;

use crate::gemthatch::{self, *};
use crate::paper::codec::{Destination, Fields, GROUP};
use crate::paper::search::Wish;
use crate::paper::table::{Measure, Record, Reservation, State};
use crate::paper::tally::Tally;

/// Octets on each side of what is lent. An odd number, so that what is lent
/// lies at odd places too.
const GUARD: usize = 33;

/// No two neighbours are the same, so that moved octets show as well.
fn guard(place: usize) -> u8 {
    0xA5 ^ place as u8
}

/// Octets to lend, with a guard on each side.
#[derive(Clone)]
pub struct Lent(Vec<u8>);

impl Lent {
    pub fn holding(octets: &[u8]) -> Lent {
        let mut buffer = Vec::with_capacity(GUARD + octets.len() + GUARD);
        buffer.extend((0..GUARD).map(guard));
        buffer.extend_from_slice(octets);
        buffer.extend((0..GUARD).map(guard));
        Lent(buffer)
    }

    fn length(&self) -> usize {
        self.0.len() - 2 * GUARD
    }

    pub fn octets(&self) -> &[u8] {
        &self.0[GUARD..GUARD + self.length()]
    }

    pub fn octets_mut(&mut self) -> &mut [u8] {
        let length = self.length();
        &mut self.0[GUARD..GUARD + length]
    }

    fn guarded(&self) -> Result<(), String> {
        let (before, rest) = self.0.split_at(GUARD);
        let after = &rest[self.length()..];
        let whole = |octets: &[u8]| octets.iter().copied().eq((0..GUARD).map(guard));
        if whole(before) && whole(after) {
            Ok(())
        } else {
            Err(format!(
                "a guard has changed: {before:02X?} before, {after:02X?} after"
            ))
        }
    }
}

/// The answer of a call. Nothing at all is also lent by a null pointer and by
/// one that points nowhere, which have to give the same.
fn alike<T: PartialEq>(
    lent: &mut Lent,
    mut call: impl FnMut(*mut u8, usize) -> T,
) -> Result<T, String> {
    let length = lent.length();
    let answer = call(lent.octets_mut().as_mut_ptr(), length);
    let others = [ptr::null_mut(), ptr::dangling_mut()];
    let same = length > 0 || others.into_iter().all(|pointer| call(pointer, 0) == answer);
    lent.guarded()?;
    if same {
        Ok(answer)
    } else {
        Err("nothing, lent by another pointer, is answered otherwise".to_string())
    }
}

/// The same for what is lent for reading alone.
fn unchanged<T: PartialEq>(
    lent: &mut Lent,
    mut call: impl FnMut(*const u8, usize) -> T,
) -> Result<T, String> {
    let before = lent.octets().to_vec();
    let answer = alike(lent, |pointer, length| call(pointer, length))?;
    if before == lent.octets() {
        Ok(answer)
    } else {
        Err("octets lent for reading have changed".to_string())
    }
}

/// Fields as C has them: what the destination's kind doesn't use is 0.
pub fn block_of(fields: &Fields) -> Block {
    let (destination, d, information) = match fields.d {
        Destination::Address(d) => (0, d, [0; 3]),
        Destination::NoRebroadcast(information) => (1, 0, information),
    };
    Block {
        destination,
        d,
        information,
        blg: fields.blg,
        roff: fields.roff,
        br: fields.br,
        bs: fields.bs,
        bo: fields.bo,
        bt: fields.bt,
    }
}

/// The refusal, 0 where accepted, and the fields.
pub fn read(group: &[u8]) -> Result<(u32, Block), String> {
    unchanged(&mut Lent::holding(group), |octets, length| {
        // SAFETY: so many octets are lent for the time of the call.
        let Reading { refusal, block } = unsafe { gemthatch_read(octets, length) };
        (refusal, block)
    })
}

/// The refusal, 0 where accepted, and the nine octets.
pub fn write(block: Block) -> (u32, [u8; GROUP]) {
    // SAFETY: nothing is lent.
    let Writing { refusal, octets } = unsafe { gemthatch_write(block) };
    (refusal, octets)
}

pub fn rate(list: &[u8], code: u32) -> Result<u32, String> {
    unchanged(&mut Lent::holding(list), |rates, entries| {
        // SAFETY: so many octets are lent for the time of the call.
        unsafe { gemthatch_rate(rates, entries, code) }
    })
}

pub fn parameter(number: u32, figure: u32) -> u32 {
    // SAFETY: nothing is lent.
    unsafe { gemthatch_parameter(number, figure) }
}

/// Memory and map lent to a call that may change them.
fn both(
    memory: &mut Lent,
    map: &mut Lent,
    mut call: impl FnMut(*mut u8, usize, *mut u8, usize) -> u32,
) -> Result<u32, String> {
    alike(map, |map, map_octets| {
        alike(memory, |memory, octets| {
            call(memory, octets, map, map_octets)
        })
    })?
}

pub fn open(memory: &mut Lent, map: &mut Lent, m1: u32) -> Result<u32, String> {
    both(memory, map, |memory, octets, map, map_octets| {
        // SAFETY: so many octets are lent for the time of the call, and the two
        // slices lie apart.
        unsafe { gemthatch_open(memory, octets, map, map_octets, m1) }
    })
}

pub fn clock(memory: &mut Lent, map: &mut Lent, state: State, slot: u32) -> Result<u32, String> {
    let State { m1, now, count } = state;
    both(memory, map, |memory, octets, map, map_octets| {
        // SAFETY: as in open.
        unsafe { gemthatch_clock(memory, octets, map, map_octets, m1, now, count, slot) }
    })
}

pub fn reserve(
    memory: &mut Lent,
    map: &mut Lent,
    state: State,
    asked: &Reservation,
) -> Result<u32, String> {
    let State { m1, now, count } = state;
    both(memory, map, |memory, octets, map, map_octets| {
        // SAFETY: as in open.
        unsafe {
            gemthatch_reserve(
                memory,
                octets,
                map,
                map_octets,
                m1,
                now,
                count,
                asked.station,
                asked.rate,
                asked.superframes,
                asked.bs,
                asked.length,
                asked.bo,
                asked.distance.kind,
                asked.distance.a,
                asked.distance.b,
                asked.limit,
            )
        }
    })
}

pub fn distance(
    memory: &mut Lent,
    map: &mut Lent,
    state: State,
    told: &Measure,
) -> Result<u32, String> {
    let State { m1, now, count } = state;
    both(memory, map, |memory, octets, map, map_octets| {
        // SAFETY: as in open.
        unsafe {
            gemthatch_distance(
                memory,
                octets,
                map,
                map_octets,
                m1,
                now,
                count,
                told.station,
                told.distance.kind,
                told.distance.a,
                told.distance.b,
                told.limit,
            )
        }
    })
}

pub fn wipe(memory: &mut Lent, map: &mut Lent, state: State, station: u32) -> Result<u32, String> {
    let State { m1, now, count } = state;
    both(memory, map, |memory, octets, map, map_octets| {
        // SAFETY: as in open.
        unsafe { gemthatch_wipe(memory, octets, map, map_octets, m1, now, count, station) }
    })
}

/// The log record is lent inside guards of its own.
pub fn replay_step(
    memory: &mut Lent,
    map: &mut Lent,
    state: State,
    entry: &[u8],
) -> Result<u32, String> {
    let State { m1, now, count } = state;
    unchanged(&mut Lent::holding(entry), |entry, entry_octets| {
        both(memory, map, |memory, octets, map, map_octets| {
            // SAFETY: as in open, and so does the third.
            unsafe {
                gemthatch_replay_step(
                    memory,
                    octets,
                    map,
                    map_octets,
                    m1,
                    now,
                    count,
                    entry,
                    entry_octets,
                )
            }
        })
    })?
}

pub fn slot_state(memory: &mut Lent, state: State, slot: u32) -> Result<u32, String> {
    let State { m1, now, count } = state;
    unchanged(memory, |memory, octets| {
        // SAFETY: so many octets are lent for the time of the call.
        unsafe { gemthatch_slot_state(memory, octets, m1, now, count, slot) }
    })
}

pub fn search(
    memory: &mut Lent,
    map: &mut Lent,
    state: State,
    wish: &Wish,
    list: &mut Lent,
) -> Result<u32, String> {
    let State { m1, now, count } = state;
    let call = |memory, octets, map, map_octets, list, list_octets| {
        // SAFETY: so many octets are lent for the time of the call, and the
        // three slices lie apart.
        unsafe {
            gemthatch_search(
                memory,
                octets,
                map,
                map_octets,
                m1,
                now,
                count,
                wish.lo,
                wish.hi,
                wish.length,
                wish.wanted,
                list,
                list_octets,
            )
        }
    };
    unchanged(memory, |memory, octets| {
        unchanged(map, |map, map_octets| {
            alike(list, |list, list_octets| {
                call(memory, octets, map, map_octets, list, list_octets)
            })
        })
    })??
}

pub fn pick(n: u32, r: u32) -> u32 {
    // SAFETY: nothing is lent.
    unsafe { gemthatch_pick(n, r) }
}

/// The refusal, 0 where accepted, how many were handed out, and the record.
pub fn record_at(memory: &mut Lent, state: State, i: u32) -> Result<(u32, u32, Record), String> {
    let State { m1, now, count } = state;
    unchanged(memory, |memory, octets| {
        // SAFETY: so many octets are lent for the time of the call.
        let place = unsafe { gemthatch_record_at(memory, octets, m1, now, count, i) };
        let gemthatch::Record {
            station,
            first,
            rate,
            superframes,
            length,
            far,
            bo,
        } = place.record;
        let record = Record {
            station,
            first,
            rate,
            superframes,
            length,
            far,
            bo,
            zeros: [0; 3],
        };
        (place.refusal, place.handed, record)
    })
}

/// A tally to lend, with a guard on each side. Its place is aligned, as that of
/// any tally.
pub struct LentTally([[u32; 2]; 3]);

/// The two are not the same, so that a tally moved by its own size shows.
const TALLY_GUARDS: [[u32; 2]; 2] = [[0xA5A4_A3A2, 0xA1A0_9F9E], [0x5A5B_5C5D, 0x5E5F_6061]];

impl LentTally {
    pub fn holding(tally: Tally) -> LentTally {
        let [before, after] = TALLY_GUARDS;
        LentTally([before, [tally.accepted, tally.refused], after])
    }

    /// What it holds, if its guards are whole.
    pub fn tally(&self) -> Result<Tally, String> {
        let [before, [accepted, refused], after] = self.0;
        if [before, after] == TALLY_GUARDS {
            Ok(Tally { accepted, refused })
        } else {
            Err(format!("a guard of the tally has changed: {:08X?}", self.0))
        }
    }
}

impl Default for LentTally {
    fn default() -> LentTally {
        LentTally::holding(Tally::default())
    }
}

pub fn count(tally: &mut LentTally, refusal: u32) {
    // SAFETY: the middle pair of numbers is lent for the time of the call.
    unsafe { gemthatch_count(tally.0.as_mut_ptr().add(1).cast(), refusal) }
}
