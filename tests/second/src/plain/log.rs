//! A log record on a table by hand, for the peers that replay a log.

use std::ops::Range;

use super::changes::{self, Distance, Wish};
use super::table::{is_sound, Answer, State};

pub const ENTRY: usize = 24;

/// What a log record asks for.
enum Call {
    Clock(u32),
    Reserve(Wish),
    Distance(u32, Distance, f64),
    Wipe(u32),
}

fn call_of(entry: &[u8]) -> Result<Call, u32> {
    let Ok(entry) = <&[u8; ENTRY]>::try_from(entry) else {
        return Err(23);
    };
    let number = |at: usize| u32::from_le_bytes(entry[at..at + 4].try_into().unwrap());
    let zeros = |places: Range<usize>| entry[places].iter().all(|&octet| octet == 0);
    let (station, slot, limit) = (number(4), number(8), f64::from(number(16)));
    let distance = match number(12) {
        u32::MAX => Distance {
            kind: 0,
            a: 0.0,
            b: 0.0,
        },
        miles => Distance {
            kind: 1,
            a: miles.into(),
            b: 0.0,
        },
    };
    if !zeros(21..24) {
        return Err(23);
    }
    match entry[0] {
        1 if zeros(1..8) && zeros(12..21) => Ok(Call::Clock(slot)),
        2 => Ok(Call::Reserve(Wish {
            station,
            rate: entry[1].into(),
            superframes: entry[2].into(),
            bs: slot,
            length: entry[3].into(),
            bo: (entry[20] as i8).into(),
            distance,
            limit,
        })),
        3 if zeros(1..4) && zeros(8..12) && entry[20] == 0 => {
            Ok(Call::Distance(station, distance, limit))
        }
        4 if zeros(1..4) && zeros(8..21) => Ok(Call::Wipe(station)),
        _ => Err(23),
    }
}

/// One that trusts the table leaves out the test of it.
#[inline(never)]
pub fn step(memory: &mut [u8], state: State, entry: &[u8], trusting: bool) -> Answer {
    let call = call_of(entry)?;
    if !trusting && !is_sound(memory, state) {
        return Err(11);
    }
    match call {
        Call::Clock(slot) => changes::clock(memory, state, slot),
        Call::Reserve(wish) => changes::reserve(memory, state, &wish),
        Call::Distance(station, distance, limit) => {
            changes::distance(memory, state, station, distance, limit)
        }
        Call::Wipe(station) => changes::wipe(memory, state, station),
    }
}
