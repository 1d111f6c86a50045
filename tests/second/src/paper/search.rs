//! The search for starts, and the pick among those found.

use super::map;
use super::slots::{self, Slot};
use super::table::{State, Table};
use super::{Answer, Refusal, LATEST};

/// What a search asks for; the list is lent beside it.
#[derive(Clone, Copy, Debug)]
pub struct Wish {
    pub lo: u32,
    pub hi: u32,
    pub length: u32,
    pub wanted: u32,
}

/// The level of a start, by the slots from it on.
fn level(slots: &[Slot]) -> Option<u32> {
    if slots.iter().all(|&slot| slot == Slot::Free) {
        Some(0)
    } else if slots.iter().all(|&slot| slot != Slot::Taken) {
        Some(1)
    } else {
        None
    }
}

/// All starts of the range that have a level, level 0 first, each ascending.
fn starts(table: &Table, wish: &Wish) -> Vec<u32> {
    let end = i64::from(wish.hi) + i64::from(wish.length);
    let slots = slots::judge_all(table, wish.lo.into()..end);
    let of_level = |wanted| {
        slots
            .windows(wish.length as usize)
            .zip(wish.lo..=wish.hi)
            .filter(move |(slots, _)| level(slots) == Some(wanted))
            .map(|(_, start)| start)
    };
    of_level(0).chain(of_level(1)).collect()
}

/// The starts found, cut after wanted; refusals in the order 11, 25, 19, 9, 20,
/// 1, 21. Found by the table wherever the blocks lie: by the map they have to be
/// the same.
fn found(
    memory: &[u8],
    map: &[u8],
    state: State,
    wish: &Wish,
    entries: usize,
) -> Result<Vec<u32>, Refusal> {
    let table = map::held(memory, map, state)?;
    let &Wish {
        lo,
        hi,
        length,
        wanted,
    } = wish;
    if lo < table.now || lo > hi || hi > LATEST || hi - lo >= table.m1 {
        return Err(19);
    }
    if length == 0 || length > 32 {
        return Err(9);
    }
    if wanted == 0 || wanted > 16 {
        return Err(20);
    }
    if entries < wanted as usize {
        return Err(1);
    }
    let mut starts = starts(&table, wish);
    starts.truncate(wanted as usize);
    if starts.is_empty() {
        return Err(21);
    }
    Ok(starts)
}

/// How many were found, and every octet of the list: the starts, then zeros.
pub fn search(
    memory: &[u8],
    map: &[u8],
    state: State,
    wish: &Wish,
    list_octets: usize,
) -> (Answer, Vec<u8>) {
    let found = found(memory, map, state, wish, list_octets / 4);
    let mut list = Vec::with_capacity(list_octets);
    for start in found.iter().flatten() {
        list.extend((0..4).map(|place| (start >> (8 * place)) as u8));
    }
    list.resize(list_octets, 0);
    (found.map(|starts| starts.len() as u32), list)
}

/// Refusal 20 alone.
pub fn pick(n: u32, r: u32) -> Answer {
    if (1..=16).contains(&n) {
        Ok(r % n)
    } else {
        Err(20)
    }
}
