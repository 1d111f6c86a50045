//! The calls that take a map, as the archive has them and as its peer of
//! `peer/calls.c` has them: the same signatures, so that both are called alike.

use crate::gemthatch::*;
use crate::paper::search::Wish;
use crate::paper::table::{Measure, Reservation};
use crate::plain::State;

extern "C" {
    fn peer_open(memory: *mut u8, octets: usize, map: *mut u8, map_octets: usize, m1: u32) -> u32;
    fn peer_clock(
        memory: *mut u8,
        octets: usize,
        map: *mut u8,
        map_octets: usize,
        m1: u32,
        now: u32,
        count: u32,
        slot: u32,
    ) -> u32;
    fn peer_reserve(
        memory: *mut u8,
        octets: usize,
        map: *mut u8,
        map_octets: usize,
        m1: u32,
        now: u32,
        count: u32,
        station: u32,
        rate: u32,
        superframes: u32,
        bs: u32,
        length: u32,
        bo: i32,
        kind: u32,
        a: f64,
        b: f64,
        limit: f64,
    ) -> u32;
    fn peer_distance(
        memory: *mut u8,
        octets: usize,
        map: *mut u8,
        map_octets: usize,
        m1: u32,
        now: u32,
        count: u32,
        station: u32,
        kind: u32,
        a: f64,
        b: f64,
        limit: f64,
    ) -> u32;
    fn peer_wipe(
        memory: *mut u8,
        octets: usize,
        map: *mut u8,
        map_octets: usize,
        m1: u32,
        now: u32,
        count: u32,
        station: u32,
    ) -> u32;
    fn peer_replay_step(
        memory: *mut u8,
        octets: usize,
        map: *mut u8,
        map_octets: usize,
        m1: u32,
        now: u32,
        count: u32,
        entry: *const u8,
        entry_octets: usize,
    ) -> u32;
    fn peer_search(
        memory: *const u8,
        octets: usize,
        map: *const u8,
        map_octets: usize,
        m1: u32,
        now: u32,
        count: u32,
        lo: u32,
        hi: u32,
        length: u32,
        wanted: u32,
        list: *mut u8,
        list_octets: usize,
    ) -> u32;
}

type Octets = *mut u8;
type Read = *const u8;

/// One side's calls.
pub struct Calls {
    open: unsafe extern "C" fn(Octets, usize, Octets, usize, u32) -> u32,
    clock: unsafe extern "C" fn(Octets, usize, Octets, usize, u32, u32, u32, u32) -> u32,
    #[rustfmt::skip]
    reserve: unsafe extern "C" fn(
        Octets, usize, Octets, usize, u32, u32, u32, u32, u32, u32, u32, u32, i32, u32, f64, f64, f64,
    ) -> u32,
    #[rustfmt::skip]
    distance: unsafe extern "C" fn(
        Octets, usize, Octets, usize, u32, u32, u32, u32, u32, f64, f64, f64,
    ) -> u32,
    wipe: unsafe extern "C" fn(Octets, usize, Octets, usize, u32, u32, u32, u32) -> u32,
    #[rustfmt::skip]
    replay_step: unsafe extern "C" fn(
        Octets, usize, Octets, usize, u32, u32, u32, Read, usize,
    ) -> u32,
    #[rustfmt::skip]
    search: unsafe extern "C" fn(
        Read, usize, Read, usize, u32, u32, u32, u32, u32, u32, u32, Octets, usize,
    ) -> u32,
}

pub const ARCHIVE: Calls = Calls {
    open: gemthatch_open,
    clock: gemthatch_clock,
    reserve: gemthatch_reserve,
    distance: gemthatch_distance,
    wipe: gemthatch_wipe,
    replay_step: gemthatch_replay_step,
    search: gemthatch_search,
};

pub const PEER: Calls = Calls {
    open: peer_open,
    clock: peer_clock,
    reserve: peer_reserve,
    distance: peer_distance,
    wipe: peer_wipe,
    replay_step: peer_replay_step,
    search: peer_search,
};

/// What is lent to a call.
#[derive(Clone, PartialEq)]
pub struct Lent {
    pub memory: Vec<u8>,
    pub map: Vec<u8>,
    pub list: Vec<u8>,
}

/// Each lends what it was lent, so it is there for the call, and the slices lie
/// apart. Where the side is known they come down to the call itself.
impl Calls {
    #[inline(always)]
    pub fn open(&self, lent: &mut Lent, m1: u32) -> u32 {
        let Lent { memory, map, .. } = lent;
        unsafe {
            (self.open)(
                memory.as_mut_ptr(),
                memory.len(),
                map.as_mut_ptr(),
                map.len(),
                m1,
            )
        }
    }

    #[inline(always)]
    pub fn clock(&self, lent: &mut Lent, state: State, slot: u32) -> u32 {
        let Lent { memory, map, .. } = lent;
        unsafe {
            (self.clock)(
                memory.as_mut_ptr(),
                memory.len(),
                map.as_mut_ptr(),
                map.len(),
                state.m1,
                state.now,
                state.count,
                slot,
            )
        }
    }

    #[inline(always)]
    pub fn reserve(&self, lent: &mut Lent, state: State, asked: &Reservation) -> u32 {
        let Lent { memory, map, .. } = lent;
        unsafe {
            (self.reserve)(
                memory.as_mut_ptr(),
                memory.len(),
                map.as_mut_ptr(),
                map.len(),
                state.m1,
                state.now,
                state.count,
                asked.station,
                asked.rate,
                asked.superframes,
                asked.bs,
                asked.length,
                asked.bo,
                asked.distance.kind,
                asked.distance.a,
                asked.distance.b,
                asked.limit,
            )
        }
    }

    #[inline(always)]
    pub fn distance(&self, lent: &mut Lent, state: State, told: &Measure) -> u32 {
        let Lent { memory, map, .. } = lent;
        unsafe {
            (self.distance)(
                memory.as_mut_ptr(),
                memory.len(),
                map.as_mut_ptr(),
                map.len(),
                state.m1,
                state.now,
                state.count,
                told.station,
                told.distance.kind,
                told.distance.a,
                told.distance.b,
                told.limit,
            )
        }
    }

    #[inline(always)]
    pub fn wipe(&self, lent: &mut Lent, state: State, station: u32) -> u32 {
        let Lent { memory, map, .. } = lent;
        unsafe {
            (self.wipe)(
                memory.as_mut_ptr(),
                memory.len(),
                map.as_mut_ptr(),
                map.len(),
                state.m1,
                state.now,
                state.count,
                station,
            )
        }
    }

    #[inline(always)]
    pub fn replay_step(&self, lent: &mut Lent, state: State, entry: &[u8]) -> u32 {
        let Lent { memory, map, .. } = lent;
        unsafe {
            (self.replay_step)(
                memory.as_mut_ptr(),
                memory.len(),
                map.as_mut_ptr(),
                map.len(),
                state.m1,
                state.now,
                state.count,
                entry.as_ptr(),
                entry.len(),
            )
        }
    }

    #[inline(always)]
    pub fn search(&self, lent: &mut Lent, state: State, wish: &Wish) -> u32 {
        let Lent { memory, map, list } = lent;
        unsafe {
            (self.search)(
                memory.as_ptr(),
                memory.len(),
                map.as_ptr(),
                map.len(),
                state.m1,
                state.now,
                state.count,
                wish.lo,
                wish.hi,
                wish.length,
                wish.wanted,
                list.as_mut_ptr(),
                list.len(),
            )
        }
    }
}
