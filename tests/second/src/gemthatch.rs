//! The archive's C interface, as its header has it.

/// `gemthatch_block`
#[repr(C)]
#[derive(Clone, Copy, Debug, Default, PartialEq)]
pub struct Block {
    pub destination: u32,
    pub d: u32,
    pub information: [u8; 3],
    pub blg: u32,
    pub roff: u32,
    pub br: u32,
    pub bs: u32,
    pub bo: i32,
    pub bt: u32,
}

/// `gemthatch_reading`
#[repr(C)]
#[derive(Debug, PartialEq)]
pub struct Reading {
    pub refusal: u32,
    pub block: Block,
}

/// `gemthatch_writing`
#[repr(C)]
#[derive(Debug, PartialEq)]
pub struct Writing {
    pub refusal: u32,
    pub octets: [u8; 9],
}

/// `gemthatch_record`
#[repr(C)]
#[derive(Clone, Copy, Debug, Default, PartialEq)]
pub struct Record {
    pub station: u32,
    pub first: u32,
    pub rate: u8,
    pub superframes: u8,
    pub length: u8,
    pub far: u8,
    pub bo: i8,
}

/// `gemthatch_place`
#[repr(C)]
#[derive(Clone, Copy, Debug, Default, PartialEq)]
pub struct Place {
    pub refusal: u32,
    pub handed: u32,
    pub record: Record,
}

/// `gemthatch_tally`
#[repr(C)]
#[derive(Clone, Copy, PartialEq)]
pub struct Tally {
    pub accepted: u32,
    pub refused: u32,
}

/// What is added to the number of a refusal.
pub const REFUSED: u32 = 2_000_000_000;

#[link(name = "gemthatch", kind = "static")]
extern "C" {
    pub fn gemthatch_read(octets: *const u8, length: usize) -> Reading;
    pub fn gemthatch_write(block: Block) -> Writing;
    pub fn gemthatch_rate(rates: *const u8, entries: usize, code: u32) -> u32;
    pub fn gemthatch_parameter(number: u32, figure: u32) -> u32;
    pub fn gemthatch_open(
        memory: *mut u8,
        octets: usize,
        map: *mut u8,
        map_octets: usize,
        m1: u32,
    ) -> u32;
    pub fn gemthatch_clock(
        memory: *mut u8,
        octets: usize,
        map: *mut u8,
        map_octets: usize,
        m1: u32,
        now: u32,
        count: u32,
        slot: u32,
    ) -> u32;
    pub fn gemthatch_reserve(
        memory: *mut u8,
        octets: usize,
        map: *mut u8,
        map_octets: usize,
        m1: u32,
        now: u32,
        count: u32,
        station: u32,
        rate: u32,
        superframes: u32,
        bs: u32,
        length: u32,
        bo: i32,
        kind: u32,
        a: f64,
        b: f64,
        limit: f64,
    ) -> u32;
    pub fn gemthatch_distance(
        memory: *mut u8,
        octets: usize,
        map: *mut u8,
        map_octets: usize,
        m1: u32,
        now: u32,
        count: u32,
        station: u32,
        kind: u32,
        a: f64,
        b: f64,
        limit: f64,
    ) -> u32;
    pub fn gemthatch_wipe(
        memory: *mut u8,
        octets: usize,
        map: *mut u8,
        map_octets: usize,
        m1: u32,
        now: u32,
        count: u32,
        station: u32,
    ) -> u32;
    pub fn gemthatch_replay_step(
        memory: *mut u8,
        octets: usize,
        map: *mut u8,
        map_octets: usize,
        m1: u32,
        now: u32,
        count: u32,
        entry: *const u8,
        entry_octets: usize,
    ) -> u32;
    pub fn gemthatch_slot_state(
        memory: *const u8,
        octets: usize,
        m1: u32,
        now: u32,
        count: u32,
        slot: u32,
    ) -> u32;
    pub fn gemthatch_search(
        memory: *const u8,
        octets: usize,
        map: *const u8,
        map_octets: usize,
        m1: u32,
        now: u32,
        count: u32,
        lo: u32,
        hi: u32,
        length: u32,
        wanted: u32,
        list: *mut u8,
        list_octets: usize,
    ) -> u32;
    pub fn gemthatch_pick(n: u32, r: u32) -> u32;
    pub fn gemthatch_record_at(
        memory: *const u8,
        octets: usize,
        m1: u32,
        now: u32,
        count: u32,
        i: u32,
    ) -> Place;
    pub fn gemthatch_count(tally: *mut Tally, refusal: u32);
}
