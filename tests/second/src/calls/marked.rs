//! The marked cases and the slips of the paper, expected as its text has them.
//! They hold our own reading as well as the archive.

use super::expect;
use super::near::FAR;
use super::pair::{Channel, Pair};
use crate::archive::Lent;
use crate::groups::{P1, P1_FIELDS, P2};
use crate::paper::codec::{Destination, Fields};
use crate::paper::distance::{Distance, UNKNOWN};
use crate::paper::search::Wish;
use crate::paper::slots;
use crate::paper::table::{Measure, Record, Reservation, Table, RECORD};
use crate::paper::Answer;
use crate::report::Verdict;

/// A channel opened, its clock set.
fn opened(pair: &mut Pair, records: usize, m1: u32, now: u32) -> Result<Channel, String> {
    let mut channel = Channel::unopened(&vec![0xFF; records * RECORD], m1);
    expect("open", Ok(0), pair.open(&mut channel, m1)?)?;
    expect("clock", Ok(0), pair.clock(&mut channel, now)?)?;
    Ok(channel)
}

/// Record T of document 01.
pub const T: Reservation = Reservation {
    station: 1,
    rate: 3,
    superframes: 2,
    bs: 5,
    length: 5,
    bo: 0,
    distance: UNKNOWN,
    limit: 150.0,
};

/// Record T, alone in its table.
fn alone(pair: &mut Pair, distance: Distance) -> Result<Channel, String> {
    let mut channel = opened(pair, 1, 4500, 100)?;
    let asked = Reservation { distance, ..T };
    expect("T", Ok(0), pair.reserve(&mut channel, &asked)?)?;
    Ok(channel)
}

/// The answer of a search with wanted 3, and its list.
fn search(
    pair: &mut Pair,
    channel: &mut Channel,
    lo: u32,
    hi: u32,
) -> Result<(Answer, [u32; 3]), String> {
    let wish = Wish {
        lo,
        hi,
        length: 2,
        wanted: 3,
    };
    let mut list = Lent::holding(&[0xEE; 12]);
    let found = pair.search(channel, &wish, &mut list)?;
    let octets = list.octets();
    let entry = |place: usize| u32::from_le_bytes(std::array::from_fn(|i| octets[4 * place + i]));
    Ok((found, [entry(0), entry(1), entry(2)]))
}

fn codec_cases(pair: &mut Pair) -> Result<(), String> {
    let with = |place: usize, octet| {
        let mut group = P1;
        group[place - 1] = octet;
        group
    };
    let p1 = P1_FIELDS;
    let p2 = Fields {
        d: Destination::NoRebroadcast([0xFF; 3]),
        blg: 31,
        roff: 255,
        br: 13,
        bs: 255,
        bo: 127,
        bt: 3,
    };
    expect("P1", Ok(p1), pair.read(&P1)?)?;
    expect("P1 written", Ok(P1), pair.write(&p1)?)?;
    expect("P2", Ok(p2), pair.read(&P2)?)?;
    let written = [0xFF, 0xFF, 0xFF, 0xF8, 0xFF, 0x0D, 0xFF, 0x7F, 0x13];
    expect("P2 written", Ok(written), pair.write(&p2)?)?;
    // Every bit of d, with a re-broadcast.
    let addressed = Fields {
        d: Destination::Address(134_217_727),
        bs: 254,
        ..p2
    };
    let group = [0xFF, 0xFF, 0xFF, 0xFF, 0xFF, 0x0D, 0xFE, 0x7F, 0x13];
    expect("bs 254", Ok(addressed), pair.read(&group)?)?;
    expect("bs 254 written", Ok(group), pair.write(&addressed)?)?;
    expect("P3", Err(6), pair.read(&with(8, 0x80))?)?;
    expect("P4", Err(5), pair.read(&with(7, 0x01))?)?;
    // One bit of d's upper three at a time: only this shows their order.
    for (octet, d) in [(0x21, 16_777_217), (0x22, 33_554_433), (0x24, 67_108_865)] {
        let d = Destination::Address(d);
        let fields = Fields { d, ..p1 };
        expect("d's upper bits", Ok(fields), pair.read(&with(4, octet))?)?;
        expect("d's upper bits", Ok(with(4, octet)), pair.write(&fields)?)?;
    }
    Ok(())
}

fn record_t(pair: &mut Pair) -> Result<(), String> {
    let channel = &mut alone(pair, UNKNOWN)?;
    let octets = [1, 0, 0, 0, 105, 0, 0, 0, 3, 2, 5, 0, 0, 0, 0, 0];
    expect("T's octets", &octets[..], channel.memory.octets())?;
    let table = Table::held(channel.memory.octets(), channel.state);
    let last = table.map(|table| table.records[0].last_slot(4500));
    expect("P5", Ok(7609), last)?;
    for (slot, state) in [(104, 0), (105, 2), (109, 2), (110, 0), (7609, 2), (7610, 0)] {
        expect("P6", Ok(state), pair.slot_state(channel, slot)?)?;
    }
    expect(
        "P8",
        (Ok(2), [110, 111, 0]),
        search(pair, channel, 105, 111)?,
    )?;
    expect("P10", (Err(21), [0; 3]), search(pair, channel, 105, 105)?)?;
    expect("P7, kept", Ok(0), pair.clock(channel, 7609)?)?;
    expect("P7, kept", 1, channel.state.count)?;
    expect("P7, gone", Ok(1), pair.clock(channel, 7610)?)?;
    expect("P7, gone", &[0; RECORD][..], channel.memory.octets())?;

    let channel = &mut alone(pair, FAR)?;
    let nine = (Ok(3), [110, 111, 105]);
    expect("P9", nine, search(pair, channel, 105, 111)?)
}

/// Record T with bo 10.
fn record_t_moved(pair: &mut Pair) -> Result<(), String> {
    let channel = &mut opened(pair, 2, 4500, 100)?;
    let asked = Reservation { bo: 10, ..T };
    expect("bo 10", Ok(0), pair.reserve(channel, &asked)?)?;
    let octets = [1, 0, 0, 0, 105, 0, 0, 0, 3, 2, 5, 0, 10, 0, 0, 0];
    let memory = &channel.memory.octets()[..RECORD];
    expect("bo 10, octets", &octets[..], memory)?;
    let record = Record::of_octets(memory);
    let starts: Vec<i64> = slots::blocks(&record, 4500)
        .map(|block| block.start)
        .collect();
    let blocks = vec![105, 1605, 3105, 4605, 6105, 7605, 9115, 10615, 12115];
    expect("bo 10, blocks", blocks, starts)?;
    expect("bo 10, last slot", 12119, record.last_slot(4500))?;
    for (slot, state) in [
        (7609, 2),
        (7610, 0),
        // Where the blocks would be if they hadn't moved.
        (9105, 0),
        (9114, 0),
        (9115, 2),
        (9119, 2),
        (9120, 0),
        (12114, 0),
        (12115, 2),
        (12119, 2),
        (12120, 0),
    ] {
        let given = pair.slot_state(channel, slot)?;
        expect(&format!("bo 10, slot {slot}"), Ok(state), given)?;
    }
    let found = (Ok(2), [9120, 9121, 0]);
    expect("bo 10", found, search(pair, channel, 9115, 9121)?)?;
    let none = (Err(21), [0; 3]);
    expect("bo 10", none, search(pair, channel, 9114, 9114)?)?;
    // The same again is held; with another offset it isn't.
    expect("bo 10, again", Err(16), pair.reserve(channel, &asked)?)?;
    let other = Reservation { bo: 9, ..T };
    expect("bo 9", Ok(0), pair.reserve(channel, &other)?)?;
    expect("bo 9, last slot", Ok(0), pair.clock(channel, 12118)?)?;
    expect("bo 9, gone", Ok(1), pair.clock(channel, 12119)?)?;
    expect("bo 10, kept", 1, channel.state.count)?;
    expect("bo 10, gone", Ok(1), pair.clock(channel, 12120)?)?;
    expect("bo 10, gone", &[0; 2 * RECORD][..], channel.memory.octets())
}

/// In a superframe of 60 slots a further series can begin before the first slot,
/// but not before now, and end before the first series does.
fn short_superframe(pair: &mut Pair) -> Result<(), String> {
    let asked = Reservation {
        rate: 1,
        superframes: 1,
        bs: 2,
        length: 1,
        bo: -62,
        ..T
    };
    for now in [0, 100, 1_000_000_000] {
        let channel = &mut opened(pair, 1, 60, now)?;
        let refused = Reservation { bo: -63, ..asked };
        expect("bo -63", Err(24), pair.reserve(channel, &refused)?)?;
        expect("bo -63", &[0; RECORD][..], channel.memory.octets())?;
        expect("bo -62", Ok(0), pair.reserve(channel, &asked)?)?;
        expect("bo -62, now", Ok(2), pair.slot_state(channel, now)?)?;
    }
    // Slots 170 and 103.
    let channel = &mut opened(pair, 1, 60, 100)?;
    let asked = Reservation {
        bs: 70,
        bo: -127,
        ..asked
    };
    expect("bo -127", Ok(0), pair.reserve(channel, &asked)?)?;
    for (slot, state) in [(102, 0), (103, 2), (104, 0), (169, 0), (170, 2), (171, 0)] {
        let given = pair.slot_state(channel, slot)?;
        expect(&format!("bo -127, slot {slot}"), Ok(state), given)?;
    }
    for (clock, gone) in [(104, 0), (170, 0), (171, 1)] {
        let given = pair.clock(channel, clock)?;
        expect(&format!("bo -127, clock {clock}"), Ok(gone), given)?;
    }
    Ok(())
}

fn offsets(pair: &mut Pair) -> Result<(), String> {
    for (north, far) in [(120.0, 1), (119.0, 0)] {
        let distance = Distance {
            kind: 2,
            a: 90.0,
            b: north,
        };
        let channel = &mut alone(pair, distance)?;
        expect("P11, reserve", far, channel.memory.octets()[11])?;
        let channel = &mut alone(pair, if far == 1 { UNKNOWN } else { FAR })?;
        let told = Measure {
            station: 1,
            distance,
            limit: 150.0,
        };
        expect("P11, distance", Ok(1), pair.distance(channel, &told)?)?;
        expect("P11, distance", far, channel.memory.octets()[11])?;
    }
    Ok(())
}

fn slips(pair: &mut Pair) -> Result<(), String> {
    // M1 60, rate 7: blocks 8 apart, the last slot 48 after the first.
    let channel = &mut opened(pair, 1, 60, 0)?;
    let asked = Reservation {
        rate: 7,
        superframes: 1,
        bs: 2,
        length: 1,
        ..T
    };
    expect("rate 7", Ok(0), pair.reserve(channel, &asked)?)?;
    for after in 0..60 {
        let state = if after % 8 == 0 && after <= 48 { 2 } else { 0 };
        let given = pair.slot_state(channel, 2 + after)?;
        expect(&format!("rate 7, slot {}", 2 + after), Ok(state), given)?;
    }
    expect("rate 7, kept", Ok(0), pair.clock(channel, 50)?)?;
    expect("rate 7, gone", Ok(1), pair.clock(channel, 51)?)?;

    // A slot of a far record and a near one is taken, in either order.
    for far_first in [true, false] {
        let channel = &mut opened(pair, 2, 4500, 100)?;
        for (station, far) in [(1, far_first), (2, !far_first)] {
            let asked = Reservation {
                station,
                distance: if far { FAR } else { UNKNOWN },
                ..T
            };
            expect("far and near", Ok(0), pair.reserve(channel, &asked)?)?;
        }
        let records = Table::held(channel.memory.octets(), channel.state).map(|held| held.records);
        let fars = records.map(|records| records.iter().map(|record: &Record| record.far).sum());
        expect("one far, one near", Ok(1_u8), fars)?;
        expect("far and near", Ok(2), pair.slot_state(channel, 105)?)?;
        expect(
            "far and near",
            (Err(21), [0; 3]),
            search(pair, channel, 105, 105)?,
        )?;
    }
    Ok(())
}

pub fn check(pair: &mut Pair) -> Verdict {
    codec_cases(pair)?;
    record_t(pair)?;
    record_t_moved(pair)?;
    short_superframe(pair)?;
    offsets(pair)?;
    slips(pair)?;
    Ok("P1 to P11, the four slips and the block offset as the paper has them".to_string())
}
