//! The walk: every record of a table in its order, then no more, and nothing of
//! a table that isn't sound.

use super::damage;
use super::expect;
use super::near;
use super::pair::{same_octets, Channel, Pair};
use crate::draw::Draw;
use crate::paper::table::{Record, State, MOST_RECORDS, RECORD};
use crate::paper::walk;
use crate::report::Verdict;

/// Places past the end of a table that is no longer. Some would lie in it again
/// if they, or their octets, were counted in 8, 16 or 32 bits.
const PAST: [u32; 12] = [
    16,
    256,
    2_049,
    4_096,
    65_536,
    1 << 28,
    (1 << 28) + 1,
    1 << 30,
    (1 << 31) - 1,
    1 << 31,
    u32::MAX - 1,
    u32::MAX,
];

#[derive(Default)]
struct Seen {
    /// Tables walked to their end, and tables refused.
    sound: u64,
    refused: u64,
    /// Records handed out, and answers that there is no more.
    handed: u64,
    no_more: u64,
    longest: usize,
}

/// Asks for place after place until nothing is handed out, then for places
/// past that one, which have to be answered like it. The records, or the
/// refusal.
fn walked(
    pair: &mut Pair,
    channel: &mut Channel,
    seen: &mut Seen,
) -> Result<Result<Vec<Record>, u32>, String> {
    let mut records = Vec::new();
    let end = loop {
        match pair.record_at(channel, records.len() as u32)? {
            Ok(Some(record)) if records.len() < MOST_RECORDS => records.push(record),
            end => break end,
        }
    };
    let place = records.len() as u32;
    let past = PAST.into_iter().filter(|&i| i > place);
    let mut asked = 1;
    for i in (place + 1..place + 5).chain(past) {
        expect(&format!("place {i}"), end, pair.record_at(channel, i)?)?;
        asked += 1;
    }
    // The same by our own reading in one go.
    let given = end.map(|_| records);
    if given != walk::begin(channel.memory.octets(), channel.state).map(Iterator::collect) {
        let state = channel.state;
        return Err(format!(
            "{state:?}: place by place otherwise than in one go"
        ));
    }
    match &given {
        Ok(records) => {
            expect("the end", Ok(None), end)?;
            seen.sound += 1;
            seen.handed += records.len() as u64;
            seen.no_more += asked;
            seen.longest = seen.longest.max(records.len());
        }
        Err(_) => seen.refused += 1,
    }
    Ok(given)
}

/// What is handed out of a sound table, written down again with zeros behind,
/// is its memory.
fn sound(pair: &mut Pair, channel: &mut Channel, seen: &mut Seen) -> Result<(), String> {
    let records = walked(pair, channel, seen)?
        .map_err(|refusal| format!("our own table is refused {refusal}"))?;
    let mut octets: Vec<u8> = records.iter().flat_map(Record::octets).collect();
    octets.resize(channel.memory.octets().len(), 0);
    expect("records", channel.state.count as usize, records.len())?;
    same_octets("memory", channel.memory.octets(), &octets)
}

/// Two records and room for one, as the paper has their octets.
fn by_hand(pair: &mut Pair, seen: &mut Seen) -> Result<(), String> {
    let octets = [
        [1, 0, 0, 0, 105, 0, 0, 0, 3, 2, 5, 0, 10, 0, 0, 0],
        [
            1, 2, 3, 4, 0xFF, 0xCA, 0x9A, 0x3B, 60, 1, 32, 1, 0x81, 0, 0, 0,
        ],
        [0; RECORD],
    ];
    let records = [
        Record {
            station: 1,
            first: 105,
            rate: 3,
            superframes: 2,
            length: 5,
            far: 0,
            bo: 10,
            zeros: [0; 3],
        },
        Record {
            station: 0x0403_0201,
            first: 1_000_000_255,
            rate: 60,
            superframes: 1,
            length: 32,
            far: 1,
            bo: -127,
            zeros: [0; 3],
        },
    ];
    let state = State {
        m1: 4500,
        now: 100,
        count: 2,
    };
    let channel = &mut Channel::holding(&octets.concat(), state);
    for (i, record) in [(0, Some(records[0])), (1, Some(records[1])), (2, None)] {
        expect(
            &format!("record {i}"),
            Ok(record),
            pair.record_at(channel, i)?,
        )?;
    }
    expect(
        "by hand",
        Ok(records.to_vec()),
        walked(pair, channel, seen)?,
    )?;
    // A count that leaves a record in the tail, and one that takes zeros for one.
    for count in [1, 3] {
        channel.state.count = count;
        expect("by hand", Err(11), walked(pair, channel, seen)?)?;
    }
    Ok(())
}

fn sound_tables(pair: &mut Pair, draw: &mut Draw, seen: &mut Seen) -> Result<(), String> {
    for _ in 0..4_000 {
        let count = draw.below(9);
        let capacity = (count + draw.below(3)).max(1);
        sound(pair, &mut near::table(draw, capacity, count), seen)?;
    }
    let most = MOST_RECORDS as u32;
    for count in [0, 1, 63, 64, 255, 256, 257, 1_000, most - 1, most] {
        for capacity in [count.max(1), (count + 1).min(most), most] {
            sound(pair, &mut near::table(draw, capacity, count), seen)?;
        }
    }
    Ok(())
}

fn other_tables(pair: &mut Pair, draw: &mut Draw, seen: &mut Seen) -> Result<(), String> {
    for way in damage::WAYS {
        for count in [1, 2, 3, 9, 100, 2_047] {
            let table = near::table(draw, count + 1, count);
            let spoilt = &mut damage::spoil(draw, &table, way);
            let given = walked(pair, spoilt, seen)?;
            expect(&format!("{way} spoilt"), Err(11), given)?;
        }
    }
    for round in 0..8_000 {
        let _ = walked(pair, &mut damage::odd(draw, round), seen)?;
    }
    for mut channel in damage::oversized() {
        expect("oversized", Err(11), walked(pair, &mut channel, seen)?)?;
    }
    Ok(())
}

pub fn check(pair: &mut Pair) -> Verdict {
    let mut draw = Draw::from_seed(801);
    let mut seen = Seen::default();
    by_hand(pair, &mut seen)?;
    sound_tables(pair, &mut draw, &mut seen)?;
    other_tables(pair, &mut draw, &mut seen)?;
    let Seen {
        sound,
        refused,
        handed,
        no_more,
        longest,
    } = seen;
    let told = format!(
        "{sound} tables of up to {longest} records walked, {handed} records handed out, {no_more} \
         times no more; {refused} tables refused, nothing handed out"
    );
    if sound < 1_000 || refused < 1_000 || handed < 10_000 || longest < MOST_RECORDS {
        return Err(format!("too little of something: {told}"));
    }
    Ok(told)
}
