//! Table calls on memory and state that no host should lend.

use super::near::{self, once_in};
use super::pair::{Call, Channel, Pair};
use super::soundness::by_every_call;
use crate::draw::Draw;
use crate::paper::table::{Record, State, LATEST_FIRST, RECORD};
use crate::paper::{LATEST, STATIONS};
use crate::report::Verdict;

/// The ways to spoil a sound table that holds a record and has room for one.
pub const WAYS: [&str; 19] = [
    "station",
    "first",
    "rate 0",
    "rate above 60",
    "superframes 0",
    "superframes above 3",
    "length 0",
    "length above 32",
    "far",
    "bo",
    "zeros",
    "further series below slot 0",
    "last slot before now",
    "tail",
    "count too high",
    "count too low",
    "M1",
    "now",
    "size",
];

/// Spoils one place, so that the table is no longer sound.
pub fn spoil(draw: &mut Draw, channel: &Channel, way: &str) -> Channel {
    let mut state = channel.state;
    let mut octets = channel.memory.octets().to_vec();
    let (used, size) = (state.count as usize * RECORD, octets.len());
    let place = draw.below(state.count) as usize * RECORD;
    let mut record = Record::of_octets(&octets[place..place + RECORD]);
    match way {
        "station" => record.station = draw.one_of(&[STATIONS, STATIONS + 1, u32::MAX]),
        "first" => record.first = draw.one_of(&[LATEST_FIRST + 1, u32::MAX]),
        "rate 0" => record.rate = 0,
        "rate above 60" => record.rate = draw.one_of(&[61, 128, 255]),
        "superframes 0" => record.superframes = 0,
        "superframes above 3" => record.superframes = draw.one_of(&[4, 128, 255]),
        "length 0" => record.length = 0,
        "length above 32" => record.length = draw.one_of(&[33, 128, 255]),
        "far" => record.far = draw.one_of(&[2, 3, 128, 255]),
        "bo" => record.bo = -128,
        "zeros" => record.zeros[draw.below(3) as usize] = 1 << draw.below(8),
        "further series below slot 0" => {
            (state.m1, state.now) = (60, 0);
            (record.first, record.superframes) = (draw.below(67), 1);
            record.bo = -127 + draw.below(67 - record.first) as i8;
        }
        "last slot before now" => state.now = record.last_slot(state.m1) as u32 + 1,
        "tail" => {
            let tail = (size - used) as u32;
            octets[used + draw.below(tail) as usize] = 1 + draw.below(255) as u8;
        }
        "count too high" => {
            state.count = draw.one_of(&[(size / RECORD) as u32 + 1, 1 << 31, u32::MAX]);
        }
        // No record is all zeros, so it shows in the tail.
        "count too low" => state.count -= 1,
        "M1" => state.m1 = draw.one_of(&[0, 1, 59, 61, state.m1 + 1, 15_420, u32::MAX]),
        "now" => state.now = draw.one_of(&[LATEST + 1, 1 << 31, u32::MAX]),
        "size" => octets.resize(size + 1 + draw.below(RECORD as u32 - 1) as usize, 0),
        _ => unreachable!("no way to spoil {way}"),
    }
    octets[place..place + RECORD].copy_from_slice(&record.octets());
    Channel::holding(&octets, state)
}

pub fn spoilt(pair: &mut Pair) -> Verdict {
    let mut draw = Draw::from_seed(601);
    let mut times = [0; WAYS.len()];
    for round in 0..8_000 {
        let count = if round % 1_000 == 0 {
            2_047
        } else {
            1 + draw.below(4)
        };
        let room = if count == 2_047 { 1 } else { 1 + draw.below(2) };
        let channel = near::table(&mut draw, count + room, count);
        if !by_every_call(pair, &channel)? {
            return Err("our own table isn't sound".to_string());
        }
        let way = draw.below(WAYS.len() as u32) as usize;
        let spoilt = spoil(&mut draw, &channel, WAYS[way]);
        if by_every_call(pair, &spoilt)? {
            return Err(format!("{} spoilt, but taken for sound", WAYS[way]));
        }
        times[way] += 1;
    }
    if let Some(way) = times.iter().position(|&times| times < 100) {
        return Err(format!("too seldom: {} {}", WAYS[way], times[way]));
    }
    let told: Vec<String> = WAYS
        .iter()
        .zip(times)
        .map(|(way, n)| format!("{way} × {n}"))
        .collect();
    Ok(format!("by seven calls each: {}", told.join(", ")))
}

/// One call of each kind, whatever it is given.
fn ask(pair: &mut Pair, draw: &mut Draw, channel: &Channel) -> Result<(), String> {
    let state = channel.state;
    let copy = || channel.clone();
    let mut asked = near::reservation(draw);
    if once_in(draw, 2) {
        near::spoil_reservation(draw, &mut asked, state);
    }
    let (wish, mut list) = near::wish(draw, channel);
    let m1 = draw.one_of(&[state.m1, 60, 61]);
    let _ = pair.clock(&mut copy(), near::number(draw, state))?;
    let _ = pair.reserve(&mut copy(), &asked)?;
    let _ = pair.distance(&mut copy(), &near::measure(draw))?;
    let _ = pair.wipe(&mut copy(), near::station(draw))?;
    let _ = pair.slot_state(&mut copy(), near::number(draw, state))?;
    let _ = pair.search(&mut copy(), &wish, &mut list)?;
    let _ = pair.record_at(&mut copy(), near::place(draw, state))?;
    let _ = pair.open(&mut copy(), m1)?;
    Ok(())
}

/// Octets and state with nothing right about them, or with one thing wrong, by
/// turns.
pub fn odd(draw: &mut Draw, round: u32) -> Channel {
    let count = draw.below(4);
    let mut channel = near::table(draw, count + 1, count);
    let state = &mut channel.state;
    match round % 4 {
        0 => {
            let size = draw.one_of(&[0, 1, 12, 15, 16, 17, 24, 32, 48, 64, 100]);
            let octets: Vec<u8> = (0..size).map(|_| draw.octet()).collect();
            channel = Channel::holding(&octets, channel.state);
        }
        1 => {
            let octets = channel.memory.octets_mut();
            let place = draw.below(octets.len() as u32) as usize;
            octets[place] = draw.octet();
        }
        2 => match draw.below(3) {
            0 => state.m1 = near::number(draw, *state),
            1 => state.now = near::number(draw, *state),
            _ => state.count = near::number(draw, *state),
        },
        _ => {
            state.m1 = near::number(draw, *state);
            state.now = near::number(draw, *state);
            state.count = near::number(draw, *state);
        }
    }
    // A map that went with the table before, or goes with this one.
    if once_in(draw, 2) {
        channel.remap();
    }
    channel
}

/// The largest memory and larger ones, full of ones, with all sorts of state.
pub fn oversized() -> impl Iterator<Item = Channel> {
    [32_768, 32_769, 32_784, 65_536]
        .into_iter()
        .flat_map(|size| {
            [0, 1, 60, 2_048, u32::MAX].map(|number| {
                let state = State {
                    m1: number,
                    now: number,
                    count: number,
                };
                Channel::holding(&vec![0xFF; size], state)
            })
        })
}

pub fn random(pair: &mut Pair) -> Verdict {
    let mut draw = Draw::from_seed(602);
    let before = pair.counts.clone();
    for round in 0..20_000 {
        let channel = odd(&mut draw, round);
        ask(pair, &mut draw, &channel)?;
    }
    for channel in oversized() {
        ask(pair, &mut draw, &channel)?;
    }
    let counts = pair.counts.since(&before);
    let (sound, not) = (counts.of(Call::Wipe, 0), counts.of(Call::Wipe, 11));
    if sound < 1_000 || not < 1_000 {
        return Err(format!("too few: {sound} sound, {not} not"));
    }
    Ok(format!(
        "{sound} tables sound by chance, {not} not, by eight calls each"
    ))
}
