//! Both sides of each edge of a sound table: memory, state, fields and tail.
//! The answers stand here as the paper has them.

use super::edges::{table, Sides, M1, MEMORY, STATE, STATION, T};
use super::expect;
use super::pair::{Channel, Pair};
use crate::archive::Lent;
use crate::paper::distance::UNKNOWN;
use crate::paper::search::Wish;
use crate::paper::table::{Measure, Record, Reservation, State, LATEST_FIRST, RECORD};
use crate::paper::LATEST;
use crate::report::Verdict;

/// Whether a table is sound by each table call but open, asked for what a
/// sound one accepts. All have to agree.
pub fn by_every_call(pair: &mut Pair, channel: &Channel) -> Result<bool, String> {
    let now = channel.state.now;
    let copy = || channel.clone();
    let asked = Reservation {
        station: 77,
        rate: 2,
        superframes: 1,
        bs: 9,
        length: 3,
        bo: 0,
        distance: UNKNOWN,
        limit: 150.0,
    };
    let told = Measure {
        station: 1,
        distance: UNKNOWN,
        limit: 150.0,
    };
    let wish = Wish {
        lo: now,
        hi: now,
        length: 1,
        wanted: 1,
    };
    // Nothing lent but nothing, where there is nothing of a table either.
    let entries = channel.memory.octets().len().min(4);
    let mut list = Lent::holding(&vec![0xEE; entries]);
    let answers = [
        pair.clock(&mut copy(), now)?,
        pair.reserve(&mut copy(), &asked)?,
        pair.distance(&mut copy(), &told)?,
        pair.wipe(&mut copy(), 1)?,
        pair.slot_state(&mut copy(), now)?,
        pair.search(&mut copy(), &wish, &mut list)?,
        pair.record_at(&mut copy(), 0)?.map(|_| 0),
    ];
    let [clock, reserve, distance, wipe, slot_state, search, record_at] = answers;
    // A sound table may be full, and its slot now may be taken.
    let sound = [clock, distance, wipe, slot_state, record_at]
        .iter()
        .all(|answer| answer.is_ok())
        && matches!(reserve, Ok(_) | Err(17))
        && matches!(search, Ok(_) | Err(21));
    if sound || answers == [Err(11); 7] {
        Ok(sound)
    } else {
        Err(format!("{:?}: the calls give {answers:?}", channel.state))
    }
}

/// Tries the table made of each number, and counts it.
fn each(
    pair: &mut Pair,
    tried: &mut usize,
    what: &str,
    sides: Sides,
    made: impl Fn(u32) -> Channel,
) -> Result<(), String> {
    for &(refusal, numbers) in sides {
        for &number in numbers {
            let sound = by_every_call(pair, &made(number))?;
            expect(&format!("{what} {number} sound"), refusal == 0, sound)?;
            *tried += 1;
        }
    }
    Ok(())
}

/// Every value of one of a record's octets, of which a range is good.
fn each_octet(
    pair: &mut Pair,
    tried: &mut usize,
    what: &str,
    good: std::ops::RangeInclusive<u32>,
    made: impl Fn(u8) -> Record,
) -> Result<(), String> {
    let (good, bad): (Vec<u32>, Vec<u32>) = (0..=255).partition(|octet| good.contains(octet));
    let sides: Sides = &[(0, &good), (11, &bad)];
    each(pair, tried, what, sides, |octet| {
        table(made(octet as u8), STATE, 2)
    })
}

fn state(pair: &mut Pair, tried: &mut usize) -> Result<(), String> {
    each(pair, tried, "octets", MEMORY, |octets| {
        let empty = State { count: 0, ..STATE };
        Channel::holding(&vec![0; octets as usize], empty)
    })?;
    each(pair, tried, "M1", M1, |m1| {
        table(T, State { m1, ..STATE }, 2)
    })?;
    let late = Record {
        first: LATEST_FIRST,
        ..T
    };
    let sides: Sides = &[
        (0, &[0, 1, LATEST - 1, LATEST]),
        (11, &[LATEST + 1, LATEST_FIRST, u32::MAX]),
    ];
    each(pair, tried, "now", sides, |now| {
        table(late, State { now, ..STATE }, 2)
    })?;
    // One record, and room for two.
    let sides: Sides = &[(0, &[1]), (11, &[0, 2, 3, 4, 256 + 1, 1 << 31, u32::MAX])];
    each(pair, tried, "count", sides, |count| {
        table(T, State { count, ..STATE }, 3)
    })?;
    each(pair, tried, "count of a full table", sides, |count| {
        table(T, State { count, ..STATE }, 1)
    })
}

fn records(pair: &mut Pair, tried: &mut usize) -> Result<(), String> {
    each(pair, tried, "station", STATION, |station| {
        table(Record { station, ..T }, STATE, 2)
    })?;
    let sides: Sides = &[
        (0, &[100, LATEST, LATEST_FIRST - 1, LATEST_FIRST]),
        (11, &[LATEST_FIRST + 1, 1 << 31, u32::MAX]),
    ];
    each(pair, tried, "first", sides, |first| {
        table(Record { first, ..T }, STATE, 2)
    })?;
    each_octet(pair, tried, "rate", 1..=60, |rate| Record { rate, ..T })?;
    each_octet(pair, tried, "superframes", 1..=3, |superframes| Record {
        superframes,
        ..T
    })?;
    each_octet(pair, tried, "length", 1..=32, |length| Record {
        length,
        ..T
    })?;
    each_octet(pair, tried, "far", 0..=1, |far| Record { far, ..T })?;
    let offsets: Vec<u32> = (0..=255).filter(|&octet| octet != 128).collect();
    each(pair, tried, "bo", &[(0, &offsets), (11, &[128])], |octet| {
        let bo = octet as u8 as i8;
        table(Record { bo, ..T }, STATE, 2)
    })?;
    for place in 0..3 {
        // Beside a bo, and beside none.
        for bo in [0, 10, -1] {
            each_octet(pair, tried, "a zero", 0..=0, |octet| {
                let mut zeros = [0; 3];
                zeros[place] = octet;
                Record { bo, zeros, ..T }
            })?;
        }
    }
    // T's last slot is 7609.
    let sides: Sides = &[(0, &[7608, 7609]), (11, &[7610, 7611, LATEST])];
    each(pair, tried, "T at clock", sides, |now| {
        table(T, State { now, ..STATE }, 2)
    })?;
    // With M1 60 and rate 7 it is 48 after the first, not 51.
    let seven = Record {
        rate: 7,
        superframes: 1,
        length: 1,
        ..T
    };
    let sides: Sides = &[(0, &[105, 152, 153]), (11, &[154, 155, 156, 157])];
    each(pair, tried, "rate 7 at clock", sides, |now| {
        table(
            seven,
            State {
                m1: 60,
                now,
                ..STATE
            },
            2,
        )
    })?;
    let places: Vec<u32> = (RECORD as u32..3 * RECORD as u32).collect();
    each(
        pair,
        tried,
        "a tail with octet",
        &[(11, &places)],
        |place| {
            let mut channel = table(T, STATE, 3);
            channel.memory.octets_mut()[place as usize] = 1 << (place % 8);
            channel
        },
    )
}

/// Where the further series begins, against slot 0: an M1, the superframes, the
/// first slot, and the lowest bo with which it doesn't begin below. Where that
/// is below the range, every bo will do.
const BEGINNINGS: [(u32, u8, u32, i8); 13] = [
    (60, 1, 0, -60),
    (60, 1, 1, -61),
    (60, 1, 40, -100),
    (60, 1, 66, -126),
    (60, 1, 67, -127),
    (60, 1, 68, -128),
    (60, 2, 0, -120),
    (60, 2, 6, -126),
    (60, 2, 7, -127),
    (60, 3, 0, -128),
    (120, 1, 0, -120),
    (120, 1, 7, -127),
    (120, 2, 0, -128),
];

/// Records of blocks of five slots, from slot 200 on: an M1, rate, superframes,
/// bo, and their last slot. The further series ends later or not.
const ENDS: [(u32, u8, u8, i8, u32); 20] = [
    (60, 1, 1, 0, 204),
    (60, 1, 1, -127, 204),
    (60, 1, 1, -61, 204),
    (60, 1, 1, -60, 204),
    (60, 1, 1, -59, 205),
    (60, 1, 1, -1, 263),
    (60, 1, 1, 1, 265),
    (60, 1, 1, 127, 391),
    (60, 1, 2, -127, 264),
    (60, 1, 2, -59, 265),
    (60, 7, 1, -60, 252),
    (60, 7, 1, -59, 253),
    (60, 7, 3, -127, 372),
    (120, 1, 1, -127, 204),
    (120, 1, 1, -119, 205),
    (120, 1, 3, -120, 444),
    (180, 1, 1, -127, 257),
    (4_500, 3, 2, 10, 12_214),
    (4_500, 3, 2, -127, 12_077),
    (15_360, 60, 3, 127, 61_515),
];

fn further_series(pair: &mut Pair, tried: &mut usize) -> Result<(), String> {
    for (m1, superframes, first, lowest) in BEGINNINGS {
        for bo in -127..=127 {
            let record = Record {
                first,
                superframes,
                bo,
                ..T
            };
            for now in [0, first] {
                let state = State { m1, now, count: 1 };
                let sound = by_every_call(pair, &table(record, state, 2))?;
                let what = format!("{record:?} at {state:?} sound");
                expect(&what, bo == 0 || bo >= lowest, sound)?;
                *tried += 1;
            }
        }
    }
    for (m1, rate, superframes, bo, last) in ENDS {
        let record = Record {
            first: 200,
            rate,
            superframes,
            bo,
            ..T
        };
        let what = format!("{record:?} in superframes of {m1} at");
        let sides: Sides = &[
            (0, &[0, 199, 200, 204, last - 1, last]),
            (11, &[last + 1, last + 2, LATEST]),
        ];
        each(pair, tried, &what, sides, |now| {
            table(record, State { m1, now, count: 1 }, 2)
        })?;
    }
    Ok(())
}

pub fn check(pair: &mut Pair) -> Verdict {
    let mut tried = 0;
    state(pair, &mut tried)?;
    records(pair, &mut tried)?;
    further_series(pair, &mut tried)?;
    Ok(format!("{tried} sides of edges, each by seven calls"))
}
