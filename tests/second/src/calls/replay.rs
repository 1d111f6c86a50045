//! The step of a replay: a log record on a table, against the paper and beside
//! the same calls made by hand.

use super::damage::{self, WAYS};
use super::edges::{table, STATE, T};
use super::expect;
use super::maps::never_wrong;
use super::near::{self, once_in};
use super::pair::{same_octets, Channel, Compared, Pair};
use crate::draw::Draw;
use crate::logs::{self, octets, uses, BUSY, FILLING};
use crate::paper::distance::Distance;
use crate::paper::log::{Entry, ENTRY, UNKNOWN_MILES};
use crate::paper::table::{Measure, Record, Reservation, State, Table, RECORD};
use crate::paper::Answer;
use crate::report::{hex, Verdict};

/// Log records in a table of two, what each gives, and the table after it, as
/// the paper's text has them.
const BY_HAND: [(&str, Answer, &str, &str); 30] = [
    // Clock to 100, then T, then T again at another distance.
    (
        "01 00 00 00  00 00 00 00  64 00 00 00  00 00 00 00  00 00 00 00  00 00 00 00",
        Ok(0),
        "00 00 00 00  00 00 00 00  00 00 00 00  00 00 00 00",
        "00 00 00 00  00 00 00 00  00 00 00 00  00 00 00 00",
    ),
    (
        "02 03 02 05  01 00 00 00  05 00 00 00  FF FF FF FF  96 00 00 00  00 00 00 00",
        Ok(0),
        "01 00 00 00  69 00 00 00  03 02 05 00  00 00 00 00",
        "00 00 00 00  00 00 00 00  00 00 00 00  00 00 00 00",
    ),
    (
        "02 03 02 05  01 00 00 00  05 00 00 00  C8 00 00 00  96 00 00 00  00 00 00 00",
        Err(16),
        "01 00 00 00  69 00 00 00  03 02 05 00  00 00 00 00",
        "00 00 00 00  00 00 00 00  00 00 00 00  00 00 00 00",
    ),
    // 150 miles at limit 150, 149, 4096, 4097, unknown.
    (
        "03 00 00 00  01 00 00 00  00 00 00 00  96 00 00 00  96 00 00 00  00 00 00 00",
        Ok(1),
        "01 00 00 00  69 00 00 00  03 02 05 01  00 00 00 00",
        "00 00 00 00  00 00 00 00  00 00 00 00  00 00 00 00",
    ),
    (
        "03 00 00 00  01 00 00 00  00 00 00 00  95 00 00 00  96 00 00 00  00 00 00 00",
        Ok(1),
        "01 00 00 00  69 00 00 00  03 02 05 00  00 00 00 00",
        "00 00 00 00  00 00 00 00  00 00 00 00  00 00 00 00",
    ),
    (
        "03 00 00 00  01 00 00 00  00 00 00 00  00 10 00 00  96 00 00 00  00 00 00 00",
        Ok(1),
        "01 00 00 00  69 00 00 00  03 02 05 01  00 00 00 00",
        "00 00 00 00  00 00 00 00  00 00 00 00  00 00 00 00",
    ),
    (
        "03 00 00 00  01 00 00 00  00 00 00 00  01 10 00 00  96 00 00 00  00 00 00 00",
        Ok(1),
        "01 00 00 00  69 00 00 00  03 02 05 00  00 00 00 00",
        "00 00 00 00  00 00 00 00  00 00 00 00  00 00 00 00",
    ),
    // Station 67305985, rate 60, one superframe, length 32, bs 255, 0 miles at
    // limit 0: far. Then one more than the table has room for.
    (
        "02 3C 01 20  01 02 03 04  FF 00 00 00  00 00 00 00  00 00 00 00  00 00 00 00",
        Ok(0),
        "01 00 00 00  69 00 00 00  03 02 05 00  00 00 00 00",
        "01 02 03 04  63 01 00 00  3C 01 20 01  00 00 00 00",
    ),
    (
        "02 01 01 01  03 00 00 00  02 00 00 00  FF FF FF FF  96 00 00 00  00 00 00 00",
        Err(17),
        "01 00 00 00  69 00 00 00  03 02 05 00  00 00 00 00",
        "01 02 03 04  63 01 00 00  3C 01 20 01  00 00 00 00",
    ),
    (
        "03 00 00 00  01 02 03 04  00 00 00 00  FF FF FF FF  00 00 00 00  00 00 00 00",
        Ok(1),
        "01 00 00 00  69 00 00 00  03 02 05 00  00 00 00 00",
        "01 02 03 04  63 01 00 00  3C 01 20 00  00 00 00 00",
    ),
    // A limit of 4097, a clock behind now, one above the last slot, a wipe of
    // no address, and no operation.
    (
        "03 00 00 00  01 00 00 00  00 00 00 00  00 00 00 00  01 10 00 00  00 00 00 00",
        Err(18),
        "01 00 00 00  69 00 00 00  03 02 05 00  00 00 00 00",
        "01 02 03 04  63 01 00 00  3C 01 20 00  00 00 00 00",
    ),
    (
        "01 00 00 00  00 00 00 00  63 00 00 00  00 00 00 00  00 00 00 00  00 00 00 00",
        Err(12),
        "01 00 00 00  69 00 00 00  03 02 05 00  00 00 00 00",
        "01 02 03 04  63 01 00 00  3C 01 20 00  00 00 00 00",
    ),
    (
        "01 00 00 00  00 00 00 00  01 CA 9A 3B  00 00 00 00  00 00 00 00  00 00 00 00",
        Err(13),
        "01 00 00 00  69 00 00 00  03 02 05 00  00 00 00 00",
        "01 02 03 04  63 01 00 00  3C 01 20 00  00 00 00 00",
    ),
    (
        "04 00 00 00  00 00 00 08  00 00 00 00  00 00 00 00  00 00 00 00  00 00 00 00",
        Err(8),
        "01 00 00 00  69 00 00 00  03 02 05 00  00 00 00 00",
        "01 02 03 04  63 01 00 00  3C 01 20 00  00 00 00 00",
    ),
    (
        "00 00 00 00  00 00 00 00  00 00 00 00  00 00 00 00  00 00 00 00  00 00 00 00",
        Err(23),
        "01 00 00 00  69 00 00 00  03 02 05 00  00 00 00 00",
        "01 02 03 04  63 01 00 00  3C 01 20 00  00 00 00 00",
    ),
    // Station 1 wiped; the other's last slot is 4811.
    (
        "04 00 00 00  01 00 00 00  00 00 00 00  00 00 00 00  00 00 00 00  00 00 00 00",
        Ok(1),
        "01 02 03 04  63 01 00 00  3C 01 20 00  00 00 00 00",
        "00 00 00 00  00 00 00 00  00 00 00 00  00 00 00 00",
    ),
    (
        "01 00 00 00  00 00 00 00  CB 12 00 00  00 00 00 00  00 00 00 00  00 00 00 00",
        Ok(0),
        "01 02 03 04  63 01 00 00  3C 01 20 00  00 00 00 00",
        "00 00 00 00  00 00 00 00  00 00 00 00  00 00 00 00",
    ),
    (
        "01 00 00 00  00 00 00 00  CC 12 00 00  00 00 00 00  00 00 00 00  00 00 00 00",
        Ok(1),
        "00 00 00 00  00 00 00 00  00 00 00 00  00 00 00 00",
        "00 00 00 00  00 00 00 00  00 00 00 00  00 00 00 00",
    ),
    // T with bo 10, then again, with bo 128, and with one of three zeros not 0.
    (
        "02 03 02 05  01 00 00 00  05 00 00 00  FF FF FF FF  96 00 00 00  0A 00 00 00",
        Ok(0),
        "01 00 00 00  D1 12 00 00  03 02 05 00  0A 00 00 00",
        "00 00 00 00  00 00 00 00  00 00 00 00  00 00 00 00",
    ),
    (
        "02 03 02 05  01 00 00 00  05 00 00 00  C8 00 00 00  96 00 00 00  0A 00 00 00",
        Err(16),
        "01 00 00 00  D1 12 00 00  03 02 05 00  0A 00 00 00",
        "00 00 00 00  00 00 00 00  00 00 00 00  00 00 00 00",
    ),
    (
        "02 03 02 05  01 00 00 00  05 00 00 00  FF FF FF FF  96 00 00 00  80 00 00 00",
        Err(6),
        "01 00 00 00  D1 12 00 00  03 02 05 00  0A 00 00 00",
        "00 00 00 00  00 00 00 00  00 00 00 00  00 00 00 00",
    ),
    (
        "02 03 02 05  01 00 00 00  05 00 00 00  FF FF FF FF  96 00 00 00  0A 01 00 00",
        Err(23),
        "01 00 00 00  D1 12 00 00  03 02 05 00  0A 00 00 00",
        "00 00 00 00  00 00 00 00  00 00 00 00  00 00 00 00",
    ),
    // bs 1 comes before it, a limit of 4097 after it; a clock, a distance and a
    // wipe have none.
    (
        "02 03 02 05  01 00 00 00  01 00 00 00  FF FF FF FF  96 00 00 00  80 00 00 00",
        Err(5),
        "01 00 00 00  D1 12 00 00  03 02 05 00  0A 00 00 00",
        "00 00 00 00  00 00 00 00  00 00 00 00  00 00 00 00",
    ),
    (
        "02 03 02 05  01 00 00 00  05 00 00 00  FF FF FF FF  01 10 00 00  80 00 00 00",
        Err(6),
        "01 00 00 00  D1 12 00 00  03 02 05 00  0A 00 00 00",
        "00 00 00 00  00 00 00 00  00 00 00 00  00 00 00 00",
    ),
    (
        "01 00 00 00  00 00 00 00  CC 12 00 00  00 00 00 00  00 00 00 00  0A 00 00 00",
        Err(23),
        "01 00 00 00  D1 12 00 00  03 02 05 00  0A 00 00 00",
        "00 00 00 00  00 00 00 00  00 00 00 00  00 00 00 00",
    ),
    (
        "03 00 00 00  01 00 00 00  00 00 00 00  96 00 00 00  96 00 00 00  0A 00 00 00",
        Err(23),
        "01 00 00 00  D1 12 00 00  03 02 05 00  0A 00 00 00",
        "00 00 00 00  00 00 00 00  00 00 00 00  00 00 00 00",
    ),
    (
        "04 00 00 00  01 00 00 00  00 00 00 00  00 00 00 00  00 00 00 00  0A 00 00 00",
        Err(23),
        "01 00 00 00  D1 12 00 00  03 02 05 00  0A 00 00 00",
        "00 00 00 00  00 00 00 00  00 00 00 00  00 00 00 00",
    ),
    // Station 2 with bo -127. Its last slot is 9187, T's 16831.
    (
        "02 01 01 01  02 00 00 00  02 00 00 00  FF FF FF FF  96 00 00 00  81 00 00 00",
        Ok(0),
        "01 00 00 00  D1 12 00 00  03 02 05 00  0A 00 00 00",
        "02 00 00 00  CE 12 00 00  01 01 01 00  81 00 00 00",
    ),
    (
        "01 00 00 00  00 00 00 00  BF 41 00 00  00 00 00 00  00 00 00 00  00 00 00 00",
        Ok(1),
        "01 00 00 00  D1 12 00 00  03 02 05 00  0A 00 00 00",
        "00 00 00 00  00 00 00 00  00 00 00 00  00 00 00 00",
    ),
    (
        "01 00 00 00  00 00 00 00  C0 41 00 00  00 00 00 00  00 00 00 00  00 00 00 00",
        Ok(1),
        "00 00 00 00  00 00 00 00  00 00 00 00  00 00 00 00",
        "00 00 00 00  00 00 00 00  00 00 00 00  00 00 00 00",
    ),
];

pub fn by_hand(pair: &mut Pair) -> Verdict {
    let mut channel = Channel::unopened(&[0xEE; 2 * RECORD], 4500);
    expect("open", Ok(0), pair.open(&mut channel, 4500)?)?;
    for (entry, answer, first, second) in BY_HAND {
        expect(entry, answer, pair.step(&mut channel, &octets(entry))?)?;
        let memory = [octets(first), octets(second)].concat();
        same_octets("memory", &memory, channel.memory.octets())
            .map_err(|difference| format!("{entry}: {difference}"))?;
    }
    let end = State {
        m1: 4500,
        now: 16_832,
        count: 0,
    };
    expect("the end", end, channel.state)?;
    Ok(format!(
        "{} log records in a table of two, each octet as the paper has it",
        BY_HAND.len()
    ))
}

/// A record of each operation that a table of T accepts.
fn accepted() -> [Entry; 4] {
    [
        logs::clock(200),
        Entry {
            rate: 3,
            superframes: 2,
            length: 5,
            distance: 200,
            bo: -3,
            ..logs::reserve(2, 5)
        },
        logs::distance(1, 200, 150),
        logs::wipe(1),
    ]
}

fn sound() -> Channel {
    table(T, STATE, 3)
}

fn unsound() -> Channel {
    table(Record { far: 2, ..T }, STATE, 3)
}

/// A log record, good or not, on a table that is sound and on one that isn't:
/// whether it is 23 is seen before the table is.
fn on_both(pair: &mut Pair, octets: &[u8], good: bool) -> Result<(), String> {
    let what = hex(octets);
    let answer = pair.step(&mut sound(), octets)?;
    expect(&format!("{what} is 23"), !good, answer == Err(23))?;
    let answer = pair.step(&mut unsound(), octets)?;
    expect(&what, Err(if good { 11 } else { 23 }), answer)
}

/// Every value of every octet but the operation's, and all that are not used
/// together.
pub fn every_octet(pair: &mut Pair) -> Verdict {
    let mut draw = Draw::from_seed(1001);
    let mut times = [0; 2];
    for entry in accepted() {
        let unused = || (1..ENTRY).filter(|&place| !uses(entry.operation, place));
        for place in 1..ENTRY {
            for octet in 0..=255 {
                let mut octets = entry.octets();
                octets[place] = octet;
                let good = uses(entry.operation, place) || octet == 0;
                on_both(pair, &octets, good)?;
                times[usize::from(good)] += 1;
            }
        }
        for octet in [1, 0x80, 0xFF] {
            let mut octets = entry.octets();
            unused().for_each(|place| octets[place] = octet);
            on_both(pair, &octets, false)?;
        }
        for _ in 0..200 {
            let mut octets = entry.octets();
            unused().for_each(|place| octets[place] = draw.octet());
            on_both(pair, &octets, false)?;
        }
    }
    // A clock doesn't use 7 + 8 octets before the closing ones, a distance
    // 3 + 4, a wipe 3 + 12, and none of them uses those four; a reserve doesn't
    // use three; 0 is good in each.
    let [bad, good] = times;
    let unused = (7 + 8 + 4) + 3 + (3 + 4 + 4) + (3 + 12 + 4);
    expect("unused octets", unused * 255, bad)?;
    Ok(format!(
        "0 to 255 in octets 1 to 23 of each operation: {good} good, {bad} not; all unused ones \
         together; on a table that isn't sound too"
    ))
}

/// Every bo of a reserve, as the record then has it: T's at M1 4500, and at M1 60
/// from bs 2 on, where the further series would begin before now below -62.
pub fn block_offsets(pair: &mut Pair) -> Verdict {
    let mut refused = [0; 2];
    for octet in 0..=255 {
        let bo = octet as i8;
        let long = Entry {
            bo,
            ..accepted()[1]
        };
        let short = Entry {
            bo,
            ..logs::reserve(2, 2)
        };
        let now = STATE.now;
        for (entry, m1, lowest) in [(long, 4500, -127), (short, 60, -62)] {
            let state = State { m1, now, count: 0 };
            let mut channel = Channel::holding(&[0; RECORD], state);
            let expected = match bo {
                -128 => Err(6),
                bo if bo < lowest => Err(24),
                _ => Ok(0),
            };
            let octets = entry.octets();
            let what = format!("{}, M1 {m1}", hex(&octets));
            expect(&what, expected, pair.step(&mut channel, &octets)?)?;
            let stored = match expected {
                Ok(_) => [octet, 0, 0, 0],
                Err(_) => [0; 4],
            };
            expect(&what, &stored[..], &channel.memory.octets()[12..])?;
            refused[0] += u32::from(expected == Err(6));
            refused[1] += u32::from(expected == Err(24));
        }
    }
    expect("refused 6 and 24", [2, 65], refused)?;
    Ok(
        "0 to 255 in octet 20 of a reserve: the record's, 128 refused 6; at M1 60 below -62 24"
            .to_string(),
    )
}

/// Every number of an operation, with the fields of each operation, with none,
/// with all and with any.
pub fn operations(pair: &mut Pair) -> Verdict {
    let mut draw = Draw::from_seed(1002);
    let mut other = 0;
    for operation in 0..=255 {
        let mut fields: Vec<Vec<u8>> = accepted().iter().map(Entry::octets).collect();
        fields.push(vec![0; ENTRY]);
        fields.push(vec![0xFF; ENTRY]);
        fields.push((0..ENTRY).map(|_| draw.octet()).collect());
        for mut octets in fields {
            octets[0] = operation;
            if (1..=4).contains(&operation) {
                let _ = pair.step(&mut sound(), &octets)?;
                let _ = pair.step(&mut unsound(), &octets)?;
            } else {
                on_both(pair, &octets, false)?;
                other += 1;
            }
        }
    }
    Ok(format!(
        "0 to 255, each with seven sets of fields: {other} of no operation, all refused 23"
    ))
}

/// Longer than 64 octets some lengths would be 24 again if they were counted
/// in 8 or 16 bits.
pub fn lengths(pair: &mut Pair) -> Verdict {
    let lengths: Vec<usize> = (0..=64).chain([240, 256 + 24, 65_536 + 24]).collect();
    for entry in accepted() {
        for &length in &lengths {
            // Zeros behind it, ones, and the same log record again.
            for behind in [vec![0], vec![0xFF], entry.octets()] {
                let octets: Vec<u8> = entry
                    .octets()
                    .into_iter()
                    .chain(behind.into_iter().cycle())
                    .take(length)
                    .collect();
                on_both(pair, &octets, length == ENTRY)?;
            }
            let octets = vec![entry.operation; length];
            on_both(pair, &octets, false)?;
            // Memory of no right size, and none.
            for size in [0, RECORD - 1, 2_049 * RECORD] {
                let mut channel = Channel::holding(&vec![0; size], State { count: 0, ..STATE });
                let octets = &entry.octets()[..length.min(ENTRY)];
                let refusal = if length < ENTRY { 23 } else { 11 };
                expect("odd memory", Err(refusal), pair.step(&mut channel, octets)?)?;
            }
        }
    }
    Ok("0 to 64 octets and more, of each operation: 24 are taken, all others are 23".to_string())
}

/// Whether whole miles are far, and none where the limit is refused, as the
/// paper's sentence has it, in whole numbers.
fn far(distance: u32, limit: u32) -> Option<u8> {
    let range = distance != UNKNOWN_MILES;
    (limit <= 4_096).then_some((range && limit <= distance && distance <= 4_096).into())
}

/// Tells a reserve and a distance of the miles; the far octet of both must be
/// what the sentence says.
fn tell(pair: &mut Pair, distance: u32, limit: u32) -> Result<Option<u8>, String> {
    let expected = far(distance, limit);
    let what = format!("{distance} miles, limit {limit}");
    let octet = |channel: &Channel, record: usize| channel.memory.octets()[record * RECORD + 11];
    for before in [0, 1] {
        let mut channel = table(Record { far: before, ..T }, STATE, 2);
        let entry = logs::distance(1, distance, limit);
        let answer = pair.step(&mut channel, &entry.octets())?;
        expect(&what, expected.map_or(Err(18), |_| Ok(1)), answer)?;
        expect(&what, expected.unwrap_or(before), octet(&channel, 0))?;
    }
    let mut channel = table(T, STATE, 2);
    let entry = Entry {
        distance,
        limit,
        ..logs::reserve(2, 5)
    };
    let answer = pair.step(&mut channel, &entry.octets())?;
    expect(&what, expected.map_or(Err(18), |_| Ok(0)), answer)?;
    expect(&what, expected.unwrap_or(0), octet(&channel, 1))?;
    Ok(expected)
}

pub fn whole_miles(pair: &mut Pair) -> Verdict {
    let edges = [
        0,
        1,
        149,
        150,
        151,
        4_095,
        4_096,
        4_097,
        4_098,
        65_536 + 150,
        1 << 24,
        (1 << 24) + 1,
        (1 << 31) - 1,
        1 << 31,
        (1 << 31) + 150,
        u32::MAX - 1,
        u32::MAX,
    ];
    let mut seen = [0; 3];
    let mut count = |far: Option<u8>| seen[far.map_or(2, usize::from)] += 1;
    for distance in edges {
        for limit in edges {
            count(tell(pair, distance, limit)?);
        }
    }
    // Both sides of every limit there is, and of the last.
    for limit in 0..=4_097_u32 {
        for distance in limit.saturating_sub(1)..=limit + 1 {
            count(tell(pair, distance, limit)?);
        }
    }
    // All ones are a distance only where one is used.
    for entry in [logs::clock(200), logs::wipe(1)] {
        let unknown = Entry {
            distance: UNKNOWN_MILES,
            ..entry
        };
        on_both(pair, &unknown.octets(), false)?;
    }
    let [near, far, refused] = seen;
    Ok(format!(
        "both sides of each limit 0 to 4096, and edges up to 4294967295: {near} near, {far} far, \
         {refused} limits refused"
    ))
}

/// Each way to spoil a table: a good log record is refused 11, one that isn't
/// is refused 23.
pub fn damaged(pair: &mut Pair) -> Verdict {
    let mut draw = Draw::from_seed(1003);
    const ROUNDS: usize = 8_000;
    for round in 0..ROUNDS {
        let count = match round % 1_000 {
            0 => 2_047,
            _ => 1 + draw.below(4),
        };
        let channel = near::table(&mut draw, count + 1, count);
        let table = Table::held(channel.memory.octets(), channel.state)
            .map_err(|refusal| format!("our own table is refused {refusal}"))?;
        let entry = logs::entry(&mut draw, &table, &[1, 2, 3, 4]);
        let bad = logs::damaged(&mut draw, &entry);
        let way = WAYS[round % WAYS.len()];
        let mut spoilt = damage::spoil(&mut draw, &channel, way);
        let short = draw.below(ENTRY as u32) as usize;
        for (octets, refusal) in [
            (&entry.octets()[..], 11),
            (&bad, 23),
            (&entry.octets()[..short], 23),
        ] {
            expect(way, Err(refusal), pair.step(&mut spoilt, octets)?)?;
        }
    }
    Ok(format!(
        "{ROUNDS} tables, spoilt in {} ways: 23 before 11",
        WAYS.len()
    ))
}

/// A log record with little right about it.
fn any_octets(draw: &mut Draw) -> Vec<u8> {
    let mut octets: Vec<u8> = (0..ENTRY).map(|_| draw.octet()).collect();
    let kind = draw.below(4);
    if kind > 0 {
        octets[0] = 1 + draw.below(4) as u8;
    }
    if kind > 1 {
        // What isn't used is 0, so that the numbers of the others are met.
        let operation = octets[0];
        for (place, octet) in octets.iter_mut().enumerate() {
            if !uses(operation, place) {
                *octet = 0;
            }
        }
    }
    if once_in(draw, 16) {
        octets.resize(draw.below(64) as usize, 0);
    }
    octets
}

/// Any octets as log records on any octets as tables.
pub fn random(pair: &mut Pair) -> Verdict {
    let mut draw = Draw::from_seed(1004);
    let mut answers = [0; 3];
    let mut step = |pair: &mut Pair, mut channel: Channel, octets: Vec<u8>| {
        let answer = pair.step(&mut channel, &octets)?;
        answers[match answer {
            Ok(_) => 0,
            Err(23) => 1,
            Err(_) => 2,
        }] += 1;
        Ok::<(), String>(())
    };
    for round in 0..40_000 {
        let channel = damage::odd(&mut draw, round);
        step(pair, channel.clone(), any_octets(&mut draw))?;
        let table = Table::held(channel.memory.octets(), channel.state);
        if let Ok(table) = table {
            let entry = logs::entry(&mut draw, &table, &BUSY);
            step(pair, channel, entry.octets())?;
        }
        let count = draw.below(4);
        let channel = near::table(&mut draw, count.max(1), count);
        step(pair, channel, any_octets(&mut draw))?;
    }
    for channel in damage::oversized() {
        for _ in 0..20 {
            step(pair, channel.clone(), any_octets(&mut draw))?;
        }
    }
    let [accepted, no_record, refused] = answers;
    if answers.iter().any(|&times| times < 1_000) {
        return Err(format!("too few of some answer: {answers:?}"));
    }
    Ok(format!(
        "{accepted} accepted, {no_record} no log record, {refused} refused by the table"
    ))
}

/// The call that a host makes by hand for a log record.
fn call(pair: &mut Pair, channel: &mut Channel, entry: &Entry) -> Compared {
    let distance = Distance {
        kind: u32::from(entry.distance != UNKNOWN_MILES),
        a: entry.distance.into(),
        b: f64::NAN,
    };
    let limit = f64::from(entry.limit);
    match entry.operation {
        1 => pair.clock(channel, entry.slot),
        2 => {
            let asked = Reservation {
                station: entry.station,
                rate: entry.rate.into(),
                superframes: entry.superframes.into(),
                bs: entry.slot,
                length: entry.length.into(),
                bo: entry.bo.into(),
                distance,
                limit,
            };
            pair.reserve(channel, &asked)
        }
        3 => {
            let told = Measure {
                station: entry.station,
                distance,
                limit,
            };
            pair.distance(channel, &told)
        }
        _ => pair.wipe(channel, entry.station),
    }
}

/// What came up beside each other.
#[derive(Default)]
struct Seen {
    accepted: u64,
    refused: u64,
    /// Log records that no call stands for.
    no_record: u64,
    full: u64,
}

/// Two tables that are the same: each log record is a step on one and a call
/// by hand on the other, by turns, and they stay the same.
fn history(
    pair: &mut Pair,
    draw: &mut Draw,
    channel: Channel,
    steps: u32,
    operations: &[u8],
    seen: &mut Seen,
) -> Result<(), String> {
    let before = pair.counts.clone();
    let mut twins = [channel.clone(), channel];
    for _ in 0..steps {
        let [one, other] = &mut twins;
        let table = Table::held(one.memory.octets(), one.state)
            .map_err(|refusal| format!("a history left a table refused {refusal}"))?;
        seen.full += u64::from(table.records.len() == table.capacity);
        let mut entry = logs::entry(draw, &table, operations);
        if once_in(draw, 8) {
            logs::spoil(draw, &mut entry, table.state());
        }
        if once_in(draw, 10) {
            let answer = pair.step(one, &logs::damaged(draw, &entry))?;
            expect("no record of a log", Err(23), answer)?;
            seen.no_record += 1;
        } else {
            let (stepped, by_hand) = match draw.below(2) {
                0 => (one, other),
                _ => (other, one),
            };
            let expected = call(pair, by_hand, &entry)?;
            let given = pair.step(stepped, &entry.octets())?;
            expect(&format!("{entry:?}"), expected, given)?;
            let times = match given {
                Ok(_) => &mut seen.accepted,
                Err(_) => &mut seen.refused,
            };
            *times += 1;
        }
        let [one, other] = &twins;
        expect("state", one.state, other.state)?;
        same_octets("memory", one.memory.octets(), other.memory.octets())?;
        same_octets("map", one.map.octets(), other.map.octets())?;
    }
    never_wrong(pair, &before)
}

/// Small tables from their opening on, larger ones as they are, and full ones.
pub fn twins(pair: &mut Pair) -> Verdict {
    let mut draw = Draw::from_seed(1005);
    let mut seen = Seen::default();
    for _ in 0..6_000 {
        let capacity = draw.one_of(&[1, 2, 3, 5, 8]);
        let m1 = near::m1(&mut draw);
        let mut channel = Channel::unopened(&vec![0xEE; capacity * RECORD], m1);
        expect("open", Ok(0), pair.open(&mut channel, m1)?)?;
        history(pair, &mut draw, channel, 40, &FILLING, &mut seen)?;
    }
    for _ in 0..200 {
        let count = draw.below(65);
        let channel = near::table(&mut draw, 64, count);
        history(pair, &mut draw, channel, 60, &FILLING, &mut seen)?;
    }
    for count in [0, 1, 2_000, 2_047, 2_048] {
        let channel = near::table(&mut draw, 2_048, count);
        history(pair, &mut draw, channel, 200, &BUSY, &mut seen)?;
    }
    let Seen {
        accepted,
        refused,
        no_record,
        full,
    } = seen;
    let told = format!(
        "{accepted} accepted and {refused} refused by both, {no_record} no log record, {full} on \
         a full table: same answers, octets and state"
    );
    if [accepted, refused, no_record, full]
        .iter()
        .any(|&n| n < 1_000)
    {
        return Err(format!("too little of something: {told}"));
    }
    Ok(told)
}
