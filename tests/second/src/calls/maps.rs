//! The map: what it is, which ones are refused, and what the calls leave of it.

use super::expect;
use super::marked::T;
use super::near::{self, once_in, FAR};
use super::pair::{same_octets, Call, Channel, Counts, Pair};
use crate::archive::Lent;
use crate::draw::Draw;
use crate::logs;
use crate::paper::distance::{Distance, UNKNOWN};
use crate::paper::log::Entry;
use crate::paper::search::Wish;
use crate::paper::table::{Measure, Record, Reservation, State, Table, RECORD};
use crate::paper::{Answer, LATEST, STATIONS};
use crate::report::Verdict;

/// The most that can be wanted, and the longest block.
const MOST: u32 = 16;
const LONGEST: u32 = 32;

/// Superframes to try: the shortest ones, the usual one and the longest.
const M1S: [u32; 5] = [60, 120, 180, 4_500, 15_360];

/// A map, or what it has to be, by the lengths of its runs.
fn of_runs(runs: &[(u8, usize)]) -> Vec<u8> {
    runs.iter()
        .flat_map(|&(state, slots)| std::iter::repeat_n(state, slots))
        .collect()
}

fn expect_map(what: &str, channel: &Channel, runs: &[(u8, usize)]) -> Result<(), String> {
    same_octets("map", &of_runs(runs), channel.map.octets())
        .map_err(|difference| format!("{what}: {difference}"))
}

/// Record T: its first three blocks lie in the map, and later its fourth too.
fn record_t(pair: &mut Pair) -> Result<(), String> {
    let channel = &mut Channel::unopened(&[0xFF; 2 * RECORD], 4500);
    expect("open", Ok(0), pair.open(channel, 4500)?)?;
    expect_map("open", channel, &[(0, 4500)])?;
    expect("clock", Ok(0), pair.clock(channel, 100)?)?;
    expect_map("clock", channel, &[(0, 4500)])?;
    let with = |state| {
        let gap = (0, 1495);
        let block = (state, 5);
        [(0, 5), block, gap, block, gap, block, (0, 1490)]
    };
    expect("T", Ok(0), pair.reserve(channel, &T)?)?;
    expect_map("T", channel, &with(2))?;
    let far = Measure {
        station: 1,
        distance: FAR,
        limit: 150.0,
    };
    expect("T far", Ok(1), pair.distance(channel, &far)?)?;
    expect_map("T far", channel, &with(1))?;
    // A near record of one slot in T's first block, far though T is.
    let one = Reservation {
        station: 2,
        rate: 1,
        superframes: 1,
        bs: 7,
        length: 1,
        ..T
    };
    expect("a slot", Ok(0), pair.reserve(channel, &one)?)?;
    let [before, _, rest @ ..] = with(1);
    let runs = [&[before, (1, 2), (2, 1), (1, 2)], &rest[..]].concat();
    expect_map("a slot", channel, &runs)?;
    expect("the slot gone", Ok(1), pair.wipe(channel, 2)?)?;
    expect_map("the slot gone", channel, &with(1))?;
    // From 107 to 4606: the first block's last three slots, the fourth's first
    // two.
    let moved = [
        (1, 3),
        (0, 1495),
        (1, 5),
        (0, 1495),
        (1, 5),
        (0, 1495),
        (1, 2),
    ];
    expect("clock 107", Ok(0), pair.clock(channel, 107)?)?;
    expect_map("clock 107", channel, &moved)?;
    expect("T refused", Err(12), pair.clock(channel, 106)?)?;
    expect_map("T refused", channel, &moved)?;
    expect("T gone", Ok(1), pair.clock(channel, 7610)?)?;
    expect_map("T gone", channel, &[(0, 4500)])
}

/// The map at the latest slot, of slots that can no longer be asked about, and
/// a further series that lies in it before the first.
fn at_the_end(pair: &mut Pair) -> Result<(), String> {
    let channel = &mut Channel::unopened(&[0xFF; 2 * RECORD], 60);
    expect("open", Ok(0), pair.open(channel, 60)?)?;
    expect("clock", Ok(0), pair.clock(channel, LATEST)?)?;
    let asked = Reservation {
        rate: 1,
        superframes: 1,
        bs: 2,
        ..T
    };
    expect("the end", Ok(0), pair.reserve(channel, &asked)?)?;
    expect_map("the end", channel, &[(0, 2), (2, 5), (0, 53)])?;
    let before = Reservation {
        station: 2,
        length: 1,
        bo: -62,
        distance: FAR,
        ..asked
    };
    expect("bo -62", Ok(0), pair.reserve(channel, &before)?)?;
    let runs = [(1, 1), (0, 1), (2, 5), (0, 53)];
    expect_map("bo -62", channel, &runs)
}

/// As the paper's text has them.
pub fn worked(pair: &mut Pair) -> Verdict {
    record_t(pair)?;
    at_the_end(pair)?;
    Ok("record T's, near and far, after each kind of call; one past 1000000000".to_string())
}

/// Whether a map is right by each call that demands it, asked for what is
/// accepted beside a right one, each on a copy. All have to agree. What takes no
/// map is accepted in any case.
fn is_right(pair: &mut Pair, channel: &Channel) -> Result<bool, String> {
    let State { m1, now, .. } = channel.state;
    let copy = || channel.clone();
    let asked = Reservation {
        station: 77,
        rate: 2,
        superframes: 1,
        bs: 9,
        length: 3,
        ..T
    };
    let told = Measure {
        station: 1,
        distance: UNKNOWN,
        limit: 150.0,
    };
    let search = |pair: &mut Pair, lo: u32| {
        let wish = Wish {
            lo,
            hi: lo,
            length: 1,
            wanted: 1,
        };
        pair.search(&mut copy(), &wish, &mut Lent::holding(&[0xEE; 4]))
    };
    // In the map, and behind it, if there is anything that can be asked for.
    let found = [search(pair, now)?, search(pair, (now + m1).min(LATEST))?];
    let step = |pair: &mut Pair, entry: Entry| pair.step(&mut copy(), &entry.octets());
    let reserved = [
        pair.reserve(&mut copy(), &asked)?,
        step(pair, logs::reserve_as(&asked, 0, 150))?,
    ];
    let changed = [
        pair.clock(&mut copy(), now)?,
        pair.distance(&mut copy(), &told)?,
        pair.wipe(&mut copy(), 1)?,
        step(pair, logs::clock(now))?,
        step(pair, logs::distance(1, 0, 150))?,
        step(pair, logs::wipe(1))?,
    ];
    let accepted = |answer: &Answer| answer.is_ok();
    let without = [
        pair.slot_state(&mut copy(), now)?,
        pair.record_at(&mut copy(), 0)?.map(|_| 0),
    ];
    if !without.iter().all(accepted) {
        return Err(format!("what takes no map gives {without:?}"));
    }
    let right = changed.iter().all(accepted)
        && reserved
            .iter()
            .all(|answer| matches!(answer, Ok(_) | Err(17)))
        && found.iter().all(|answer| matches!(answer, Ok(_) | Err(21)));
    let wrong = (found.iter().chain(&reserved).chain(&changed)).all(|answer| *answer == Err(25));
    if right == wrong {
        let state = channel.state;
        return Err(format!(
            "{state:?}: searches {found:?}, reserves {reserved:?}, the others {changed:?}"
        ));
    }
    Ok(right)
}

/// The same table with another map.
fn beside(channel: &Channel, map: &[u8]) -> Channel {
    Channel::lending(channel.memory.octets(), map, channel.state)
}

fn expect_right(pair: &mut Pair, channel: &Channel, map: &[u8]) -> Result<(), String> {
    let given = is_right(pair, &beside(channel, map))?;
    expect("a right map", true, given)
}

fn expect_wrong(pair: &mut Pair, what: &str, channel: &Channel, map: &[u8]) -> Result<(), String> {
    let given = is_right(pair, &beside(channel, map))?;
    expect(&format!("{what}, right"), false, given)
}

/// A sound table of an M1, with a few records.
fn table(draw: &mut Draw, m1: u32, most: u32) -> Channel {
    let count = draw.below(most + 1);
    let now = near::now(draw);
    near::table_of(draw, m1, now, (count + 1).max(2), count)
}

/// Each octet of small maps with every other value, and octets of larger ones
/// with values of each kind.
pub fn octets(pair: &mut Pair) -> Verdict {
    let mut draw = Draw::from_seed(1201);
    let mut spoilt = [0_u64; 4];
    let mut spoil = |pair: &mut Pair, channel: &Channel, place: usize, value: u8| {
        let mut map = channel.map.octets().to_vec();
        let right = std::mem::replace(&mut map[place], value);
        spoilt[usize::from(value.min(3))] += 1;
        let what = format!("{right} as {value} at place {place}");
        expect_wrong(pair, &what, channel, &map)
    };
    // Near and far, with gaps: slots of each state in one map.
    let mixed = |far| Record {
        station: 3 + u32::from(far),
        first: 105 + 4 * u32::from(far),
        rate: 7,
        superframes: 2,
        length: 3,
        far,
        bo: 2,
        zeros: [0; 3],
    };
    let memory = [mixed(0).octets(), mixed(1).octets(), vec![0; RECORD]].concat();
    let state = State {
        m1: 60,
        now: 100,
        count: 2,
    };
    let channel = Channel::holding(&memory, state);
    let states: Vec<usize> = (0..3)
        .map(|state| {
            channel
                .map
                .octets()
                .iter()
                .filter(|&&slot| slot == state)
                .count()
        })
        .collect();
    if states.contains(&0) {
        return Err(format!("a map of {states:?} slots"));
    }
    expect_right(pair, &channel, channel.map.octets())?;
    for place in 0..60 {
        for value in (0..=255).filter(|&value| value != channel.map.octets()[place]) {
            spoil(pair, &channel, place, value)?;
        }
    }
    for m1 in M1S.into_iter().cycle().take(400) {
        let channel = table(&mut draw, m1, 8);
        expect_right(pair, &channel, channel.map.octets())?;
        let any = draw.below(m1) as usize;
        for place in [0, 1, any, any ^ 1, m1 as usize - 2, m1 as usize - 1] {
            let right = channel.map.octets()[place];
            for value in [0, 1, 2, 3, 4, 127, 128, right | 0x80, 254, 255] {
                if value != right {
                    spoil(pair, &channel, place, value)?;
                }
            }
        }
    }
    // Of a full table, where the map is worked out in many steps.
    for m1 in M1S {
        let now = near::now(&mut draw);
        let channel = near::table_of(&mut draw, m1, now, 2_048, 2_047);
        expect_right(pair, &channel, channel.map.octets())?;
        for _ in 0..4 {
            let place = draw.below(m1) as usize;
            let value = (channel.map.octets()[place] + 1 + draw.below(2) as u8) % 3;
            spoil(pair, &channel, place, value)?;
        }
    }
    let [free, reusable, taken, other] = spoilt;
    if spoilt.iter().any(|&times| times < 500) {
        return Err(format!("too few of some value: {spoilt:?}"));
    }
    Ok(format!(
        "one octet wrong, by ten calls: 0 × {free}, 1 × {reusable}, 2 × {taken}, 3 to 255 × {other}"
    ))
}

/// Maps of other sizes, with the right octets as far as they go, at every call
/// and at an opening, which doesn't mind what the octets are.
pub fn sizes(pair: &mut Pair) -> Verdict {
    let mut draw = Draw::from_seed(1202);
    let (mut tried, mut opened) = (0, 0);
    for m1 in (60..=15_360).step_by(60) {
        let right = m1 as usize;
        let channel = table(&mut draw, m1, 3);
        let map = channel.map.octets().to_vec();
        let sizes = [
            0,
            1,
            59,
            60,
            right - 60,
            right - 1,
            right,
            right + 1,
            right + 60,
        ];
        for size in sizes.into_iter().chain([2 * right, 4_500, 15_360, 15_420]) {
            let mut lent = map.clone();
            lent.resize(size, 0);
            if size == right {
                expect_right(pair, &channel, &lent)?;
            } else {
                expect_wrong(pair, &format!("{size} octets"), &channel, &lent)?;
            }
            let octets: Vec<u8> = (0..size).map(|_| draw.octet()).collect();
            let mut unopened = Channel::lending(&[0xA5; 2 * RECORD], &octets, State::default());
            let expected = if size == right { Ok(0) } else { Err(25) };
            expect("open", expected, pair.open(&mut unopened, m1)?)?;
            if size == right {
                expect_map("open", &unopened, &[(0, right)])?;
                opened += 1;
            }
            tried += 1;
        }
    }
    Ok(format!(
        "{tried} sizes at every M1 by ten calls and by open, which opened {opened}"
    ))
}

/// A call that leaves another table, mostly.
fn some_call(pair: &mut Pair, draw: &mut Draw, channel: &mut Channel) -> Result<Call, String> {
    let State { m1, now, .. } = channel.state;
    Ok(match draw.below(4) {
        0 => {
            let ahead = draw.one_of(&[1, 1, 2, 9, m1 - 1, m1, m1 + 1, 2 * m1]);
            let _ = pair.clock(channel, (now + ahead).min(LATEST))?;
            Call::Clock
        }
        1 => {
            let _ = pair.reserve(channel, &near::reservation(draw))?;
            Call::Reserve
        }
        2 => {
            let _ = pair.distance(channel, &near::measure(draw))?;
            Call::Distance
        }
        _ => {
            let _ = pair.wipe(channel, near::station(draw))?;
            Call::Wipe
        }
    })
}

/// Maps that were right once: that of an older now, of the table before the last
/// call, of what comes next, and of another channel.
pub fn stale(pair: &mut Pair) -> Verdict {
    let mut draw = Draw::from_seed(1203);
    let mut wrong = [0_u64; Call::ALL.len()];
    let (mut older, mut swapped, mut still) = (0, 0, 0);
    for round in 0..8_000 {
        let m1 = draw.one_of(if round % 8 == 0 { &M1S } else { &M1S[..3] });
        let before = table(&mut draw, m1, 6);
        let mut after = before.clone();
        let call = some_call(pair, &mut draw, &mut after)?;
        let same = before.map.octets() == after.map.octets();
        // The map before beside the table after, and the other way round.
        for (channel, map) in [(&after, &before.map), (&before, &after.map)] {
            let given = is_right(pair, &beside(channel, map.octets()))?;
            expect(&format!("the map of another time, {call:?}"), same, given)?;
        }
        wrong[call as usize] += u64::from(!same);
        still += u64::from(same);
        // The same table seen from another now.
        let mut earlier = before.clone();
        earlier.state.now = earlier.state.now.saturating_sub(1 + draw.below(m1));
        earlier.remap();
        if Table::held(earlier.memory.octets(), earlier.state).is_ok() {
            let same = earlier.map.octets() == before.map.octets();
            let given = is_right(pair, &beside(&before, earlier.map.octets()))?;
            expect("the map of an older now", same, given)?;
            older += u64::from(!same);
        }
        // That of another channel, of the same M1 or not.
        let other_m1 = if once_in(&mut draw, 4) {
            m1 % 180 + 60
        } else {
            m1
        };
        let other = table(&mut draw, other_m1, 6);
        let same = other.map.octets() == before.map.octets();
        for (channel, map) in [(&before, &other.map), (&other, &before.map)] {
            let given = is_right(pair, &beside(channel, map.octets()))?;
            expect("the map of another channel", same, given)?;
        }
        swapped += u64::from(!same);
    }
    let calls = [Call::Clock, Call::Reserve, Call::Distance, Call::Wipe];
    let [clock, reserve, distance, wipe] = calls.map(|call| wrong[call as usize]);
    let told = format!(
        "of the table before or after a clock × {clock}, a reserve × {reserve}, a distance × \
         {distance}, a wipe × {wipe}; of an older now × {older}, of another channel × {swapped}; \
         {still} of another time were the same"
    );
    if [clock, reserve, distance, wipe, older, swapped, still]
        .iter()
        .any(|&times| times < 100)
    {
        return Err(format!("too little of something: {told}"));
    }
    Ok(told)
}

/// Clocks by as many slots as the map moves, leaves nothing of the old one, or
/// leaps, to the latest slot. What the maps before and after share is the same.
pub fn clocks(pair: &mut Pair) -> Verdict {
    let mut draw = Draw::from_seed(1204);
    let (mut shared, mut apart, mut past, mut refused) = (0, 0, 0, 0);
    for round in 0..1_200 {
        let m1 = draw.one_of(if round % 6 == 0 { &M1S } else { &M1S[..3] });
        let now = match draw.below(4) {
            0 => LATEST - draw.below(3 * m1),
            1 => LATEST - draw.one_of(&[0, 1, m1 - 1, m1, m1 + 1, 2 * m1]),
            _ => draw.below(LATEST),
        };
        let count = draw.one_of(&[0, 1, 2, 5, 30]);
        let channel = near::table_of(&mut draw, m1, now, 30, count);
        let any = draw.below(4 * m1);
        let ahead = [0, 1, 2, m1 / 2, m1 - 1, m1, m1 + 1, 2 * m1 - 1, 2 * m1];
        let ahead = ahead.into_iter().chain([2 * m1 + 1, 5 * m1, any]);
        for slot in ahead.map(|ahead| now + ahead).chain([LATEST]) {
            let mut clocked = channel.clone();
            let answer = pair.clock(&mut clocked, slot)?;
            if slot > LATEST {
                expect("a clock past the end", Err(13), answer)?;
                refused += 1;
                continue;
            }
            let answer = answer.map_err(|refusal| format!("clock refused {refusal}"))?;
            expect("count", count - answer, clocked.state.count)?;
            let (old, new) = (channel.map.octets(), clocked.map.octets());
            let moved = (slot - now) as usize;
            if moved < old.len() {
                same_octets("map", &old[moved..], &new[..old.len() - moved])?;
                shared += 1;
            } else {
                apart += 1;
            }
            past += u64::from(slot + m1 - 1 > LATEST && new.iter().any(|&slot| slot != 0));
        }
    }
    let told = format!(
        "{shared} by less than the map, the same slots in both; {apart} by more; {past} left held \
         slots in a map past 1000000000; {refused} refused 13"
    );
    if [shared, apart, past, refused]
        .iter()
        .any(|&times| times < 500)
    {
        return Err(format!("too little of something: {told}"));
    }
    Ok(told)
}

/// The starts in the order of a list, as the octets of a map have them.
fn read_off(map: &[u8], now: u32, wish: &Wish) -> Vec<u8> {
    let blocks = map[(wish.lo - now) as usize..(wish.hi - now + wish.length) as usize]
        .windows(wish.length as usize)
        .zip(wish.lo..);
    let of_level = |level: u8| {
        let highest = move |&(block, _): &(&[u8], u32)| block.iter().max() == Some(&level);
        blocks.clone().filter(highest).map(|(_, start)| start)
    };
    of_level(0)
        .chain(of_level(1))
        .take(wish.wanted as usize)
        .flat_map(u32::to_le_bytes)
        .collect()
}

/// Searches that lie in the map, reach past its end or lie behind it. One that
/// lies in it gives what can be read off the map.
pub fn searches(pair: &mut Pair) -> Verdict {
    let mut draw = Draw::from_seed(1205);
    let mut seen = [0_u64; 5];
    for round in 0..4_000 {
        let m1 = draw.one_of(if round % 8 == 0 { &M1S } else { &M1S[..3] });
        let mut channel = table(&mut draw, m1, 12);
        let now = channel.state.now;
        let last = now + m1 - 1;
        let length = draw.one_of(&[1, 2, 3, 16, 31, LONGEST]);
        let starts = draw.one_of(&[1, 2, 16, 40, m1 + 1 - length, m1]);
        // Where the last block ends, from the map's last slot on: just there, a
        // slot or so before or after it, a whole block later, or anywhere.
        let exact = draw.one_of(&[-2, -1, 0, 0, 1, 1, 2]);
        let any = draw.below(3 * m1) as i64 - i64::from(m1);
        let over = match draw.below(8) {
            0 => i64::from(length),
            // The first start is the map's last slot, or the first behind it.
            1 => i64::from(starts + length - 2),
            2 => i64::from(starts + length - 1),
            3..=4 => any,
            _ => exact,
        };
        let hi = i64::from(last) + over - i64::from(length) + 1;
        let hi = hi.clamp(now.into(), LATEST.into()) as u32;
        let wish = Wish {
            lo: hi.saturating_sub(starts - 1).max(now),
            hi,
            length,
            wanted: 1 + draw.below(MOST),
        };
        let mut list = Lent::holding(&[0xA5; 4 * MOST as usize]);
        let answer = pair.search(&mut channel, &wish, &mut list)?;
        if !matches!(answer, Ok(_) | Err(21)) {
            return Err(format!("{wish:?} at {:?}: {answer:?}", channel.state));
        }
        let end = hi + length - 1;
        if end <= last {
            let mut listed = read_off(channel.map.octets(), now, &wish);
            expect("found", answer.unwrap_or(0) as usize, listed.len() / 4)?;
            listed.resize(list.octets().len(), 0);
            same_octets("list", &listed, list.octets())?;
        }
        let kinds = [end < last, end == last, end == last + 1];
        let kinds = kinds
            .into_iter()
            .chain([wish.lo <= last && end > last, wish.lo > last]);
        for (times, is) in seen.iter_mut().zip(kinds) {
            *times += u64::from(is);
        }
    }
    let [inside, at_end, past_end, across, behind] = seen;
    let told = format!(
        "{inside} in the map, {at_end} up to its last slot, as it reads; {past_end} to the slot \
         after it, {across} reach past it in all; {behind} wholly behind it"
    );
    if seen.iter().any(|&times| times < 200) {
        return Err(format!("too little of something: {told}"));
    }
    Ok(told)
}

/// Distance and wipe of stations with no record, one, some and all of a table's,
/// and of what is no address.
pub fn stations(pair: &mut Pair) -> Verdict {
    let mut draw = Draw::from_seed(1206);
    let (mut held, mut no_address) = ([0_u64; 4], 0);
    for round in 0..3_000 {
        let m1 = draw.one_of(if round % 8 == 0 { &M1S } else { &M1S[..3] });
        let count = 1 + draw.below(8);
        let now = near::now(&mut draw);
        let channel = near::table_of(&mut draw, m1, now, count, count);
        let mut records: Vec<Record> = (channel.memory.octets().chunks(RECORD))
            .map(Record::of_octets)
            .collect();
        let a = draw.below(STATIONS);
        let share = draw.below(4) as usize;
        for (place, record) in records.iter_mut().enumerate() {
            let is_a = match share {
                0 => false,
                1 => place as u32 == round % count,
                2 => once_in(&mut draw, 2),
                _ => true,
            };
            record.station = if is_a { a } else { a ^ (1 << draw.below(27)) };
        }
        let octets: Vec<u8> = records.iter().flat_map(Record::octets).collect();
        let channel = Channel::holding(&octets, channel.state);
        let of_a = records.iter().filter(|record| record.station == a).count() as u32;
        held[match of_a {
            0 => 0,
            all if all == count => 3,
            1 => 1,
            _ => 2,
        }] += 1;
        let told = |station, distance: Distance| Measure {
            station,
            distance,
            limit: 150.0,
        };
        for (distance, left) in [(UNKNOWN, 2), (FAR, 1)] {
            let mut changed = channel.clone();
            let answer = pair.distance(&mut changed, &told(a, distance))?;
            expect("distance", Ok(of_a), answer)?;
            // Where all are A's, a slot is free or as A is now.
            let map = changed.map.octets();
            if of_a == count && map.iter().any(|&slot| slot != 0 && slot != left) {
                return Err("all records told the same, but slots differ".to_string());
            }
            // The same again changes nothing.
            let again = &mut changed.clone();
            expect("again", Ok(of_a), pair.distance(again, &told(a, distance))?)?;
            same_octets("map", map, again.map.octets())?;
        }
        let mut wiped = channel.clone();
        expect("wipe", Ok(of_a), pair.wipe(&mut wiped, a)?)?;
        if of_a == count {
            expect_map("all wiped", &wiped, &[(0, m1 as usize)])?;
        }
        if of_a == 0 {
            same_octets("map", channel.map.octets(), wiped.map.octets())?;
        }
        for station in [STATIONS, STATIONS + a, a | 1 << 31, u32::MAX] {
            let mut copy = channel.clone();
            expect("wipe", Err(8), pair.wipe(&mut copy, station)?)?;
            let told = told(station, FAR);
            expect("distance", Err(8), pair.distance(&mut copy, &told)?)?;
            same_octets("map", channel.map.octets(), copy.map.octets())?;
            no_address += 1;
        }
    }
    let [none, one, some, all] = held;
    let told = format!(
        "of no record × {none}, of one × {one}, of some × {some}, of all × {all}; {no_address} \
         stations no address, the map untouched"
    );
    if held.iter().any(|&times| times < 200) {
        return Err(format!("too little of something: {told}"));
    }
    Ok(told)
}

/// Fails where a map was refused since a count, though each call got what the
/// last one left from an opening on.
pub fn never_wrong(pair: &Pair, since: &Counts) -> Result<(), String> {
    match pair.counts.since(since).of_all(25) {
        0 => Ok(()),
        times => Err(format!("{times} maps refused after an opening")),
    }
}
