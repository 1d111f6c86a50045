//! Calls that earn several refusals get the first in the paper's order,
//! whatever our reading says. Each refusal spoils a place of its own, so that
//! any set of them can be put together, but for those named here.

use std::collections::BTreeSet;

use super::expect;
use super::pair::{Call, Channel, Pair};
use crate::archive::Lent;
use crate::draw::Draw;
use crate::groups;
use crate::logs;
use crate::paper::codec::{Destination, TABLE_1_33};
use crate::paper::distance::UNKNOWN;
use crate::paper::log::{Entry, ENTRY, UNKNOWN_MILES};
use crate::paper::search::Wish;
use crate::paper::table::{Measure, Record, Reservation, State, RECORD};
use crate::paper::{Answer, LATEST, STATIONS};
use crate::report::Verdict;

/// Tries of each set of refusals.
const ROUNDS: usize = 50;

/// The refusals that an input has to earn.
struct Earned(Vec<u32>);

impl Earned {
    fn has(&self, refusal: u32) -> bool {
        self.0.contains(&refusal)
    }

    fn has_any(&self, refusals: &[u32]) -> bool {
        refusals.iter().any(|&refusal| self.has(refusal))
    }
}

/// Pairs of refusals that no input earns together.
fn apart(call: Call) -> &'static [(u32, u32)] {
    match call {
        // Without a row there is no figure that doesn't fit it.
        Call::Parameter => &[(22, 10)],
        // Behind now and above the limit: such a now isn't sound.
        Call::Clock | Call::SlotState | Call::StepClock => &[(12, 13)],
        // No sound table holds what these five refuse.
        Call::Reserve | Call::StepReserve => &[(8, 16), (14, 16), (15, 16), (9, 16), (6, 16)],
        _ => &[],
    }
}

const STATE: State = State {
    m1: 60,
    now: 100,
    count: 1,
};

const HELD: Record = Record {
    station: 5,
    first: 102,
    rate: 1,
    superframes: 1,
    length: 1,
    far: 0,
    bo: 0,
    zeros: [0; 3],
};

/// Records and room for so many more; not sound if 11 is to be earned.
fn table(draw: &mut Draw, mut records: Vec<Record>, room: usize, earned: &Earned) -> Channel {
    if earned.has(11) {
        match draw.below(7) {
            0 => records[0].far = 2,
            1 => records[0].rate = 61,
            2 => records[0].superframes = 0,
            3 => records[0].length = 33,
            4 => records[0].bo = -128,
            5 => records[0].zeros[draw.below(3) as usize] = 1,
            _ => records[0].station = STATIONS,
        }
    }
    let mut octets: Vec<u8> = records.iter().flat_map(Record::octets).collect();
    octets.resize((records.len() + room) * RECORD, 0);
    let count = records.len() as u32;
    let mut channel = Channel::holding(&octets, State { count, ..STATE });
    if earned.has(25) {
        spoil_map(draw, &mut channel);
    }
    channel
}

/// One octet of it is another, or there is one too few or too many.
fn spoil_map(draw: &mut Draw, channel: &mut Channel) {
    let mut map = channel.map.octets().to_vec();
    match draw.below(4) {
        0 => map.push(0),
        1 => drop(map.pop()),
        _ => {
            let place = draw.below(map.len() as u32) as usize;
            map[place] ^= draw.one_of(&[1, 2, 3, 4, 128, 255]);
        }
    }
    channel.map = Lent::holding(&map);
}

/// A limit, refused if 18 is to be earned.
fn limit(draw: &mut Draw, earned: &Earned) -> f64 {
    if earned.has(18) {
        draw.one_of(&[f64::NAN, -1.0, 4096.5, f64::INFINITY])
    } else {
        150.0
    }
}

fn station(draw: &mut Draw, earned: &Earned) -> u32 {
    if earned.has(8) {
        draw.one_of(&[STATIONS, u32::MAX])
    } else {
        1
    }
}

/// A bo that earns 6 and 24 or not, with superframes and a bs that go with it.
/// What is outside the range is -128 once it is cut to an octet.
fn offset(draw: &mut Draw, earned: &Earned, asked: &mut Reservation) {
    asked.bo = match (earned.has(6), earned.has(24)) {
        (false, false) => draw.one_of(&[0, 1, 127]),
        (false, true) => draw.one_of(&[-127, -66]),
        (true, false) => draw.one_of(&[-128, 128, 128 + 256, i32::MAX - 127]),
        (true, true) => draw.one_of(&[-128, -128 - 256, i32::MIN + 128]),
    };
    if earned.has(24) {
        asked.superframes = asked.superframes.min(1);
    } else if earned.has(6) {
        asked.bs = if earned.has(5) { 256 } else { 200 };
    }
}

/// What a reserve asks for, and a table for it.
fn reserve(draw: &mut Draw, earned: &Earned) -> (Channel, Reservation) {
    let mut asked = Reservation {
        station: station(draw, earned),
        rate: 3,
        superframes: 2,
        bs: 5,
        length: 5,
        bo: 0,
        distance: UNKNOWN,
        limit: limit(draw, earned),
    };
    if earned.has(14) {
        asked.rate = draw.one_of(&[0, 61, u32::MAX]);
    }
    if earned.has(15) {
        asked.superframes = 0;
    }
    if earned.has(9) {
        asked.length = draw.one_of(&[0, 33, u32::MAX]);
        if !earned.has_any(&[15, 24]) && draw.below(2) == 0 {
            (asked.length, asked.superframes) = (5, draw.one_of(&[4, u32::MAX]));
        }
    }
    if earned.has(5) {
        asked.bs = draw.one_of(if earned.has(24) {
            &[0, 1]
        } else {
            &[0, 1, 256]
        });
    }
    offset(draw, earned, &mut asked);
    let mut records = vec![HELD];
    if earned.has(16) {
        records.push(Record {
            station: 1,
            first: STATE.now + asked.bs,
            rate: 3,
            superframes: asked.superframes as u8,
            length: 5,
            far: draw.below(2) as u8,
            bo: asked.bo as i8,
            zeros: [0; 3],
        });
    }
    let room = if earned.has(17) { 0 } else { 2 };
    (table(draw, records, room, earned), asked)
}

/// A slot for clock and slot state, and a table for it.
fn slot(draw: &mut Draw, earned: &Earned) -> (Channel, u32) {
    let mut channel = table(draw, vec![HELD], 1, earned);
    let slot = match (earned.has(12), earned.has(13)) {
        (true, true) => {
            channel.state.now = LATEST + 2;
            LATEST + 1
        }
        (true, false) => draw.one_of(&[0, 99]),
        (false, true) => draw.one_of(&[LATEST + 1, u32::MAX]),
        (false, false) => 101,
    };
    (channel, slot)
}

fn search(pair: &mut Pair, draw: &mut Draw, earned: &Earned) -> Result<Answer, String> {
    // Either one slot before the range is reserved, or all there are.
    let all = Record {
        rate: 60,
        superframes: 3,
        length: 32,
        ..HELD
    };
    let none = earned.has(21);
    let record = if none { all } else { HELD };
    let mut channel = table(draw, vec![record], 1, earned);
    let mut wish = Wish {
        lo: 110,
        hi: 115,
        length: 2,
        wanted: 3,
    };
    if earned.has(19) {
        // With 21 none of the range's starts may have a level.
        (wish.lo, wish.hi) = match draw.below(if none { 2 } else { 4 }) {
            0 => (116, 115),
            1 => (110, 170),
            2 => (99, 115),
            _ => (LATEST, LATEST + 1),
        };
    }
    if earned.has(9) {
        // No slots at all are all free, so with 21 it has to be too long.
        wish.length = draw.one_of(if none { &[33, 34] } else { &[0, 33, u32::MAX] });
    }
    if earned.has(20) {
        wish.wanted = draw.one_of(if earned.has(1) {
            &[17, u32::MAX]
        } else {
            &[0, 17]
        });
    }
    let entries = if earned.has(1) {
        (wish.wanted.min(17) - 1) as usize
    } else {
        17
    };
    let octets = 4 * entries + draw.below(4) as usize;
    let mut list = Lent::holding(&vec![0xEE; octets]);
    let answer = pair.search(&mut channel, &wish, &mut list)?;
    // Our reading holds the octets; that a refused list is wiped stands here.
    if answer.is_err() && list.octets().iter().any(|&octet| octet != 0) {
        return Err(format!("refused {answer:?}, list {:?}", list.octets()));
    }
    Ok(answer)
}

fn read(pair: &mut Pair, draw: &mut Draw, earned: &Earned) -> Result<Answer, String> {
    let mut group = groups::accepted(draw);
    for refusal in (2..=6).filter(|&refusal| earned.has(refusal)) {
        groups::spoil(&mut group, refusal, draw);
    }
    let mut group = group.to_vec();
    if earned.has(1) {
        group.push(draw.octet());
    }
    Ok(pair.read(&group)?.map(|_| 0))
}

fn write(pair: &mut Pair, draw: &mut Draw, earned: &Earned) -> Result<Answer, String> {
    let mut fields = groups::addressed(draw);
    if earned.has(9) {
        match draw.below(2) {
            0 => fields.blg = draw.one_of(&[32, u32::MAX]),
            _ => fields.bt = draw.one_of(&[4, u32::MAX]),
        }
    }
    if earned.has(3) {
        fields.br = draw.one_of(&[7, 14, 15, 16, u32::MAX]);
    }
    let outside = [0, 1, 256, u32::MAX];
    if earned.has(5) {
        fields.bs = draw.one_of(&outside);
    }
    if earned.has(4) {
        fields.roff = draw.one_of(&outside.map(|roff| roff ^ u32::from(roff == fields.bs)));
    }
    // An address is misplaced where roff equals bs, and octets where it doesn't.
    let equal = earned.has(4) == earned.has(5)
        && match earned.has(8) {
            true => earned.has(34),
            false => draw.below(2) == 0,
        };
    if equal {
        fields.roff = fields.bs;
    }
    fields.d = match equal == earned.has(34) {
        true if earned.has(8) => Destination::Address(draw.one_of(&[STATIONS, u32::MAX])),
        true => Destination::Address(draw.below(STATIONS)),
        false => Destination::NoRebroadcast(std::array::from_fn(|_| draw.octet())),
    };
    if earned.has(6) {
        fields.bo = draw.one_of(&[-128, 128, i32::MIN, i32::MAX]);
    }
    Ok(pair.write(&fields)?.map(|_| 0))
}

fn rate(pair: &mut Pair, draw: &mut Draw, earned: &Earned) -> Result<Answer, String> {
    let mut list = TABLE_1_33.to_vec();
    let mut code = 3;
    if earned.has(3) {
        code = draw.one_of(&[4, 7, 14, 15, 16, u32::MAX]);
        list[4] = 0;
    }
    if earned.has(7) {
        match draw.below(4) {
            0 => list[5] = 61,
            1 => list[7] = 1,
            2 => list.truncate(15),
            _ => list.push(0),
        }
    }
    pair.rate(&list, code)
}

fn parameter(pair: &mut Pair, draw: &mut Draw, earned: &Earned) -> Result<Answer, String> {
    let number = draw.one_of(if earned.has(22) { &[0, 4] } else { &[1, 2, 3] });
    let figure = if earned.has(10) { 0 } else { 120 };
    pair.parameter(number, figure)
}

fn open(pair: &mut Pair, draw: &mut Draw, earned: &Earned) -> Result<Answer, String> {
    let m1 = draw.one_of(if earned.has(10) {
        &[0, 59, 15_420]
    } else {
        &[60, 15_360]
    });
    let octets = draw.one_of(if earned.has(1) {
        &[0, 15, 32_784]
    } else {
        &[16, 32_768]
    });
    let mut channel = Channel::unopened(&vec![0xEE; octets], m1);
    if earned.has(25) {
        let octets = (m1 + draw.one_of(&[1, 60, 15_360])) as usize;
        channel.map = Lent::holding(&vec![0xEE; octets]);
    }
    pair.open(&mut channel, m1)
}

/// A log record with the limit that 18 asks for, and where 23 is to be earned
/// of another length or without one of its closing zeros. The first of four is
/// a reserve's bo.
fn step(
    pair: &mut Pair,
    draw: &mut Draw,
    earned: &Earned,
    mut channel: Channel,
    mut entry: Entry,
) -> Result<Answer, String> {
    if matches!(entry.operation, 2 | 3) {
        entry.limit = draw.one_of(if earned.has(18) {
            &[4_097, u32::MAX]
        } else {
            &[0, 150, 4_096]
        });
    }
    let mut octets = entry.octets();
    if earned.has(23) && (1..=4).contains(&entry.operation) {
        match draw.below(3) {
            0 => octets.truncate(1 + draw.below(ENTRY as u32 - 1) as usize),
            1 => octets.resize(ENTRY + 1 + draw.below(40) as usize, 0),
            _ => {
                let zeros = if entry.operation == 2 { 3 } else { 4 };
                let place = ENTRY - 1 - draw.below(zeros) as usize;
                octets[place] = 1 + draw.below(255) as u8;
            }
        }
    }
    pair.step(&mut channel, &octets)
}

fn step_clock(pair: &mut Pair, draw: &mut Draw, earned: &Earned) -> Result<Answer, String> {
    let (channel, slot) = slot(draw, earned);
    step(pair, draw, earned, channel, logs::clock(slot))
}

/// What is cut to an octet lies outside its range even so.
fn step_reserve(pair: &mut Pair, draw: &mut Draw, earned: &Earned) -> Result<Answer, String> {
    let (channel, asked) = reserve(draw, earned);
    let entry = logs::reserve_as(&asked, UNKNOWN_MILES, 0);
    step(pair, draw, earned, channel, entry)
}

/// A step that names a station; that of a number without an operation too.
fn step_station(
    pair: &mut Pair,
    draw: &mut Draw,
    earned: &Earned,
    operation: u8,
) -> Result<Answer, String> {
    let entry = Entry {
        operation,
        station: station(draw, earned),
        distance: if operation == 3 { UNKNOWN_MILES } else { 0 },
        ..Entry::default()
    };
    let channel = table(draw, vec![HELD], 1, earned);
    step(pair, draw, earned, channel, entry)
}

/// The call with an input that earns just these refusals.
fn earn(pair: &mut Pair, call: Call, draw: &mut Draw, earned: &Earned) -> Result<Answer, String> {
    match call {
        Call::Read => read(pair, draw, earned),
        Call::Write => write(pair, draw, earned),
        Call::Rate => rate(pair, draw, earned),
        Call::Parameter => parameter(pair, draw, earned),
        Call::Open => open(pair, draw, earned),
        Call::Clock => {
            let (mut channel, slot) = slot(draw, earned);
            pair.clock(&mut channel, slot)
        }
        Call::Reserve => {
            let (mut channel, asked) = reserve(draw, earned);
            pair.reserve(&mut channel, &asked)
        }
        Call::Distance => {
            let told = Measure {
                station: station(draw, earned),
                distance: UNKNOWN,
                limit: limit(draw, earned),
            };
            pair.distance(&mut table(draw, vec![HELD], 1, earned), &told)
        }
        Call::Wipe => {
            let station = station(draw, earned);
            pair.wipe(&mut table(draw, vec![HELD], 1, earned), station)
        }
        Call::SlotState => {
            let (mut channel, slot) = slot(draw, earned);
            pair.slot_state(&mut channel, slot)
        }
        Call::Search => search(pair, draw, earned),
        Call::Pick => pair.pick(
            if earned.has(20) {
                draw.one_of(&[0, 17])
            } else {
                3
            },
            7,
        ),
        Call::RecordAt => {
            let mut channel = table(draw, vec![HELD], 1, earned);
            Ok(pair.record_at(&mut channel, draw.below(3))?.map(|_| 0))
        }
        Call::StepClock => step_clock(pair, draw, earned),
        Call::StepReserve => step_reserve(pair, draw, earned),
        Call::StepDistance => step_station(pair, draw, earned, 3),
        Call::StepWipe => step_station(pair, draw, earned, 4),
        Call::StepOther => {
            let operation = draw.one_of(&[0, 5, 6, 128, 255]);
            step_station(pair, draw, earned, operation)
        }
    }
}

/// Whether some input earns them all.
fn together(call: Call, earned: &Earned) -> bool {
    let apart = apart(call)
        .iter()
        .any(|&(one, other)| earned.has(one) && earned.has(other));
    // Where the table isn't sound now can lie above the limit.
    let unsound_now = earned.has(11) && earned.has_any(&[12, 13]);
    // An address is misplaced where roff equals bs: both lie in their ranges or
    // neither does.
    let one_in_range = earned.has(4) != earned.has(5);
    let unequal = call == Call::Write && earned.has(8) && earned.has(34) && one_in_range;
    let none = earned.0.is_empty() && !call.accepts();
    (!apart || unsound_now) && !unequal && !none
}

/// All sets of a call's refusals, the empty one too.
fn check_call(pair: &mut Pair, call: Call, draw: &mut Draw) -> Result<(usize, usize), String> {
    let order = call.order();
    let mut sets = 0;
    let mut pairs = BTreeSet::new();
    for chosen in 0..1_u32 << order.len() {
        let places = (0..order.len()).filter(|place| chosen >> place & 1 == 1);
        let earned = Earned(places.map(|place| order[place]).collect());
        if !together(call, &earned) {
            continue;
        }
        sets += 1;
        for _ in 0..ROUNDS {
            let answer = earn(pair, call, draw, &earned)?;
            let what = format!("{}, refusals {:?} earned", call.name(), earned.0);
            expect(&what, earned.0.first().copied(), answer.err())?;
        }
        if let &[one, other] = &earned.0[..] {
            pairs.insert((one, other));
        }
    }
    let all = order.len() * (order.len() - 1) / 2;
    expect("pairs", all - apart(call).len(), pairs.len())?;
    Ok((sets, pairs.len()))
}

pub fn check(pair: &mut Pair) -> Verdict {
    let mut draw = Draw::from_seed(501);
    let mut told = Vec::new();
    for (call, name, _) in Call::ALL {
        let (sets, pairs) = check_call(pair, call, &mut draw)?;
        let apart: Vec<String> = apart(call)
            .iter()
            .map(|(one, other)| format!("{one}+{other}"))
            .collect();
        let apart = match apart.len() {
            0 => String::new(),
            _ => format!(", never {}", apart.join(" ")),
        };
        told.push(format!("{name} {sets} sets, {pairs} pairs{apart}"));
    }
    Ok(format!("the first is given: {}", told.join("; ")))
}
