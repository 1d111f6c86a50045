//! Demand 3: after a final wipe of station A the table and its map are those of
//! the same sequence without A's calls, and the others got the same answers.

use super::maps::never_wrong;
use super::near::{self, once_in};
use super::pair::{Channel, Pair};
use crate::archive::Lent;
use crate::draw::Draw;
use crate::logs;
use crate::paper::search::Wish;
use crate::paper::table::{Measure, Reservation, State, RECORD};
use crate::paper::{Answer, LATEST, STATIONS};
use crate::report::Verdict;

#[derive(Clone)]
enum Step {
    Clock(u32),
    Reserve(Reservation),
    Distance(Measure),
    Wipe(u32),
    SlotState(u32),
    Search(Wish),
    RecordAt(u32),
    /// The step of a log record.
    Log(Vec<u8>),
}

impl Step {
    fn station(&self) -> Option<u32> {
        match self {
            Step::Reserve(asked) => Some(asked.station),
            Step::Distance(told) => Some(told.station),
            Step::Wipe(station) => Some(*station),
            Step::Clock(_) | Step::SlotState(_) | Step::Search(_) | Step::RecordAt(_) => None,
            Step::Log(entry) => logs::station(entry),
        }
    }

    fn is_reserve(&self) -> bool {
        match self {
            Step::Log(entry) => entry[0] == 2,
            step => matches!(step, Step::Reserve(_)),
        }
    }
}

/// What a sequence led to.
struct End {
    channel: Channel,
    /// To the calls naming a station other than A.
    answers: Vec<Answer>,
    /// Whether a reserve of another station was refused 17.
    others_lacked_room: bool,
    /// Accepted reserves of A.
    held: u32,
}

impl End {
    fn same_as(&self, other: &End) -> bool {
        self.channel.memory.octets() == other.channel.memory.octets()
            && self.channel.map.octets() == other.channel.map.octets()
            && self.channel.state == other.channel.state
            && self.answers == other.answers
    }
}

/// Opens a channel and takes the steps.
fn play(
    pair: &mut Pair,
    capacity: usize,
    m1: u32,
    steps: impl Iterator<Item = Step>,
    a: u32,
) -> Result<End, String> {
    let mut channel = Channel::unopened(&vec![0xEE; capacity * RECORD], m1);
    let before = pair.counts.clone();
    if pair.open(&mut channel, m1)? != Ok(0) {
        return Err("open refused".to_string());
    }
    let mut end = End {
        channel,
        answers: Vec::new(),
        others_lacked_room: false,
        held: 0,
    };
    for step in steps {
        let channel = &mut end.channel;
        let answer = match &step {
            Step::Clock(slot) => pair.clock(channel, *slot)?,
            Step::Reserve(asked) => pair.reserve(channel, asked)?,
            Step::Distance(told) => pair.distance(channel, told)?,
            Step::Wipe(station) => pair.wipe(channel, *station)?,
            Step::SlotState(slot) => pair.slot_state(channel, *slot)?,
            Step::Search(wish) => pair.search(channel, wish, &mut Lent::holding(&[0xA5; 64]))?,
            Step::RecordAt(i) => pair.record_at(channel, *i)?.map(|_| 0),
            Step::Log(entry) => pair.step(channel, entry)?,
        };
        let of_a = step.station() == Some(a);
        if step.station().is_some() && !of_a {
            end.answers.push(answer);
            end.others_lacked_room |= answer == Err(17);
        }
        end.held += u32::from(of_a && answer == Ok(0) && step.is_reserve());
    }
    never_wrong(pair, &before)?;
    Ok(end)
}

/// The sequence with A's calls and a final wipe, and the one without.
fn both(
    pair: &mut Pair,
    capacity: usize,
    m1: u32,
    steps: &[Step],
    a: u32,
) -> Result<(End, End), String> {
    let wipe = match steps.first() {
        Some(Step::Log(_)) => Step::Log(logs::wipe(a).octets()),
        _ => Step::Wipe(a),
    };
    let with = steps.iter().cloned().chain([wipe]);
    let without = steps
        .iter()
        .filter(|step| step.station() != Some(a))
        .cloned();
    Ok((
        play(pair, capacity, m1, with, a)?,
        play(pair, capacity, m1, without, a)?,
    ))
}

/// Calls of a few stations, A among them; some are refused.
fn sequence(draw: &mut Draw, a: u32, m1: u32) -> Vec<Step> {
    let mut now = 0;
    let mut steps = Vec::new();
    let mut last = near::reservation(draw);
    for _ in 0..20 + draw.below(40) {
        let station = if once_in(draw, 3) {
            a
        } else {
            near::station(draw)
        };
        let state = State { m1, now, count: 0 };
        steps.push(match draw.below(18) {
            0..=8 => {
                let mut asked = near::reservation(draw);
                if once_in(draw, 4) {
                    asked = last;
                }
                asked.station = station;
                last = asked;
                if once_in(draw, 12) {
                    near::spoil_reservation(draw, &mut asked, state);
                }
                Step::Reserve(asked)
            }
            9..=10 => {
                let mut told = near::measure(draw);
                told.station = station;
                if once_in(draw, 12) {
                    near::spoil_measure(draw, &mut told, state);
                }
                Step::Distance(told)
            }
            11 => Step::Wipe(station),
            12 => Step::SlotState(now + draw.below(300)),
            13 => {
                let lo = now + draw.below(9);
                Step::Search(Wish {
                    lo,
                    hi: lo + draw.below(40),
                    length: 1 + draw.below(9),
                    wanted: 1 + draw.below(16),
                })
            }
            14 => Step::RecordAt(draw.below(9)),
            _ => {
                let slot = match draw.below(8) {
                    0 => near::number(draw, state),
                    1 => now + draw.below(3 * m1),
                    _ => now + draw.below(9),
                };
                // The sequence keeps the clock that an accepted call sets.
                if slot >= now && slot <= LATEST {
                    now = slot;
                }
                Step::Clock(slot)
            }
        });
    }
    steps
}

/// Sequences as they are made for A and M1.
fn compare(
    pair: &mut Pair,
    draw: &mut Draw,
    rounds: usize,
    made: impl Fn(&mut Draw, u32, u32) -> Vec<Step>,
) -> Verdict {
    let (mut within, mut without, mut outside, mut held) = (0, 0, 0, 0_u64);
    for _ in 0..rounds {
        let a = match draw.below(8) {
            0 => draw.one_of(&[STATIONS, STATIONS + 1, u32::MAX]),
            _ => near::station(draw),
        };
        let m1 = near::m1(draw);
        let capacity = draw.one_of(&[2, 8, 40, 40, 64]);
        let steps = made(draw, a, m1);
        let (with_a, without_a) = both(pair, capacity, m1, &steps, a)?;
        if with_a.others_lacked_room {
            outside += 1;
            continue;
        }
        if !with_a.same_as(&without_a) {
            return Err(format!(
                "station {a}, M1 {m1}, {capacity} records, {} calls: the wipe leaves {:?} and \
                 other octets or answers than {:?}",
                steps.len(),
                with_a.channel.state,
                without_a.channel.state
            ));
        }
        held += u64::from(with_a.held);
        within += 1;
        without += usize::from(a >= STATIONS);
    }
    if within < 2_000 || without < 200 || outside < 200 || held < 2_000 {
        return Err(format!(
            "too few: {within} within, {without} with A no address, {outside} outside, {held} held"
        ));
    }
    Ok(format!(
        "{within} sequences, {held} accepted reserves of A, {without} with A no address: same; \
         {outside} more in which another station lacked room"
    ))
}

pub fn check(pair: &mut Pair) -> Verdict {
    compare(pair, &mut Draw::from_seed(701), 10_000, sequence)
}

/// The same calls as log records, but those that no log has; some are damaged.
fn logged(draw: &mut Draw, a: u32, m1: u32) -> Vec<Step> {
    let mut log = Vec::new();
    for step in sequence(draw, a, m1) {
        let (miles, limit) = logs::whole_miles(draw);
        let entry = match step {
            Step::Clock(slot) => logs::clock(slot),
            Step::Reserve(asked) => logs::reserve_as(&asked, miles, limit),
            Step::Distance(told) => logs::distance(told.station, miles, limit),
            Step::Wipe(station) => logs::wipe(station),
            _ => continue,
        };
        log.push(Step::Log(match draw.below(12) {
            0 => logs::damaged(draw, &entry),
            _ => entry.octets(),
        }));
    }
    log
}

pub fn over_logs(pair: &mut Pair) -> Verdict {
    compare(pair, &mut Draw::from_seed(703), 6_000, logged)
}

/// Where another station lacked room the two can differ: by hand, and at
/// random.
pub fn premise(pair: &mut Pair) -> Verdict {
    let mut draw = Draw::from_seed(702);
    let reserve = |station, draw: &mut Draw| {
        Step::Reserve(Reservation {
            station,
            ..near::reservation(draw)
        })
    };
    let steps = [reserve(1, &mut draw), reserve(2, &mut draw)];
    let (with, without) = both(pair, 1, 4500, &steps, 1)?;
    let counts = (with.channel.state.count, without.channel.state.count);
    if !with.others_lacked_room || with.same_as(&without) || counts != (0, 1) {
        return Err(format!("one place, two stations: {counts:?} records"));
    }
    let mut differ = 0;
    for _ in 0..500 {
        let (m1, a) = (near::m1(&mut draw), near::station(&mut draw));
        let steps = sequence(&mut draw, a, m1);
        let (with, without) = both(pair, 2, m1, &steps, a)?;
        differ += usize::from(!with.same_as(&without));
    }
    if differ < 100 {
        return Err(format!("only {differ} of 500 sequences differ"));
    }
    Ok(format!(
        "one place, two stations: 0 records against 1; {differ} of 500 sequences with two places differ"
    ))
}
