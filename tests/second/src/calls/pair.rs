//! The archive and the paper asked the same. Every call is compared in the
//! number returned, each octet lent and the state formed from the answer, and
//! is counted by its answer.

use std::fmt::Debug;

use crate::archive::{self, Lent, LentTally};
use crate::gemthatch::Block;
use crate::paper::codec::{self, Destination, Fields, GROUP};
use crate::paper::log;
use crate::paper::map::{self, After};
use crate::paper::search::{self, Wish};
use crate::paper::slots;
use crate::paper::table::{Measure, Reservation, State, Table, RECORD};
use crate::paper::walk::{self, Handed};
use crate::paper::{over_c, Answer};
use crate::report::hex;

#[derive(Clone, Copy, Debug, PartialEq, Eq)]
pub enum Call {
    Read,
    Write,
    Rate,
    Parameter,
    Open,
    Clock,
    Reserve,
    Distance,
    Wipe,
    SlotState,
    Search,
    Pick,
    RecordAt,
    StepClock,
    StepReserve,
    StepDistance,
    StepWipe,
    StepOther,
}

impl Call {
    /// Each call, its name, and its refusals in the order of the paper. The
    /// step of a replay is a call of its own for each operation.
    pub const ALL: [(Call, &'static str, &'static [u32]); 18] = [
        (Call::Read, "read", &[1, 2, 3, 4, 5, 6]),
        (Call::Write, "write", &[8, 9, 3, 4, 5, 6, 34]),
        (Call::Rate, "rate", &[7, 3]),
        (Call::Parameter, "parameter", &[22, 10]),
        (Call::Open, "open", &[10, 1, 25]),
        (Call::Clock, "clock", &[11, 25, 12, 13]),
        (
            Call::Reserve,
            "reserve",
            &[11, 25, 8, 14, 15, 9, 5, 6, 24, 18, 16, 17],
        ),
        (Call::Distance, "distance", &[11, 25, 8, 18]),
        (Call::Wipe, "wipe", &[11, 25, 8]),
        (Call::SlotState, "slot state", &[11, 12, 13]),
        (Call::Search, "search", &[11, 25, 19, 9, 20, 1, 21]),
        (Call::Pick, "pick", &[20]),
        (Call::RecordAt, "record at", &[11]),
        (Call::StepClock, "step of a clock", &[23, 11, 25, 12, 13]),
        (
            Call::StepReserve,
            "step of a reserve",
            &[23, 11, 25, 8, 14, 15, 9, 5, 6, 24, 18, 16, 17],
        ),
        (
            Call::StepDistance,
            "step of a distance",
            &[23, 11, 25, 8, 18],
        ),
        (Call::StepWipe, "step of a wipe", &[23, 11, 25, 8]),
        (Call::StepOther, "step of no operation", &[23]),
    ];

    pub fn name(self) -> &'static str {
        Call::ALL[self as usize].1
    }

    pub fn order(self) -> &'static [u32] {
        Call::ALL[self as usize].2
    }

    /// Whether it accepts some input.
    pub fn accepts(self) -> bool {
        self != Call::StepOther
    }

    /// The step of a log record, by its operation, whatever else it holds.
    fn step_of(entry: &[u8]) -> Call {
        match entry.first() {
            Some(1) => Call::StepClock,
            Some(2) => Call::StepReserve,
            Some(3) => Call::StepDistance,
            Some(4) => Call::StepWipe,
            _ => Call::StepOther,
        }
    }
}

/// A channel as the host has it: lent memory and map, and the state beside
/// them.
#[derive(Clone)]
pub struct Channel {
    pub memory: Lent,
    pub map: Lent,
    pub state: State,
}

impl Channel {
    /// With the map that goes with them, where there is one.
    pub fn holding(octets: &[u8], state: State) -> Channel {
        let mut channel = Channel::lending(octets, &[], state);
        channel.remap();
        channel
    }

    pub fn lending(octets: &[u8], map: &[u8], state: State) -> Channel {
        Channel {
            memory: Lent::holding(octets),
            map: Lent::holding(map),
            state,
        }
    }

    /// As it is before an opening, full of what was there before, with a map
    /// for an M1, if there can be one.
    pub fn unopened(octets: &[u8], m1: u32) -> Channel {
        let map = vec![0xEE; m1.min(2 * LONGEST_M1) as usize];
        Channel::lending(octets, &map, State::default())
    }

    /// Works the map out afresh. A table that isn't sound has none; then it is
    /// of the right size, if there can be one.
    pub fn remap(&mut self) {
        let map = match Table::held(self.memory.octets(), self.state) {
            Ok(table) => map::fresh(&table),
            Err(_) => vec![0; self.state.m1.min(LONGEST_M1) as usize],
        };
        self.map = Lent::holding(&map);
    }
}

/// The longest superframe.
const LONGEST_M1: u32 = 15_360;

/// The answer of both, or what differs.
pub type Compared = Result<Answer, String>;

/// Refusals have numbers below it; place 0 is for what is accepted.
const ANSWERS: usize = 35;

/// How often each call gave each answer.
#[derive(Clone)]
pub struct Counts([[u64; ANSWERS]; Call::ALL.len()]);

impl Default for Counts {
    fn default() -> Counts {
        Counts([[0; ANSWERS]; Call::ALL.len()])
    }
}

impl Counts {
    fn add(&mut self, call: Call, answer: Answer) {
        self.0[call as usize][answer.err().unwrap_or(0) as usize] += 1;
    }

    /// Of a refusal, or of acceptance, which is 0.
    pub fn of(&self, call: Call, refusal: u32) -> u64 {
        self.0[call as usize][refusal as usize]
    }

    /// Of a refusal by all calls.
    pub fn of_all(&self, refusal: u32) -> u64 {
        self.0.iter().map(|answers| answers[refusal as usize]).sum()
    }

    pub fn calls(&self, call: Call) -> u64 {
        self.0[call as usize].iter().sum()
    }

    pub fn all(&self) -> u64 {
        self.0.iter().flatten().sum()
    }

    /// What was counted since then.
    pub fn since(&self, then: &Counts) -> Counts {
        let mut since = self.clone();
        for (now, then) in since.0.iter_mut().flatten().zip(then.0.iter().flatten()) {
            *now -= then;
        }
        since
    }
}

#[derive(Default)]
pub struct Pair {
    pub counts: Counts,
    /// The archive's own count of the same calls.
    pub tally: LentTally,
}

/// Octets in a message: all of a few, else their number and the first.
fn shown(octets: &[u8]) -> String {
    const FEW: usize = 20 * RECORD;
    let rows: Vec<String> = octets[..octets.len().min(FEW)]
        .chunks(RECORD)
        .map(hex)
        .collect();
    let rows = rows.join(" | ");
    match octets.len() {
        length @ 0..=FEW => format!("{length} octets [{rows}]"),
        length => format!("{length} octets [{rows} ...]"),
    }
}

/// A map in a message: its first runs.
fn runs(map: &[u8]) -> String {
    const MOST: usize = 60;
    let runs = map.chunk_by(|one, other| one == other);
    let first: Vec<String> = runs
        .take(MOST)
        .map(|run| format!("{}x{}", run[0], run.len()))
        .collect();
    format!("{} octets [{}]", map.len(), first.join(" "))
}

/// Tells the first place in which two rows of octets differ.
pub fn same_octets(what: &str, expected: &[u8], given: &[u8]) -> Result<(), String> {
    if expected == given {
        return Ok(());
    }
    match expected
        .iter()
        .zip(given)
        .position(|(want, got)| want != got)
    {
        None => Err(format!("{what} of another length")),
        Some(place) => Err(format!(
            "octet {place} of the {what}: expected {:02X}, given {:02X}",
            expected[place], given[place]
        )),
    }
}

fn same<T: PartialEq + Debug>(what: &str, expected: T, given: T) -> Result<(), String> {
    if expected == given {
        Ok(())
    } else {
        Err(format!("{what}: expected {expected:?}, given {given:?}"))
    }
}

/// The slot of a log record, or what there is of it.
fn slot_of(entry: &[u8]) -> u32 {
    let octets = entry.iter().skip(8).take(4).rev();
    octets.fold(0, |slot, &octet| slot << 8 | u32::from(octet))
}

/// The next state as a C host forms it from the number returned.
fn formed(state: State, given: u32, next: impl FnOnce(u32) -> State) -> State {
    if given >= over_c(Err(0)) {
        state
    } else {
        next(given)
    }
}

impl Pair {
    fn told<T>(
        &mut self,
        call: Call,
        answer: Answer,
        compared: Result<T, String>,
        input: impl Fn() -> String,
    ) -> Compared {
        self.counts.add(call, answer);
        archive::count(&mut self.tally, answer.err().unwrap_or(0));
        match compared {
            Ok(_) => Ok(answer),
            Err(difference) => Err(format!("{}, {}: {difference}", call.name(), input())),
        }
    }

    /// The fields both gave, or their refusal.
    pub fn read(&mut self, group: &[u8]) -> Result<Result<Fields, u32>, String> {
        let expected = codec::read(group);
        let compared = archive::read(group).and_then(|(refusal, block)| {
            same("refusal", expected.err().unwrap_or(0), refusal)?;
            let fields = expected.unwrap_or_default();
            same("fields", archive::block_of(&fields), block)
        });
        let answer = expected.map(|_| 0);
        let _ = self.told(Call::Read, answer, compared, || hex(group))?;
        Ok(expected)
    }

    /// The octets both gave, or their refusal.
    pub fn write(&mut self, fields: &Fields) -> Result<Result<[u8; GROUP], u32>, String> {
        self.write_block(archive::block_of(fields))
    }

    /// The same of fields as C has them, with anything in what isn't used.
    pub fn write_block(&mut self, block: Block) -> Result<Result<[u8; GROUP], u32>, String> {
        let expected = codec::write(&Fields {
            d: Destination::over_c(block.destination, block.d, block.information),
            blg: block.blg,
            roff: block.roff,
            br: block.br,
            bs: block.bs,
            bo: block.bo,
            bt: block.bt,
        });
        let (refusal, octets) = archive::write(block);
        let compared = same("refusal", expected.err().unwrap_or(0), refusal)
            .and_then(|()| same_octets("group", &expected.unwrap_or_default(), &octets));
        let answer = expected.map(|_| 0);
        let _ = self.told(Call::Write, answer, compared, || format!("{block:?}"))?;
        Ok(expected)
    }

    pub fn rate(&mut self, list: &[u8], code: u32) -> Compared {
        let expected = codec::rate(list, code);
        let compared =
            archive::rate(list, code).and_then(|given| same("number", over_c(expected), given));
        self.told(Call::Rate, expected, compared, || {
            format!("list {list:?}, code {code}")
        })
    }

    pub fn parameter(&mut self, number: u32, figure: u32) -> Compared {
        let expected = codec::parameter(number, figure);
        let given = archive::parameter(number, figure);
        let compared = same("number", over_c(expected), given);
        self.told(Call::Parameter, expected, compared, || {
            format!("number {number}, figure {figure}")
        })
    }

    /// Compares a call that may change the table. `next` is the state that the
    /// host forms from the number reported.
    fn changing(
        &mut self,
        call: Call,
        channel: &mut Channel,
        model: impl FnOnce(&[u8], &[u8], State) -> After,
        archive: impl FnOnce(&mut Lent, &mut Lent, State) -> Result<u32, String>,
        next: impl FnOnce(State, u32) -> State,
        input: impl Fn() -> String,
    ) -> Compared {
        let before = channel.memory.octets().to_vec();
        let map = channel.map.octets().to_vec();
        let state = channel.state;
        let expected = model(&before, &map, state);
        let compared = archive(&mut channel.memory, &mut channel.map, state).and_then(|given| {
            channel.state = formed(channel.state, given, |number| next(state, number));
            same("number", over_c(expected.answer), given)?;
            same_octets("memory", &expected.memory, channel.memory.octets())?;
            same_octets("map", &expected.map, channel.map.octets())?;
            same("state", expected.state, channel.state)
        });
        self.told(call, expected.answer, compared, || {
            let (memory, map) = (shown(&before), runs(&map));
            format!("{}, {state:?}, memory {memory}, map {map}", input())
        })
    }

    pub fn open(&mut self, channel: &mut Channel, m1: u32) -> Compared {
        // The host has no state before an opening.
        channel.state = State::default();
        self.changing(
            Call::Open,
            channel,
            |memory, map, _| map::open(memory, map, m1),
            |memory, map, _| archive::open(memory, map, m1),
            |state, _| State { m1, ..state },
            || format!("M1 {m1}"),
        )
    }

    pub fn clock(&mut self, channel: &mut Channel, slot: u32) -> Compared {
        self.changing(
            Call::Clock,
            channel,
            |memory, map, state| map::clock(memory, map, state, slot),
            |memory, map, state| archive::clock(memory, map, state, slot),
            |state, dropped| State {
                now: slot,
                count: state.count.wrapping_sub(dropped),
                ..state
            },
            || format!("to {slot}"),
        )
    }

    pub fn reserve(&mut self, channel: &mut Channel, asked: &Reservation) -> Compared {
        self.changing(
            Call::Reserve,
            channel,
            |memory, map, state| map::reserve(memory, map, state, asked),
            |memory, map, state| archive::reserve(memory, map, state, asked),
            |state, _| State {
                count: state.count.wrapping_add(1),
                ..state
            },
            || format!("{asked:?}"),
        )
    }

    pub fn distance(&mut self, channel: &mut Channel, told: &Measure) -> Compared {
        self.changing(
            Call::Distance,
            channel,
            |memory, map, state| map::distance(memory, map, state, told),
            |memory, map, state| archive::distance(memory, map, state, told),
            |state, _| state,
            || format!("{told:?}"),
        )
    }

    pub fn wipe(&mut self, channel: &mut Channel, station: u32) -> Compared {
        self.changing(
            Call::Wipe,
            channel,
            |memory, map, state| map::wipe(memory, map, state, station),
            |memory, map, state| archive::wipe(memory, map, state, station),
            |state, removed| State {
                count: state.count.wrapping_sub(removed),
                ..state
            },
            || format!("station {station}"),
        )
    }

    /// The answer alone doesn't form the next state: that takes the log
    /// record's operation, and of a clock the slot.
    pub fn step(&mut self, channel: &mut Channel, entry: &[u8]) -> Compared {
        let call = Call::step_of(entry);
        self.changing(
            call,
            channel,
            |memory, map, state| log::step(memory, map, state, entry),
            |memory, map, state| archive::replay_step(memory, map, state, entry),
            |state, number| match call {
                Call::StepClock => State {
                    now: slot_of(entry),
                    count: state.count.wrapping_sub(number),
                    ..state
                },
                Call::StepReserve => State {
                    count: state.count.wrapping_add(1),
                    ..state
                },
                Call::StepWipe => State {
                    count: state.count.wrapping_sub(number),
                    ..state
                },
                _ => state,
            },
            || format!("log record {}", hex(entry)),
        )
    }

    pub fn slot_state(&mut self, channel: &mut Channel, slot: u32) -> Compared {
        let state = channel.state;
        let expected = slots::state(channel.memory.octets(), state, slot);
        let compared = archive::slot_state(&mut channel.memory, state, slot)
            .and_then(|given| same("number", over_c(expected), given));
        self.told(Call::SlotState, expected, compared, || {
            let memory = shown(channel.memory.octets());
            format!("slot {slot}, {state:?}, memory {memory}")
        })
    }

    /// The list holds what it likes before; afterwards what both gave.
    pub fn search(&mut self, channel: &mut Channel, wish: &Wish, list: &mut Lent) -> Compared {
        let Channel { memory, map, state } = channel;
        let octets = list.octets().len();
        let (expected, entries) =
            search::search(memory.octets(), map.octets(), *state, wish, octets);
        let compared = archive::search(memory, map, *state, wish, list).and_then(|given| {
            same("number", over_c(expected), given)?;
            same_octets("list", &entries, list.octets())
        });
        self.told(Call::Search, expected, compared, || {
            let (memory, map) = (shown(memory.octets()), runs(map.octets()));
            format!("{wish:?}, a list of {octets} octets, {state:?}, memory {memory}, map {map}")
        })
    }

    pub fn pick(&mut self, n: u32, r: u32) -> Compared {
        let expected = search::pick(n, r);
        let compared = same("number", over_c(expected), archive::pick(n, r));
        self.told(Call::Pick, expected, compared, || format!("n {n}, r {r}"))
    }

    /// The record both handed out, none where there is no more, or their
    /// refusal.
    pub fn record_at(&mut self, channel: &mut Channel, i: u32) -> Result<Handed, String> {
        let state = channel.state;
        let expected = walk::record_at(channel.memory.octets(), state, i);
        let one = expected.ok().flatten();
        let compared = archive::record_at(&mut channel.memory, state, i).and_then(
            |(refusal, handed, record)| {
                same("refusal", expected.err().unwrap_or(0), refusal)?;
                same("handed", u32::from(one.is_some()), handed)?;
                same("record", one.unwrap_or_default(), record)
            },
        );
        let answer = expected.map(|_| 0);
        let _ = self.told(Call::RecordAt, answer, compared, || {
            let memory = shown(channel.memory.octets());
            format!("{i}, {state:?}, memory {memory}")
        })?;
        Ok(expected)
    }
}
