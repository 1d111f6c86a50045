//! A recorded day: the records of a log, the step that applies one to a table,
//! and what replay and moment write of a log.

use super::distance::{Distance, UNKNOWN};
use super::map::{self, After};
use super::table::{self, Measure, Record, Reservation, State, Table, MOST_RECORDS, RECORD};
use super::{Answer, Refusal};

/// Octets in a log record.
pub const ENTRY: usize = 24;

/// In the place of a distance that is unknown: all ones.
pub const UNKNOWN_MILES: u32 = u32::MAX;

/// Slots in a superframe of the table that replay and moment open ..
const REPLAYED_M1: u32 = 4_500;

/// .. and the octets of its memory.
const REPLAYED_OCTETS: usize = MOST_RECORDS * RECORD;

/// A log record, its fields as they stand and in their order.
#[derive(Clone, Copy, Debug, Default, PartialEq, Eq)]
pub struct Entry {
    pub operation: u8,
    pub rate: u8,
    pub superframes: u8,
    pub length: u8,
    pub station: u32,
    /// A clock's slot, a reserve's bs.
    pub slot: u32,
    /// In whole miles, as is the limit.
    pub distance: u32,
    pub limit: u32,
    /// A reserve's; an octet of 128 is -128.
    pub bo: i8,
    pub zeros: [u8; 3],
}

/// What a log record asks of a table.
enum Operation {
    Clock(u32),
    Reserve(Reservation),
    Distance(Measure),
    Wipe(u32),
}

impl Entry {
    /// None where they aren't as many octets as a record has.
    pub fn of_octets(octets: &[u8]) -> Option<Entry> {
        let number = |place: usize| {
            (place..place + 4)
                .rev()
                .fold(0, |number, place| number * 256 + u32::from(octets[place]))
        };
        (octets.len() == ENTRY).then(|| Entry {
            operation: octets[0],
            rate: octets[1],
            superframes: octets[2],
            length: octets[3],
            station: number(4),
            slot: number(8),
            distance: number(12),
            limit: number(16),
            bo: octets[20] as i8,
            zeros: [octets[21], octets[22], octets[23]],
        })
    }

    pub fn octets(&self) -> Vec<u8> {
        let mut octets = vec![self.operation, self.rate, self.superframes, self.length];
        for number in [self.station, self.slot, self.distance, self.limit] {
            octets.extend((0..4).map(|place| (number >> (8 * place)) as u8));
        }
        octets.push(self.bo as u8);
        octets.extend(self.zeros);
        octets
    }

    /// What it asks for. Once all that its operation uses is struck out,
    /// nothing but zeros may be left; otherwise it is no record of a log.
    fn asked(&self) -> Result<Operation, Refusal> {
        let distance = miles(self.distance);
        let limit = f64::from(self.limit);
        let (asked, left) = match self.operation {
            1 => (
                Operation::Clock(self.slot),
                Entry {
                    operation: 0,
                    slot: 0,
                    ..*self
                },
            ),
            2 => (
                Operation::Reserve(Reservation {
                    station: self.station,
                    rate: self.rate.into(),
                    superframes: self.superframes.into(),
                    bs: self.slot,
                    length: self.length.into(),
                    bo: self.bo.into(),
                    distance,
                    limit,
                }),
                Entry {
                    zeros: self.zeros,
                    ..Entry::default()
                },
            ),
            3 => (
                Operation::Distance(Measure {
                    station: self.station,
                    distance,
                    limit,
                }),
                Entry {
                    operation: 0,
                    station: 0,
                    distance: 0,
                    limit: 0,
                    ..*self
                },
            ),
            4 => (
                Operation::Wipe(self.station),
                Entry {
                    operation: 0,
                    station: 0,
                    ..*self
                },
            ),
            _ => return Err(23),
        };
        if left == Entry::default() {
            Ok(asked)
        } else {
            Err(23)
        }
    }
}

/// All ones are unknown, all else is a range.
fn miles(distance: u32) -> Distance {
    match distance {
        UNKNOWN_MILES => UNKNOWN,
        miles => Distance {
            kind: 1,
            a: miles.into(),
            b: 0.0,
        },
    }
}

/// What octets of any number ask for; 23 where they are no record of a log.
fn read(entry: &[u8]) -> Result<Operation, Refusal> {
    Entry::of_octets(entry).ok_or(23_u32)?.asked()
}

fn apply(table: &mut Table, asked: Operation) -> Answer {
    match asked {
        Operation::Clock(slot) => table.clock(slot),
        Operation::Reserve(asked) => table.reserve(&asked),
        Operation::Distance(told) => table.distance(&told),
        Operation::Wipe(station) => table.wipe(station),
    }
}

/// A log record on a table: 23 before the refusals of its operation's call.
pub fn step(memory: &[u8], map: &[u8], state: State, entry: &[u8]) -> After {
    match read(entry) {
        Ok(asked) => map::change(memory, map, state, |table| apply(table, asked)),
        Err(refusal) => map::refused(refusal, memory, map, state),
    }
}

/// What replay and moment begin with, and the map that goes with it.
pub fn begin() -> After {
    let map = [0; REPLAYED_M1 as usize];
    map::open(&[0; REPLAYED_OCTETS], &map, REPLAYED_M1)
}

/// A log as it is replayed. Its table is kept as records and not as octets: it
/// is sound when opened, and the calls leave it so, which spares a test of
/// every octet at each of a million steps. Nor is a map kept: no line shows it.
pub struct Day {
    pub table: Table,
}

impl Default for Day {
    fn default() -> Day {
        let table = table::open(REPLAYED_OCTETS, REPLAYED_M1);
        Day {
            table: table.expect("both figures are right"),
        }
    }
}

impl Day {
    pub fn step(&mut self, entry: &[u8]) -> Answer {
        apply(&mut self.table, read(entry)?)
    }
}

/// The line of a replay at a place, which counts from 1.
fn line(place: usize, answer: Answer) -> String {
    match answer {
        Ok(number) => format!("{place} ok {number}\n"),
        Err(refusal) => format!("{place} refused {refusal}\n"),
    }
}

/// All that replay writes of a log that ends after these octets.
pub fn replay(log: &[u8]) -> Vec<u8> {
    let mut day = Day::default();
    let mut text = Vec::new();
    for (place, entry) in (1..).zip(log.chunks(ENTRY)) {
        text.extend_from_slice(line(place, day.step(entry)).as_bytes());
    }
    text
}

/// All that moment writes of it.
pub fn moment(log: &[u8]) -> Vec<u8> {
    let mut day = Day::default();
    for entry in log.chunks(ENTRY) {
        // Its answer is replay's to tell.
        let _ = day.step(entry);
    }
    shown(&day.table).into_bytes()
}

/// The state, then record by record, in numbers alone.
pub fn shown(table: &Table) -> String {
    let State { m1, now, count } = table.state();
    let mut text = format!("{m1} {now} {count}\n");
    for record in &table.records {
        let &Record {
            station,
            first,
            rate,
            superframes,
            length,
            far,
            bo,
            ..
        } = record;
        text += &format!("{station} {first} {rate} {superframes} {length} {far} {bo}\n");
    }
    text
}
